/* The versions of a register, and what its claims have left: a line to a call. A register's line has 1 where it is sound; a grant's the
 * number of the refusal, 0 where it is accepted, the version and the count of claims behind it, what the last claim has left, and whether
 * all other claims are as they came; a withdrawal's what each claim has left, and what the place behind them has; a reading's the same, or
 * its line and whether nothing but the version is there.
 *
 * What is expected comes from 02, T-07: "In version 2 a claim with a parent has a smaller `left` than its parent, and this replaces the
 * fixed hop limit in soundness and in refusal 15"; "there `left` is 16 less the hop count, is ignored where given .. and not written";
 * "Refusals: 1 for a register of any other version, 2 when a version 2 grant has `left` above 16, 19 for any other version line"; and from
 * 01's orders of tests. The lines of a text are counted in the texts below: of the first claim `weight` is line 21, of the second line 29 in
 * version 1 and 30 in version 2. */
#include "calls.h"

static Claim leaving(uint32_t left, Claim c) {
    c.left = left;
    return c;
}

static Register of_version(uint64_t version, Register r) {
    r.version = version;
    return r;
}

/* The register whose claims have this left, in their order. */
static Register with_lefts(Register r, const uint32_t *lefts) {
    for (size_t i = 0; i < r.claims.count; i++) r.claims.list[i].left = lefts[i];
    return r;
}

/* The base as version 2: the chain on report 10 has 4, 3, 1 and 0 left, the root on 11 has 16. */
static Register two(void) {
    return with_lefts(of_version(2, base()), (const uint32_t[]){4, 3, 1, 0, 16});
}

/* The same with another left at one claim. */
static Register two_but(size_t at, uint32_t left) {
    Register r = two();
    r.claims.list[at].left = left;
    return r;
}

/* The tower as version 2: its root has `first` left, each claim one less than the claim before it, and none less than 0. */
static Register tower_two(uint32_t claims, uint32_t first) {
    Register r = of_version(2, tower(claims));
    for (uint32_t i = 0; i < claims; i++) r.claims.list[i].left = i < first ? first - i : 0;
    return r;
}

/* The base with a left that version 1 does not ask for. */
static Register littered(void) {
    return with_lefts(base(), (const uint32_t[]){0, 17, 17, UINT32_MAX, 7});
}

static void line(const char *label, Register r) {
    printf("%s=%u\n", label, (unsigned)guvrendik_sound(r).sound);
}

static void grant(const char *label, Register r, Claim c) {
    guvrendik_granted g = guvrendik_grant(r, c, 0);
    Register y = g.state;
    int kept = memcmp(y.claims.list, r.claims.list, r.claims.count * sizeof(Claim)) == 0;
    printf("%s: %u version=%u claims=%zu left=%u kept=%d\n", label, (unsigned)g.refusal, (unsigned)y.version, y.claims.count,
           (unsigned)y.claims.list[y.claims.count - 1].left, kept);
}

static void lefts(Register r) {
    printf(" version=%u left=", (unsigned)r.version);
    for (size_t i = 0; i < r.claims.count; i++) printf(" %u", (unsigned)r.claims.list[i].left);
    printf(" behind=%u\n", (unsigned)r.claims.list[r.claims.count].left);
}

static void withdrawn(const char *label, guvrendik_revoked y) {
    printf("%s: %u removed=%zu", label, (unsigned)y.refusal, y.removed);
    lefts(y.state);
}

/* Whether the register is all zeros but for its version. */
static int bare(Register r) {
    Register other;
    guvrendik_begin(&other, r.version);
    return memcmp(&r, &other, sizeof r) == 0;
}

static void soundness(void) {
    Register zeros, begun = base();
    memset(&zeros, 0, sizeof zeros);
    line("version 0 of all zeros", zeros);
    line("version 0", of_version(0, base()));
    line("version 3", of_version(3, base()));
    line("version 3 with lefts", of_version(3, two()));
    line("version 2^32 + 1 is not 1", of_version(UINT64_C(4294967297), base()));
    line("version 2^32 + 2 is not 2", of_version(UINT64_C(4294967298), two()));
    guvrendik_begin(&begun, GUVRENDIK_REGISTER_2);
    printf("begun with version 2: version=%u bare=%d\n", (unsigned)begun.version, bare(begun));
    line("sound empty of version 2", begun);
    line("sound base of version 2", two());
    line("sound any left in version 1", littered());
    line("(d) base as version 2 without lefts", of_version(2, base()));
    line("sound left 16 at a root", two_but(0, 16));
    line("left 17 at a root", two_but(0, 17));
    line("left 2^32 - 1 at a root", two_but(0, UINT32_MAX));
    line("sound left 0 at a root", two_but(4, 0));
    line("sound left one below the parent's", two_but(2, 2));
    line("(d) left of the parent", two_but(3, 1));
    line("(d) left above the parent's", two_but(3, 2));
    line("(d) left 0 under left 0", two_but(2, 0));
    line("sound 16 hops in version 2", tower_two(17, 16));
    line("(d) 17 hops in version 2", tower_two(18, 16));
    line("(d) 16 hops from a root of left 15", tower_two(17, 15));
}

static void grants_in_two(void) {
    Register r = two();
    grant("0 left one below the parent's", r, leaving(2, claim(6, 2, 2, 5, 1)));
    grant("0 left three below the parent's", r, leaving(0, claim(6, 2, 2, 5, 1)));
    grant("0 root of left 16", r, leaving(16, claim(6, 0, 1, 5, 1)));
    grant("0 root of left 0", r, leaving(0, claim(6, 0, 1, 5, 1)));
    grant("0 hop 16 in version 2", tower_two(16, 16), leaving(0, claim(17, 16, 17, 18, 17)));
    grant("1 version 0", of_version(0, r), leaving(2, claim(6, 2, 2, 5, 1)));
    grant("1 version 3", of_version(3, r), leaving(2, claim(6, 2, 2, 5, 1)));
    grant("1 of the version before 2 of the left", of_version(3, r), leaving(17, claim(6, 2, 2, 5, 1)));
    grant("2 left 17", r, leaving(17, claim(6, 2, 2, 5, 1)));
    grant("2 left 17 of a root", r, leaving(17, claim(6, 0, 1, 5, 1)));
    grant("2 left 2^32 - 1", r, leaving(UINT32_MAX, claim(6, 2, 2, 5, 1)));
    grant("2 of the left before 3", r, leaving(17, claim(6, 2, 9, 5, 1)));
    grant("13 before 15 of the left", r, leaving(1, weighing(600, claim(6, 3, 3, 5, 3))));
    grant("14 before 15 of the left", r, leaving(1, weighing(601, claim(6, 3, 3, 5, 1))));
    grant("15 left of the parent", r, leaving(3, claim(6, 2, 2, 5, 1)));
    grant("15 left above the parent's", r, leaving(16, claim(6, 2, 2, 5, 1)));
    grant("15 nothing left to pass on", tower_two(3, 2), leaving(0, claim(4, 3, 4, 5, 17)));
    grant("15 hop 17 in version 2", tower_two(17, 16), leaving(0, claim(18, 17, 18, 19, 17)));
    grant("15 of the left before 16", r, leaving(1, weighing(600, claim(6, 3, 3, 2, 1))));
    grant("16 with less left", r, leaving(0, weighing(600, claim(6, 3, 3, 2, 1))));
}

static void grants_in_one(void) {
    Register r = littered();
    grant("0 left 2^32 - 1 in version 1", r, leaving(UINT32_MAX, claim(6, 2, 2, 5, 1)));
    grant("0 left 0 in version 1", r, claim(6, 2, 2, 5, 1));
    grant("0 root in version 1", r, leaving(3, claim(6, 0, 1, 5, 1)));
    grant("0 hop 16 in version 1", tower(16), leaving(9, claim(17, 16, 17, 18, 17)));
    grant("15 hop 17 in version 1", tower(17), leaving(0, claim(18, 17, 18, 19, 17)));
    grant("3 before any left in version 1", r, leaving(17, claim(6, 2, 9, 5, 1)));
}

static void withdrawals(void) {
    Register r = two();
    withdrawn("0 revocation in version 2", guvrendik_revoke(r, 1, 3));
    withdrawn("0 report cleared in version 2", guvrendik_clear_resource(r, 1, 10));
    withdrawn("0 old claims cleared in version 2", guvrendik_clear_expired(r, 1, 2000));
    withdrawn("17 in version 2", guvrendik_revoke(r, 1, 9));
    withdrawn("1 revocation in version 3", guvrendik_revoke(of_version(3, r), 1, 3));
    withdrawn("1 report of version 0", guvrendik_clear_resource(of_version(0, r), 1, 10));
    withdrawn("1 old claims of version 3", guvrendik_clear_expired(of_version(3, r), 1, 2000));
    withdrawn("0 revocation in version 1", guvrendik_revoke(littered(), 1, 3));
}

static void read_text(const char *label, const char *text) {
    size_t length = strlen(text);
    uint8_t again[1024];
    guvrendik_register_read y = guvrendik_read_register((const uint8_t *)text, length);
    if (y.accepted != 1) {
        printf("%s: %u line=%zu version=%u bare=%d\n", label, (unsigned)y.refusal, y.line, (unsigned)y.state.version, bare(y.state));
        return;
    }
    guvrendik_written w = guvrendik_write_register(y.state, again, sizeof again);
    printf("%s: written as read=%d", label, w.length == length && memcmp(text, again, length) == 0);
    lefts(y.state);
}

/* Case R's register, with what stands in the first line behind the sign and behind the weight of each claim. */
static void read(const char *label, const char *version, const char *first, const char *second) {
    char text[1024];
    snprintf(text, sizeof text,
             "register=%sactors=2\nactor=1\nkind=human\nowner=0\nactor=2\nkind=machine\nowner=1\n"
             "resources=1\nresource=10\npublic=0\nkeeper=1\nscope=site/a\nclaims=2\n"
             "claim=1\nparent=0\ngrantor=1\nholder=1\nresource=10\nrights=19\nweight=1000\n%sexpiry=0\n"
             "claim=2\nparent=1\ngrantor=1\nholder=2\nresource=10\nrights=1\nweight=600\n%sexpiry=2000\n",
             version, first, second);
    read_text(label, text);
}

static void texts(void) {
    read("text of version 1", "1\n", "", "");
    read("text of version 2", "2\n", "left=16\n", "left=15\n");
    read("left may fall by more than one", "2\n", "left=9\n", "left=0\n");
    read("version line 3", "3\n", "left=16\n", "left=15\n");
    read("version line 0", "0\n", "", "");
    read("version line 02", "02\n", "left=16\n", "left=15\n");
    read("version line 12", "12\n", "", "");
    read("version line 2 that goes on", "2", "left=16\n", "left=15\n");
    read_text("version line 2 without LF", "register=2");
    read("left in version 1", "1\n", "left=16\n", "left=15\n");
    read("left in version 1, at the second claim", "1\n", "", "left=15\n");
    read("no left in version 2", "2\n", "", "");
    read("no left at the second claim", "2\n", "left=16\n", "");
    read("left=17", "2\n", "left=17\n", "left=15\n");
    read("left=016", "2\n", "left=016\n", "left=15\n");
    read("left= without a number", "2\n", "left=\n", "left=15\n");
    read("left of the parent in a text", "2\n", "left=15\n", "left=15\n");
    uint8_t buffer[1024];
    printf("version 3 written: %u\n", (unsigned)guvrendik_write_register(of_version(3, two()), buffer, sizeof buffer).refusal);
}

/* docs/PORTAL.md, how to change: a register of version 1 is read, given version 2, and written. */
static void changed(void) {
    static const char one[] = "register=1\nactors=1\nactor=1\nkind=human\nowner=0\nresources=1\nresource=10\npublic=0\nkeeper=1\nscope=a\n"
                              "claims=1\nclaim=1\nparent=0\ngrantor=1\nholder=1\nresource=10\nrights=17\nweight=9\nexpiry=0\n";
    static const char due[] = "register=2\nactors=1\nactor=1\nkind=human\nowner=0\nresources=1\nresource=10\npublic=0\nkeeper=1\nscope=a\n"
                              "claims=1\nclaim=1\nparent=0\ngrantor=1\nholder=1\nresource=10\nrights=17\nweight=9\nleft=16\nexpiry=0\n";
    uint8_t text[1024];
    guvrendik_register_read old = guvrendik_read_register((const uint8_t *)one, strlen(one));
    old.state.version = GUVRENDIK_REGISTER_2;
    guvrendik_written w = guvrendik_write_register(old.state, text, sizeof text);
    printf("changed to version 2: %u as due=%d\n", (unsigned)w.refusal, w.length == strlen(due) && memcmp(text, due, w.length) == 0);
}

/* The base, and the base as version 2 where each claim has what it had left, 16 less its hop count: the whole answers are the same. */
static void alike_in_two(const char *label, Action a) {
    Register r = littered(), as_two = with_lefts(of_version(2, base()), (const uint32_t[]){16, 15, 14, 13, 16});
    guvrendik_verdict one = guvrendik_gate(r, a), other = guvrendik_gate(as_two, a);
    Plan p = followed(alike(a, 2), flagged(a, 1));
    guvrendik_plan_verdict judged = guvrendik_judge_plan(r, p), again = guvrendik_judge_plan(as_two, p);
    printf("%s: decision %u and %u, same=%d, of a plan same=%d\n", label, (unsigned)one.decision, (unsigned)other.decision,
           memcmp(&one, &other, sizeof one) == 0, memcmp(&judged, &again, sizeof judged) == 0);
}

void version_lines(void) {
    soundness();
    grants_in_two();
    grants_in_one();
    withdrawals();
    texts();
    changed();
    alike_in_two("machine 5 reads at 1999", using(action(5, 1999), 10, 0));
    alike_in_two("machine 5 reads at 2000", using(action(5, 2000), 10, 0));
    alike_in_two("machine 2 reads what is public", using(using(action(2, 0), 11, 0), 10, 4));
    alike_in_two("an absent actor", action(9, 0));
}
