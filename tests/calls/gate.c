/* The gate for one action: a line to an action, with the decision, each violation as its kind and what it is about, and the hop count of
 * each use.
 *
 * What is expected comes from 01, "The gate". 1: "one for each set flag, lowest first: its i". 2: "machine without owner: its actor id". 3:
 * "machine, one for each governed entry: its position from 0". 4 "where the actor does not cover it; else kind 5 where the actor is a machine
 * with an owner who does not cover it", by use position from 0. "Tests 1, 2, 3 (the actor), then violations." A hop count is that of "the
 * covering claim of the actor with the greatest such length", which is that of the trimmed path of its resource, "the first in register order on
 * a tie" (T-12), "0 when there is none" (01). In the base human 1 holds claim 1 on resource 10 (0 hops), its
 * machine 2 claim 2 (1 hop) and claim 5 on resource 11; human 3 holds claim 3 (2 hops, READ and DELEGATE, run out
 * at 2000) and its machine 5 claim 4 (3 hops, READ), drawn from claim 3; resources 10 and 11 both have the path `site/a`, and 11 is public.
 * 02, T-03: "a claim is live at a moment when every claim on its chain has weight above 0 and hasn't expired", so a claim with a dead source
 * covers nothing and lends no hop count.
 * A line `inner in outer` has human 1 read a resource of the one path by its root on one of the other (01, "Path containment"). A line
 * `inner by one and other` has human 3 read by a root on the one (0 hops) and a claim of 1 hop on the other, in that order. */
#include "calls.h"

void verdict_line(const char *label, guvrendik_verdict v, size_t used) {
    static const char *const decisions[] = {"", "permitted", "refused", "stopped"};
    printf("%s: %s", label, v.decision <= GUVRENDIK_DECISION_STOPPED ? decisions[v.decision] : "");
    if (v.decision == GUVRENDIK_DECISION_STOPPED) printf(" %u", (unsigned)v.refusal);
    for (size_t i = 0; i < v.count; i++) printf(" %u/%u", (unsigned)v.violations[i].kind, (unsigned)v.violations[i].value);
    printf(" hops");
    for (size_t i = 0; i < used; i++) printf(" %zu", v.hops[i]);
    printf("\n");
}

/* The plain gate must answer the same (02, T-06). */
static void ask(const char *label, Register r, Action a) {
    guvrendik_verdict v = guvrendik_gate(r, a), plain = guvrendik_plain_gate(r, a);
    verdict_line(label, v, a.used);
    if (memcmp(&v, &plain, sizeof v) != 0) verdict_line("the plain gate differs", plain, a.used);
}

/* The base with the path of resource 10, on which human 1 holds a root, and a third resource of human 3. */
static Register within(const char *outer, const char *inner) {
    return with_resource(with_resource(base(), 0, resource_at(10, 0, 1, outer)), 2, resource_at(12, 0, 3, inner));
}

static void decided(void) {
    Register r = base();
    ask("nothing used", r, action(1, 0));
    ask("human reads and modifies policy", r, using(using(action(1, 0), 10, 0), 10, 16));
    ask("owned machine reads at 1999", r, using(action(2, 1999), 10, 0));
    ask("human reads while its claim runs", r, using(action(3, 1999), 10, 0));
    ask("public READ without a claim", r, using(action(3, 2000), 11, 0));
    ask("public READ with a claim", r, using(action(2, 0), 11, 0));
    ask("human governs nobody that stands", r, governing(action(1, 0), 8));
    ask("claim run out at 2000", r, using(action(3, 2000), 10, 0));
    ask("right not held", r, using(action(3, 0), 10, 1));
    ask("resource absent", r, using(action(3, 0), 12, 0));
    ask("resource 0", r, using(action(3, 0), 0, 0));
    ask("source run out at 2000", r, using(action(5, 2000), 10, 0));
    ask("second use of two", r, using(using(action(2, 0), 10, 0), 12, 0));
    ask("flags 0 and 9", r, flagged(action(1, 0), 513));
    ask("machine without owner", r, action(4, 0));
    ask("machine governs two", r, governing(action(2, 0), 2));
    ask("all of it in order", r, using(governing(flagged(action(4, 0), 2), 1), 10, 0));
}

/* The base, where claim 2, from which those of human 3 and machine 5 are drawn, runs out at 1500, and machine 5 holds a root too. */
static Register sourced(void) {
    return with_claim(base_and(claim(6, 0, 1, 5, 1)), 1, expiring(1500, claim(2, 1, 1, 2, 131071)));
}

static void sources(void) {
    Register r = base_and(claim(6, 0, 1, 5, 1)), s = sourced();
    ask("owner's claim at 1999", r, using(action(5, 1999), 10, 0));
    ask("owner's claim run out at 2000", r, using(action(5, 2000), 10, 0));
    ask("owner's source at 1499", s, using(action(5, 1499), 10, 0));
    ask("owner's source run out at 1500", s, using(action(5, 1500), 10, 0));
    ask("human's source at 1499", s, using(action(3, 1499), 10, 0));
    ask("human's source run out at 1500", s, using(action(3, 1500), 10, 0));
    ask("public READ at 1499", s, using(action(3, 1499), 11, 0));
    ask("public READ at 1500", s, using(action(3, 1500), 11, 0));
    ask("root of 16 hops at 1999", tower_until(17, 2000), using(action(18, 1999), 10, 0));
    ask("root of 16 hops run out at 2000", tower_until(17, 2000), using(action(18, 2000), 10, 0));
}

static void stopped(void) {
    Register r = base();
    ask("register not sound", with_counts(r, 65, 2, 5), action(1, 0));
    ask("flags 1024", r, flagged(action(1, 0), 1024));
    ask("moment 2^32", r, action(1, UINT64_C(4294967296)));
    ask("right 17", r, using(action(1, 0), 10, 17));
    ask("nine governed", r, governing(action(1, 0), 9));
    ask("actor absent", r, action(9, 0));
    ask("actor 0", r, action(0, 0));
    ask("2 before 3", r, flagged(action(9, 0), 1024));
}

static void paths(void) {
    Action reads = using(action(1, 0), 12, 0);
    ask("the same path in site/a", within("site/a", "site/a"), reads);
    ask("site/b in site/a", within("site/a", "site/b"), reads);
    ask("site/ in site/a", within("site/a", "site/"), reads);
    ask("the empty path in site/a", within("site/a", ""), reads);
    ask("site/a/b in site/a", within("site/a", "site/a/b"), reads);
    ask("site/ab in site/a", within("site/a", "site/ab"), reads);
    ask("site/a/ in site/a", within("site/a", "site/a/"), reads);
    ask("site/a in site/a/", within("site/a/", "site/a"), reads);
    ask("site/ab in site/a/", within("site/a/", "site/ab"), reads);
    ask("site/a/b in site/a//", within("site/a//", "site/a/b"), reads);
    ask("x in the empty path", within("", "x"), reads);
    ask("the empty path in /", within("/", ""), reads);
    ask("x in /", within("/", "x"), reads);
    ask("a/../b in itself", within("a/../b", "a/../b"), reads);
    ask("a/.. in the empty path", within("", "a/.."), reads);
    ask("a..b in itself", within("a..b", "a..b"), reads);
    ask("public READ of a/../b", with_resource(base(), 2, resource_at(12, 1, 3, "a/../b")), reads);
}

/* Human 1 keeps resources 10, 11 and 12 of three paths, grants human 3 a root on 10, and itself one on 11, from which it grants human 3 READ. */
static Register holding(const char *first, const char *second, const char *inner) {
    Register r = with_actor(with_actor(empty(), 0, human(1)), 1, human(3));
    r = with_resource(r, 0, resource_at(10, 0, 1, first));
    r = with_resource(r, 1, resource_at(11, 0, 1, second));
    r = with_resource(r, 2, resource_at(12, 0, 1, inner));
    r = with_claim(r, 0, claim(1, 0, 1, 3, 3));
    r = with_claim(r, 1, on(11, claim(2, 0, 1, 1, 17)));
    return with_claim(r, 2, on(11, claim(3, 2, 1, 3, 1)));
}

/* Machine 2 of human 1 holds claims of 1 hop on `site` and of 2 hops on `site/a`; `owners` is what its owner holds. */
static Register machine_holding(Claim owners) {
    Register r = with_actor(with_actor(with_actor(empty(), 0, human(1)), 1, machine(2, 1)), 2, human(3));
    r = with_resource(with_resource(r, 0, resource_at(10, 0, 3, "site")), 1, resource_at(11, 0, 3, "site/a"));
    r = with_actor(with_resource(r, 2, resource_at(12, 0, 3, "site/a/b")), 3, human(4));
    r = with_claim(with_claim(r, 0, claim(1, 0, 3, 4, 17)), 1, claim(2, 1, 4, 2, 1));
    r = with_claim(with_claim(r, 2, on(11, claim(3, 0, 3, 3, 17))), 3, on(11, claim(4, 3, 3, 4, 17)));
    return with_claim(with_claim(r, 4, on(11, claim(5, 4, 4, 2, 1))), 5, owners);
}

static void nearest(void) {
    Action reads = using(action(3, 2000), 12, 0);
    Register nested = holding("site", "site/a", "site/a/b");
    ask("site/a/b by site and site/a", nested, reads);
    ask("site/a/b by site/a and site", holding("site/a", "site", "site/a/b"), reads);
    ask("a/b by a and a//", holding("a", "a//", "a/b"), reads);
    ask("a/b by a// and a", holding("a//", "a", "a/b"), reads);
    ask("/x by the empty path and /", holding("", "/", "/x"), reads);
    ask("/x by / and the empty path", holding("/", "", "/x"), reads);
    ask("x by site and the empty path", holding("site", "", "x"), reads);
    ask("/x by site and /", holding("site", "/", "/x"), reads);
    ask("a/b by the empty path and a/..", holding("", "a/..", "a/b"), reads);
    ask("the nearer claim without the right", nested, using(action(3, 2000), 12, 1));
    ask("the nearer claim of weight 0", with_claim(nested, 2, weighing(0, on(11, claim(3, 2, 1, 3, 1)))), reads);
    ask("the nearer claim run out", with_claim(nested, 2, expiring(2000, on(11, claim(3, 2, 1, 3, 1)))), reads);
    ask("the nearer claim on a public report", with_resource(nested, 2, resource_at(12, 1, 1, "site/a/b")), reads);
    Register one = with_claim(with_claim(nested, 1, claim(2, 0, 1, 1, 17)), 2, claim(3, 2, 1, 3, 1));
    ask("two claims on one report", one, reads);
    ask("the same in the other order",
        with_claim(with_claim(with_claim(one, 0, claim(2, 0, 1, 1, 17)), 1, claim(3, 2, 1, 3, 1)), 2, claim(1, 0, 1, 3, 1)), reads);
    ask("the owner's nearer claim", machine_holding(on(12, claim(6, 0, 3, 1, 1))), using(action(2, 0), 12, 0));
    ask("kind 5 beside the nearest", machine_holding(on(12, claim(6, 0, 3, 1, 2))), using(action(2, 0), 12, 0));
}

void gate_lines(void) {
    decided();
    sources();
    stopped();
    paths();
    nearest();
    ask("51 violations", base(), most());
    /* 01's case R: its action, and the same action when the machine's claim has run out. */
    ask("case R", case_r(), using(using(action(2, 1999), 10, 0), 10, 1));
    ask("case R at 2000", case_r(), using(using(action(2, 2000), 10, 0), 10, 1));
}
