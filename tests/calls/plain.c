/* The plain gate, for one action and for a plan: lines as the gate's; and its table, by itself.
 *
 * What is expected comes from 02, T-06: it "fills a table of what the actor and its owner cover, for each resource and right, at one moment; uses
 * are then looked up", and from what was decided of the table: what has no row has nothing; a public READ with a claim has the claim's hop
 * count; a claim on the empty path speaks; on a tie the first stays; a path with `..` is in no cell but a public READ; a cell has one claim, so
 * that rights of two claims are not joined; an owner without claims has what is public and no more. */
#include "calls.h"

static void ask(const char *label, Register r, Action a) { verdict_line(label, guvrendik_plain_gate(r, a), a.used); }

static void ask_plan(const char *label, Register r, Plan p) { plan_verdict_line(label, guvrendik_plain_plan(r, p)); }

/* Human 1 keeps resources 10, 11 and 12 of three paths and grants itself a root on 10 and on 11; human 3 holds READ by 1 hop on 10 and WRITE
 * by a root on 11. */
static Register shared(const char *first, const char *second, guvrendik_resource used) {
    Register r = with_actor(with_actor(empty(), 0, human(1)), 1, human(3));
    r = with_resource(with_resource(r, 0, resource_at(10, 0, 1, first)), 1, resource_at(11, 0, 1, second));
    r = with_claim(with_claim(with_resource(r, 2, used), 0, claim(1, 0, 1, 1, 17)), 1, claim(2, 1, 1, 3, 1));
    return with_claim(r, 2, on(11, claim(3, 0, 1, 3, 2)));
}

static void cells(void) {
    Action both = using(using(action(3, 0), 12, 0), 12, 1);
    Register one = shared("site", "site/a", resource_at(12, 0, 1, "site/a/b"));
    ask("plain: absent, and number 0", base(), using(using(action(3, 0), 12, 0), 0, 0));
    ask("plain: public READ with a claim", base(), using(action(2, 0), 11, 0));
    ask("plain: the empty path", shared("", "x", resource_at(12, 0, 1, "x/y")), both);
    ask("plain: a right of each of two claims", one, both);
    ask("plain: both rights of one claim alone", with_claim(one, 2, on(11, claim(3, 0, 1, 3, 4))), both);
    ask("plain: a tie", with_claim(one, 2, claim(3, 0, 1, 3, 1)), using(action(3, 0), 10, 0));
    ask("plain: a tie in the other order", with_claim(with_claim(with_claim(one, 0, claim(3, 0, 1, 3, 1)), 1, claim(1, 0, 1, 1, 17)), 2, claim(2, 1, 1, 3, 1)),
        using(action(3, 0), 10, 0));
    ask("plain: a path with ..", shared("", "", resource_at(12, 1, 1, "a/../b")), both);
}

/* Machine 5 of human 3 holds a root on 10; its owner holds nothing. */
static void owners(void) {
    Register r = with_counts(base(), 5, 2, 1);
    r = with_claim(r, 1, claim(2, 0, 1, 5, 3));
    ask("plain: an owner without claims", r, using(using(action(5, 0), 10, 0), 11, 0));
    ask("plain: an owner with another right", with_claim(r, 2, claim(3, 0, 1, 3, 1)), using(using(action(5, 0), 10, 0), 10, 1));
    ask("plain: machine without owner", base(), using(action(4, 0), 11, 0));
}

static void limits(void) {
    Action full = action(2, 0);
    while (full.used < GUVRENDIK_LIMIT_USES) full = using(full, 10, full.used % 17);
    ask("plain: 32 uses", base(), full);
    ask("plain: 51 violations", base(), most());
    ask("plain: 1", with_counts(base(), 65, 2, 5), action(9, 0));
    ask("plain: 2", base(), flagged(action(9, 0), 1024));
    ask("plain: 3", base(), using(action(9, 0), 10, 0));
}

static void plans(void) {
    Register r = base();
    Action reads = using(action(1, 0), 10, 0);
    ask_plan("plain: no actions", r, alike(reads, 0));
    ask_plan("plain: 17 actions", r, alike(reads, 17));
    ask_plan("plain: 1 before 2", with_counts(r, 65, 2, 5), alike(reads, 17));
    ask_plan("plain: 3 at a cancelled action", r, followed(alike(flagged(reads, 1), 1), action(9, 0)));
    ask_plan("plain: each action has its own table", r, followed(followed(alike(using(action(3, 1999), 10, 0), 1), using(action(3, 2000), 10, 0)), reads));
    ask_plan("plain: a flag in the middle", r, followed(followed(alike(reads, 1), flagged(reads, 5)), reads));
}

/* The cells that hold something, as row.right=cell. */
static void print_cells(const char *whose, const uint32_t *cells) {
    printf(" %s", whose);
    for (uint32_t at = 0; at < GUVRENDIK_LIMIT_CELLS; at++) {
        if (cells[at] == GUVRENDIK_CELL_NOTHING) continue;
        printf(" %u.%u=%u", (unsigned)(at / GUVRENDIK_LIMIT_RIGHTS), (unsigned)(at % GUVRENDIK_LIMIT_RIGHTS), (unsigned)cells[at]);
    }
}

/* The numbers of each claim, or of all places where one of them is not 0 past the claims. */
static void print_numbers(const char *what, const uint32_t *numbers, size_t claims) {
    for (size_t at = claims; at < GUVRENDIK_LIMIT_CLAIMS; at++) {
        if (numbers[at] != 0) claims = GUVRENDIK_LIMIT_CLAIMS;
    }
    printf(" %s", what);
    for (size_t at = 0; at < claims; at++) printf(" %u", (unsigned)numbers[at]);
}

static void table_line(const char *label, Register r, uint32_t actor, uint64_t moment) {
    guvrendik_table t = guvrendik_cover_table(r, actor, moment);
    size_t claims = t.accepted == 1 ? r.claims.count : 0;
    printf("table: %s: %u %u owner=%u", label, (unsigned)t.accepted, (unsigned)t.refusal, (unsigned)t.owner);
    print_numbers("hops", t.hops, claims);
    print_numbers("states", t.states, claims);
    print_cells("own", t.own);
    print_cells("owners", t.owners);
    printf("\n");
}

/* Reports 10 and 11 of the base have one path; of the others see `shared`. */
static void tables(void) {
    Register one = shared("site", "site/a", resource_at(12, 0, 1, "site/a/b"));
    table_line("case R", case_r(), 2, 1999);
    table_line("case R at the expiry", case_r(), 2, 2000);
    table_line("a machine and its owner", base(), 5, 1999);
    table_line("a dead source", base(), 5, 2000);
    table_line("no weight comes before expired", with_claim(base(), 3, weighing(0, expiring(1, claim(4, 3, 3, 5, 1)))), 5, 1999);
    table_line("a human", base(), 3, 0);
    table_line("a machine without owner", base(), 4, 0);
    table_line("the longer path speaks", with_claim(one, 2, on(11, claim(3, 0, 1, 3, 3))), 3, 0);
    table_line("on a tie the first stays", with_claim(one, 2, claim(3, 0, 1, 3, 1)), 3, 0);
    table_line("the largest moment", base(), 4, UINT32_MAX);
    table_line("1 before 2", with_counts(base(), 65, 2, 5), 65536, 0);
    table_line("2 of the actor", base(), 65536, 0);
    table_line("2 of the moment, before 3", base(), 9, UINT64_C(1) << 32);
    table_line("3", base(), 65535, 0);
    table_line("3 of number 0", base(), 0, 0);
}

void plain_lines(void) {
    cells();
    owners();
    limits();
    plans();
    tables();
}
