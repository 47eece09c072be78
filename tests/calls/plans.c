/* The gate for a plan: a line to a plan, with 01's number of the refusal, 0 where it is accepted, the position, and each verdict as its number
 * and its number of violations.
 *
 * What is expected comes from 01, "The gate": "Test 1, then 2 on the count, then the first action with 2 or 3 stops the whole plan and is named
 * by position from 0. Otherwise each action is permitted, refused with its number of violations, or cancelled: every action after the first
 * with a flag set is cancelled". The numbers of the verdicts are 1, 2 and 4: 3 is a stopped call's. "Otherwise" puts verdicts after all tests, so that an action that
 * would be cancelled can stop the plan; the first action decides, whichever of 2 and 3 it has. A line `n before m` has both faults. */
#include "calls.h"

void plan_verdict_line(const char *label, guvrendik_plan_verdict v) {
    printf("%s: %u position=%zu verdicts", label, (unsigned)v.refusal, v.position);
    for (size_t i = 0; i < v.count; i++) printf(" %u/%u", (unsigned)v.list[i].decision, (unsigned)v.list[i].violations);
    printf("\n");
}

/* The plain gate must answer the same (02, T-06). */
static void ask(const char *label, Register r, Plan p) {
    guvrendik_plan_verdict v = guvrendik_judge_plan(r, p), plain = guvrendik_plain_plan(r, p);
    plan_verdict_line(label, v);
    if (memcmp(&v, &plain, sizeof v) != 0) plan_verdict_line("the plain gate differs", plain);
}

static void counts(void) {
    Register r = base();
    Action a = action(1, 0);
    ask("no actions", r, alike(a, 0));
    ask("16 actions", r, alike(a, 16));
    ask("17 actions", r, alike(a, 17));
    ask("2^64 - 1 actions", r, alike(a, UINT64_MAX));
}

/* Machine 5 reads when its owner's claim, from which its own is drawn, has run out: one violation. Two flags and a use of a resource that does not stand: three. */
static void verdicts(void) {
    Register r = base();
    Action reads = using(action(1, 0), 10, 0), unowned = action(4, 0);
    Plan middle = followed(alike(reads, 1), using(action(5, 2000), 10, 0));
    middle = followed(middle, using(flagged(action(1, 0), 513), 12, 0));
    middle = followed(followed(middle, reads), flagged(reads, 1));
    ask("flag in the middle", r, followed(middle, unowned));
    ask("flag on the last", r, followed(alike(reads, 2), flagged(reads, 16)));
    ask("refused without a flag", r, followed(alike(unowned, 1), reads));
    ask("51 violations", r, followed(alike(most(), 1), reads));
    ask("absent actor past the count", r, replacing(alike(reads, 1), 1, action(9, 0)));
}

static void stopped(void) {
    Register r = base(), unsound = with_counts(r, 65, 2, 5);
    Action a = action(1, 0), absent = action(9, 0), wide = flagged(a, 1024);
    Plan flag = alike(flagged(a, 1), 1);
    ask("1 register not sound", unsound, alike(a, 1));
    ask("1 before 2 on the count", unsound, alike(a, 17));
    ask("2 on the count before 3", r, alike(absent, 17));
    ask("3 at the third", r, replacing(alike(a, 4), 2, absent));
    ask("2 at the sixteenth", r, replacing(alike(a, 16), 15, wide));
    ask("3 at the first, 2 at the second", r, followed(alike(absent, 1), wide));
    ask("2 at the first, 3 at the second", r, followed(alike(wide, 1), absent));
    ask("2 before 3 in one action", r, followed(alike(a, 1), flagged(absent, 1024)));
    ask("3 at a cancelled action", r, followed(flag, absent));
    ask("2 at a cancelled action", r, followed(flag, wide));
}

void plan_lines(void) {
    counts();
    verdicts();
    stopped();
}
