/* Who may make a use, and why one may or may not, a line to a call.
 *
 * What is expected comes from 01's gate: an actor may where the action of that use alone is permitted; the refusals of who are 1 and 2, those of
 * why the gate's. */
#include "calls.h"

static guvrendik_usage reading(uint32_t resource) {
    return (guvrendik_usage){.resource = resource, .right = GUVRENDIK_RIGHT_READ};
}

static guvrendik_usage writing(uint32_t resource) {
    return (guvrendik_usage){.resource = resource, .right = GUVRENDIK_RIGHT_WRITE};
}

/* The numbers of the answer and the ids that count, and whether a place past them is not 0. */
static void who(const char *label, Register r, guvrendik_usage usage, uint64_t moment) {
    guvrendik_holders h = guvrendik_who(r, usage, moment);
    printf("who %s: %u %u count=%zu", label, (unsigned)h.accepted, (unsigned)h.refusal, h.count);
    for (size_t at = 0; at < GUVRENDIK_LIMIT_ACTORS; at++)
        if (at < h.count || h.ids[at] != 0) printf(" %u", (unsigned)h.ids[at]);
    printf("\n");
}

/* Of the base: 1 and its machine 2 hold READ and WRITE of 10, and 3 and its machine 5 READ until 2000; machine 4 has no owner; 11 is public. */
static void of_base(void) {
    Register r = base();
    who("reads 10 at 1999", r, reading(10), 1999);
    who("reads 10 at 2000", r, reading(10), 2000);
    who("writes 10", r, writing(10), 1999);
    who("reads the public 11", r, reading(11), 0);
    who("writes 11 by claims on 10", r, writing(11), 0);
    who("reads an absent one", r, reading(12), 0);
    who("reads number 0", r, reading(0), 0);
    who("reads 10 of the one actor counted", with_counts(r, 1, 1, 1), reading(10), 0);
}

static void of_ranges(void) {
    Register r = base();
    who("reads number 65535", r, reading(65535), 0);
    who("reads number 65536", r, reading(65536), 0);
    who("has right 16 of 10", r, (guvrendik_usage){.resource = 10, .right = 16}, 0);
    who("has right 17 of 10", r, (guvrendik_usage){.resource = 10, .right = 17}, 0);
    who("reads 10 at 2^32 - 1", r, reading(10), GUVRENDIK_MAX_MOMENT);
    who("reads 10 at 2^32", r, reading(10), GUVRENDIK_MAX_MOMENT + 1);
    who("reads 10 in a register that is not sound", with_claim(r, 0, weighing(1001, claim(1, 0, 1, 1, 131071))), reading(10), 0);
    who("reads 65536 in a register that is not sound", with_claim(r, 0, weighing(1001, claim(1, 0, 1, 1, 131071))), reading(65536), 0);
    who("reads in the empty register", empty(), reading(10), 0);
}

/* 64 actors who all hold a root, and 64 who do not. */
static void of_many(void) {
    Register r = with_resource(empty(), 0, resource(10, 0, 1)), open = with_resource(empty(), 0, resource(10, 1, 1));
    for (uint32_t i = 0; i < GUVRENDIK_LIMIT_ACTORS; i++) {
        r = with_claim(with_actor(r, i, human(64 - i)), i, claim(i + 1, 0, 1, 64 - i, 1));
        open = with_actor(open, i, human(i + 1));
    }
    who("of 64 in register order", r, reading(10), 0);
    who("of 64 by a public one", open, reading(10), 0);
    who("of 64 may write", open, writing(10), 0);
}

static void reason(const char *whose, guvrendik_reason n) {
    printf(" %s=%u", whose, (unsigned)n.kind);
    for (size_t at = 0; at < GUVRENDIK_LIMIT_CHAIN; at++)
        if (at < n.count || n.chain[at] != 0) printf(" %u", (unsigned)n.chain[at]);
    printf(" keeper=%u ended=%u", (unsigned)n.keeper, (unsigned)n.ended);
}

static void why(const char *label, Register r, uint32_t actor, guvrendik_usage usage, uint64_t moment) {
    guvrendik_use_reason n = guvrendik_why_use(r, actor, usage, moment);
    printf("why %s: %u %u", label, (unsigned)n.accepted, (unsigned)n.refusal);
    reason("actor", n.actor);
    printf(" owner=%u", (unsigned)n.owner);
    reason("owners", n.owners);
    printf("\n");
}

/* Each kind, of the actor and of its owner. */
static void of_kinds(void) {
    Register r = case_r(), b = base();
    why("machine 2 reads 10 at 1999", r, 2, reading(10), 1999);
    why("machine 2 reads 10 at 2000", r, 2, reading(10), 2000);
    why("machine 2 reads 10 by a claim without weight", with_claim(r, 1, weighing(0, claim(2, 1, 1, 2, 1))), 2, reading(10), 0);
    why("machine 2 writes 10", r, 2, writing(10), 1999);
    why("human 1 writes 10", r, 1, writing(10), 1999);
    why("machine 2 reads an absent one", r, 2, reading(11), 1999);
    why("machine 5 reads 10 over three hops", b, 5, reading(10), 1999);
    why("machine 5 reads 10 when a source has run out", b, 5, reading(10), 2000);
    why("machine 4 without owner reads the public 11", b, 4, reading(11), 0);
    why("machine 4 without owner reads 10", b, 4, reading(10), 0);
    why("machine 2 reads the public 11 by the first of two as near", b, 2, reading(11), 0);
    why("human 3 writes 10", b, 3, writing(10), 1999);
    why("human 18 reads 10 over 16 hops", tower(17), 18, reading(10), 0);
    why("human 18 reads 10 whose root has run out", tower_until(17, 5), 18, reading(10), 5);
}

static void of_refusals(void) {
    Register r = case_r(), unsound = with_claim(r, 0, weighing(1001, claim(1, 0, 1, 1, 19)));
    why("of actor 9", r, 9, reading(10), 0);
    why("of actor 65536", r, 65536, reading(10), 0);
    why("of number 65536", r, 2, reading(65536), 0);
    why("of right 17", r, 2, (guvrendik_usage){.resource = 10, .right = 17}, 0);
    why("at 2^32", r, 2, reading(10), GUVRENDIK_MAX_MOMENT + 1);
    why("of a register that is not sound", unsound, 2, reading(10), 0);
    why("of actor 65536 of a register that is not sound", unsound, 65536, reading(10), 0);
}

void why_lines(void) {
    of_base();
    of_ranges();
    of_many();
    of_kinds();
    of_refusals();
}
