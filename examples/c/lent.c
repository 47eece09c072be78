/* A caller that lends its register where it lies, in memory that is never written: human 3 may read report 10 by a claim of two hops, up to its
 * expiry; and a register of which a byte is missing is not sound. Every result is checked; the first that is not as it must be ends the
 * program. */
#include "guvrendik.h"

#include <stdio.h>
#include <stdlib.h>

/* Human 1 keeps report 10 and grants itself a root on it; its machine 2 draws READ until 2000, and human 3 draws READ from the machine. */
static const guvrendik_register state = {
    .actors = {.list = {{1, GUVRENDIK_ACTOR_HUMAN, 0}, {2, GUVRENDIK_ACTOR_MACHINE, 1}, {3, GUVRENDIK_ACTOR_HUMAN, 0}}, .count = 3},
    .resources = {.list = {{10, 0, 1, 6, "site/a"}}, .count = 1},
    .claims = {.list = {{1, 0, 1, 1, 10, 19, 1000, 0, 0}, {2, 1, 1, 2, 10, 17, 600, 0, 2000}, {3, 2, 2, 3, 10, 1, 600, 0, 2000}}, .count = 3},
    .version = GUVRENDIK_REGISTER_1,
};

/* Asks the gate whether human 3 may read report 10 at the moment, by so many bytes of the register, and prints the answer, which must be this. */
static void ask(const char *what, size_t length, uint64_t moment, uint32_t due) {
    guvrendik_action a = {.actor = 3, .now = moment, .used = 1, .uses = {{10, GUVRENDIK_RIGHT_READ}}};
    guvrendik_verdict v = guvrendik_gate_lent((const uint8_t *)&state, length, a);
    printf("%s: decision %u, refusal %u, hops %zu\n", what, (unsigned)v.decision, (unsigned)v.refusal, v.hops[0]);
    if (v.decision != due) {
        fprintf(stderr, "lent: %s\n", what);
        exit(1);
    }
}

int main(void) {
    guvrendik_verdict v;
    guvrendik_action a = {.actor = 3, .now = 1999, .used = 1, .uses = {{10, GUVRENDIK_RIGHT_READ}}};
    ask("the register as it lies, at 1999", sizeof state, 1999, GUVRENDIK_DECISION_PERMITTED);
    ask("at 2000", sizeof state, 2000, GUVRENDIK_DECISION_REFUSED);
    ask("without its last byte", sizeof state - 1, 1999, GUVRENDIK_DECISION_STOPPED);
    guvrendik_gate_at(&v, &state, &a);
    printf("by pointer: decision %u\n", (unsigned)v.decision);
    return v.decision != GUVRENDIK_DECISION_PERMITTED;
}
