/* The lost update of docs/PORTAL.md. Two desks change one register: one revokes the machine's claim, the other grants a claim to human 3. Where each
 * computes on a copy of its own, what is stored last brings the revoked claim back; one after the other, it stays revoked. */
#include "guvrendik.h"

#include <stdio.h>
#include <stdlib.h>

/* The portal's register. */
static guvrendik_register stored;

static void demand(int holds, const char *what) {
    if (!holds) {
        fprintf(stderr, "lost_update: %s\n", what);
        exit(1);
    }
}

/* A claim on report 10 that human 1 grants, of full weight, and that never runs out. */
static guvrendik_claim claim(uint32_t id, uint32_t parent, uint32_t holder, uint32_t rights) {
    return guvrendik_make_claim(id, parent, 1, holder, 10, rights, GUVRENDIK_MAX_WEIGHT, 0, 0);
}

/* Human 1 keeps report 10 and has a root on it, from which its machine 2 may read. */
static void begin(void) {
    guvrendik_begin(&stored, GUVRENDIK_REGISTER_1);
    demand(guvrendik_put_actor(&stored, 1, GUVRENDIK_ACTOR_HUMAN, 0) && guvrendik_put_actor(&stored, 2, GUVRENDIK_ACTOR_MACHINE, 1) &&
               guvrendik_put_actor(&stored, 3, GUVRENDIK_ACTOR_HUMAN, 0) && guvrendik_put_resource(&stored, 10, 0, 1, "site/a", 6) &&
               guvrendik_put_claim(&stored, claim(1, 0, 1, GUVRENDIK_CAN_READ | GUVRENDIK_CAN_DELEGATE)) &&
               guvrendik_put_claim(&stored, claim(2, 1, 2, GUVRENDIK_CAN_READ)),
           "there is room");
    demand(guvrendik_sound(stored).sound == 1, "the register is sound");
}

static guvrendik_register without_claim_2(guvrendik_register read) {
    guvrendik_revoked answer = guvrendik_revoke(read, 1, 2);
    demand(answer.accepted == 1, "human 1 revokes claim 2");
    return answer.state;
}

static guvrendik_register with_claim_3(guvrendik_register read) {
    guvrendik_granted answer = guvrendik_grant(read, claim(3, 1, 3, GUVRENDIK_CAN_READ), 0);
    demand(answer.accepted == 1, "human 1 grants claim 3");
    return answer.state;
}

static void show(const char *how) {
    guvrendik_action reads = guvrendik_make_action(2, guvrendik_make_usage(10, GUVRENDIK_RIGHT_READ), 0);
    printf("%s: claims", how);
    for (size_t i = 0; i < stored.claims.count; i++) {
        printf(" %u", (unsigned)stored.claims.list[i].id);
    }
    printf(", machine 2 %s\n", guvrendik_gate(stored, reads).decision == GUVRENDIK_DECISION_PERMITTED ? "may read" : "may not read");
}

int main(void) {
    begin();
    show("at first");
    /* Both desks read before either stores. */
    guvrendik_register one = stored, other = stored;
    stored = without_claim_2(one);
    stored = with_claim_3(other);
    show("each on a copy of its own");
    /* The lock is held from reading to storing, so the second desk reads what the first one stored. */
    begin();
    stored = without_claim_2(stored);
    stored = with_claim_3(stored);
    show("one after the other");
    return 0;
}
