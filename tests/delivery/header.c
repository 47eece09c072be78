/* Compiled as C99 to C17 and C++98 to C++20 without a warning: every function that is part of the header is used, and every name of a sum stands
 * where it belongs. WRONG is one of the lines that must not compile. */
#include "guvrendik.h"

guvrendik_claim claim(void) {
    guvrendik_claim c = guvrendik_make_claim(2, 1, 1, 2, 10, GUVRENDIK_CAN_READ, GUVRENDIK_MAX_WEIGHT, GUVRENDIK_MAX_LEFT, 0);
    c.rights = GUVRENDIK_CAN_READ | GUVRENDIK_CAN_DELEGATE;
    c.rights |= guvrendik_right_part(GUVRENDIK_RIGHT_WRITE);
#if WRONG == 1
    c.rights = GUVRENDIK_READ | GUVRENDIK_DELEGATE;
#endif
    return c;
}

guvrendik_action action(guvrendik_violation v) {
    guvrendik_action a = guvrendik_make_action(2, guvrendik_make_usage(10, GUVRENDIK_RIGHT_READ), 1999);
    a.flags |= GUVRENDIK_SETS_INCREASES_SOVEREIGNTY;
    a.flags |= v.kind == GUVRENDIK_VIOLATION_FLAG ? guvrendik_flag_part(v.value) : 0;
#if WRONG == 2
    a.flags |= GUVRENDIK_INCREASES_SOVEREIGNTY;
#endif
#if WRONG == 3 /* in C++ alone: a part of a sum is no right's number */
    a.uses[0] = guvrendik_make_usage(10, GUVRENDIK_CAN_READ);
#endif
    return a;
}

int built(guvrendik_register *r) {
    guvrendik_begin(r, GUVRENDIK_REGISTER_2);
    return guvrendik_put_actor(r, 1, GUVRENDIK_ACTOR_HUMAN, 0) && guvrendik_put_actor(r, 2, GUVRENDIK_ACTOR_MACHINE, 1) &&
           guvrendik_put_resource(r, 10, 0, 1, "site/a", 6) && guvrendik_put_claim(r, claim());
}

/* A moment after the last one is not 0. */
uint64_t too_late(void) {
    return GUVRENDIK_MAX_MOMENT + 1;
}

int cancelled(guvrendik_judgement j) {
    switch (j.decision) {
    case GUVRENDIK_DECISION_PERMITTED: return 0;
    case GUVRENDIK_DECISION_REFUSED: return 0;
    case GUVRENDIK_DECISION_STOPPED: return 0;
    case GUVRENDIK_DECISION_CANCELLED: return 1;
    default: return 0;
    }
}
