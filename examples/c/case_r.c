/* A caller that uses nothing but the header: loads the rule book's case R from its text, asks the gate, prints the verdict,
 * grants, revokes and writes the text back. Every result is checked; the first that is not as it must be ends the program. */
#include "guvrendik.h"

#include <stdio.h>
#include <stdlib.h>
#include <string.h>

static const char register_text[] =
    "register=1\n"
    "actors=2\n"
    "actor=1\nkind=human\nowner=0\n"
    "actor=2\nkind=machine\nowner=1\n"
    "resources=1\n"
    "resource=10\npublic=0\nkeeper=1\nscope=site/a\n"
    "claims=2\n"
    "claim=1\nparent=0\ngrantor=1\nholder=1\nresource=10\nrights=19\nweight=1000\nexpiry=0\n"
    "claim=2\nparent=1\ngrantor=1\nholder=2\nresource=10\nrights=1\nweight=600\nexpiry=2000\n";

static const char action_text[] =
    "now=1999\nactor=2\nflags=0\n"
    "uses=2\nuse=10\nright=0\nuse=10\nright=1\n"
    "governs=0\n";

static void demand(int holds, const char *what) {
    if (!holds) {
        fprintf(stderr, "case_r: %s\n", what);
        exit(1);
    }
}

static guvrendik_register load(void) {
    guvrendik_register_read read = guvrendik_read_register((const uint8_t *)register_text, strlen(register_text));
    if (read.accepted != 1) {
        fprintf(stderr, "case_r: register refused with %u at line %zu\n", (unsigned)read.refusal, read.line);
        exit(1);
    }
    return read.state;
}

static guvrendik_action load_action(void) {
    guvrendik_action_read read = guvrendik_read_action((const uint8_t *)action_text, strlen(action_text));
    if (read.accepted != 1) {
        fprintf(stderr, "case_r: action refused with %u at line %zu\n", (unsigned)read.refusal, read.line);
        exit(1);
    }
    return read.action;
}

/* Asks the gate and prints the verdict in the lines of the printing program, then the hop count of each use. */
static guvrendik_verdict ask(guvrendik_register r, guvrendik_action a) {
    guvrendik_verdict verdict = guvrendik_gate(r, a);
    switch (verdict.decision) {
    case GUVRENDIK_DECISION_PERMITTED: printf("verdict=permitted\n"); break;
    case GUVRENDIK_DECISION_REFUSED: printf("verdict=refused\n"); break;
    case GUVRENDIK_DECISION_STOPPED: printf("verdict=stopped\nrefusal=%u\n", (unsigned)verdict.refusal); return verdict;
    default: demand(0, "a verdict has one of three decisions");
    }
    printf("violations=%zu\n", verdict.count);
    for (size_t i = 0; i < verdict.count; i++) {
        printf("violation=%u\nat=%u\n", (unsigned)verdict.violations[i].kind, (unsigned)verdict.violations[i].value);
    }
    for (size_t i = 0; i < a.used; i++) {
        printf("hops=%zu\n", verdict.hops[i]);
    }
    return verdict;
}

/* Writes the register's text, prints it, and reads it back to the same text. */
static void print_text(guvrendik_register r) {
    static uint8_t text[GUVRENDIK_TEXT_REGISTER], again[GUVRENDIK_TEXT_REGISTER];
    guvrendik_written written = guvrendik_write_register(r, text, sizeof text);
    demand(written.accepted == 1 && written.refusal == 0, "a sound register is written");
    guvrendik_register_read read = guvrendik_read_register(text, written.length);
    demand(read.accepted == 1, "what was written is read");
    guvrendik_written rewritten = guvrendik_write_register(read.state, again, sizeof again);
    demand(rewritten.accepted == 1 && rewritten.length == written.length && memcmp(text, again, written.length) == 0,
           "what was read is written as before");
    demand(fwrite(text, 1, written.length, stdout) == written.length, "output");
}

int main(void) {
    guvrendik_register r = load();
    guvrendik_action a = load_action();
    demand(guvrendik_sound(r).sound == 1, "case R is sound");

    printf("-- the gate\n");
    guvrendik_verdict verdict = ask(r, a);
    demand(verdict.decision == GUVRENDIK_DECISION_REFUSED && verdict.count == 1, "case R is refused for one violation");

    printf("-- the printing program\n");
    uint8_t lines[GUVRENDIK_TEXT_VERDICT];
    guvrendik_written printed = guvrendik_verdict_text((const uint8_t *)register_text, strlen(register_text),
                                                       (const uint8_t *)action_text, strlen(action_text), lines, sizeof lines);
    demand(printed.accepted == 1, "a verdict's text has room");
    demand(fwrite(lines, 1, printed.length, stdout) == printed.length, "output");

    printf("-- a grant of WRITE that the parent has\n");
    guvrendik_claim claim = {
        .id = 3,
        .parent = 1,
        .grantor = 1,
        .holder = 2,
        .resource = 10,
        .rights = GUVRENDIK_CAN_WRITE,
        .weight = 500,
        .left = 0, /* not asked in version 1 */
        .expiry = 3000,
    };
    guvrendik_granted granted = guvrendik_grant(r, claim, a.now);
    demand(granted.accepted == 1 && granted.refusal == 0, "the keeper's claim passes WRITE on");
    r = granted.state;
    printf("claims=%zu\n", r.claims.count);
    verdict = ask(r, a);
    demand(verdict.decision == GUVRENDIK_DECISION_PERMITTED, "both uses are covered");

    printf("-- the same claim a second time\n");
    granted = guvrendik_grant(r, claim, a.now);
    demand(granted.accepted == 0, "its id stands");
    printf("refusal=%u\n", (unsigned)granted.refusal);

    printf("-- a grant of DELETE that the parent lacks\n");
    claim.id = 4;
    claim.rights = GUVRENDIK_CAN_DELETE;
    granted = guvrendik_grant(r, claim, a.now);
    demand(granted.accepted == 0 && granted.state.claims.count == 3, "refused, and the register as it was");
    printf("refusal=%u\n", (unsigned)granted.refusal);

    printf("-- a plan: the action, a flagged one, the action\n");
    guvrendik_plan plan = {.actions = {a, a, a}, .count = 3};
    plan.actions[1].flags = GUVRENDIK_SETS_DECEIVES;
    guvrendik_plan_verdict judged = guvrendik_judge_plan(r, plan);
    demand(judged.accepted == 1 && judged.count == 3, "the plan is judged");
    for (size_t i = 0; i < judged.count; i++) {
        printf("decision=%u violations=%u\n", (unsigned)judged.list[i].decision, (unsigned)judged.list[i].violations);
    }

    printf("-- the machine revokes a claim that it did not grant\n");
    guvrendik_revoked revoked = guvrendik_revoke(r, 2, 3);
    demand(revoked.accepted == 0 && revoked.removed == 0, "it is no grantor on the chain");
    printf("refusal=%u\n", (unsigned)revoked.refusal);

    printf("-- the keeper revokes claim 2\n");
    revoked = guvrendik_revoke(r, 1, 2);
    demand(revoked.accepted == 1, "the keeper granted it");
    r = revoked.state;
    printf("removed=%zu\n", revoked.removed);
    verdict = ask(r, a);
    demand(verdict.decision == GUVRENDIK_DECISION_REFUSED, "READ is gone");

    printf("-- the register's text\n");
    print_text(r);

    printf("-- the keeper revokes claim 1, and all that hangs from it\n");
    revoked = guvrendik_revoke(r, 1, 1);
    demand(revoked.accepted == 1 && revoked.state.claims.count == 0, "nothing is left");
    printf("removed=%zu\n", revoked.removed);

    const char *outer = "site/a", *inner = "site/ab";
    demand(guvrendik_contains((const uint8_t *)outer, strlen(outer), (const uint8_t *)inner, strlen(inner)).contained == 0,
           "site/ab does not lie in site/a");
    demand(fflush(stdout) == 0, "output");
    return 0;
}
