/* Nothing but the answer is in an answer. The fields of every struct that crosses, as tests/model/layout.h has them, come to its size: no byte
 * stands between or behind them. And every call is made twice, on a stack that was filled with other bytes, into a struct that held other
 * bytes: no byte of the two answers differs, also where the call is refused. Prints a line to a failure, how many bytes differ, and 'N passed,
 * M failed'. */
#include "guvrendik.h"

#include <stdio.h>
#include <string.h>

#define CLAIMS (GUVRENDIK_LIMIT_CLAIMS - 1)

static unsigned passed, failed;
static size_t differing;

static void count(int held, const char *what, size_t bytes) {
    if (held) {
        passed++;
    } else {
        failed++;
        printf("failed: %s, %zu bytes\n", what, bytes);
    }
}

/* ---- Fields ---- */

static const char *struct_name;
static size_t struct_size, fields_size;

static void end_of_struct(void) {
    if (struct_name != NULL) count(fields_size == struct_size, struct_name, struct_size - fields_size);
    fields_size = 0;
}

static void add_fields(void) {
#define SIZE(name, bytes) end_of_struct(), struct_name = "gaps in guvrendik_" #name, struct_size = sizeof(guvrendik_##name);
#define FIELD(name, field, offset) fields_size += sizeof(((guvrendik_##name *)0)->field);
#include "layout.h"
#undef SIZE
#undef FIELD
    end_of_struct();
}

/* ---- Answers ---- */

/* Leaves the byte all over the stack that the next call is made on. */
static __attribute__((noinline)) void paint(unsigned char byte) {
    volatile unsigned char stack[400000];
    for (size_t i = 0; i < sizeof stack; i++) stack[i] = byte;
}

static void compare(const char *what, const void *one, const void *two, size_t size) {
    const unsigned char *first = (const unsigned char *)one, *second = (const unsigned char *)two;
    size_t differ = 0;
    for (size_t i = 0; i < size; i++) differ += first[i] != second[i];
    differing += differ;
    count(differ == 0, what, differ);
}

/* The call twice, whose answer has a field with this value. */
#define TWICE(type, call, field, value) \
    do { \
        static type one, two; \
        memset(&one, 0x11, sizeof one); \
        memset(&two, 0xEE, sizeof two); \
        paint(0xAA); \
        one = call; \
        paint(0x55); \
        two = call; \
        compare(#call, &one, &two, sizeof one); \
        count(one.field == (value), #call ": " #field, 0); \
    } while (0)

static guvrendik_register state, second, unsound;
static guvrendik_claim claim, wide, table[GUVRENDIK_LIMIT_CLAIMS + 1];
static guvrendik_action action, uncovered, absent;
static guvrendik_plan plan, long_plan;
static guvrendik_book book, bad_book;
static guvrendik_fingerprint print;
static guvrendik_usage use = {1, GUVRENDIK_RIGHT_WRITE};
static guvrendik_signers signers = {{1}, 1};
static guvrendik_proposal proposal, none = {.kind = GUVRENDIK_PROPOSES_NONE};
static uint8_t register_text[GUVRENDIK_TEXT_REGISTER], second_text[GUVRENDIK_TEXT_REGISTER], json_text[GUVRENDIK_TEXT_JSON];
static uint8_t buffer[GUVRENDIK_TEXT_REGISTER];
static size_t register_length, second_length, json_length;
static const uint8_t action_text[] = "now=1\nactor=1\nflags=0\nuses=1\nuse=1\nright=0\ngoverns=0\n", path[] = "site/a/b";
static const uint8_t plan_text[] = "plan=2\nstep=action\nnow=1\nactor=1\nflags=0\nuses=1\nuse=1\nright=0\ngoverns=0\n"
                                   "step=plan\nplan=1\nstep=action\nnow=1\nactor=2\nflags=1\nuses=0\ngoverns=0\n";
enum { ACTION_LENGTH = sizeof action_text - 1, PLAN_LENGTH = sizeof plan_text - 1 };

/* Actor 1 keeps every resource; claims come in pairs, a root and one drawn from it by actor 2. */
static void fill(guvrendik_register *r, uint64_t version) {
    guvrendik_begin(r, version);
    for (uint32_t i = 1; i <= GUVRENDIK_LIMIT_ACTORS; i++) guvrendik_put_actor(r, i, GUVRENDIK_ACTOR_HUMAN, 0);
    for (uint32_t i = 1; i <= GUVRENDIK_LIMIT_RESOURCES; i++) guvrendik_put_resource(r, i, i % 2, 1, path, i % 9);
    for (uint32_t i = 1; i <= CLAIMS; i++) {
        guvrendik_claim c = {.id = i, .grantor = 1, .holder = 2, .resource = 1 + i / 2 % GUVRENDIK_LIMIT_RESOURCES, .rights = 17, .weight = 1};
        c.left = GUVRENDIK_MAX_LEFT;
        c.expiry = i % 3;
        if (i % 2 == 1 && i > 1) c.parent = i - 1, c.grantor = 2, c.holder = 3, c.left = 5;
        guvrendik_put_claim(r, c);
    }
}

static void prepare(void) {
    fill(&state, GUVRENDIK_REGISTER_1);
    fill(&second, GUVRENDIK_REGISTER_2);
    unsound = state;
    unsound.version = 0;
    claim = state.claims.list[1];
    claim.id = GUVRENDIK_LIMIT_CLAIMS;
    wide = claim;
    wide.weight = GUVRENDIK_MAX_WEIGHT + 1;
    action.actor = absent.actor = 1;
    action.used = 1;
    action.uses[0] = (guvrendik_usage){1, GUVRENDIK_RIGHT_READ};
    uncovered = action;
    uncovered.uses[0].resource = GUVRENDIK_MAX_ID;
    absent.actor = GUVRENDIK_MAX_ID;
    proposal.kind = GUVRENDIK_PROPOSES_GRANT;
    proposal.claim = (guvrendik_claim){.id = GUVRENDIK_LIMIT_CLAIMS, .grantor = 1, .holder = 1, .resource = 1, .rights = 2, .weight = 1};
    plan.count = 3;
    plan.actions[0] = action;
    plan.actions[1] = plan.actions[2] = uncovered;
    long_plan = plan;
    long_plan.count = GUVRENDIK_LIMIT_ACTIONS + 1;
    book.count = 1;
    book.entries[0].resource = 2;
    memset(print.bytes, 7, sizeof print.bytes);
    bad_book.count = GUVRENDIK_LIMIT_ENTRIES + 1;
    register_length = guvrendik_write_register(state, register_text, sizeof register_text).length;
    second_length = guvrendik_write_register(second, second_text, sizeof second_text).length;
    json_length = guvrendik_write_json(action, path, 8, 0, json_text, sizeof json_text).length;
}

static void changes(void) {
    TWICE(guvrendik_soundness, guvrendik_sound(state), sound, 1);
    TWICE(guvrendik_soundness, guvrendik_sound(unsound), sound, 0);
    TWICE(guvrendik_soundness, guvrendik_sound_table(second.claims.list, CLAIMS, 2, state.actors, state.resources), sound, 1);
    TWICE(guvrendik_soundness, guvrendik_sound_table(second.claims.list, CLAIMS, 3, state.actors, state.resources), sound, 0);
    TWICE(guvrendik_soundness, guvrendik_sound_table(table, GUVRENDIK_LIMIT_CLAIMS + 1, 1, state.actors, state.resources), sound, 0);
    TWICE(guvrendik_soundness, guvrendik_sound_lent((const uint8_t *)&second, sizeof second), sound, 1);
    TWICE(guvrendik_soundness, guvrendik_sound_lent((const uint8_t *)&unsound, sizeof unsound), sound, 0);
    TWICE(guvrendik_soundness, guvrendik_sound_lent((const uint8_t *)&state, sizeof state - 1), sound, 0);
    TWICE(guvrendik_granted, guvrendik_grant(state, claim, 0), refusal, 0);
    TWICE(guvrendik_granted, guvrendik_grant(second, claim, 0), refusal, 0);
    TWICE(guvrendik_granted, guvrendik_grant(second, wide, 0), refusal, GUVRENDIK_REFUSAL_RANGE);
    TWICE(guvrendik_granted, guvrendik_grant(unsound, claim, 0), refusal, GUVRENDIK_REFUSAL_UNSOUND);
    TWICE(guvrendik_revoked, guvrendik_revoke(state, 1, 2), removed, 2);
    TWICE(guvrendik_revoked, guvrendik_revoke(second, 1, 2), removed, 2);
    TWICE(guvrendik_revoked, guvrendik_revoke(state, 1, 0), refusal, GUVRENDIK_REFUSAL_NO_CLAIM);
    TWICE(guvrendik_revoked, guvrendik_clear_resource(second, 1, 2), refusal, 0);
    TWICE(guvrendik_revoked, guvrendik_clear_resource(state, 2, 2), refusal, GUVRENDIK_REFUSAL_NO_GRANTOR);
    TWICE(guvrendik_revoked, guvrendik_clear_expired(second, 2, 1), refusal, 0);
    TWICE(guvrendik_revoked, guvrendik_clear_expired(state, 2, UINT64_MAX), refusal, GUVRENDIK_REFUSAL_RANGE);
}

static void verdicts(void) {
    TWICE(guvrendik_verdict, guvrendik_gate(state, action), decision, GUVRENDIK_DECISION_PERMITTED);
    TWICE(guvrendik_verdict, guvrendik_gate(second, uncovered), decision, GUVRENDIK_DECISION_REFUSED);
    TWICE(guvrendik_verdict, guvrendik_gate(state, absent), decision, GUVRENDIK_DECISION_STOPPED);
    TWICE(guvrendik_verdict, guvrendik_gate_lent((const uint8_t *)&state, sizeof state, action), decision, GUVRENDIK_DECISION_PERMITTED);
    TWICE(guvrendik_verdict, guvrendik_gate_lent((const uint8_t *)&second, sizeof second, uncovered), decision, GUVRENDIK_DECISION_REFUSED);
    TWICE(guvrendik_verdict, guvrendik_gate_lent((const uint8_t *)&state, sizeof state - 1, action), refusal, GUVRENDIK_REFUSAL_UNSOUND);
    TWICE(guvrendik_proposed, guvrendik_propose(second, 1, use, 0, signers), proposal.kind, GUVRENDIK_PROPOSES_GRANT);
    TWICE(guvrendik_proposed, guvrendik_propose(unsound, 1, use, 0, signers), refusal, GUVRENDIK_REFUSAL_UNSOUND);
    TWICE(guvrendik_checked, guvrendik_check_proposal(second, 1, use, 0, signers, proposal), answer, GUVRENDIK_CHECK_PASSES);
    TWICE(guvrendik_checked, guvrendik_check_proposal(state, 1, use, 0, signers, none), answer, GUVRENDIK_CHECK_FAILS);
    TWICE(guvrendik_checked, guvrendik_check_proposal(unsound, 1, use, 0, signers, none), refusal, GUVRENDIK_REFUSAL_UNSOUND);
    TWICE(guvrendik_plan_verdict, guvrendik_judge_plan(second, plan), count, 3);
    TWICE(guvrendik_plan_verdict, guvrendik_judge_plan(state, long_plan), refusal, GUVRENDIK_REFUSAL_RANGE);
    TWICE(guvrendik_plan_verdict, guvrendik_judge_plan_lent((const uint8_t *)&second, sizeof second, plan), count, 3);
    TWICE(guvrendik_plan_verdict, guvrendik_judge_plan_lent((const uint8_t *)&state, sizeof state + 1, plan), refusal, GUVRENDIK_REFUSAL_UNSOUND);
    TWICE(guvrendik_verdict, guvrendik_plain_gate(state, action), decision, GUVRENDIK_DECISION_PERMITTED);
    TWICE(guvrendik_verdict, guvrendik_plain_gate(second, uncovered), decision, GUVRENDIK_DECISION_REFUSED);
    TWICE(guvrendik_verdict, guvrendik_plain_gate(state, absent), decision, GUVRENDIK_DECISION_STOPPED);
    TWICE(guvrendik_plan_verdict, guvrendik_plain_plan(second, plan), count, 3);
    TWICE(guvrendik_plan_verdict, guvrendik_plain_plan(state, long_plan), refusal, GUVRENDIK_REFUSAL_RANGE);
    TWICE(guvrendik_table, guvrendik_cover_table(second, 2, 0), refusal, 0);
    TWICE(guvrendik_table, guvrendik_cover_table(state, 1, UINT64_C(1) << 32), refusal, GUVRENDIK_REFUSAL_RANGE);
    TWICE(guvrendik_table, guvrendik_cover_table(unsound, 1, 0), refusal, GUVRENDIK_REFUSAL_UNSOUND);
    TWICE(guvrendik_plan_text_verdict, guvrendik_judge_plan_text(second, plan_text, PLAN_LENGTH), count, 2);
    TWICE(guvrendik_plan_text_verdict, guvrendik_judge_plan_text(state, plan_text, PLAN_LENGTH - 1), refusal, GUVRENDIK_REFUSAL_FORM);
    TWICE(guvrendik_containment, guvrendik_contains(path, 6, path, 8), contained, 1);
    TWICE(guvrendik_containment, guvrendik_contains(path, 3, path, 8), contained, 0);
}

static void books(void) {
    TWICE(guvrendik_attached, guvrendik_attach(book, state, 2, 1, 0, print), refusal, GUVRENDIK_REFUSAL_NOT_PERMITTED);
    TWICE(guvrendik_attached, guvrendik_attach(bad_book, second, 1, 1, 0, print), refusal, GUVRENDIK_REFUSAL_BAD_BOOK);
    TWICE(guvrendik_fetched, guvrendik_fetch(book, state, 1, 1, 0), refusal, GUVRENDIK_REFUSAL_NO_ENTRY);
    TWICE(guvrendik_fetched, guvrendik_fetch(book, second, 2, 2, 0), refusal, 0);
    TWICE(guvrendik_fetched, guvrendik_fetch(book, unsound, 1, 1, 0), refusal, GUVRENDIK_REFUSAL_UNSOUND);
}

static void faults(void) {
    TWICE(guvrendik_fault, guvrendik_why_unsound(state), sound, 1);
    TWICE(guvrendik_fault, guvrendik_why_unsound(unsound), sound, 0);
    TWICE(guvrendik_fault, guvrendik_why_unread(second_text, second_length), sound, 1);
    TWICE(guvrendik_fault, guvrendik_why_unread(register_text, register_length / 2), why, GUVRENDIK_REFUSAL_FORM);
}

static void whys(void) {
    TWICE(guvrendik_holders, guvrendik_who(state, use, 0), accepted, 1);
    TWICE(guvrendik_holders, guvrendik_who(second, use, 0), accepted, 1);
    TWICE(guvrendik_holders, guvrendik_who(unsound, use, 0), refusal, GUVRENDIK_REFUSAL_UNSOUND);
    TWICE(guvrendik_use_reason, guvrendik_why_use(state, 1, use, 0), accepted, 1);
    TWICE(guvrendik_use_reason, guvrendik_why_use(second, 2, use, 0), accepted, 1);
    TWICE(guvrendik_use_reason, guvrendik_why_use(unsound, 1, use, 0), refusal, GUVRENDIK_REFUSAL_UNSOUND);
}

static void texts(void) {
    TWICE(guvrendik_register_read, guvrendik_read_register(register_text, register_length), refusal, 0);
    TWICE(guvrendik_register_read, guvrendik_read_register(second_text, second_length), refusal, 0);
    TWICE(guvrendik_register_read, guvrendik_read_register(register_text, register_length / 2), refusal, GUVRENDIK_REFUSAL_FORM);
    TWICE(guvrendik_register_read, guvrendik_read_register(register_text, 1), refusal, GUVRENDIK_REFUSAL_FORM);
    TWICE(guvrendik_written, guvrendik_write_register(second, buffer, sizeof buffer), refusal, 0);
    TWICE(guvrendik_written, guvrendik_write_register(state, buffer, 1), refusal, GUVRENDIK_REFUSAL_BUFFER);
    TWICE(guvrendik_action_read, guvrendik_read_action(action_text, ACTION_LENGTH), refusal, 0);
    TWICE(guvrendik_action_read, guvrendik_read_action(action_text, ACTION_LENGTH - 1), refusal, GUVRENDIK_REFUSAL_FORM);
    TWICE(guvrendik_written, guvrendik_verdict_text(second_text, second_length, action_text, ACTION_LENGTH, buffer, sizeof buffer), refusal, 0);
    TWICE(guvrendik_written, guvrendik_verdict_text(path, 1, path, 1, buffer, 1), refusal, GUVRENDIK_REFUSAL_BUFFER);
    TWICE(guvrendik_written, guvrendik_json_verdict_text(register_text, register_length, action_text, 6, json_text, json_length, buffer, 40), refusal, 0);
    TWICE(guvrendik_written, guvrendik_plan_verdict_text(second_text, second_length, plan_text, PLAN_LENGTH, buffer, sizeof buffer), refusal, 0);
    TWICE(guvrendik_written, guvrendik_plan_verdict_text(path, 1, path, 1, buffer, 1), refusal, GUVRENDIK_REFUSAL_BUFFER);
    TWICE(guvrendik_json_read, guvrendik_read_json(json_text, json_length, 1), refusal, 0);
    TWICE(guvrendik_json_read, guvrendik_read_json(json_text, json_length - 1, 1), refusal, GUVRENDIK_REFUSAL_JSON_FORM);
    TWICE(guvrendik_written, guvrendik_write_json(action, path, 8, 0, buffer, sizeof buffer), refusal, 0);
    TWICE(guvrendik_written, guvrendik_write_json(action, path, 8, 17, buffer, sizeof buffer), refusal, GUVRENDIK_REFUSAL_RANGE);
    TWICE(guvrendik_written, guvrendik_refusal_text(15, buffer, sizeof buffer), refusal, 0);
    TWICE(guvrendik_written, guvrendik_violation_text(4, buffer, 1), refusal, GUVRENDIK_REFUSAL_BUFFER);
    TWICE(guvrendik_written, guvrendik_right_name(0, buffer, sizeof buffer), refusal, 0);
    TWICE(guvrendik_written, guvrendik_flag_name(0, buffer, sizeof buffer), refusal, 0);
    TWICE(guvrendik_version_numbers, guvrendik_version(), major, GUVRENDIK_VERSION_MAJOR);
}

int main(void) {
    add_fields();
    prepare();
    changes();
    verdicts();
    books();
    faults();
    whys();
    texts();
    printf("%zu bytes differ between answers on two stacks\n", differing);
    printf("%u passed, %u failed\n", passed, failed);
    return failed != 0;
}
