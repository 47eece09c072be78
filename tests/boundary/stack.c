/* Measures the stack that each twin needs on full inputs (full.h) of either version, that of the three calls whose twins lend the
 * register, and that of the two which print the verdicts on a JSON action and on a plan's text. Each may take what the header says of the call; said.h has its figures, SAID_name. Prints a line to each,
 * and 'N passed, M failed'. */
#define _GNU_SOURCE
#include "full.h"
#include "said.h"

#include <stdlib.h>
#include <ucontext.h>

static uint8_t lines[GUVRENDIK_TEXT_REGISTER];
static size_t register_length;

/* TWIN(name, type of the answer, what the twin is given behind the place of the answer). */
#define TWIN(name, type, ...)                                                                                                             \
    static type answer_##name;                                                                                                            \
    static void twin_##name(void) { guvrendik_##name##_at(&answer_##name, __VA_ARGS__); }

TWIN(sound, guvrendik_soundness, &state)
TWIN(sound_table, guvrendik_soundness, state.claims.list, CLAIMS, state.version, &state.actors, &state.resources)
TWIN(sound_lent, guvrendik_soundness, (const uint8_t *)&state, sizeof state)
TWIN(gate_lent, guvrendik_verdict, (const uint8_t *)&state, sizeof state, &action)
TWIN(judge_plan_lent, guvrendik_plan_verdict, (const uint8_t *)&state, sizeof state, &plan)
TWIN(grant, guvrendik_granted, &state, &claim, 1)
TWIN(revoke, guvrendik_revoked, &state, 1, 1)
TWIN(clear_resource, guvrendik_revoked, &state, 1, 1)
TWIN(clear_expired, guvrendik_revoked, &state, 1, 1)
TWIN(gate, guvrendik_verdict, &state, &action)
TWIN(propose, guvrendik_proposed, &state, 1, &use, 1, &signers)
TWIN(check_proposal, guvrendik_checked, &state, 1, &use, 1, &signers, &proposal)
TWIN(judge_plan, guvrendik_plan_verdict, &state, &plan)
TWIN(plain_gate, guvrendik_verdict, &state, &action)
TWIN(plain_plan, guvrendik_plan_verdict, &state, &plan)
TWIN(cover_table, guvrendik_table, &state, 1, 1)
TWIN(attach, guvrendik_attached, &book, &state, 1, 1, 1, &print)
TWIN(fetch, guvrendik_fetched, &answer_attach.book, &state, 1, 1, 1)
TWIN(why_unsound, guvrendik_fault, &broken)
TWIN(why_unread, guvrendik_fault, broken_text, broken_length)
TWIN(who, guvrendik_holders, &state, &use, 1)
TWIN(why_use, guvrendik_use_reason, &state, 1, &use, 1)
TWIN(contains, guvrendik_containment, register_text, 64, register_text, 64)
TWIN(read_register, guvrendik_register_read, register_text, register_length)
TWIN(write_register, guvrendik_written, &state, lines, sizeof lines)
TWIN(read_action, guvrendik_action_read, action_text, action_length)
TWIN(judge_plan_text, guvrendik_plan_text_verdict, &state, plan_text, plan_length)
TWIN(verdict_text, guvrendik_written, register_text, register_length, action_text, action_length, lines, sizeof lines)
TWIN(json_verdict_text, guvrendik_written, register_text, register_length, clock_text, CLOCK_LENGTH, json_text, json_length, lines,
     sizeof lines)
TWIN(plan_verdict_text, guvrendik_written, register_text, register_length, plan_text, plan_length, lines, sizeof lines)
TWIN(read_json, guvrendik_json_read, json_text, json_length, 1)
TWIN(write_json, guvrendik_written, &action, NULL, 0, 0, lines, sizeof lines)
TWIN(refusal_text, guvrendik_written, UINT32_MAX, lines, sizeof lines)
TWIN(violation_text, guvrendik_written, UINT32_MAX, lines, sizeof lines)
TWIN(right_name, guvrendik_written, UINT32_MAX, lines, sizeof lines)
TWIN(flag_name, guvrendik_written, UINT32_MAX, lines, sizeof lines)
static guvrendik_version_numbers answer_version;
static void twin_version(void) { guvrendik_version_at(&answer_version); }

/* The twins of these three lend the register: by value it is copied. */
static void call_sound(void) { answer_sound = guvrendik_sound(state); }

static void call_gate(void) { answer_gate = guvrendik_gate(state, action); }

static void call_judge_plan(void) { answer_judge_plan = guvrendik_judge_plan(state, plan); }

static void call_json_verdict_text(void) {
    answer_json_verdict_text = guvrendik_json_verdict_text(register_text, register_length, clock_text, CLOCK_LENGTH, json_text,
                                                           json_length, lines, sizeof lines);
}

static void call_plan_verdict_text(void) {
    answer_plan_verdict_text =
        guvrendik_plan_verdict_text(register_text, register_length, plan_text, plan_length, lines, sizeof lines);
}

static void no_call(void) {}

/* How far below the top of a fresh stack a function wrote, in a context of its own. */
static size_t stack_of(void (*body)(void)) {
    enum { STACK_SIZE = 1 << 20, PAINT = 0xA5 };
    static uint8_t stack[STACK_SIZE] __attribute__((aligned(4096)));
    static ucontext_t here, there;
    size_t untouched = 0;
    memset(stack, PAINT, STACK_SIZE);
    if (getcontext(&there) != 0) exit(1);
    there.uc_stack.ss_sp = stack;
    there.uc_stack.ss_size = STACK_SIZE;
    there.uc_link = &here;
    makecontext(&there, body, 0);
    if (swapcontext(&here, &there) != 0) exit(1);
    while (untouched < STACK_SIZE && stack[untouched] == PAINT) untouched++;
    return STACK_SIZE - untouched;
}

#define TWIN_ROW(name) {"guvrendik_" #name "_at", twin_##name, SAID_##name}
static const struct {
    const char *name;
    void (*body)(void);
    size_t most;
} rows[] = {
    TWIN_ROW(sound), TWIN_ROW(sound_table), TWIN_ROW(grant), TWIN_ROW(revoke), TWIN_ROW(clear_resource), TWIN_ROW(clear_expired), TWIN_ROW(gate), TWIN_ROW(propose), TWIN_ROW(check_proposal),
    TWIN_ROW(judge_plan), TWIN_ROW(plain_gate), TWIN_ROW(plain_plan), TWIN_ROW(cover_table), TWIN_ROW(attach), TWIN_ROW(fetch), TWIN_ROW(why_unsound), TWIN_ROW(why_unread), TWIN_ROW(who), TWIN_ROW(why_use), TWIN_ROW(contains), TWIN_ROW(read_register), TWIN_ROW(write_register), TWIN_ROW(read_action),
    TWIN_ROW(judge_plan_text), TWIN_ROW(verdict_text), TWIN_ROW(json_verdict_text), TWIN_ROW(plan_verdict_text), TWIN_ROW(read_json),
    TWIN_ROW(write_json), TWIN_ROW(refusal_text), TWIN_ROW(violation_text), TWIN_ROW(right_name), TWIN_ROW(flag_name), TWIN_ROW(version),
    TWIN_ROW(sound_lent), TWIN_ROW(gate_lent), TWIN_ROW(judge_plan_lent),
    {"guvrendik_sound", call_sound, SAID_sound},
    {"guvrendik_gate", call_gate, SAID_gate},
    {"guvrendik_judge_plan", call_judge_plan, SAID_judge_plan},
    {"guvrendik_json_verdict_text", call_json_verdict_text, SAID_json_verdict_text},
    {"guvrendik_plan_verdict_text", call_plan_verdict_text, SAID_plan_verdict_text},
};
enum { ROWS = sizeof rows / sizeof *rows };

int main(void) {
    size_t most[ROWS] = {0}, idle = stack_of(no_call);
    unsigned passed = 0, failed = 0;
    fill_actions();
    for (uint64_t version = GUVRENDIK_REGISTER_1; version <= GUVRENDIK_REGISTER_2; version++) {
        fill_register(version);
        fill_broken();
        register_length = guvrendik_write_register(state, register_text, sizeof register_text).length;
        for (size_t i = 0; i < ROWS; i++) {
            size_t used = stack_of(rows[i].body) - idle;
            if (used > most[i]) most[i] = used;
        }
    }
    for (size_t i = 0; i < ROWS; i++) {
        printf("stack of %s: %zu bytes of %zu\n", rows[i].name, most[i], rows[i].most);
        if (most[i] <= rows[i].most) {
            passed++;
        } else {
            failed++;
        }
    }
    printf("%u passed, %u failed\n", passed, failed);
    return failed != 0;
}
