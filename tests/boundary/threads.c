/* Makes every call that takes or answers a register or its text, by value and by its twin, in a thread of 128 KB of stack, which is what musl
 * gives a thread by itself, and those that are lent the register in one of 64 KB, on full inputs (full.h) of either version; the caller's structs
 * stand in static memory. A call that needs more ends the program by a signal. Prints a line to a failure and 'N passed, M failed'. */
#define _GNU_SOURCE
#include "full.h"

#include <pthread.h>
#include <stdbool.h>
#include <stdlib.h>
#include <sys/mman.h>

#define THREAD_STACK (128 * 1024)
#define LENT_STACK (64 * 1024)
#define BELOW (1024 * 1024)

static unsigned passed, failed;

static void expect(bool held, const char *what) {
    if (held) {
        passed++;
    } else {
        failed++;
        printf("failed: %s\n", what);
    }
}

static uint8_t verdict_lines[GUVRENDIK_TEXT_VERDICT], json_lines[GUVRENDIK_TEXT_VERDICT], plan_lines[GUVRENDIK_TEXT_PLAN_VERDICT];

static const uint8_t *lent;

/* CALL(name, type of the answer, what the call is given, what the twin is given behind the place of the answer): name is the answer by value,
 * name_at that of the twin, and call_name and twin_name make them. */
#define CALL(name, type, given, ...)                                                                                                      \
    static type name, name##_at;                                                                                                          \
    static void *call_##name(void *unused) { return name = guvrendik_##name given, unused; }                                              \
    static void *twin_##name(void *unused) { return guvrendik_##name##_at(&name##_at, __VA_ARGS__), unused; }

CALL(sound, guvrendik_soundness, (state), &state)
CALL(sound_table, guvrendik_soundness, (state.claims.list, CLAIMS, state.version, state.actors, state.resources), state.claims.list, CLAIMS,
     state.version, &state.actors, &state.resources)
CALL(sound_lent, guvrendik_soundness, (lent, sizeof state), lent, sizeof state)
CALL(grant, guvrendik_granted, (state, claim, 1), &state, &claim, 1)
CALL(revoke, guvrendik_revoked, (state, 1, 1), &state, 1, 1)
CALL(clear_resource, guvrendik_revoked, (state, 1, 1), &state, 1, 1)
CALL(clear_expired, guvrendik_revoked, (state, 1, 1), &state, 1, 1)
CALL(gate, guvrendik_verdict, (state, action), &state, &action)
CALL(gate_lent, guvrendik_verdict, (lent, sizeof state, action), lent, sizeof state, &action)
CALL(propose, guvrendik_proposed, (state, claim.holder, use, 1, signers), &state, claim.holder, &use, 1, &signers)
CALL(check_proposal, guvrendik_checked, (state, claim.holder, use, 1, signers, proposal), &state, claim.holder, &use, 1, &signers, &proposal)
CALL(judge_plan, guvrendik_plan_verdict, (state, plan), &state, &plan)
CALL(judge_plan_lent, guvrendik_plan_verdict, (lent, sizeof state, plan), lent, sizeof state, &plan)
CALL(plain_gate, guvrendik_verdict, (state, action), &state, &action)
CALL(plain_plan, guvrendik_plan_verdict, (state, plan), &state, &plan)
CALL(cover_table, guvrendik_table, (state, 1, 1), &state, 1, 1)
CALL(attach, guvrendik_attached, (book, state, 1, 1, 1, print), &book, &state, 1, 1, 1, &print)
CALL(fetch, guvrendik_fetched, (attach.book, state, 1, 1, 1), &attach.book, &state, 1, 1, 1)
CALL(why_unsound, guvrendik_fault, (broken), &broken)
CALL(why_unread, guvrendik_fault, (broken_text, broken_length), broken_text, broken_length)
CALL(who, guvrendik_holders, (state, use, 1), &state, &use, 1)
CALL(why_use, guvrendik_use_reason, (state, 1, use, 1), &state, 1, &use, 1)
CALL(judge_plan_text, guvrendik_plan_text_verdict, (state, plan_text, plan_length), &state, plan_text, plan_length)
CALL(write_register, guvrendik_written, (state, register_text, sizeof register_text), &state, register_text, sizeof register_text)
CALL(read_register, guvrendik_register_read, (register_text, write_register.length), register_text, write_register.length)
CALL(read_action, guvrendik_action_read, (action_text, action_length), action_text, action_length)
CALL(verdict_text, guvrendik_written,
     (register_text, write_register.length, action_text, action_length, verdict_lines, sizeof verdict_lines), register_text,
     write_register.length, action_text, action_length, verdict_lines, sizeof verdict_lines)
CALL(json_verdict_text, guvrendik_written,
     (register_text, write_register.length, clock_text, CLOCK_LENGTH, json_text, json_length, json_lines, sizeof json_lines),
     register_text, write_register.length, clock_text, CLOCK_LENGTH, json_text, json_length, json_lines, sizeof json_lines)
CALL(plan_verdict_text, guvrendik_written,
     (register_text, write_register.length, plan_text, plan_length, plan_lines, sizeof plan_lines), register_text,
     write_register.length, plan_text, plan_length, plan_lines, sizeof plan_lines)

/* A copy of the register on pages that cannot be written, its last byte the last of them. */
static void lend(void) {
    enum { PAGES = 64 * 1024 };
    uint8_t *start = mmap(NULL, 2 * PAGES, PROT_READ | PROT_WRITE, MAP_PRIVATE | MAP_ANONYMOUS, -1, 0);
    if (start == MAP_FAILED) {
        puts("failed: the pages");
        exit(1);
    }
    lent = start + PAGES - sizeof state;
    memcpy(start + PAGES - sizeof state, &state, sizeof state);
    if (mprotect(start, PAGES, PROT_READ) != 0 || mprotect(start + PAGES, PAGES, PROT_NONE) != 0) {
        puts("failed: the pages");
        exit(1);
    }
}

/* Of the thread's stack only the uppermost bytes can be written, so many: what needs more is a fault. */
static void in_thread_of(size_t bytes, void *(*call)(void *)) {
    uint8_t *start = mmap(NULL, BELOW + THREAD_STACK, PROT_NONE, MAP_PRIVATE | MAP_ANONYMOUS, -1, 0);
    pthread_attr_t small;
    pthread_t thread;
    if (start == MAP_FAILED || mprotect(start + BELOW + THREAD_STACK - bytes, bytes, PROT_READ | PROT_WRITE) != 0 ||
        pthread_attr_init(&small) != 0 ||
        pthread_attr_setstack(&small, start + BELOW, THREAD_STACK) != 0 || pthread_create(&thread, &small, call, NULL) != 0 ||
        pthread_join(thread, NULL) != 0) {
        puts("failed: a thread");
        exit(1);
    }
    munmap(start, BELOW + THREAD_STACK);
}

/* Makes a call and its twin in a thread of so many bytes: the same answer, and this of it. */
#define MAKE_IN(bytes, name, held, what)                                                                                                  \
    do {                                                                                                                                  \
        in_thread_of(bytes, call_##name);                                                                                                 \
        expect(held, what);                                                                                                               \
        in_thread_of(bytes, twin_##name);                                                                                                 \
        expect(memcmp(&name, &name##_at, sizeof name) == 0, what ", by its twin");                                                        \
    } while (0)
#define MAKE(name, held, what) MAKE_IN(THREAD_STACK, name, held, what)

/* Every call on a register of this version. */
static void call_all(uint64_t version) {
    fill_register(version);
    fill_broken();
    lend();
    MAKE(sound, sound.sound == 1, "the register is sound");
    MAKE(sound_table, sound_table.sound == 1, "its claims are sound as a table");
    MAKE_IN(LENT_STACK, sound_lent, sound_lent.sound == 1, "the register lent is sound");
    MAKE(grant, grant.accepted == 1 && grant.state.claims.count == GUVRENDIK_LIMIT_CLAIMS, "a grant of claim 256 is accepted");
    MAKE(revoke, revoke.accepted == 1 && revoke.removed == 1 && revoke.state.claims.count == CLAIMS - 1, "claim 1 goes alone");
    MAKE(clear_resource, clear_resource.accepted == 1 && clear_resource.removed == 4, "four claims are on resource 1");
    MAKE(clear_expired, clear_expired.accepted == 1 && clear_expired.removed == 0, "no claim has an expiry");
    MAKE(gate, gate.decision == GUVRENDIK_DECISION_PERMITTED && gate.count == 0, "the gate permits what roots cover");
    MAKE_IN(LENT_STACK, gate_lent, memcmp(&gate_lent, &gate, sizeof gate) == 0, "the gate answers the same of the register lent");
    MAKE(propose, propose.accepted == 1 && propose.proposal.kind == GUVRENDIK_PROPOSES_NONE, "what is permitted needs no grant");
    MAKE(check_proposal, check_proposal.answer == GUVRENDIK_CHECK_PASSES, "a grant of what is permitted passes");
    MAKE(judge_plan,
         judge_plan.accepted == 1 && judge_plan.count == GUVRENDIK_LIMIT_ACTIONS &&
             judge_plan.list[GUVRENDIK_LIMIT_ACTIONS - 1].decision == GUVRENDIK_DECISION_PERMITTED,
         "every action of the plan is permitted");
    MAKE_IN(LENT_STACK, judge_plan_lent, memcmp(&judge_plan_lent, &judge_plan, sizeof judge_plan) == 0, "and so of the plan, of the register lent");
    MAKE(plain_gate, memcmp(&plain_gate, &gate, sizeof gate) == 0, "the plain gate answers the same");
    MAKE(plain_plan, memcmp(&plain_plan, &judge_plan, sizeof judge_plan) == 0, "and so of the plan");
    MAKE(cover_table, cover_table.accepted == 1 && cover_table.states[CLAIMS - 1] == GUVRENDIK_REMARK_LIVES, "every claim is remarked on");
    MAKE(attach, attach.accepted == 1 && attach.book.count == GUVRENDIK_LIMIT_ENTRIES, "the last place of the book is taken");
    MAKE(fetch, fetch.accepted == 1 && fetch.fingerprint.bytes[0] == 7, "what was attached is fetched");
    MAKE(why_unsound,
         why_unsound.sound == 0 && why_unsound.why == GUVRENDIK_REFUSAL_NOT_HELD && why_unsound.list == GUVRENDIK_LIST_CLAIMS &&
             why_unsound.place == CLAIMS - 1 && why_unsound.id == CLAIMS,
         "the last claim is told");
    MAKE(why_unread, why_unread.why == GUVRENDIK_REFUSAL_NOT_HELD && why_unread.place == CLAIMS - 1 && why_unread.line == 0,
         "and so of the text");
    MAKE(who, who.accepted == 1 && who.count == 1 && who.ids[0] == 1, "the holder of every root may alone");
    MAKE(why_use, why_use.accepted == 1 && why_use.actor.kind == GUVRENDIK_REASON_RELIES && why_use.actor.chain[0] == 1, "and relies on a root");
    MAKE(judge_plan_text,
         judge_plan_text.accepted == 1 && judge_plan_text.count == GUVRENDIK_LIMIT_TEXT_ACTIONS &&
             judge_plan_text.list[GUVRENDIK_LIMIT_TEXT_ACTIONS - 1].decision == GUVRENDIK_DECISION_PERMITTED,
         "every action of the plan's text is permitted");
    MAKE(write_register, write_register.accepted == 1, "the register is written");
    MAKE(read_register, read_register.accepted == 1 && memcmp(&read_register.state, &state, sizeof state) == 0, "and read again");
    MAKE(read_action, read_action.accepted == 1 && memcmp(&read_action.action, &action, sizeof action) == 0, "the action is read");
    MAKE(verdict_text, verdict_text.accepted == 1 && memcmp(verdict_lines, "verdict=permitted\n", 18) == 0, "the verdict is printed");
    MAKE(json_verdict_text, json_verdict_text.accepted == 1 && memcmp(json_lines, "verdict=permitted\n", 18) == 0,
         "that on the JSON action is");
    MAKE(plan_verdict_text,
         plan_verdict_text.accepted == 1 && memcmp(plan_lines, "plan=judged\nverdicts=64\nverdict=permitted\n", 42) == 0,
         "those on the plan's text are");
}

int main(void) {
    fill_actions();
    call_all(GUVRENDIK_REGISTER_1);
    call_all(GUVRENDIK_REGISTER_2);
    printf("%u passed, %u failed\n", passed, failed);
    return failed != 0;
}
