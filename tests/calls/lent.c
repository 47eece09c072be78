/* Registers lent as the bytes of their struct: a line to a call. Each is lent where it stands and one byte further on, where it is not aligned, with
 * the same answer, and a word more where a lent byte changed.
 *
 * What is expected comes from 01, "The register" and "The gate", as in soundness.c, gate.c and plans.c; bytes of another length than a register's
 * are a register that is not sound, which is refused with 1. */
#include "calls.h"

enum { SIZE = sizeof(Register) };

static uint8_t room[SIZE + 2], before[SIZE + 2];

/* The bytes of the register at a place of the room, with other bytes around them. */
static const uint8_t *lend(Register r, size_t at) {
    memset(room, 0xA5, sizeof room);
    memcpy(room + at, &r, SIZE);
    memcpy(before, room, sizeof room);
    return room + at;
}

static const char *kept(void) {
    return memcmp(before, room, sizeof room) == 0 ? "" : " changed";
}

static void sound_line(const char *label, Register r, size_t length) {
    unsigned there = guvrendik_sound_lent(lend(r, 0), length).sound;
    const char *first = kept();
    unsigned further = guvrendik_sound_lent(lend(r, 1), length).sound;
    printf("lent: %s=%u%s%s%s\n", label, there, there == further ? "" : " moved", first, kept());
}

static void gate_line(const char *label, Register r, size_t length, Action a) {
    guvrendik_verdict there = guvrendik_gate_lent(lend(r, 0), length, a), further = guvrendik_gate_lent(lend(r, 1), length, a);
    int same = memcmp(&there, &further, sizeof there) == 0;
    printf("lent gate: %s: decision=%u refusal=%u violations=%zu hops=%zu%s%s\n", label, there.decision, there.refusal, there.count,
           there.hops[0], same ? "" : " moved", kept());
}

static void plan_line(const char *label, Register r, size_t length, Plan p) {
    guvrendik_plan_verdict there = guvrendik_judge_plan_lent(lend(r, 0), length, p),
                           further = guvrendik_judge_plan_lent(lend(r, 1), length, p);
    int same = memcmp(&there, &further, sizeof there) == 0;
    printf("lent plan: %s: refusal=%u position=%zu verdicts=%zu%s%s\n", label, there.refusal, there.position, there.count,
           same ? "" : " moved", kept());
}

static Register of_version(Register r, uint64_t version) {
    r.version = version;
    return r;
}

static void soundness(void) {
    Register r = base();
    sound_line("sound", r, SIZE);
    sound_line("sound without actors, resources and claims", empty(), SIZE);
    sound_line("one byte less", r, SIZE - 1);
    sound_line("one byte more", r, SIZE + 1);
    sound_line("no bytes", r, 0);
    printf("lent: no bytes at NULL=%u\n", guvrendik_sound_lent(NULL, 0).sound);
    sound_line("version 0", of_version(r, 0), SIZE);
    sound_line("version 2^32 + 1 is not 1", of_version(r, UINT64_C(4294967297)), SIZE);
    sound_line("version 2^56 is not 1", of_version(r, UINT64_C(72057594037927936)), SIZE);
    sound_line("65 actors", with_counts(r, 65, 2, 5), SIZE);
    sound_line("a count of 2^64 - 1 resources", with_counts(r, 5, UINT64_MAX, 5), SIZE);
    sound_line("a count of 2^64 - 1 claims", with_counts(r, 5, 2, UINT64_MAX), SIZE);
    sound_line("id 2^24 is not 1", with_claim(r, 5, claim(16777216, 2, 2, 5, 1)), SIZE);
    sound_line("expiry 2^32", with_claim(r, 5, expiring(UINT64_C(4294967296), claim(6, 2, 2, 5, 1))), SIZE);
    sound_line("sound expiry 2^32 - 1", with_claim(r, 5, expiring(UINT64_C(4294967295), claim(6, 2, 2, 5, 1))), SIZE);
    Register full = r;
    memset(full.actors.list + r.actors.count, 0xFF, sizeof full.actors.list - r.actors.count * sizeof *full.actors.list);
    memset(full.resources.list + r.resources.count, 0xFF, sizeof full.resources.list - r.resources.count * sizeof *full.resources.list);
    memset(full.claims.list + r.claims.count, 0xFF, sizeof full.claims.list - r.claims.count * sizeof *full.claims.list);
    sound_line("sound with other bytes past the counts", full, SIZE);
}

static void gate(void) {
    Register r = base();
    Action a = using(action(1, 0), 10, GUVRENDIK_RIGHT_READ), none = using(action(1, 0), 99, GUVRENDIK_RIGHT_READ);
    gate_line("permitted", r, SIZE, a);
    gate_line("by a claim of two hops", r, SIZE, using(action(3, 1999), 10, GUVRENDIK_RIGHT_READ));
    gate_line("by it at its expiry", r, SIZE, using(action(3, 2000), 10, GUVRENDIK_RIGHT_READ));
    gate_line("no such resource", r, SIZE, none);
    gate_line("actor absent", r, SIZE, using(action(99, 0), 10, GUVRENDIK_RIGHT_READ));
    gate_line("actor out of range", r, SIZE, action(65536, 0));
    gate_line("not sound", of_version(r, 0), SIZE, a);
    gate_line("one byte less", r, SIZE - 1, a);
    gate_line("one byte more, actor out of range", r, SIZE + 1, action(65536, 0));
}

static void plan(void) {
    Register r = base();
    Action a = using(action(1, 0), 10, GUVRENDIK_RIGHT_READ);
    plan_line("three actions", r, SIZE, alike(a, 3));
    plan_line("no actions", r, SIZE, alike(a, 0));
    plan_line("the second's actor absent", r, SIZE, replacing(alike(a, 3), 1, action(99, 0)));
    Plan many = alike(a, 16);
    many.count = 17;
    plan_line("17 actions", r, SIZE, many);
    plan_line("not sound, 17 actions", of_version(r, 0), SIZE, many);
    plan_line("one byte less", r, SIZE - 1, alike(a, 3));
    plan_line("no bytes", r, 0, alike(a, 3));
}

void lent_lines(void) {
    soundness();
    gate();
    plan();
}
