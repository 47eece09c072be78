/* Words for numbers, and the header's functions that build a register: a line to a call.
 *
 * What is expected of the words comes from 01's table of refusals and list of violations, 02's T-01 for 22 and 23, T-04 for 24 and 25, T-03 for
 * 11, T-07 for 15, T-09 for 18, T-10 for 26 and T-13 for 27 to 30, and from the names of T-04's form. A line `from a to b` stands for every
 * number of the range: its words are the same. */
#include "calls.h"

typedef guvrendik_written (*Words)(uint32_t number, uint8_t *buffer, size_t buffer_len);

/* The words for a number in a buffer that is too long for any: `text` is ended by a zero. */
static void words_for(Words call, uint32_t number, char text[GUVRENDIK_TEXT_WORDS + 1]) {
    memset(text, 0, GUVRENDIK_TEXT_WORDS + 1);
    guvrendik_written w = call(number, (uint8_t *)text, GUVRENDIK_TEXT_WORDS);
    if (w.accepted != 1 || w.refusal != 0 || w.length != strlen(text)) snprintf(text, GUVRENDIK_TEXT_WORDS, "refused with %u", (unsigned)w.refusal);
}

static void one(const char *label, Words call, uint32_t number) {
    char text[GUVRENDIK_TEXT_WORDS + 1];
    words_for(call, number, text);
    printf("%s %u: %s\n", label, (unsigned)number, text);
}

static void first_numbers(const char *label, Words call, uint32_t count) {
    for (uint32_t number = 0; number < count; number++) one(label, call, number);
}

static void alike_from(const char *label, Words call, uint32_t first, uint32_t last) {
    char text[GUVRENDIK_TEXT_WORDS + 1], other[GUVRENDIK_TEXT_WORDS + 1];
    words_for(call, first, text);
    for (uint32_t number = first; number <= last; number++) {
        words_for(call, number, other);
        if (strcmp(text, other) != 0) printf("%s %u: %s\n", label, (unsigned)number, other);
    }
    printf("%s from %u to %u: %s\n", label, (unsigned)first, (unsigned)last, text);
    one(label, call, UINT32_MAX);
}

/* A buffer of so many bytes, and what is left of it: the words, or nothing where they do not fit; behind them the buffer keeps its bytes. */
static void room(const char *label, Words call, uint32_t number, size_t len) {
    uint8_t buffer[GUVRENDIK_TEXT_WORDS + 1];
    memset(buffer, '#', sizeof buffer);
    guvrendik_written w = call(number, buffer, len);
    printf("%s in %zu bytes: %u %u length=%zu %.14s\n", label, len, (unsigned)w.accepted, (unsigned)w.refusal, w.length, (char *)buffer);
}

static void built(const char *label, int answer, Register r) {
    printf("%s: %d counts %zu %zu %zu\n", label, answer, r.actors.count, r.resources.count, r.claims.count);
}

/* Whether two registers have the same text. */
static int same_text(Register one, Register two) {
    static uint8_t first[GUVRENDIK_TEXT_REGISTER], second[GUVRENDIK_TEXT_REGISTER];
    guvrendik_written w = guvrendik_write_register(one, first, sizeof first), v = guvrendik_write_register(two, second, sizeof second);
    return w.accepted == 1 && v.accepted == 1 && w.length == v.length && memcmp(first, second, w.length) == 0;
}

/* Case R by the header's functions, then each list up to its limit and one entry more, which changes nothing. */
static void built_lines(void) {
    Register r = empty(), same;
    char path[GUVRENDIK_LIMIT_PATH + 1];
    memset(path, 'p', sizeof path);
    int put = guvrendik_put_actor(&r, 1, GUVRENDIK_ACTOR_HUMAN, 0) && guvrendik_put_actor(&r, 2, GUVRENDIK_ACTOR_MACHINE, 1) &&
              guvrendik_put_resource(&r, 10, 0, 1, "site/a", 6) && guvrendik_put_claim(&r, claim(1, 0, 1, 1, 19)) &&
              guvrendik_put_claim(&r, expiring(2000, weighing(600, claim(2, 1, 1, 2, 1))));
    built("case R", put, r);
    printf("case R: sound=%u same=%d\n", (unsigned)guvrendik_sound(r).sound, same_text(r, case_r()));
    r.resources.list[1].path[1] = 'q';
    built("no path", guvrendik_put_resource(&r, 11, 1, 1, NULL, 0), r);
    printf("no path: len=%u then %u\n", (unsigned)r.resources.list[1].len, (unsigned)r.resources.list[1].path[1]);
    built("path of 64", guvrendik_put_resource(&r, 12, 0, 1, path, GUVRENDIK_LIMIT_PATH), r);
    memcpy(&same, &r, sizeof r);
    built("path of 65", guvrendik_put_resource(&r, 13, 0, 1, path, GUVRENDIK_LIMIT_PATH + 1), r);
    printf("path of 65: changed=%d\n", memcmp(&r, &same, sizeof r) != 0);
    for (uint32_t id = 100; r.actors.count < GUVRENDIK_LIMIT_ACTORS; id++) put &= guvrendik_put_actor(&r, id, GUVRENDIK_ACTOR_HUMAN, 0);
    for (uint32_t id = 100; r.resources.count < GUVRENDIK_LIMIT_RESOURCES; id++) put &= guvrendik_put_resource(&r, id, 0, 1, "x", 1);
    for (uint32_t id = 100; r.claims.count < GUVRENDIK_LIMIT_CLAIMS; id++) put &= guvrendik_put_claim(&r, claim(id, 0, 1, 1, 1));
    built("full", put, r);
    printf("full: sound=%u\n", (unsigned)guvrendik_sound(r).sound);
    memcpy(&same, &r, sizeof r);
    built("one actor more", guvrendik_put_actor(&r, 900, GUVRENDIK_ACTOR_HUMAN, 0), r);
    built("one resource more", guvrendik_put_resource(&r, 900, 0, 1, "x", 1), r);
    built("one claim more", guvrendik_put_claim(&r, claim(900, 0, 1, 1, 1)), r);
    printf("one more: changed=%d\n", memcmp(&r, &same, sizeof r) != 0);
    r = with_counts(r, SIZE_MAX, SIZE_MAX, SIZE_MAX);
    put = guvrendik_put_actor(&r, 1, 1, 0) + guvrendik_put_resource(&r, 1, 0, 1, "x", 1) + guvrendik_put_claim(&r, claim(1, 0, 1, 1, 1));
    built("counts of 2^64 - 1", put, r);
}

void word_lines(void) {
    guvrendik_version_numbers v = guvrendik_version();
    printf("version: %u.%u.%u\n", (unsigned)v.major, (unsigned)v.minor, (unsigned)v.patch);
    first_numbers("refusal", guvrendik_refusal_text, 34);
    alike_from("refusal", guvrendik_refusal_text, 34, 70000);
    first_numbers("violation", guvrendik_violation_text, 6);
    alike_from("violation", guvrendik_violation_text, 6, 70000);
    first_numbers("right", guvrendik_right_name, 17);
    alike_from("right", guvrendik_right_name, 17, 70000);
    first_numbers("flag", guvrendik_flag_name, 10);
    alike_from("flag", guvrendik_flag_name, 10, 70000);
    room("refusal 5", guvrendik_refusal_text, 5, 17);
    room("refusal 5", guvrendik_refusal_text, 5, 16);
    room("refusal 5", guvrendik_refusal_text, 5, 15);
    room("violation 1", guvrendik_violation_text, 1, 7);
    room("right 0", guvrendik_right_name, 0, 4);
    room("right 0", guvrendik_right_name, 0, 3);
    room("flag 10", guvrendik_flag_name, 10, 11);
    room("flag 6", guvrendik_flag_name, 6, 0);
    built_lines();
}
