/* Every call of these files goes to the library twice: by value, and through its twin by pointer into memory that held other bytes. The two
 * answers must be the same bytes, and so must the buffers that they wrote. Behind this header each name of a call stands for both. */
#ifndef TWINS_H
#define TWINS_H

#include "guvrendik.h"

#include <stdint.h>
#include <stdlib.h>
#include <string.h>

/* The calls, in the order of guvrendik.h. */
#define EACH_TWIN(DO)                                                                                                                     \
    DO(sound) DO(sound_table) DO(sound_lent) DO(grant) DO(revoke) DO(clear_resource) DO(clear_expired) DO(gate) DO(gate_lent) DO(propose) DO(check_proposal) DO(judge_plan) DO(judge_plan_lent) DO(plain_gate) DO(plain_plan) DO(cover_table) DO(attach) DO(fetch) DO(why_unsound) DO(why_unread) DO(who) DO(why_use) DO(contains) \
    DO(read_register) DO(write_register) DO(read_action) DO(judge_plan_text) DO(verdict_text) DO(json_verdict_text)                       \
    DO(plan_verdict_text) DO(read_json) DO(write_json) DO(refusal_text) DO(violation_text) DO(right_name) DO(flag_name) DO(version)

#define TWIN_NUMBER(name) TWIN_##name,
enum { EACH_TWIN(TWIN_NUMBER) TWINS };
#undef TWIN_NUMBER

/* Notes that a twin was called, and whether it did the same. */
void twin_called(int twin, int same);

/* A copy of a lent buffer, which a twin writes in its place. */
static inline uint8_t *twin_buffer(const uint8_t *buffer, size_t len) {
    uint8_t *copy = (uint8_t *)malloc(len + 1);
    if (copy == NULL) abort();
    if (len != 0) memcpy(copy, buffer, len);
    return copy;
}

/* TWIN(name, type of the answer, parameters, what the call is given, what the twin is given behind the place of the answer). */
#define TWIN(name, type, parameters, given, ...)                                                                                          \
    static inline type both_##name parameters {                                                                                           \
        type one = guvrendik_##name given, other;                                                                                         \
        memset(&other, 0xA5, sizeof other);                                                                                               \
        guvrendik_##name##_at(&other __VA_ARGS__);                                                                                        \
        twin_called(TWIN_##name, memcmp(&one, &other, sizeof one) == 0);                                                                  \
        return one;                                                                                                                       \
    }

/* The same of a call that writes `length` bytes at `buffer`: the twin writes `copy`. */
#define WRITING_TWIN(name, parameters, given, ...)                                                                                        \
    static inline guvrendik_written both_##name parameters {                                                                              \
        uint8_t *copy = twin_buffer(buffer, length);                                                                                      \
        guvrendik_written one = guvrendik_##name given, other;                                                                            \
        memset(&other, 0xA5, sizeof other);                                                                                               \
        guvrendik_##name##_at(&other, __VA_ARGS__);                                                                                       \
        twin_called(TWIN_##name, memcmp(&one, &other, sizeof one) == 0 && (length == 0 || memcmp(buffer, copy, length) == 0));             \
        free(copy);                                                                                                                       \
        return one;                                                                                                                       \
    }

TWIN(sound, guvrendik_soundness, (guvrendik_register r), (r), , &r)
TWIN(sound_table, guvrendik_soundness, (const guvrendik_claim *claims, size_t claims_len, uint64_t version, guvrendik_actors actors,
     guvrendik_resources resources), (claims, claims_len, version, actors, resources), , claims, claims_len, version, &actors, &resources)
TWIN(sound_lent, guvrendik_soundness, (const uint8_t *bytes, size_t bytes_len), (bytes, bytes_len), , bytes, bytes_len)
TWIN(gate_lent, guvrendik_verdict, (const uint8_t *bytes, size_t bytes_len, guvrendik_action a), (bytes, bytes_len, a), , bytes, bytes_len, &a)
TWIN(judge_plan_lent, guvrendik_plan_verdict, (const uint8_t *bytes, size_t bytes_len, guvrendik_plan p), (bytes, bytes_len, p), , bytes,
     bytes_len, &p)
TWIN(grant, guvrendik_granted, (guvrendik_register r, guvrendik_claim c, uint64_t moment), (r, c, moment), , &r, &c, moment)
TWIN(revoke, guvrendik_revoked, (guvrendik_register r, uint32_t revoker, uint32_t claim), (r, revoker, claim), , &r, revoker, claim)
TWIN(clear_resource, guvrendik_revoked, (guvrendik_register r, uint32_t caller, uint32_t resource), (r, caller, resource), , &r, caller,
     resource)
TWIN(clear_expired, guvrendik_revoked, (guvrendik_register r, uint32_t caller, uint64_t moment), (r, caller, moment), , &r, caller, moment)
TWIN(gate, guvrendik_verdict, (guvrendik_register r, guvrendik_action a), (r, a), , &r, &a)
TWIN(propose, guvrendik_proposed, (guvrendik_register r, uint32_t actor, guvrendik_usage usage, uint64_t moment, guvrendik_signers signers),
     (r, actor, usage, moment, signers), , &r, actor, &usage, moment, &signers)
TWIN(check_proposal, guvrendik_checked, (guvrendik_register r, uint32_t actor, guvrendik_usage usage, uint64_t moment,
     guvrendik_signers signers, guvrendik_proposal proposal), (r, actor, usage, moment, signers, proposal), , &r, actor, &usage, moment,
     &signers, &proposal)
TWIN(judge_plan, guvrendik_plan_verdict, (guvrendik_register r, guvrendik_plan p), (r, p), , &r, &p)
TWIN(plain_gate, guvrendik_verdict, (guvrendik_register r, guvrendik_action a), (r, a), , &r, &a)
TWIN(plain_plan, guvrendik_plan_verdict, (guvrendik_register r, guvrendik_plan p), (r, p), , &r, &p)
TWIN(cover_table, guvrendik_table, (guvrendik_register r, uint32_t actor, uint64_t moment), (r, actor, moment), , &r, actor, moment)
TWIN(attach, guvrendik_attached, (guvrendik_book book, guvrendik_register r, uint32_t actor, uint32_t resource, uint64_t moment,
     guvrendik_fingerprint fingerprint), (book, r, actor, resource, moment, fingerprint), , &book, &r, actor, resource, moment,
     &fingerprint)
TWIN(fetch, guvrendik_fetched, (guvrendik_book book, guvrendik_register r, uint32_t actor, uint32_t resource, uint64_t moment), (book, r,
     actor, resource, moment), , &book, &r, actor, resource, moment)
TWIN(why_unsound, guvrendik_fault, (guvrendik_register r), (r), , &r)
TWIN(why_unread, guvrendik_fault, (const uint8_t *text, size_t text_len), (text, text_len), , text, text_len)
TWIN(who, guvrendik_holders, (guvrendik_register r, guvrendik_usage usage, uint64_t moment), (r, usage, moment), , &r, &usage, moment)
TWIN(why_use, guvrendik_use_reason, (guvrendik_register r, uint32_t actor, guvrendik_usage usage, uint64_t moment), (r, actor, usage, moment), ,
     &r, actor, &usage, moment)
TWIN(contains, guvrendik_containment, (const uint8_t *outer, size_t outer_len, const uint8_t *inner, size_t inner_len),
     (outer, outer_len, inner, inner_len), , outer, outer_len, inner, inner_len)
TWIN(read_register, guvrendik_register_read, (const uint8_t *text, size_t text_len), (text, text_len), , text, text_len)
WRITING_TWIN(write_register, (guvrendik_register r, uint8_t *buffer, size_t length), (r, buffer, length), &r, copy, length)
TWIN(read_action, guvrendik_action_read, (const uint8_t *text, size_t text_len), (text, text_len), , text, text_len)
TWIN(judge_plan_text, guvrendik_plan_text_verdict, (guvrendik_register r, const uint8_t *text, size_t text_len), (r, text, text_len), , &r,
     text, text_len)
WRITING_TWIN(verdict_text, (const uint8_t *r, size_t r_len, const uint8_t *a, size_t a_len, uint8_t *buffer, size_t length),
             (r, r_len, a, a_len, buffer, length), r, r_len, a, a_len, copy, length)
WRITING_TWIN(json_verdict_text,
             (const uint8_t *r, size_t r_len, const uint8_t *clock, size_t clock_len, const uint8_t *a, size_t a_len, uint8_t *buffer,
              size_t length),
             (r, r_len, clock, clock_len, a, a_len, buffer, length), r, r_len, clock, clock_len, a, a_len, copy, length)
WRITING_TWIN(plan_verdict_text, (const uint8_t *r, size_t r_len, const uint8_t *p, size_t p_len, uint8_t *buffer, size_t length),
             (r, r_len, p, p_len, buffer, length), r, r_len, p, p_len, copy, length)
TWIN(read_json, guvrendik_json_read, (const uint8_t *text, size_t text_len, uint64_t moment), (text, text_len, moment), , text, text_len,
     moment)
WRITING_TWIN(write_json, (guvrendik_action a, const uint8_t *id, size_t id_len, uint32_t kind, uint8_t *buffer, size_t length),
             (a, id, id_len, kind, buffer, length), &a, id, id_len, kind, copy, length)
WRITING_TWIN(refusal_text, (uint32_t number, uint8_t *buffer, size_t length), (number, buffer, length), number, copy, length)
WRITING_TWIN(violation_text, (uint32_t kind, uint8_t *buffer, size_t length), (kind, buffer, length), kind, copy, length)
WRITING_TWIN(right_name, (uint32_t right, uint8_t *buffer, size_t length), (right, buffer, length), right, copy, length)
WRITING_TWIN(flag_name, (uint32_t flag, uint8_t *buffer, size_t length), (flag, buffer, length), flag, copy, length)
TWIN(version, guvrendik_version_numbers, (void), (), )
#undef TWIN
#undef WRITING_TWIN

#define guvrendik_sound both_sound
#define guvrendik_sound_table both_sound_table
#define guvrendik_sound_lent both_sound_lent
#define guvrendik_gate_lent both_gate_lent
#define guvrendik_judge_plan_lent both_judge_plan_lent
#define guvrendik_grant both_grant
#define guvrendik_revoke both_revoke
#define guvrendik_clear_resource both_clear_resource
#define guvrendik_clear_expired both_clear_expired
#define guvrendik_gate both_gate
#define guvrendik_propose both_propose
#define guvrendik_check_proposal both_check_proposal
#define guvrendik_judge_plan both_judge_plan
#define guvrendik_plain_gate both_plain_gate
#define guvrendik_plain_plan both_plain_plan
#define guvrendik_cover_table both_cover_table
#define guvrendik_attach both_attach
#define guvrendik_fetch both_fetch
#define guvrendik_why_unsound both_why_unsound
#define guvrendik_why_unread both_why_unread
#define guvrendik_who both_who
#define guvrendik_why_use both_why_use
#define guvrendik_contains both_contains
#define guvrendik_read_register both_read_register
#define guvrendik_write_register both_write_register
#define guvrendik_read_action both_read_action
#define guvrendik_judge_plan_text both_judge_plan_text
#define guvrendik_verdict_text both_verdict_text
#define guvrendik_json_verdict_text both_json_verdict_text
#define guvrendik_plan_verdict_text both_plan_verdict_text
#define guvrendik_read_json both_read_json
#define guvrendik_write_json both_write_json
#define guvrendik_refusal_text both_refusal_text
#define guvrendik_violation_text both_violation_text
#define guvrendik_right_name both_right_name
#define guvrendik_flag_name both_flag_name
#define guvrendik_version both_version

#endif
