/* The twins by pointer of the calls of guvrendik.h. Each hands on what it is given and stores what the call answers; nothing is decided
 * here. The twins of sound, gate and judge_plan lend the register, which the library so judges where it lies. Not proved: tests/calls holds each one to its call. */
#include "guvrendik.h"

void guvrendik_sound_at(guvrendik_soundness *answer, const guvrendik_register *r) {
    *answer = guvrendik_sound_lent((const uint8_t *)r, sizeof *r);
}

void guvrendik_sound_lent_at(guvrendik_soundness *answer, const uint8_t *bytes, size_t bytes_len) {
    *answer = guvrendik_sound_lent(bytes, bytes_len);
}

void guvrendik_sound_table_at(guvrendik_soundness *answer, const guvrendik_claim *claims, size_t claims_len, uint64_t version,
                              const guvrendik_actors *actors, const guvrendik_resources *resources) {
    *answer = guvrendik_sound_table(claims, claims_len, version, *actors, *resources);
}

void guvrendik_grant_at(guvrendik_granted *answer, const guvrendik_register *r, const guvrendik_claim *c, uint64_t moment) {
    *answer = guvrendik_grant(*r, *c, moment);
}

void guvrendik_revoke_at(guvrendik_revoked *answer, const guvrendik_register *r, uint32_t revoker, uint32_t claim) {
    *answer = guvrendik_revoke(*r, revoker, claim);
}

void guvrendik_clear_resource_at(guvrendik_revoked *answer, const guvrendik_register *r, uint32_t caller, uint32_t resource) {
    *answer = guvrendik_clear_resource(*r, caller, resource);
}

void guvrendik_clear_expired_at(guvrendik_revoked *answer, const guvrendik_register *r, uint32_t caller, uint64_t moment) {
    *answer = guvrendik_clear_expired(*r, caller, moment);
}

void guvrendik_gate_at(guvrendik_verdict *answer, const guvrendik_register *r, const guvrendik_action *a) {
    *answer = guvrendik_gate_lent((const uint8_t *)r, sizeof *r, *a);
}

void guvrendik_gate_lent_at(guvrendik_verdict *answer, const uint8_t *bytes, size_t bytes_len, const guvrendik_action *a) {
    *answer = guvrendik_gate_lent(bytes, bytes_len, *a);
}

void guvrendik_propose_at(guvrendik_proposed *answer, const guvrendik_register *r, uint32_t actor, const guvrendik_usage *usage,
                          uint64_t moment, const guvrendik_signers *signers) {
    *answer = guvrendik_propose(*r, actor, *usage, moment, *signers);
}

void guvrendik_check_proposal_at(guvrendik_checked *answer, const guvrendik_register *r, uint32_t actor, const guvrendik_usage *usage,
                                 uint64_t moment, const guvrendik_signers *signers, const guvrendik_proposal *proposal) {
    *answer = guvrendik_check_proposal(*r, actor, *usage, moment, *signers, *proposal);
}

void guvrendik_judge_plan_at(guvrendik_plan_verdict *answer, const guvrendik_register *r, const guvrendik_plan *p) {
    *answer = guvrendik_judge_plan_lent((const uint8_t *)r, sizeof *r, *p);
}

void guvrendik_judge_plan_lent_at(guvrendik_plan_verdict *answer, const uint8_t *bytes, size_t bytes_len, const guvrendik_plan *p) {
    *answer = guvrendik_judge_plan_lent(bytes, bytes_len, *p);
}

void guvrendik_plain_gate_at(guvrendik_verdict *answer, const guvrendik_register *r, const guvrendik_action *a) {
    *answer = guvrendik_plain_gate(*r, *a);
}

void guvrendik_plain_plan_at(guvrendik_plan_verdict *answer, const guvrendik_register *r, const guvrendik_plan *p) {
    *answer = guvrendik_plain_plan(*r, *p);
}

void guvrendik_cover_table_at(guvrendik_table *answer, const guvrendik_register *r, uint32_t actor, uint64_t moment) {
    *answer = guvrendik_cover_table(*r, actor, moment);
}

void guvrendik_attach_at(guvrendik_attached *answer, const guvrendik_book *book, const guvrendik_register *r, uint32_t actor,
                         uint32_t resource, uint64_t moment, const guvrendik_fingerprint *fingerprint) {
    *answer = guvrendik_attach(*book, *r, actor, resource, moment, *fingerprint);
}

void guvrendik_fetch_at(guvrendik_fetched *answer, const guvrendik_book *book, const guvrendik_register *r, uint32_t actor,
                        uint32_t resource, uint64_t moment) {
    *answer = guvrendik_fetch(*book, *r, actor, resource, moment);
}

void guvrendik_why_unsound_at(guvrendik_fault *answer, const guvrendik_register *r) {
    *answer = guvrendik_why_unsound(*r);
}

void guvrendik_why_unread_at(guvrendik_fault *answer, const uint8_t *text, size_t text_len) {
    *answer = guvrendik_why_unread(text, text_len);
}

void guvrendik_who_at(guvrendik_holders *answer, const guvrendik_register *r, const guvrendik_usage *usage, uint64_t moment) {
    *answer = guvrendik_who(*r, *usage, moment);
}

void guvrendik_why_use_at(guvrendik_use_reason *answer, const guvrendik_register *r, uint32_t actor, const guvrendik_usage *usage,
                          uint64_t moment) {
    *answer = guvrendik_why_use(*r, actor, *usage, moment);
}

void guvrendik_contains_at(guvrendik_containment *answer, const uint8_t *outer, size_t outer_len, const uint8_t *inner,
                           size_t inner_len) {
    *answer = guvrendik_contains(outer, outer_len, inner, inner_len);
}

void guvrendik_read_register_at(guvrendik_register_read *answer, const uint8_t *text, size_t text_len) {
    *answer = guvrendik_read_register(text, text_len);
}

void guvrendik_write_register_at(guvrendik_written *answer, const guvrendik_register *r, uint8_t *buffer, size_t buffer_len) {
    *answer = guvrendik_write_register(*r, buffer, buffer_len);
}

void guvrendik_read_action_at(guvrendik_action_read *answer, const uint8_t *text, size_t text_len) {
    *answer = guvrendik_read_action(text, text_len);
}

void guvrendik_judge_plan_text_at(guvrendik_plan_text_verdict *answer, const guvrendik_register *r, const uint8_t *text,
                                  size_t text_len) {
    *answer = guvrendik_judge_plan_text(*r, text, text_len);
}

void guvrendik_verdict_text_at(guvrendik_written *answer, const uint8_t *register_text, size_t register_len, const uint8_t *action_text,
                               size_t action_len, uint8_t *buffer, size_t buffer_len) {
    *answer = guvrendik_verdict_text(register_text, register_len, action_text, action_len, buffer, buffer_len);
}

void guvrendik_json_verdict_text_at(guvrendik_written *answer, const uint8_t *register_text, size_t register_len,
                                    const uint8_t *clock_text, size_t clock_len, const uint8_t *action_text, size_t action_len,
                                    uint8_t *buffer, size_t buffer_len) {
    *answer = guvrendik_json_verdict_text(register_text, register_len, clock_text, clock_len, action_text, action_len, buffer, buffer_len);
}

void guvrendik_plan_verdict_text_at(guvrendik_written *answer, const uint8_t *register_text, size_t register_len,
                                    const uint8_t *plan_text, size_t plan_len, uint8_t *buffer, size_t buffer_len) {
    *answer = guvrendik_plan_verdict_text(register_text, register_len, plan_text, plan_len, buffer, buffer_len);
}

void guvrendik_read_json_at(guvrendik_json_read *answer, const uint8_t *text, size_t text_len, uint64_t moment) {
    *answer = guvrendik_read_json(text, text_len, moment);
}

void guvrendik_write_json_at(guvrendik_written *answer, const guvrendik_action *a, const uint8_t *id, size_t id_len, uint32_t kind,
                             uint8_t *buffer, size_t buffer_len) {
    *answer = guvrendik_write_json(*a, id, id_len, kind, buffer, buffer_len);
}

void guvrendik_refusal_text_at(guvrendik_written *answer, uint32_t number, uint8_t *buffer, size_t buffer_len) {
    *answer = guvrendik_refusal_text(number, buffer, buffer_len);
}

void guvrendik_violation_text_at(guvrendik_written *answer, uint32_t kind, uint8_t *buffer, size_t buffer_len) {
    *answer = guvrendik_violation_text(kind, buffer, buffer_len);
}

void guvrendik_right_name_at(guvrendik_written *answer, uint32_t right, uint8_t *buffer, size_t buffer_len) {
    *answer = guvrendik_right_name(right, buffer, buffer_len);
}

void guvrendik_flag_name_at(guvrendik_written *answer, uint32_t flag, uint8_t *buffer, size_t buffer_len) {
    *answer = guvrendik_flag_name(flag, buffer, buffer_len);
}

void guvrendik_version_at(guvrendik_version_numbers *answer) {
    *answer = guvrendik_version();
}
