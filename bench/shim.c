/* The library's calls with what they take behind pointers, so that only this file passes a struct to the library by value. Each
 * call makes one copy of every struct that it takes, as any caller in C does; the answer is written where the caller's convention says. */
#include "guvrendik.h"

guvrendik_soundness bench_sound(const guvrendik_register *r) { return guvrendik_sound(*r); }

guvrendik_soundness bench_sound_table(const guvrendik_register *r) {
    return guvrendik_sound_table(r->claims.list, r->claims.count, r->version, r->actors, r->resources);
}

guvrendik_fault bench_why_unsound(const guvrendik_register *r) { return guvrendik_why_unsound(*r); }

/* The register lent: nothing of it is copied. */
guvrendik_soundness bench_sound_lent(const guvrendik_register *r) { return guvrendik_sound_lent((const uint8_t *)r, sizeof *r); }

guvrendik_verdict bench_gate_lent(const guvrendik_register *r, const guvrendik_action *a) {
    return guvrendik_gate_lent((const uint8_t *)r, sizeof *r, *a);
}

guvrendik_plan_verdict bench_judge_plan_lent(const guvrendik_register *r, const guvrendik_plan *p) {
    return guvrendik_judge_plan_lent((const uint8_t *)r, sizeof *r, *p);
}

guvrendik_granted bench_grant(const guvrendik_register *r, const guvrendik_claim *c, uint64_t now) {
    return guvrendik_grant(*r, *c, now);
}

guvrendik_revoked bench_revoke(const guvrendik_register *r, uint32_t revoker, uint32_t claim) {
    return guvrendik_revoke(*r, revoker, claim);
}

guvrendik_revoked bench_clear_resource(const guvrendik_register *r, uint32_t caller, uint32_t resource) {
    return guvrendik_clear_resource(*r, caller, resource);
}

guvrendik_revoked bench_clear_expired(const guvrendik_register *r, uint32_t caller, uint64_t now) {
    return guvrendik_clear_expired(*r, caller, now);
}

guvrendik_verdict bench_gate(const guvrendik_register *r, const guvrendik_action *a) { return guvrendik_gate(*r, *a); }

guvrendik_proposed bench_propose(const guvrendik_register *r, uint32_t actor, const guvrendik_usage *u, uint64_t moment,
                                 const guvrendik_signers *s) {
    return guvrendik_propose(*r, actor, *u, moment, *s);
}

guvrendik_checked bench_check_proposal(const guvrendik_register *r, uint32_t actor, const guvrendik_usage *u, uint64_t moment,
                                       const guvrendik_signers *s, const guvrendik_proposal *p) {
    return guvrendik_check_proposal(*r, actor, *u, moment, *s, *p);
}

guvrendik_attached bench_attach(const guvrendik_book *b, const guvrendik_register *r, uint32_t actor, uint32_t resource, uint64_t moment,
                                const guvrendik_fingerprint *f) {
    return guvrendik_attach(*b, *r, actor, resource, moment, *f);
}

guvrendik_fetched bench_fetch(const guvrendik_book *b, const guvrendik_register *r, uint32_t actor, uint32_t resource, uint64_t moment) {
    return guvrendik_fetch(*b, *r, actor, resource, moment);
}

guvrendik_holders bench_who(const guvrendik_register *r, const guvrendik_usage *u, uint64_t moment) {
    return guvrendik_who(*r, *u, moment);
}

guvrendik_use_reason bench_why_use(const guvrendik_register *r, uint32_t actor, const guvrendik_usage *u, uint64_t moment) {
    return guvrendik_why_use(*r, actor, *u, moment);
}

guvrendik_plan_verdict bench_judge_plan(const guvrendik_register *r, const guvrendik_plan *p) {
    return guvrendik_judge_plan(*r, *p);
}

guvrendik_table bench_cover_table(const guvrendik_register *r, uint32_t actor, uint64_t moment) { return guvrendik_cover_table(*r, actor, moment); }

guvrendik_verdict bench_plain_gate(const guvrendik_register *r, const guvrendik_action *a) { return guvrendik_plain_gate(*r, *a); }

guvrendik_plan_verdict bench_plain_plan(const guvrendik_register *r, const guvrendik_plan *p) {
    return guvrendik_plain_plan(*r, *p);
}

guvrendik_plan_text_verdict bench_judge_plan_text(const guvrendik_register *r, const uint8_t *text, size_t text_len) {
    return guvrendik_judge_plan_text(*r, text, text_len);
}

guvrendik_containment bench_contains(const uint8_t *outer, size_t outer_len, const uint8_t *inner, size_t inner_len) {
    return guvrendik_contains(outer, outer_len, inner, inner_len);
}

guvrendik_register_read bench_read_register(const uint8_t *text, size_t text_len) {
    return guvrendik_read_register(text, text_len);
}

guvrendik_written bench_write_register(const guvrendik_register *r, uint8_t *buffer, size_t buffer_len) {
    return guvrendik_write_register(*r, buffer, buffer_len);
}

guvrendik_action_read bench_read_action(const uint8_t *text, size_t text_len) { return guvrendik_read_action(text, text_len); }

guvrendik_json_read bench_read_json(const uint8_t *text, size_t text_len, uint64_t now) {
    return guvrendik_read_json(text, text_len, now);
}

guvrendik_written bench_write_json(const guvrendik_action *a, const uint8_t *id, size_t id_len, uint32_t kind, uint8_t *buffer,
                                   size_t buffer_len) {
    return guvrendik_write_json(*a, id, id_len, kind, buffer, buffer_len);
}
