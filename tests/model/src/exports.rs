//! The model under the names and the calling convention of `include/guvrendik.h`.

use crate::model::proposals::Question;
use crate::model::words::Words;
use crate::model::{Model, Refusal};
use crate::types::*;
use std::slice;

const MODEL: Model = Model { fault: None };

/// # Safety
/// As the header says: `bytes` points to `len` bytes, or `len` is 0.
unsafe fn lent<'a>(bytes: *const u8, len: usize) -> &'a [u8] {
    if len == 0 {
        &[]
    } else {
        slice::from_raw_parts(bytes, len)
    }
}

/// # Safety
/// As the header says: `bytes` points to `len` bytes that nothing else uses, or `len` is 0.
unsafe fn lent_mut<'a>(bytes: *mut u8, len: usize) -> &'a mut [u8] {
    if len == 0 {
        &mut []
    } else {
        slice::from_raw_parts_mut(bytes, len)
    }
}

impl From<Result<usize, Refusal>> for Written {
    fn from(result: Result<usize, Refusal>) -> Self {
        match result {
            Ok(length) => Written { accepted: 1, refusal: 0, length },
            Err(refusal) => Written { accepted: 0, refusal: refusal as u32, length: 0 },
        }
    }
}

#[no_mangle]
pub extern "C" fn guvrendik_sound(register: Register) -> Soundness {
    Soundness { sound: MODEL.sound(&register).into() }
}

/// # Safety
/// The pointer and length are good, as the header says.
#[no_mangle]
pub unsafe extern "C" fn guvrendik_sound_table(
    claims: *const Claim,
    claims_len: usize,
    version: u64,
    actors: Actors,
    resources: Resources,
) -> Soundness {
    let claims = if claims_len == 0 { &[] } else { slice::from_raw_parts(claims, claims_len) };
    Soundness { sound: MODEL.sound_table(claims, version, &actors, &resources).into() }
}

/// The register that lent bytes hold: that of version 0 where they are not as many as it has.
///
/// # Safety
/// As the header says: `bytes` points to `len` bytes, or `len` is 0.
unsafe fn held(bytes: *const u8, len: usize) -> Register {
    if len == std::mem::size_of::<Register>() {
        bytes.cast::<Register>().read_unaligned()
    } else {
        std::mem::zeroed()
    }
}

/// # Safety
/// The pointer and length are good, as the header says.
#[no_mangle]
pub unsafe extern "C" fn guvrendik_sound_lent(bytes: *const u8, bytes_len: usize) -> Soundness {
    guvrendik_sound(held(bytes, bytes_len))
}

/// # Safety
/// The pointer and length are good, as the header says.
#[no_mangle]
pub unsafe extern "C" fn guvrendik_gate_lent(bytes: *const u8, bytes_len: usize, action: Action) -> Verdict {
    guvrendik_gate(held(bytes, bytes_len), action)
}

/// # Safety
/// The pointer and length are good, as the header says.
#[no_mangle]
pub unsafe extern "C" fn guvrendik_judge_plan_lent(bytes: *const u8, bytes_len: usize, plan: Plan) -> PlanVerdict {
    guvrendik_judge_plan(held(bytes, bytes_len), plan)
}

#[no_mangle]
pub extern "C" fn guvrendik_grant(register: Register, claim: Claim, now: u64) -> Granted {
    let mut answer = Granted { state: register, accepted: 1, refusal: 0 };
    if let Err(refusal) = MODEL.grant(&mut answer.state, &claim, now) {
        (answer.accepted, answer.refusal) = (0, refusal as u32);
    }
    answer
}

fn withdrawn(register: Register, withdraw: impl FnOnce(&mut Register) -> Result<usize, Refusal>) -> Revoked {
    let mut answer = Revoked { state: register, accepted: 1, refusal: 0, removed: 0 };
    match withdraw(&mut answer.state) {
        Ok(removed) => answer.removed = removed,
        Err(refusal) => (answer.accepted, answer.refusal) = (0, refusal as u32),
    }
    answer
}

#[no_mangle]
pub extern "C" fn guvrendik_revoke(register: Register, revoker: u32, claim: u32) -> Revoked {
    withdrawn(register, |state| MODEL.revoke(state, revoker, claim))
}

#[no_mangle]
pub extern "C" fn guvrendik_clear_resource(register: Register, caller: u32, resource: u32) -> Revoked {
    withdrawn(register, |state| MODEL.clear_resource(state, caller, resource))
}

#[no_mangle]
pub extern "C" fn guvrendik_clear_expired(register: Register, caller: u32, now: u64) -> Revoked {
    withdrawn(register, |state| MODEL.clear_expired(state, caller, now))
}

#[no_mangle]
pub extern "C" fn guvrendik_gate(register: Register, action: Action) -> Verdict {
    MODEL.gate(&register, &action)
}

#[no_mangle]
pub extern "C" fn guvrendik_judge_plan(register: Register, plan: Plan) -> PlanVerdict {
    MODEL.judge_plan(&register, &plan)
}

#[no_mangle]
pub extern "C" fn guvrendik_plain_gate(register: Register, action: Action) -> Verdict {
    MODEL.plain_gate(&register, &action)
}

#[no_mangle]
pub extern "C" fn guvrendik_cover_table(register: Register, actor: u32, now: u64) -> CoverTable {
    MODEL.cover_table(&register, actor, now)
}

#[no_mangle]
pub extern "C" fn guvrendik_plain_plan(register: Register, plan: Plan) -> PlanVerdict {
    MODEL.plain_plan(&register, &plan)
}

/// # Safety
/// The pointer and length are good, as the header says.
#[no_mangle]
pub unsafe extern "C" fn guvrendik_judge_plan_text(
    register: Register,
    text: *const u8,
    text_len: usize,
) -> PlanTextVerdict {
    MODEL.judge_plan_text(&register, lent(text, text_len))
}

/// # Safety
/// The pointers and lengths are good, as the header says.
#[no_mangle]
pub unsafe extern "C" fn guvrendik_contains(
    outer: *const u8,
    outer_len: usize,
    inner: *const u8,
    inner_len: usize,
) -> Containment {
    Containment::of(lent(outer, outer_len), lent(inner, inner_len))
}

/// # Safety
/// The pointer and length are good, as the header says.
#[no_mangle]
pub unsafe extern "C" fn guvrendik_read_register(text: *const u8, text_len: usize) -> RegisterRead {
    let mut answer = RegisterRead { state: Register::EMPTY, accepted: 1, refusal: 0, line: 0 };
    if let Err(unread) = MODEL.read_register(lent(text, text_len), &mut answer.state) {
        (answer.accepted, answer.refusal, answer.line) = (0, unread.refusal as u32, unread.line);
    }
    answer
}

/// # Safety
/// The pointer and length are good, as the header says.
#[no_mangle]
pub unsafe extern "C" fn guvrendik_write_register(register: Register, buffer: *mut u8, buffer_len: usize) -> Written {
    MODEL.write_register(&register, lent_mut(buffer, buffer_len)).into()
}

/// # Safety
/// The pointer and length are good, as the header says.
#[no_mangle]
pub unsafe extern "C" fn guvrendik_read_action(text: *const u8, text_len: usize) -> ActionRead {
    match MODEL.read_action(lent(text, text_len)) {
        Ok(action) => ActionRead { action, accepted: 1, refusal: 0, line: 0 },
        Err(unread) => {
            ActionRead { action: Action::ZERO, accepted: 0, refusal: unread.refusal as u32, line: unread.line }
        }
    }
}

/// # Safety
/// The pointer and length are good, as the header says.
#[no_mangle]
pub unsafe extern "C" fn guvrendik_read_json(text: *const u8, text_len: usize, now: u64) -> JsonRead {
    MODEL.read_json(lent(text, text_len), now)
}

/// # Safety
/// The pointers and lengths are good, as the header says.
#[no_mangle]
pub unsafe extern "C" fn guvrendik_write_json(
    action: Action,
    id: *const u8,
    id_len: usize,
    kind: u32,
    buffer: *mut u8,
    buffer_len: usize,
) -> Written {
    MODEL.write_json(&action, lent(id, id_len), kind, lent_mut(buffer, buffer_len)).into()
}

/// # Safety
/// The pointers and lengths are good, as the header says.
#[no_mangle]
pub unsafe extern "C" fn guvrendik_verdict_text(
    register_text: *const u8,
    register_len: usize,
    action_text: *const u8,
    action_len: usize,
    buffer: *mut u8,
    buffer_len: usize,
) -> Written {
    let (register, action) = (lent(register_text, register_len), lent(action_text, action_len));
    MODEL.verdict_text(register, action, lent_mut(buffer, buffer_len)).into()
}

/// # Safety
/// The pointer and length are good, as the header says.
#[no_mangle]
pub unsafe extern "C" fn guvrendik_refusal_text(number: u32, buffer: *mut u8, buffer_len: usize) -> Written {
    Words::Refusal.write(number, lent_mut(buffer, buffer_len)).into()
}

/// # Safety
/// The pointer and length are good, as the header says.
#[no_mangle]
pub unsafe extern "C" fn guvrendik_violation_text(number: u32, buffer: *mut u8, buffer_len: usize) -> Written {
    Words::Violation.write(number, lent_mut(buffer, buffer_len)).into()
}

/// # Safety
/// The pointer and length are good, as the header says.
#[no_mangle]
pub unsafe extern "C" fn guvrendik_right_name(number: u32, buffer: *mut u8, buffer_len: usize) -> Written {
    Words::Right.write(number, lent_mut(buffer, buffer_len)).into()
}

/// # Safety
/// The pointer and length are good, as the header says.
#[no_mangle]
pub unsafe extern "C" fn guvrendik_flag_name(number: u32, buffer: *mut u8, buffer_len: usize) -> Written {
    Words::Flag.write(number, lent_mut(buffer, buffer_len)).into()
}

#[no_mangle]
pub extern "C" fn guvrendik_attach(
    book: Book,
    register: Register,
    actor: u32,
    resource: u32,
    now: u64,
    fingerprint: Fingerprint,
) -> Attached {
    let mut answer = Attached { book, accepted: 1, refusal: 0 };
    if let Err(refusal) = MODEL.attach(&mut answer.book, &register, actor, resource, now, fingerprint) {
        (answer.accepted, answer.refusal) = (0, refusal as u32);
    }
    answer
}

#[no_mangle]
pub extern "C" fn guvrendik_fetch(book: Book, register: Register, actor: u32, resource: u32, now: u64) -> Fetched {
    MODEL.fetch(&book, &register, actor, resource, now)
}

#[no_mangle]
pub extern "C" fn guvrendik_propose(
    register: Register,
    actor: u32,
    usage: Usage,
    moment: u64,
    signers: Signers,
) -> Proposed {
    MODEL.propose(&register, &Question { actor, usage, moment, signers })
}

#[no_mangle]
pub extern "C" fn guvrendik_check_proposal(
    register: Register,
    actor: u32,
    usage: Usage,
    moment: u64,
    signers: Signers,
    proposal: Proposal,
) -> Checked {
    MODEL.check_proposal(&register, &Question { actor, usage, moment, signers }, &proposal)
}

#[no_mangle]
pub extern "C" fn guvrendik_why_unsound(register: Register) -> FirstFault {
    MODEL.why_unsound(&register)
}

/// # Safety
/// The pointer and length are good, as the header says.
#[no_mangle]
pub unsafe extern "C" fn guvrendik_why_unread(text: *const u8, text_len: usize) -> FirstFault {
    MODEL.why_unread(lent(text, text_len))
}

#[no_mangle]
pub extern "C" fn guvrendik_who(register: Register, usage: Usage, moment: u64) -> Holders {
    MODEL.who(&register, usage, moment)
}

#[no_mangle]
pub extern "C" fn guvrendik_why_use(register: Register, actor: u32, usage: Usage, moment: u64) -> UseReason {
    MODEL.why_use(&register, actor, usage, moment)
}

#[no_mangle]
pub extern "C" fn guvrendik_version() -> VersionNumbers {
    VersionNumbers { major: 3, minor: 5, patch: 0 }
}
