//! The library's calls through shim.c, by the C convention of the processor: an answer is written where the caller keeps it.

use crate::inputs::Withdrawn;
use guvrendik_model::model::proposals::Question;
use guvrendik_model::types::*;

extern "C" {
    fn bench_sound(register: *const Register) -> Soundness;
    fn bench_sound_table(register: *const Register) -> Soundness;
    fn bench_sound_lent(register: *const Register) -> Soundness;
    fn bench_gate_lent(register: *const Register, action: *const Action) -> Verdict;
    fn bench_judge_plan_lent(register: *const Register, plan: *const Plan) -> PlanVerdict;
    fn bench_why_unsound(register: *const Register) -> FirstFault;
    fn bench_grant(register: *const Register, claim: *const Claim, now: u64) -> Granted;
    fn bench_revoke(register: *const Register, revoker: u32, claim: u32) -> Revoked;
    fn bench_clear_resource(register: *const Register, caller: u32, resource: u32) -> Revoked;
    fn bench_clear_expired(register: *const Register, caller: u32, now: u64) -> Revoked;
    fn bench_gate(register: *const Register, action: *const Action) -> Verdict;
    fn bench_propose(
        register: *const Register,
        actor: u32,
        usage: *const Usage,
        moment: u64,
        signers: *const Signers,
    ) -> Proposed;
    fn bench_check_proposal(
        register: *const Register,
        actor: u32,
        usage: *const Usage,
        moment: u64,
        signers: *const Signers,
        proposal: *const Proposal,
    ) -> Checked;
    fn bench_attach(
        book: *const Book,
        register: *const Register,
        actor: u32,
        resource: u32,
        moment: u64,
        fingerprint: *const Fingerprint,
    ) -> Attached;
    fn bench_fetch(book: *const Book, register: *const Register, actor: u32, resource: u32, moment: u64) -> Fetched;
    fn bench_who(register: *const Register, usage: *const Usage, moment: u64) -> Holders;
    fn bench_why_use(register: *const Register, actor: u32, usage: *const Usage, moment: u64) -> UseReason;
    fn bench_judge_plan(register: *const Register, plan: *const Plan) -> PlanVerdict;
    fn bench_cover_table(register: *const Register, actor: u32, moment: u64) -> CoverTable;
    fn bench_plain_gate(register: *const Register, action: *const Action) -> Verdict;
    fn bench_plain_plan(register: *const Register, plan: *const Plan) -> PlanVerdict;
    fn bench_judge_plan_text(register: *const Register, text: *const u8, text_len: usize) -> PlanTextVerdict;
    fn bench_contains(outer: *const u8, outer_len: usize, inner: *const u8, inner_len: usize) -> Containment;
    fn bench_read_register(text: *const u8, text_len: usize) -> RegisterRead;
    fn bench_write_register(register: *const Register, buffer: *mut u8, buffer_len: usize) -> Written;
    fn bench_read_action(text: *const u8, text_len: usize) -> ActionRead;
    fn bench_read_json(text: *const u8, text_len: usize, now: u64) -> JsonRead;
    fn bench_write_json(
        action: *const Action,
        id: *const u8,
        id_len: usize,
        kind: u32,
        buffer: *mut u8,
        buffer_len: usize,
    ) -> Written;
}

pub fn sound(register: &Register) -> Soundness {
    // SAFETY: here and below, every pointer is a reference's or a slice's, and the library fills its answer whole.
    unsafe { bench_sound(register) }
}

/// The register's claims as a table, lent where they lie.
pub fn sound_table(register: &Register) -> Soundness {
    unsafe { bench_sound_table(register) }
}

pub fn sound_lent(register: &Register) -> Soundness {
    unsafe { bench_sound_lent(register) }
}

pub fn gate_lent(register: &Register, action: &Action) -> Verdict {
    unsafe { bench_gate_lent(register, action) }
}

pub fn judge_plan_lent(register: &Register, plan: &Plan) -> PlanVerdict {
    unsafe { bench_judge_plan_lent(register, plan) }
}

pub fn why_unsound(register: &Register) -> FirstFault {
    unsafe { bench_why_unsound(register) }
}

pub fn grant(register: &Register, claim: &Claim, now: u64) -> Granted {
    unsafe { bench_grant(register, claim, now) }
}

pub fn withdraw(register: &Register, (caller, what): (u32, Withdrawn)) -> Revoked {
    unsafe {
        match what {
            Withdrawn::Claim(claim) => bench_revoke(register, caller, claim),
            Withdrawn::Resource(resource) => bench_clear_resource(register, caller, resource),
            Withdrawn::Expired(now) => bench_clear_expired(register, caller, now),
        }
    }
}

pub fn gate(register: &Register, action: &Action) -> Verdict {
    unsafe { bench_gate(register, action) }
}

pub fn propose(register: &Register, question: &Question) -> Proposed {
    let Question { actor, usage, moment, signers } = question;
    unsafe { bench_propose(register, *actor, usage, *moment, signers) }
}

pub fn check_proposal(register: &Register, question: &Question, proposal: &Proposal) -> Checked {
    let Question { actor, usage, moment, signers } = question;
    unsafe { bench_check_proposal(register, *actor, usage, *moment, signers, proposal) }
}

pub fn who(register: &Register, usage: &Usage, moment: u64) -> Holders {
    unsafe { bench_who(register, usage, moment) }
}

/// Of the first use of an action.
pub fn why_use(register: &Register, action: &Action) -> UseReason {
    unsafe { bench_why_use(register, action.actor, &action.uses[0], action.now) }
}

/// The fingerprint attached to the number of the action's one use, by its actor at its moment.
pub fn attach(book: &Book, register: &Register, action: &Action, fingerprint: &Fingerprint) -> Attached {
    unsafe { bench_attach(book, register, action.actor, action.uses[0].resource, action.now, fingerprint) }
}

/// What is attached to the number of the action's one use.
pub fn fetch(book: &Book, register: &Register, action: &Action) -> Fetched {
    unsafe { bench_fetch(book, register, action.actor, action.uses[0].resource, action.now) }
}

pub fn judge_plan(register: &Register, plan: &Plan) -> PlanVerdict {
    unsafe { bench_judge_plan(register, plan) }
}

pub fn cover_table(register: &Register, action: &Action) -> CoverTable {
    unsafe { bench_cover_table(register, action.actor, action.now) }
}

pub fn plain_gate(register: &Register, action: &Action) -> Verdict {
    unsafe { bench_plain_gate(register, action) }
}

pub fn plain_plan(register: &Register, plan: &Plan) -> PlanVerdict {
    unsafe { bench_plain_plan(register, plan) }
}

pub fn judge_plan_text(register: &Register, text: &[u8]) -> PlanTextVerdict {
    unsafe { bench_judge_plan_text(register, text.as_ptr(), text.len()) }
}

pub fn contains(outer: &[u8], inner: &[u8]) -> Containment {
    unsafe { bench_contains(outer.as_ptr(), outer.len(), inner.as_ptr(), inner.len()) }
}

pub fn read_register(text: &[u8]) -> RegisterRead {
    unsafe { bench_read_register(text.as_ptr(), text.len()) }
}

pub fn write_register(register: &Register, buffer: &mut [u8]) -> Written {
    unsafe { bench_write_register(register, buffer.as_mut_ptr(), buffer.len()) }
}

pub fn read_action(text: &[u8]) -> ActionRead {
    unsafe { bench_read_action(text.as_ptr(), text.len()) }
}

pub fn read_json(text: &[u8], now: u64) -> JsonRead {
    unsafe { bench_read_json(text.as_ptr(), text.len(), now) }
}

pub fn write_json(action: &Action, id: &[u8], kind: u32, buffer: &mut [u8]) -> Written {
    unsafe { bench_write_json(action, id.as_ptr(), id.len(), kind, buffer.as_mut_ptr(), buffer.len()) }
}
