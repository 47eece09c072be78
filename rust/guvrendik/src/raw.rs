//! The calls by pointer, as functions of references: the one module with `unsafe`. Nothing is decided here.
#![allow(unsafe_code, clippy::unnecessary_box_returns)]

use guvrendik_sys as sys;

/// The answer that a call writes, in a box: it is never on the stack.
fn boxed<T>(call: impl FnOnce(*mut T)) -> Box<T> {
    let mut place = Box::<T>::new_uninit();
    call(place.as_mut_ptr());
    // SAFETY: a call by pointer writes its whole answer, whatever stood there, and every bit pattern is one of an answer's: it has numbers alone.
    unsafe { place.assume_init() }
}

/// `name(parameters) -> answer`, by the call of the library: each is the same few words around it.
macro_rules! calls {
    ($($name:ident by $call:ident($($parameter:ident: $type:ty),*) -> $answer:ty;)*) => {$(
        pub fn $name($($parameter: $type),*) -> Box<$answer> {
            boxed(|answer| {
                // SAFETY: the answer's place is a box of its own, of the right size, aligned and apart from all else. What the call takes is a number or
                // a reference, which is good, aligned and lives during the call; no call keeps a pointer. Every value is answered.
                unsafe { sys::$call(answer, $($parameter),*) }
            })
        }
    )*};
}

calls! {
    grant by guvrendik_grant_at(register: &sys::Register, claim: &sys::Claim, moment: u64) -> sys::Granted;
    revoke by guvrendik_revoke_at(register: &sys::Register, revoker: u32, claim: u32) -> sys::Revoked;
    clear_resource by guvrendik_clear_resource_at(register: &sys::Register, caller: u32, resource: u32) -> sys::Revoked;
    clear_expired by guvrendik_clear_expired_at(register: &sys::Register, caller: u32, moment: u64) -> sys::Revoked;
    gate by guvrendik_gate_at(register: &sys::Register, action: &sys::Action) -> sys::Verdict;
    why by guvrendik_why_use_at(register: &sys::Register, actor: u32, usage: &sys::Usage, moment: u64) -> sys::UseReason;
    who by guvrendik_who_at(register: &sys::Register, usage: &sys::Usage, moment: u64) -> sys::Holders;
    propose by guvrendik_propose_at(register: &sys::Register, actor: u32, usage: &sys::Usage, moment: u64, signers: &sys::Signers) -> sys::Proposed;
}

/// The same of calls that take a text: a slice goes as its start and its length.
macro_rules! readings {
    ($($name:ident by $call:ident(text $(, $parameter:ident: $type:ty)*) -> $answer:ty;)*) => {$(
        pub fn $name($($parameter: $type,)* text: &[u8]) -> Box<$answer> {
            boxed(|answer| {
                // SAFETY: as above; and the start and the length are of one slice, which is only read.
                unsafe { sys::$call(answer, $($parameter,)* text.as_ptr(), text.len()) }
            })
        }
    )*};
}

readings! {
    read_register by guvrendik_read_register_at(text) -> sys::RegisterRead;
    why_unread by guvrendik_why_unread_at(text) -> sys::Fault;
    judge_plan by guvrendik_judge_plan_text_at(text, register: &sys::Register) -> sys::PlanTextVerdict;
}

/// What a call writes into a buffer of `most` bytes, which is enough for every answer of it.
fn written(most: usize, call: impl FnOnce(*mut sys::Written, *mut u8)) -> String {
    let mut buffer = vec![0; most];
    let answer = boxed(|answer| call(answer, buffer.as_mut_ptr()));
    buffer.truncate(answer.length);
    String::from_utf8(buffer).expect("the library writes ASCII")
}

pub fn register_text(register: &sys::Register) -> String {
    written(sys::TEXT_REGISTER, |answer, buffer| {
        // SAFETY: as above; and the buffer has as many bytes as are said.
        unsafe { sys::guvrendik_write_register_at(answer, register, buffer, sys::TEXT_REGISTER) }
    })
}

pub fn verdict_text(body: &[u8], action: &[u8]) -> String {
    let (most, b, a) = (sys::TEXT_VERDICT, body, action);
    written(most, |answer, buffer| {
        // SAFETY: as above; the buffer is new, and overlaps neither text.
        unsafe { sys::guvrendik_verdict_text_at(answer, b.as_ptr(), b.len(), a.as_ptr(), a.len(), buffer, most) }
    })
}

type WordsCall = unsafe extern "C" fn(*mut sys::Written, u32, *mut u8, usize);
pub const REFUSAL: WordsCall = sys::guvrendik_refusal_text_at;
pub const VIOLATION: WordsCall = sys::guvrendik_violation_text_at;

/// The words for a number, by one of the two calls above.
pub fn words(call: WordsCall, number: u32) -> String {
    written(sys::TEXT_WORDS, |answer, buffer| {
        // SAFETY: as above; and the buffer has as many bytes as are said.
        unsafe { call(answer, number, buffer, sys::TEXT_WORDS) }
    })
}
