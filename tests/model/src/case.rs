//! One call with its arguments: what it asks of the driver, and what the model answers.

use guvrendik_model::model::proposals::{Question, CHECK_FAILS, CHECK_PASSES, PROPOSES_GRANT};
use guvrendik_model::model::{Model, Refusal};
use guvrendik_model::requests::{put_request, Request};
use guvrendik_model::types::*;
use guvrendik_model::wire::{bytes_of, Wire};
use std::mem::size_of;
use std::ops::RangeInclusive;

/// A call. Those about a register are made on the script's register as it stands.
#[derive(Clone, Debug, PartialEq, Eq)]
pub enum Call {
    /// And the first fault.
    Sound,
    /// Of the script's version, actors and resources with the claims of this table.
    SoundTable(Vec<Claim>),
    /// With `keep`, the answer's register is the script's from then on.
    Grant {
        claim: Claim,
        now: u64,
        keep: bool,
    },
    Revoke {
        revoker: u32,
        claim: u32,
        keep: bool,
    },
    ClearResource {
        caller: u32,
        resource: u32,
        keep: bool,
    },
    ClearExpired {
        caller: u32,
        now: u64,
        keep: bool,
    },
    Gate(Box<Action>),
    Plan(Box<Plan>),
    PlanText(Vec<u8>),
    Contains {
        outer: Vec<u8>,
        inner: Vec<u8>,
    },
    /// And the text's first fault.
    ReadRegister(Vec<u8>),
    /// Into a buffer of `room` bytes, each `fill`.
    WriteRegister {
        room: usize,
        fill: u8,
    },
    ReadAction(Vec<u8>),
    VerdictText {
        register: Vec<u8>,
        action: Vec<u8>,
        room: usize,
        fill: u8,
    },
    ReadJson {
        text: Vec<u8>,
        now: u64,
    },
    WriteJson {
        action: Box<Action>,
        id: Vec<u8>,
        kind: u32,
        room: usize,
        fill: u8,
    },
    /// The book comes with the call: the generator hands it on from one to the next.
    Attach {
        book: Box<Book>,
        actor: u32,
        resource: u32,
        now: u64,
        fingerprint: Fingerprint,
    },
    Fetch {
        book: Box<Book>,
        actor: u32,
        resource: u32,
        now: u64,
    },
    Propose(Box<Question>),
    CheckProposal {
        question: Box<Question>,
        proposal: Proposal,
    },
    Who {
        usage: Usage,
        moment: u64,
    },
    WhyUse {
        actor: u32,
        usage: Usage,
        moment: u64,
    },
}

/// Calls in order, on a register where one is given.
#[derive(Clone, Debug, PartialEq, Eq)]
pub struct Script {
    pub register: Option<Box<Register>>,
    pub calls: Vec<Call>,
}

pub const CALLS: usize = 22;

/// The calls that withdraw claims, by `Call::number`.
pub const WITHDRAWALS: [usize; 3] = [2, 12, 13];

/// The kinds of violation. 6 is not used.
pub const KINDS: RangeInclusive<u32> = 1..=5;

/// By `Call::number`: the name, and the outcomes that a run must meet.
pub const NAMES: [(&str, &[Outcome]); CALLS] = [
    ("sound", &[YES, 2, 3, 4, 6, 7, 8, 9, 10, 12, 13, 14, 15, 16, 31, 32, 33]),
    ("grant", &[YES, 1, 2, 3, 4, 5, 6, 7, 8, 9, 10, 11, 12, 13, 14, 15, 16]),
    ("revoke", &[YES, 1, 3, 17, 18]),
    ("gate", &[YES, 1, 2, 3, violation(1), violation(2), violation(3), violation(4), violation(5)]),
    ("judge_plan", &[1, 2, 3, judgement(0), judgement(PERMITTED), judgement(REFUSED), judgement(CANCELLED)]),
    ("contains", &[YES, NO]),
    ("read_register", &[YES, 1, 19, 20]),
    ("write_register", &[YES, 1, 21]),
    ("read_action", &[YES, 19, 20]),
    ("verdict_text", &[YES, 21]),
    ("read_json", &[YES, 2, 24]),
    ("write_json", &[YES, 2, 25, 21]),
    ("clear_resource", &[YES, 1, 3, 18]),
    ("clear_expired", &[YES, 1, 2, 3, 18]),
    (
        "judge_plan_text",
        &[1, 3, 19, 20, 22, 23, judgement(0), judgement(PERMITTED), judgement(REFUSED), judgement(CANCELLED)],
    ),
    ("sound_table", &[YES, NO]),
    ("attach", &[YES, 1, 30, 2, 3, 27, 29]),
    ("fetch", &[YES, 1, 30, 2, 3, 27, 28]),
    ("propose", &[YES, GRANT, 1, 2, 3, 26]),
    ("check_proposal", &[YES, NO, 1, 2, 3]),
    ("who", &[YES, NO, 1, 2]),
    ("why_use", &[1, 2, 3, reason(1), reason(2), reason(3), reason(4), reason(5)]),
];

/// What an answer comes to: a refusal's number, or one of those below.
pub type Outcome = u32;

pub const YES: Outcome = 0;
pub const NO: Outcome = 99;
/// A grant is proposed.
pub const GRANT: Outcome = 98;

/// The first violation of a verdict is of this kind.
pub const fn violation(kind: u32) -> Outcome {
    100 + kind
}

/// The last judgement of a plan has this decision, 0 for a plan without any.
pub const fn judgement(decision: u32) -> Outcome {
    200 + decision
}

/// The actor's reason is of this kind.
pub const fn reason(kind: u32) -> Outcome {
    300 + kind
}

pub fn outcome_name(outcome: Outcome) -> String {
    match outcome {
        YES => "yes".to_owned(),
        NO => "no".to_owned(),
        GRANT => "grant".to_owned(),
        1..=97 => format!("refusal {outcome}"),
        100..=199 => format!("violation {}", outcome - 100),
        300.. => format!("reason {}", outcome - 300),
        _ => format!("judgement {}", outcome - 200),
    }
}

impl Script {
    pub fn alone(call: Call) -> Self {
        Script { register: None, calls: vec![call] }
    }

    pub fn request(&self, out: &mut Vec<u8>) {
        if let Some(register) = &self.register {
            put_request(out, Request::Load, |out| register.put(out));
        }
        self.calls.iter().for_each(|call| call.request(out));
    }

    /// The register that the first call is made on.
    pub fn start(&self) -> Register {
        self.register.as_deref().cloned().unwrap_or(Register::EMPTY)
    }
}

/// The answer's word of marks, 0 as nothing was noticed.
const MARKS: usize = size_of::<u32>();

impl Call {
    pub fn number(&self) -> usize {
        match self {
            Call::Sound => 0,
            Call::Grant { .. } => 1,
            Call::Revoke { .. } => 2,
            Call::Gate(_) => 3,
            Call::Plan(_) => 4,
            Call::Contains { .. } => 5,
            Call::ReadRegister(_) => 6,
            Call::WriteRegister { .. } => 7,
            Call::ReadAction(_) => 8,
            Call::VerdictText { .. } => 9,
            Call::ReadJson { .. } => 10,
            Call::WriteJson { .. } => 11,
            Call::ClearResource { .. } => 12,
            Call::ClearExpired { .. } => 13,
            Call::PlanText(_) => 14,
            Call::SoundTable(_) => 15,
            Call::Attach { .. } => 16,
            Call::Fetch { .. } => 17,
            Call::Propose(_) => 18,
            Call::CheckProposal { .. } => 19,
            Call::Who { .. } => 20,
            Call::WhyUse { .. } => 21,
        }
    }

    pub fn name(&self) -> &'static str {
        NAMES[self.number()].0
    }

    pub fn request(&self, out: &mut Vec<u8>) {
        match self {
            Call::Sound => put_request(out, Request::Sound, |_| ()),
            Call::SoundTable(claims) => {
                put_request(out, Request::SoundTable, |out| claims.iter().for_each(|claim| claim.put(out)))
            }
            Call::Grant { claim, now, keep } => put_request(out, Request::Grant, |out| {
                u32::from(*keep).put(out);
                claim.put(out);
                now.put(out);
            }),
            Call::Revoke { revoker, claim, keep } => put_request(out, Request::Revoke, |out| {
                [u32::from(*keep), *revoker, *claim].put(out);
            }),
            Call::ClearResource { caller, resource, keep } => put_request(out, Request::ClearResource, |out| {
                [u32::from(*keep), *caller, *resource].put(out);
            }),
            Call::ClearExpired { caller, now, keep } => put_request(out, Request::ClearExpired, |out| {
                [u32::from(*keep), *caller].put(out);
                now.put(out);
            }),
            Call::Gate(action) => put_request(out, Request::Gate, |out| action.put(out)),
            Call::Plan(plan) => put_request(out, Request::Plan, |out| plan.put(out)),
            Call::PlanText(text) => put_request(out, Request::PlanText, |out| out.extend_from_slice(text)),
            Call::Contains { outer, inner } => put_request(out, Request::Contains, |out| {
                [outer.len(), inner.len()].put(out);
                out.extend_from_slice(outer);
                out.extend_from_slice(inner);
            }),
            Call::ReadRegister(text) => put_request(out, Request::ReadRegister, |out| out.extend_from_slice(text)),
            Call::WriteRegister { room, fill } => put_request(out, Request::WriteRegister, |out| {
                room.put(out);
                u32::from(*fill).put(out);
            }),
            Call::ReadAction(text) => put_request(out, Request::ReadAction, |out| out.extend_from_slice(text)),
            Call::VerdictText { register, action, room, fill } => put_request(out, Request::VerdictText, |out| {
                [register.len(), action.len(), *room].put(out);
                u32::from(*fill).put(out);
                out.extend_from_slice(register);
                out.extend_from_slice(action);
            }),
            Call::ReadJson { text, now } => put_request(out, Request::ReadJson, |out| {
                now.put(out);
                out.extend_from_slice(text);
            }),
            Call::WriteJson { action, id, kind, room, fill } => put_request(out, Request::WriteJson, |out| {
                action.put(out);
                [*kind, u32::from(*fill)].put(out);
                [id.len(), *room].put(out);
                out.extend_from_slice(id);
            }),
            Call::Attach { book, actor, resource, now, fingerprint } => put_request(out, Request::Attach, |out| {
                book.put(out);
                [*actor, *resource].put(out);
                now.put(out);
                fingerprint.put(out);
            }),
            Call::Fetch { book, actor, resource, now } => put_request(out, Request::Fetch, |out| {
                book.put(out);
                [*actor, *resource].put(out);
                now.put(out);
            }),
            Call::Propose(question) => put_request(out, Request::Propose, |out| put_question(question, out)),
            Call::CheckProposal { question, proposal } => put_request(out, Request::CheckProposal, |out| {
                put_question(question, out);
                proposal.put(out);
            }),
            Call::Who { usage, moment } => put_request(out, Request::Who, |out| {
                usage.put(out);
                moment.put(out);
            }),
            Call::WhyUse { actor, usage, moment } => put_request(out, Request::WhyUse, |out| {
                actor.put(out);
                usage.put(out);
                moment.put(out);
            }),
        }
    }

    pub fn answer_size(&self) -> usize {
        MARKS
            + match self {
                Call::Sound => 2 * size_of::<Soundness>() + size_of::<FirstFault>(),
                Call::SoundTable(_) => size_of::<Soundness>(),
                Call::Grant { .. } => size_of::<Granted>(),
                Call::Revoke { .. } | Call::ClearResource { .. } | Call::ClearExpired { .. } => size_of::<Revoked>(),
                Call::Gate(_) => 3 * size_of::<Verdict>() + size_of::<CoverTable>(),
                Call::Plan(_) => 3 * size_of::<PlanVerdict>(),
                Call::PlanText(_) => size_of::<PlanTextVerdict>(),
                Call::Contains { .. } => size_of::<Containment>(),
                Call::ReadRegister(_) => size_of::<RegisterRead>() + size_of::<FirstFault>(),
                Call::ReadAction(_) => size_of::<ActionRead>(),
                Call::ReadJson { .. } => size_of::<JsonRead>(),
                Call::Attach { .. } => size_of::<Attached>(),
                Call::Fetch { .. } => size_of::<Fetched>(),
                Call::Propose(_) => size_of::<Proposed>(),
                Call::CheckProposal { .. } => size_of::<Checked>(),
                Call::Who { .. } => size_of::<Holders>(),
                Call::WhyUse { .. } => size_of::<UseReason>(),
                Call::WriteRegister { room, .. } | Call::VerdictText { room, .. } | Call::WriteJson { room, .. } => {
                    size_of::<Written>() + room
                }
            }
    }

    /// Puts the model's whole answer, as the driver is to give it, and says what it comes to. The state is what the call is made
    /// on, and afterwards what the next one is.
    pub fn answer(&self, model: &Model, state: &mut Register, out: &mut Vec<u8>) -> Outcome {
        0u32.put(out);
        match self {
            Call::Sound => {
                u32::from(model.sound(state)).put(out);
                let fault = model.why_unsound(state);
                fault.put(out);
                u32::from(model.sound(&lent(model, state))).put(out);
                fault.why
            }
            Call::SoundTable(claims) => {
                let sound = model.sound_table(claims, state.version, &state.actors, &state.resources);
                u32::from(sound).put(out);
                yes_or_no(sound)
            }
            Call::Contains { outer, inner } => {
                let answer = Containment::of(outer, inner);
                answer.put(out);
                yes_or_no(answer.contained == 1)
            }
            Call::Grant { claim, now, keep } => {
                let (count, version) = (state.claims.count, state.version);
                let place = state.claims.list.get(count).copied();
                let result = model.grant(state, claim, *now);
                state.put(out);
                put_result(result, out);
                if let (Ok(()), false, Some(place)) = (result, keep, place) {
                    state.claims.list[count] = place;
                    state.claims.count = count;
                    state.version = version;
                }
                outcome(result)
            }
            Call::Revoke { revoker, claim, keep } => {
                put_withdrawn(*keep, state, out, |state| model.revoke(state, *revoker, *claim))
            }
            Call::ClearResource { caller, resource, keep } => {
                put_withdrawn(*keep, state, out, |state| model.clear_resource(state, *caller, *resource))
            }
            Call::ClearExpired { caller, now, keep } => {
                put_withdrawn(*keep, state, out, |state| model.clear_expired(state, *caller, *now))
            }
            Call::Gate(action) => {
                let verdict = model.gate(state, action);
                verdict.put(out);
                model.plain_gate(state, action).put(out);
                model.gate(&lent(model, state), action).put(out);
                model.cover_table(state, action.actor, action.now).put(out);
                match verdict.decision {
                    PERMITTED => YES,
                    REFUSED => violation(verdict.violations[0].kind),
                    _ => verdict.refusal,
                }
            }
            Call::Plan(plan) => {
                let verdict = model.judge_plan(state, plan);
                verdict.put(out);
                model.plain_plan(state, plan).put(out);
                model.judge_plan(&lent(model, state), plan).put(out);
                planned(verdict.accepted, verdict.refusal, &verdict.list, verdict.count)
            }
            Call::PlanText(text) => {
                let verdict = model.judge_plan_text(state, text);
                verdict.put(out);
                planned(verdict.accepted, verdict.refusal, &verdict.list, verdict.count)
            }
            Call::ReadRegister(text) => {
                let mut read = Register::EMPTY;
                let result = model.read_register(text, &mut read);
                read.put(out);
                put_result(result.map_err(|unread| unread.refusal), out);
                result.err().map_or(0, |unread| unread.line).put(out);
                model.why_unread(text).put(out);
                outcome(result.map_err(|unread| unread.refusal))
            }
            Call::ReadAction(text) => {
                let result = model.read_action(text);
                result.unwrap_or(Action::ZERO).put(out);
                put_result(result.map_err(|unread| unread.refusal), out);
                result.err().map_or(0, |unread| unread.line).put(out);
                outcome(result.map_err(|unread| unread.refusal))
            }
            Call::WriteRegister { room, fill } => {
                put_text(*room, *fill, out, |buffer| model.write_register(state, buffer))
            }
            Call::VerdictText { register, action, room, fill } => {
                put_text(*room, *fill, out, |buffer| model.verdict_text(register, action, buffer))
            }
            Call::ReadJson { text, now } => {
                let read = model.read_json(text, *now);
                read.put(out);
                read.refusal
            }
            Call::WriteJson { action, id, kind, room, fill } => {
                put_text(*room, *fill, out, |buffer| model.write_json(action, id, *kind, buffer))
            }
            Call::Attach { book, actor, resource, now, fingerprint } => {
                let mut book = book.clone();
                let result = model.attach(&mut book, state, *actor, *resource, *now, *fingerprint);
                book.put(out);
                put_result(result, out);
                outcome(result)
            }
            Call::Fetch { book, actor, resource, now } => {
                let fetched = model.fetch(book, state, *actor, *resource, *now);
                fetched.put(out);
                fetched.refusal
            }
            Call::Propose(question) => {
                let proposed = model.propose(state, question);
                proposed.put(out);
                if proposed.proposal.kind == PROPOSES_GRANT {
                    GRANT
                } else {
                    proposed.refusal
                }
            }
            Call::CheckProposal { question, proposal } => {
                let checked = model.check_proposal(state, question, proposal);
                checked.put(out);
                match checked.answer {
                    CHECK_PASSES => YES,
                    CHECK_FAILS => NO,
                    _ => checked.refusal,
                }
            }
            Call::Who { usage, moment } => {
                let holders = model.who(state, *usage, *moment);
                holders.put(out);
                match (holders.accepted, holders.count) {
                    (1, 0) => NO,
                    _ => holders.refusal,
                }
            }
            Call::WhyUse { actor, usage, moment } => {
                let told = model.why_use(state, *actor, *usage, *moment);
                told.put(out);
                match told.accepted {
                    1 => reason(told.actor.kind),
                    _ => told.refusal,
                }
            }
        }
    }

    /// The kinds of the violations that an answer of the gate lists; of another call, none.
    pub fn kinds(&self, mut answer: &[u8]) -> Vec<u32> {
        let Call::Gate(_) = self else {
            return Vec::new();
        };
        let from = &mut answer;
        u32::take(from);
        let verdict = Verdict::take(from);
        verdict.violations.iter().take(verdict.count).map(|violation| violation.kind).collect()
    }

    /// An answer's fields by name, for a reader.
    pub fn describe(&self, mut answer: &[u8]) -> Vec<(String, String)> {
        let from = &mut answer;
        let marks = u32::take(from);
        let mut fields = match self {
            Call::Sound => {
                let told = both("fault", fields(&Soundness::take(from)), fields(&FirstFault::take(from)));
                both("lent", told, fields(&Soundness::take(from)))
            }
            Call::SoundTable(_) => fields(&Soundness::take(from)),
            Call::Grant { .. } => fields(&Granted::take(from)),
            Call::Revoke { .. } | Call::ClearResource { .. } | Call::ClearExpired { .. } => {
                fields(&Revoked::take(from))
            }
            Call::Gate(_) => {
                let verdicts = both("plain", fields(&Verdict::take(from)), fields(&Verdict::take(from)));
                let verdicts = both("lent", verdicts, fields(&Verdict::take(from)));
                both("table", verdicts, fields(&CoverTable::take(from)))
            }
            Call::Plan(_) => {
                let verdicts = both("plain", fields(&PlanVerdict::take(from)), fields(&PlanVerdict::take(from)));
                both("lent", verdicts, fields(&PlanVerdict::take(from)))
            }
            Call::PlanText(_) => fields(&PlanTextVerdict::take(from)),
            Call::Contains { .. } => fields(&Containment::take(from)),
            Call::ReadRegister(_) => both("fault", fields(&RegisterRead::take(from)), fields(&FirstFault::take(from))),
            Call::ReadAction(_) => fields(&ActionRead::take(from)),
            Call::ReadJson { .. } => fields(&JsonRead::take(from)),
            Call::Attach { .. } => fields(&Attached::take(from)),
            Call::Fetch { .. } => fields(&Fetched::take(from)),
            Call::Propose(_) => fields(&Proposed::take(from)),
            Call::CheckProposal { .. } => fields(&Checked::take(from)),
            Call::Who { .. } => fields(&Holders::take(from)),
            Call::WhyUse { .. } => fields(&UseReason::take(from)),
            Call::WriteRegister { .. } | Call::VerdictText { .. } | Call::WriteJson { .. } => {
                fields(&Written::take(from))
            }
        };
        fields.insert(0, ("marks".to_owned(), marks.to_string()));
        fields.extend(from.iter().enumerate().map(|(at, byte)| (format!("buffer[{at}]"), byte.to_string())));
        fields
    }
}

/// The register that the model reads from the bytes of the state, as they are lent.
fn lent(model: &Model, state: &Register) -> Register {
    model.held(&bytes_of(state))
}

fn put_question(question: &Question, out: &mut Vec<u8>) {
    question.actor.put(out);
    question.usage.put(out);
    question.moment.put(out);
    question.signers.put(out);
}

/// The fields of two answers, those of the second under a name.
fn both(name: &str, mut first: Vec<(String, String)>, second: Vec<(String, String)>) -> Vec<(String, String)> {
    first.extend(second.into_iter().map(|(field, value)| (format!("{name}.{field}"), value)));
    first
}

fn yes_or_no(answer: bool) -> Outcome {
    if answer {
        YES
    } else {
        NO
    }
}

/// What the verdicts on a plan come to.
fn planned(accepted: u32, refusal: u32, list: &[Judgement], count: usize) -> Outcome {
    match list[..count.min(list.len())].last() {
        _ if accepted == 0 => refusal,
        None => judgement(0),
        Some(last) => judgement(last.decision),
    }
}

fn outcome<T>(result: Result<T, Refusal>) -> Outcome {
    result.map_or_else(|refusal| refusal as Outcome, |_| YES)
}

/// `accepted` and `refusal`.
fn put_result<T>(result: Result<T, Refusal>, out: &mut Vec<u8>) {
    [u32::from(result.is_ok()), outcome(result)].put(out);
}

/// The register that a withdrawal leaves, its result and how many claims went. Not kept, the state is as it was.
fn put_withdrawn(
    keep: bool,
    state: &mut Register,
    out: &mut Vec<u8>,
    withdraw: impl FnOnce(&mut Register) -> Result<usize, Refusal>,
) -> Outcome {
    let before = (!keep).then(|| state.claims.clone());
    let result = withdraw(state);
    state.put(out);
    put_result(result, out);
    result.unwrap_or(0).put(out);
    if let Some(before) = before {
        state.claims = before;
    }
    outcome(result)
}

fn put_text(
    room: usize,
    fill: u8,
    out: &mut Vec<u8>,
    write: impl FnOnce(&mut [u8]) -> Result<usize, Refusal>,
) -> Outcome {
    let start = out.len();
    out.resize(start + size_of::<Written>(), 0);
    out.resize(start + size_of::<Written>() + room, fill);
    let result = write(&mut out[start + size_of::<Written>()..]);
    let mut written = Vec::with_capacity(size_of::<Written>());
    Written::from(result).put(&mut written);
    out[start..start + written.len()].copy_from_slice(&written);
    outcome(result)
}

/// The numbers of a struct, each with the way to it, from the layout of its debug text.
fn fields(value: &impl std::fmt::Debug) -> Vec<(String, String)> {
    let mut fields = Vec::new();
    // The way to the line at hand: a name, or a list's index that counts on.
    let mut way: Vec<(String, Option<usize>)> = Vec::new();
    for line in format!("{value:#?}").lines() {
        let line = line.trim().trim_end_matches(',');
        if matches!(line, "}" | "]") {
            way.pop();
            continue;
        }
        if let Some((_, Some(index))) = way.last_mut() {
            *index += 1;
        }
        let (name, content) = line.split_once(": ").unwrap_or(("", line));
        if content.ends_with(['{', '[']) {
            way.push((name.to_owned(), content.ends_with('[').then_some(0)));
            continue;
        }
        let mut path = String::new();
        for (name, index) in &way {
            if !name.is_empty() {
                path.push('.');
                path.push_str(name);
            }
            if let Some(index) = index {
                path.push_str(&format!("[{}]", index - 1));
            }
        }
        if !name.is_empty() {
            path.push('.');
            path.push_str(name);
        }
        fields.push((path.trim_start_matches('.').to_owned(), content.to_owned()));
    }
    fields
}

#[cfg(test)]
mod tests {
    use super::*;

    #[test]
    fn fields_are_named_by_their_way() {
        let mut plan = Plan::EMPTY;
        plan.actions[2].uses[31].right = 7;
        plan.count = 9;
        let fields = fields(&plan);
        assert!(fields.contains(&("actions[2].uses[31].right".to_owned(), "7".to_owned())));
        assert!(fields.contains(&("actions[15].governed".to_owned(), "0".to_owned())));
        assert_eq!(fields.last(), Some(&("count".to_owned(), "9".to_owned())));
    }

    #[test]
    fn a_call_that_is_not_kept_leaves_the_state() {
        let mut register = Register::EMPTY;
        register.actors.push(Actor { id: 1, kind: HUMAN, owner: 0 });
        register.resources.push(Resource { id: 1, keeper: 1, ..Resource::ZERO });
        register.claims.list[0].id = 77;
        let claim =
            Claim { id: 1, parent: 0, grantor: 1, holder: 1, resource: 1, rights: 1, weight: 1, left: 0, expiry: 0 };
        let before = register.clone();
        let mut out = Vec::new();
        let grant = |keep| Call::Grant { claim, now: 0, keep };
        assert_eq!(grant(false).answer(&Model::default(), &mut register, &mut out), YES);
        assert_eq!(register, before);
        assert_eq!(out.len(), grant(false).answer_size());
        grant(true).answer(&Model::default(), &mut register, &mut out);
        let granted = register.clone();
        let revoke = Call::Revoke { revoker: 1, claim: 1, keep: false };
        assert_eq!(revoke.answer(&Model::default(), &mut register, &mut out), YES);
        assert_eq!(register, granted);
    }
}
