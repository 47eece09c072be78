//! A proved authority gate: who may do what to a report. A safe face of the library that `include/guvrendik.h` declares, which says what each call refuses
//! and in which order; nothing is decided here.
//!
//! ```
//! use guvrendik::{Register, Right, Use};
//! # fn main() -> Result<(), guvrendik::Refused> {
//! let text = "register=1\nactors=1\nactor=1\nkind=human\nowner=0\nresources=1\n\
//!             resource=10\npublic=1\nkeeper=1\nscope=site/a\nclaims=0\n";
//! let register = Register::from_text(text)?;
//! assert!(register.may(1, Use::new(10, Right::Read), 1500)?);
//! assert!(!register.may(1, Use::new(10, Right::Write), 1500)?);
//! assert_eq!(register.text(), text);
//! # Ok(())
//! # }
//! ```
#![deny(unsafe_code, missing_docs)]
#![warn(clippy::pedantic)]

mod answers;
mod raw;
mod sets;

pub use answers::{At, Decision, Judgement, Reason, ReasonKind, Refusal, Refused, Violation, Why};
use guvrendik_sys as sys;
pub use sets::{Flag, Flags, Right, Rights};

/// A sound register. There is no way to an unsound one: it is read from a text, or is what a change leaves.
#[derive(Clone, Debug)]
#[must_use = "a change answers a new register, and leaves the old one as it is"]
pub struct Register(Box<sys::Register>);

/// A claim, each field as in a register's text.
#[derive(Clone, Copy, Debug, Default, PartialEq, Eq)]
#[allow(missing_docs)]
pub struct Claim {
    pub id: u32,
    /// The claim that it is drawn from, or 0 for a root.
    pub parent: u32,
    pub grantor: u32,
    pub holder: u32,
    pub resource: u32,
    pub rights: Rights,
    pub weight: u32,
    /// How many more hands it may pass through; not asked in a register of version 1.
    pub left: u32,
    /// A moment in seconds, or 0 for never.
    pub expiry: u64,
}

impl Claim {
    fn raw(&self) -> sys::Claim {
        let Claim { id, parent, grantor, holder, resource, rights, weight, left, expiry } = *self;
        sys::Claim { id, parent, grantor, holder, resource, rights: rights.sum(), weight, left, expiry }
    }

    fn of(claim: &sys::Claim) -> Claim {
        let sys::Claim { id, parent, grantor, holder, resource, rights, weight, left, expiry } = *claim;
        Claim { id, parent, grantor, holder, resource, rights: Rights::of_sum(rights), weight, left, expiry }
    }
}

/// One right on one resource.
#[derive(Clone, Copy, Debug, PartialEq, Eq)]
pub struct Use {
    resource: u32,
    right: Right,
}

impl Use {
    /// A use of the right on the resource.
    #[must_use]
    pub const fn new(resource: u32, right: Right) -> Use {
        Use { resource, right }
    }

    fn raw(self) -> sys::Usage {
        sys::Usage { resource: self.resource, right: self.right.number() }
    }
}

/// An action. The actor, the moment and the flags are the portal's word, never a visitor's.
#[derive(Clone, Debug, Default, PartialEq, Eq)]
pub struct Action {
    /// Who acts.
    pub actor: u32,
    /// When, in seconds.
    pub moment: u64,
    /// The flags that are set.
    pub flags: Flags,
    /// What is used, at most 32.
    pub uses: Vec<Use>,
    /// The actors that are governed, at most 8.
    pub governs: Vec<u32>,
}

/// The front of a list in an array of the library's; the whole length goes beside it, and is refused where it is too long.
fn laid<T: Copy, const LIMIT: usize>(zero: T, list: impl Iterator<Item = T>) -> [T; LIMIT] {
    let mut places = [zero; LIMIT];
    places.iter_mut().zip(list).for_each(|(place, entry)| *place = entry);
    places
}

impl Action {
    fn raw(&self) -> sys::Action {
        sys::Action {
            actor: self.actor,
            flags: self.flags.sum(),
            now: self.moment,
            uses: laid(sys::Usage { resource: 0, right: 0 }, self.uses.iter().map(|usage| usage.raw())),
            used: self.uses.len(),
            governs: laid(0, self.governs.iter().copied()),
            governed: self.governs.len(),
        }
    }
}

fn accepted(accepted: u32, refusal: u32) -> Result<(), Refused> {
    match accepted {
        1 => Ok(()),
        _ => refused(refusal, At::Call),
    }
}

fn refused<T>(refusal: u32, at: At) -> Result<T, Refused> {
    Err(Refused { refusal: Refusal::of_number(refusal), at })
}

/// Every call answers [`Refused`] with the first test that fails; the header has their order.
#[allow(clippy::missing_errors_doc)]
impl Register {
    /// Reads a register's text. Refused: 19 and 20 with the line, 1 with the record that breaks a rule.
    pub fn from_text(text: impl AsRef<[u8]>) -> Result<Register, Refused> {
        let read = raw::read_register(text.as_ref());
        match (read.accepted, read.line) {
            (1, _) => Ok(Register(Box::new(read.state))),
            (_, 0) => {
                let fault = raw::why_unread(text.as_ref());
                let list = match fault.list {
                    sys::LIST_ACTORS => "actors",
                    sys::LIST_RESOURCES => "resources",
                    sys::LIST_CLAIMS => "claims",
                    _ => "register",
                };
                refused(read.refusal, At::Record(list, fault.place, fault.id, Refusal::of_number(fault.why)))
            }
            (_, line) => refused(read.refusal, At::Line(line)),
        }
    }

    /// Its text: keep and compare registers by it.
    #[must_use]
    pub fn text(&self) -> String {
        raw::register_text(&self.0)
    }

    /// Its claims, in their order.
    pub fn claims(&self) -> impl ExactSizeIterator<Item = Claim> + '_ {
        self.0.claims.list[..self.0.claims.count].iter().map(Claim::of)
    }

    /// The register with the claim at the end of its list.
    pub fn grant(&self, claim: &Claim, moment: u64) -> Result<Register, Refused> {
        let answer = raw::grant(&self.0, &claim.raw(), moment);
        accepted(answer.accepted, answer.refusal).map(|()| Register(Box::new(answer.state)))
    }

    /// The register without the claim and all that are drawn from it.
    pub fn revoke(&self, revoker: u32, claim: u32) -> Result<Register, Refused> {
        Register::withdrawn(&raw::revoke(&self.0, revoker, claim))
    }

    /// The register without the claims on the resource.
    pub fn clear_resource(&self, caller: u32, resource: u32) -> Result<Register, Refused> {
        Register::withdrawn(&raw::clear_resource(&self.0, caller, resource))
    }

    /// The register without the claims that have expired at the moment, and all that are drawn from them.
    pub fn clear_expired(&self, caller: u32, moment: u64) -> Result<Register, Refused> {
        Register::withdrawn(&raw::clear_expired(&self.0, caller, moment))
    }

    fn withdrawn(answer: &sys::Revoked) -> Result<Register, Refused> {
        accepted(answer.accepted, answer.refusal).map(|()| Register(Box::new(answer.state)))
    }

    /// Judges an action.
    pub fn gate(&self, action: &Action) -> Result<Decision, Refused> {
        let verdict = raw::gate(&self.0, &action.raw());
        match verdict.decision {
            sys::DECISION_PERMITTED => Ok(Decision::Permitted),
            sys::DECISION_REFUSED => Ok(Decision::Refused(
                verdict.violations[..verdict.count].iter().map(|violation| Violation::of(*violation)).collect(),
            )),
            _ => refused(verdict.refusal, At::Call),
        }
    }

    /// Whether the gate permits the action of this use alone.
    pub fn may(&self, actor: u32, usage: Use, moment: u64) -> Result<bool, Refused> {
        let action = Action { actor, moment, uses: vec![usage], ..Action::default() };
        self.gate(&action).map(|decision| decision == Decision::Permitted)
    }

    /// Judges a plan's text: a judgement to each action, in the order of the text.
    pub fn plan(&self, text: impl AsRef<[u8]>) -> Result<Vec<Judgement>, Refused> {
        let answer = raw::judge_plan(&self.0, text.as_ref());
        if answer.accepted == 1 {
            return Ok(answer.list[..answer.count].iter().map(|judgement| Judgement::of(*judgement)).collect());
        }
        let at = if answer.line == 0 { At::Action(answer.position) } else { At::Line(answer.line) };
        refused(answer.refusal, at)
    }

    /// Why the actor may make the use, or may not.
    pub fn why(&self, actor: u32, usage: Use, moment: u64) -> Result<Why, Refused> {
        let answer = raw::why(&self.0, actor, &usage.raw(), moment);
        accepted(answer.accepted, answer.refusal)?;
        let owner = Some(answer.owner).filter(|owner| *owner != 0).map(|owner| (owner, Reason::of(&answer.owners)));
        Ok(Why { actor: Reason::of(&answer.actor), owner })
    }

    /// The actors who may make the use, in the register's order.
    pub fn who(&self, usage: Use, moment: u64) -> Result<Vec<u32>, Refused> {
        let answer = raw::who(&self.0, &usage.raw(), moment);
        accepted(answer.accepted, answer.refusal).map(|()| answer.ids[..answer.count].to_vec())
    }

    /// The one grant by one of the signers, at most 8, that would permit the use; none where it is permitted already.
    pub fn propose(&self, actor: u32, usage: Use, moment: u64, signers: &[u32]) -> Result<Option<Claim>, Refused> {
        let signers = sys::Signers { list: laid(0, signers.iter().copied()), count: signers.len() };
        let answer = raw::propose(&self.0, actor, &usage.raw(), moment, &signers);
        accepted(answer.accepted, answer.refusal)?;
        Ok((answer.proposal.kind == sys::PROPOSES_GRANT).then(|| Claim::of(&answer.proposal.claim)))
    }
}

/// The lines that the printing program prints for a register's text and an action's.
#[must_use]
pub fn verdict(register: impl AsRef<[u8]>, action: impl AsRef<[u8]>) -> String {
    raw::verdict_text(register.as_ref(), action.as_ref())
}
