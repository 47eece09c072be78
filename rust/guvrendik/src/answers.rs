//! What the calls answer, as enums.

use crate::{raw, Flag};
use guvrendik_sys as sys;
use std::fmt;

macro_rules! refusals {
    ($($name:ident = $number:ident,)*) => {
        /// Why a call refuses: the header's `REFUSAL_` numbers. Its words are the library's.
        #[derive(Clone, Copy, Debug, PartialEq, Eq, Hash)] #[non_exhaustive] #[allow(missing_docs)]
        pub enum Refusal {
            $($name,)*
            /// A number that this crate has no name for.
            Other(u32),
        }

        impl Refusal {
            /// The refusal of a number.
            #[must_use]
            pub const fn of_number(number: u32) -> Refusal {
                match number {
                    $(sys::$number => Refusal::$name,)*
                    _ => Refusal::Other(number),
                }
            }

            /// Its number.
            #[must_use]
            pub const fn number(self) -> u32 {
                match self {
                    $(Refusal::$name => sys::$number,)*
                    Refusal::Other(number) => number,
                }
            }
        }
    };
}

refusals! {
    Unsound = REFUSAL_UNSOUND, Range = REFUSAL_RANGE, Absent = REFUSAL_ABSENT, Stands = REFUSAL_STANDS,
    Full = REFUSAL_FULL, NotKeeper = REFUSAL_NOT_KEEPER, Ownerless = REFUSAL_OWNERLESS,
    NotByMachine = REFUSAL_NOT_BY_MACHINE, NoParent = REFUSAL_NO_PARENT, NotHeld = REFUSAL_NOT_HELD,
    NotLive = REFUSAL_NOT_LIVE, NoDelegate = REFUSAL_NO_DELEGATE, RightLacking = REFUSAL_RIGHT_LACKING,
    WeightAbove = REFUSAL_WEIGHT_ABOVE, TooManyHops = REFUSAL_TOO_MANY_HOPS, Circle = REFUSAL_CIRCLE,
    NoClaim = REFUSAL_NO_CLAIM, NoGrantor = REFUSAL_NO_GRANTOR, Form = REFUSAL_FORM, Count = REFUSAL_COUNT,
    Buffer = REFUSAL_BUFFER, TooDeep = REFUSAL_TOO_DEEP, TooManyActions = REFUSAL_TOO_MANY_ACTIONS,
    JsonForm = REFUSAL_JSON_FORM, JsonLacks = REFUSAL_JSON_LACKS, NoProposal = REFUSAL_NO_PROPOSAL,
    NotPermitted = REFUSAL_NOT_PERMITTED, NoEntry = REFUSAL_NO_ENTRY, BookFull = REFUSAL_BOOK_FULL,
    BadBook = REFUSAL_BAD_BOOK, Doubled = REFUSAL_DOUBLED, BadOwner = REFUSAL_BAD_OWNER,
    BadKeeper = REFUSAL_BAD_KEEPER,
}

impl fmt::Display for Refusal {
    fn fmt(&self, out: &mut fmt::Formatter) -> fmt::Result {
        out.write_str(&raw::words(raw::REFUSAL, self.number()))
    }
}

/// A call that was refused.
#[derive(Clone, Copy, Debug, PartialEq, Eq)]
pub struct Refused {
    /// The first test that failed.
    pub refusal: Refusal,
    /// Where it failed.
    pub at: At,
}

/// Where a test failed.
#[derive(Clone, Copy, Debug, PartialEq, Eq)]
pub enum At {
    /// In the call itself.
    Call,
    /// In this line of the text, from 1.
    Line(usize),
    /// At this action of the plan, from 0: its actor is not in the register.
    Action(usize),
    /// In this record of a register's text that is not sound: its list, its place there from 0, its id, and the rule that it breaks.
    Record(&'static str, usize, u32, Refusal),
}

impl fmt::Display for Refused {
    fn fmt(&self, out: &mut fmt::Formatter) -> fmt::Result {
        write!(out, "{}: {}", self.refusal.number(), self.refusal)?;
        match self.at {
            At::Call => Ok(()),
            At::Line(line) => write!(out, ", line {line}"),
            At::Action(place) => write!(out, ", action {place}"),
            At::Record(list, place, id, why) => write!(out, ", {list}, place {place}, id {id}: {why}"),
        }
    }
}

impl std::error::Error for Refused {}

macro_rules! violations {
    ($($(#[$doc:meta])* $name:ident = $kind:ident,)*) => {
        /// Why the gate does not permit an action. Positions are of the action's uses or governed entries, from 0.
        #[derive(Clone, Copy, Debug, PartialEq, Eq)] #[non_exhaustive]
        pub enum Violation {
            /// A flag is set.
            Flag(Flag),
            $($(#[$doc])* $name(u32),)*
            /// A kind that this crate has no name for, and its value.
            Other(u32, u32),
        }

        impl Violation {
            pub(crate) fn of(violation: sys::Violation) -> Violation {
                let sys::Violation { kind, value } = violation;
                match (kind, Flag::ALL.iter().find(|flag| flag.number() == value)) {
                    (sys::VIOLATION_FLAG, Some(flag)) => Violation::Flag(*flag),
                    $((sys::$kind, _) => Violation::$name(value),)*
                    _ => Violation::Other(kind, value),
                }
            }

            fn kind(self) -> u32 {
                match self {
                    Violation::Flag(_) => sys::VIOLATION_FLAG,
                    $(Violation::$name(_) => sys::$kind,)*
                    Violation::Other(kind, _) => kind,
                }
            }
        }
    };
}

violations! {
    /// The actor is a machine without owner: its id.
    MachineOwnerless = VIOLATION_MACHINE_OWNERLESS,
    /// A machine that governs: the entry's position.
    MachineGoverns = VIOLATION_MACHINE_GOVERNS,
    /// The actor does not cover the use: its position.
    NotCovered = VIOLATION_NOT_COVERED,
    /// The machine's owner does not cover the use: its position.
    OwnerNotCovered = VIOLATION_OWNER_NOT_COVERED,
}

impl fmt::Display for Violation {
    fn fmt(&self, out: &mut fmt::Formatter) -> fmt::Result {
        out.write_str(&raw::words(raw::VIOLATION, self.kind()))
    }
}

/// The gate's decision on an action.
#[derive(Clone, Debug, PartialEq, Eq)]
#[must_use = "an action that is not permitted must not be done"]
pub enum Decision {
    /// The action may be done.
    Permitted,
    /// It may not, for each of these; there is at least one.
    Refused(Vec<Violation>),
}

/// The judgement of one action of a plan.
#[derive(Clone, Copy, Debug, PartialEq, Eq)]
#[must_use = "an action that is not permitted must not be done"]
pub enum Judgement {
    /// The action may be done.
    Permitted,
    /// It may not, for so many violations.
    Refused(u32),
    /// An action before it has a flag set.
    Cancelled,
}

impl Judgement {
    pub(crate) fn of(judgement: sys::Judgement) -> Judgement {
        match judgement.decision {
            sys::DECISION_PERMITTED => Judgement::Permitted,
            sys::DECISION_CANCELLED => Judgement::Cancelled,
            _ => Judgement::Refused(judgement.violations),
        }
    }
}

/// The kind of a reason.
#[derive(Clone, Copy, Debug, PartialEq, Eq)]
pub enum ReasonKind {
    /// The claim is relied on.
    Relies,
    /// A public READ, by no claim.
    Public,
    /// The nearest claim held that contains the report and has the right is not live.
    NotLive,
    /// The nearest claim held that contains the report lacks the right.
    Lacks,
    /// No claim held contains the report.
    Unheld,
}

/// Why somebody may make a use, or may not.
#[derive(Clone, Debug, PartialEq, Eq)]
pub struct Reason {
    /// What is told.
    pub kind: ReasonKind,
    /// The ids from the claim up to its root; empty where no claim is told.
    pub chain: Vec<u32>,
    /// The root's grantor, where a claim is told.
    pub keeper: Option<u32>,
    /// Of a claim that is not live: the first on its chain that is not current.
    pub ended: Option<u32>,
}

impl Reason {
    pub(crate) fn of(reason: &sys::Reason) -> Reason {
        let kind = match reason.kind {
            sys::REASON_RELIES => ReasonKind::Relies,
            sys::REASON_PUBLIC => ReasonKind::Public,
            sys::REASON_NOT_LIVE => ReasonKind::NotLive,
            sys::REASON_LACKS => ReasonKind::Lacks,
            _ => ReasonKind::Unheld,
        };
        let some = |number: u32| Some(number).filter(|number| *number != 0);
        let chain = reason.chain.iter().copied().take_while(|id| *id != 0).collect();
        Reason { kind, chain, keeper: some(reason.keeper), ended: some(reason.ended) }
    }
}

/// The actor's reason, and of a machine with an owner his.
#[derive(Clone, Debug, PartialEq, Eq)]
pub struct Why {
    /// The acting one's.
    pub actor: Reason,
    /// Of a machine with an owner: who that is, and his reason.
    pub owner: Option<(u32, Reason)>,
}
