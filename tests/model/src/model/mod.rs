//! The rules, each in the words of the rule book.

mod book;
mod faults;
mod gate;
mod grant;
mod ids;
pub mod json;
mod lent;
pub mod paths;
mod plain;
mod plan;
mod plan_text;
pub mod proposals;
mod rules;
pub mod text;
mod why;
mod withdraw;
pub mod words;

#[cfg(test)]
mod json_tests;
#[cfg(test)]
mod plan_text_tests;
#[cfg(test)]
mod proposals_tests;
#[cfg(test)]
mod tests;

pub use rules::Sound;

/// The numbers that a call refuses with.
#[derive(Clone, Copy, Debug, PartialEq, Eq)]
#[repr(u32)]
pub enum Refusal {
    /// The register is not sound.
    Unsound = 1,
    /// A field or count of the call is out of range.
    Range = 2,
    /// The grantor, holder, granted or cleared resource, revoker, clearing caller or acting actor is not in the register.
    Absent = 3,
    /// The claim's id already stands.
    Stands = 4,
    /// 256 claims stand.
    Full = 5,
    /// A root granted by anyone but the keeper.
    NotKeeper = 6,
    /// The grantor is a machine without owner.
    Ownerless = 7,
    /// The grantor is a machine and right 13, 15 or 16 is asked.
    NotByMachine = 8,
    /// The parent does not stand.
    NoParent = 9,
    /// The parent is not held by the grantor, or is on another resource.
    NotHeld = 10,
    /// The parent is not live at the moment: it or a claim above it has no weight or has expired.
    NotLive = 11,
    /// The parent lacks DELEGATE.
    NoDelegate = 12,
    /// A right is asked that the parent lacks.
    RightLacking = 13,
    /// The weight is above the parent's.
    Weight = 14,
    /// More than 16 hops, or in version 2 a `left` that is not below the parent's.
    Hops = 15,
    /// A circle.
    Circle = 16,
    /// The claim to revoke does not stand.
    NoClaim = 17,
    /// The revoker is no grantor on the claim's chain; who clears a resource is not its keeper, who clears old claims not human.
    NoGrantor = 18,
    /// The text is not of the form.
    Form = 19,
    /// A count line is above its limit.
    Count = 20,
    /// The buffer is too short for the text.
    Buffer = 21,
    /// A plan of a plan's text stands deeper than 8 levels.
    TooDeep = 22,
    /// A plan's text has more than 64 actions.
    TooManyActions = 23,
    /// The JSON action is of another form, has a number out of range or more than 32 uses.
    JsonForm = 24,
    /// A right above 2 or a governed entry, for which a JSON action has no place.
    JsonLacks = 25,
    /// No single grant by one of the signers would permit the use.
    NoProposal = 26,
    /// The gate does not permit the action.
    NotPermitted = 27,
    /// No fingerprint is attached to the resource's number.
    NoEntry = 28,
    /// 64 entries stand in the book, and none of the resource's number.
    BookFull = 29,
    /// The book has more than 64 entries, or two for one number.
    BadBook = 30,
    /// An earlier record of the list has the id.
    Doubled = 31,
    /// An owner of a human, or an owner who is no human of the register.
    BadOwner = 32,
    /// A keeper who is no human of the register.
    BadKeeper = 33,
}

/// A fault put into the model on purpose, to show that the comparison finds it.
#[derive(Clone, Copy, Debug, PartialEq, Eq)]
pub enum Fault {
    /// A claim whose expiry equals the moment is taken as live.
    ExpiryEqualLive,
    /// Whether a claim is live is asked of the claim alone, and not of those that it is drawn from.
    SourceUnasked,
    /// A revocation takes the claim and its direct children only.
    DirectChildren,
    /// A revocation takes the claim alone.
    OnlyNamed,
    /// A clearing of old claims keeps a claim whose expiry equals the moment.
    ExpiryEqualKept,
    /// A clearing of old claims keeps what is drawn from them.
    DrawnKept,
    /// A clearing of old claims takes claims of weight 0.
    WeightlessCleared,
    /// In version 2 a claim is granted that has as much left as its parent.
    EqualLeft,
    /// What a grant leaves has version 1.
    VersionLost,
    /// Of a table with more than 256 claims the first 256 are judged.
    TableCutAt256,
    /// A number with a leading zero is read.
    LeadingZero,
    /// The hop count is that of the first covering claim, however near.
    FirstCovering,
    /// Of covering claims that are as near, the last speaks.
    LastOnTie,
    /// The nearest claim is the one with the longest path as it is written, slashes at its end counted.
    UntrimmedLength,
    /// A nearest claim whose trimmed path is empty does not speak.
    LengthZeroPassedOver,
    /// A use of a report that stands and is not covered has hop count 1.
    HiddenTold,
    /// An action after a flagged one is judged.
    CancelledJudged,
    /// In a plan's text a flag cancels what follows in its own plan only.
    FlagPerPlan,
    /// In a plan's text each plan has room for 64 actions of its own.
    RoomPerPlan,
    /// A JSON action's second actor is taken, in place of the first.
    SecondActorTaken,
    /// A buffer too short for a JSON action gets the beginning of it.
    ShortBufferBegun,
    /// An attach goes to the place before the number's.
    EntryBefore,
    /// A fetch that is not permitted hands out the fingerprint beside its 27.
    ToldWithRefusal,
    /// A grant is proposed to a machine whose owner does not cover the use.
    OwnerNotAsked,
    /// A grant is proposed below a claim that has nothing left.
    LeftZeroParent,
    /// The first fault of the claims is told at the place behind it.
    FaultBehind,
    /// A machine that covers the use may, whatever its owner does.
    OwnerUnasked,
    /// A claim whose source is dead is shown as one that lives.
    DeadSourceShown,
    /// A claim that is not live is told with the last on its chain that is not current.
    LastEnded,
    /// In a register that is lent, numbers are taken with their greatest byte first.
    BigEndFirst,
}

impl Fault {
    pub const ALL: [(&'static str, Fault); 30] = [
        ("expiry-equal-live", Fault::ExpiryEqualLive),
        ("source-unasked", Fault::SourceUnasked),
        ("direct-children", Fault::DirectChildren),
        ("only-named", Fault::OnlyNamed),
        ("expiry-equal-kept", Fault::ExpiryEqualKept),
        ("drawn-kept", Fault::DrawnKept),
        ("weightless-cleared", Fault::WeightlessCleared),
        ("equal-left", Fault::EqualLeft),
        ("version-lost", Fault::VersionLost),
        ("table-cut-at-256", Fault::TableCutAt256),
        ("leading-zero", Fault::LeadingZero),
        ("first-covering", Fault::FirstCovering),
        ("last-on-tie", Fault::LastOnTie),
        ("untrimmed-length", Fault::UntrimmedLength),
        ("length-zero-passed-over", Fault::LengthZeroPassedOver),
        ("hidden-told", Fault::HiddenTold),
        ("cancelled-judged", Fault::CancelledJudged),
        ("flag-per-plan", Fault::FlagPerPlan),
        ("room-per-plan", Fault::RoomPerPlan),
        ("second-actor-taken", Fault::SecondActorTaken),
        ("short-buffer-begun", Fault::ShortBufferBegun),
        ("entry-before", Fault::EntryBefore),
        ("told-with-27", Fault::ToldWithRefusal),
        ("owner-not-asked", Fault::OwnerNotAsked),
        ("left-zero-parent", Fault::LeftZeroParent),
        ("fault-behind", Fault::FaultBehind),
        ("owner-unasked", Fault::OwnerUnasked),
        ("dead-source-shown", Fault::DeadSourceShown),
        ("last-ended", Fault::LastEnded),
        ("big-end-first", Fault::BigEndFirst),
    ];
}

/// The rules as calls. The default has no fault.
#[derive(Clone, Copy, Debug, Default)]
pub struct Model {
    pub fault: Option<Fault>,
}

impl Model {
    fn has(&self, fault: Fault) -> bool {
        self.fault == Some(fault)
    }
}
