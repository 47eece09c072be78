//! The structs of `include/guvrendik.h`, field for field, and the rule book's limits.

pub const ACTORS: usize = 64;
pub const RESOURCES: usize = 64;
pub const CLAIMS: usize = 256;
pub const HOPS: usize = 16;
pub const PATH: usize = 64;
pub const USES: usize = 32;
pub const GOVERNS: usize = 8;
pub const ACTIONS: usize = 16;
/// Plans in each other in a plan's text, the outermost counted.
pub const LEVELS: usize = 8;
/// Steps of one plan in a plan's text.
pub const STEPS: usize = 64;
/// Actions of a plan's text, in all its plans together.
pub const TEXT_ACTIONS: usize = 64;
/// Ten flags, one violation of kind 2, eight governed entries and 32 uses.
pub const VIOLATIONS: usize = 51;
/// No text of a register is longer than this.
pub const REGISTER_TEXT: usize = 39_789;
/// No action that is written as JSON is longer than this.
pub const JSON_TEXT: usize = 807;
/// Bytes of a JSON action's id.
pub const JSON_ID: usize = 64;
/// Entries of a book.
pub const PLACES: usize = 64;
/// Actors who are willing to sign a grant.
pub const SIGNERS: usize = 8;
/// Bytes of a fingerprint.
pub const FINGERPRINT: usize = 32;
/// No text of a number is longer than this.
pub const WORD_TEXT: usize = 128;

pub const ID_MAX: u32 = 65_535;
pub const RIGHTS_MAX: u32 = 131_071;
pub const WEIGHT_MAX: u32 = 1_000;
pub const LEFT_MAX: u32 = 16;
pub const MOMENT_MAX: u64 = (1 << 32) - 1;
pub const FLAGS_MAX: u32 = 1_023;
pub const RIGHT_MAX: u32 = 16;

/// The versions of a register: in the second one a claim says how many more hands it may pass through.
pub const VERSION_1: u64 = 1;
pub const VERSION_2: u64 = 2;

pub const HUMAN: u32 = 1;
pub const MACHINE: u32 = 2;

pub const READ: u32 = 0;
pub const WRITE: u32 = 1;
pub const DELEGATE: u32 = 4;
/// AUDIT_WRITE, REGISTRY_MODIFY and POLICY_MODIFY: what a machine may hold and use, but not grant.
pub const NOT_BY_MACHINE: u32 = 1 << 13 | 1 << 15 | 1 << 16;

/// The `decision` of a verdict and of a judgement.
pub const PERMITTED: u32 = 1;
pub const REFUSED: u32 = 2;
pub const STOPPED: u32 = 3;
pub const CANCELLED: u32 = 4;

/// A value whose every number is zero: what stands past a count, and beside a refusal.
pub trait Zero: Copy {
    const ZERO: Self;
}

/// A list as C lays it out. What stands past the count is no part of it, and the count itself may be any number.
#[repr(C)]
#[derive(Clone, Debug, PartialEq, Eq)]
pub struct List<T, const LIMIT: usize> {
    pub list: [T; LIMIT],
    pub count: usize,
}

impl<T: Zero, const LIMIT: usize> List<T, LIMIT> {
    pub const EMPTY: Self = List { list: [T::ZERO; LIMIT], count: 0 };

    /// The entries that count, or `None` where the count is above the limit.
    pub fn entries(&self) -> Option<&[T]> {
        self.list.get(..self.count)
    }

    /// Appends to a list that has room.
    pub fn push(&mut self, entry: T) {
        self.list[self.count] = entry;
        self.count += 1;
    }
}

#[repr(C)]
#[derive(Clone, Copy, Debug, PartialEq, Eq)]
pub struct Actor {
    pub id: u32,
    pub kind: u32,
    pub owner: u32,
}

impl Zero for Actor {
    const ZERO: Self = Actor { id: 0, kind: 0, owner: 0 };
}

#[repr(C)]
#[derive(Clone, Copy, Debug, PartialEq, Eq)]
pub struct Resource {
    pub id: u32,
    pub is_public: u32,
    pub keeper: u32,
    pub len: u32,
    pub path: [u8; PATH],
}

impl Zero for Resource {
    const ZERO: Self = Resource { id: 0, is_public: 0, keeper: 0, len: 0, path: [0; PATH] };
}

#[repr(C)]
#[derive(Clone, Copy, Debug, PartialEq, Eq)]
pub struct Claim {
    pub id: u32,
    pub parent: u32,
    pub grantor: u32,
    pub holder: u32,
    pub resource: u32,
    pub rights: u32,
    pub weight: u32,
    pub left: u32,
    pub expiry: u64,
}

impl Zero for Claim {
    const ZERO: Self =
        Claim { id: 0, parent: 0, grantor: 0, holder: 0, resource: 0, rights: 0, weight: 0, left: 0, expiry: 0 };
}

pub type Actors = List<Actor, ACTORS>;
pub type Resources = List<Resource, RESOURCES>;
pub type Claims = List<Claim, CLAIMS>;

#[repr(C)]
#[derive(Clone, Debug, PartialEq, Eq)]
pub struct Register {
    pub actors: Actors,
    pub resources: Resources,
    pub claims: Claims,
    pub version: u64,
}

impl Register {
    pub const EMPTY: Self =
        Register { actors: List::EMPTY, resources: List::EMPTY, claims: List::EMPTY, version: VERSION_1 };
}

#[repr(C)]
#[derive(Clone, Copy, Debug, PartialEq, Eq)]
pub struct Usage {
    pub resource: u32,
    pub right: u32,
}

#[repr(C)]
#[derive(Clone, Copy, Debug, PartialEq, Eq)]
pub struct Action {
    pub actor: u32,
    pub flags: u32,
    pub now: u64,
    pub uses: [Usage; USES],
    pub used: usize,
    pub governs: [u32; GOVERNS],
    pub governed: usize,
}

impl Zero for Action {
    const ZERO: Self = Action {
        actor: 0,
        flags: 0,
        now: 0,
        uses: [Usage { resource: 0, right: 0 }; USES],
        used: 0,
        governs: [0; GOVERNS],
        governed: 0,
    };
}

#[repr(C)]
#[derive(Clone, Debug, PartialEq, Eq)]
pub struct Plan {
    pub actions: [Action; ACTIONS],
    pub count: usize,
}

impl Plan {
    pub const EMPTY: Self = Plan { actions: [Action::ZERO; ACTIONS], count: 0 };
}

#[repr(C)]
#[derive(Clone, Copy, Debug, PartialEq, Eq)]
pub struct Soundness {
    pub sound: u32,
}

#[repr(C)]
#[derive(Clone, Copy, Debug, PartialEq, Eq)]
pub struct Containment {
    pub contained: u64,
    pub length: usize,
}

#[repr(C)]
#[derive(Clone, Debug, PartialEq, Eq)]
pub struct Granted {
    pub state: Register,
    pub accepted: u32,
    pub refusal: u32,
}

#[repr(C)]
#[derive(Clone, Debug, PartialEq, Eq)]
pub struct Revoked {
    pub state: Register,
    pub accepted: u32,
    pub refusal: u32,
    pub removed: usize,
}

#[repr(C)]
#[derive(Clone, Copy, Debug, PartialEq, Eq)]
pub struct Violation {
    pub kind: u32,
    pub value: u32,
}

#[repr(C)]
#[derive(Clone, Debug, PartialEq, Eq)]
pub struct Verdict {
    pub decision: u32,
    pub refusal: u32,
    pub violations: [Violation; VIOLATIONS],
    pub count: usize,
    pub hops: [usize; USES],
}

impl Verdict {
    pub const EMPTY: Self = Verdict {
        decision: 0,
        refusal: 0,
        violations: [Violation { kind: 0, value: 0 }; VIOLATIONS],
        count: 0,
        hops: [0; USES],
    };
}

#[repr(C)]
#[derive(Clone, Copy, Debug, PartialEq, Eq)]
pub struct Judgement {
    pub decision: u32,
    pub violations: u32,
}

#[repr(C)]
#[derive(Clone, Debug, PartialEq, Eq)]
pub struct PlanVerdict {
    pub accepted: u32,
    pub refusal: u32,
    pub position: usize,
    pub list: [Judgement; ACTIONS],
    pub count: usize,
}

impl PlanVerdict {
    pub const EMPTY: Self = PlanVerdict {
        accepted: 0,
        refusal: 0,
        position: 0,
        list: [Judgement { decision: 0, violations: 0 }; ACTIONS],
        count: 0,
    };
}

#[repr(C)]
#[derive(Clone, Debug, PartialEq, Eq)]
pub struct PlanTextVerdict {
    pub accepted: u32,
    pub refusal: u32,
    pub line: usize,
    pub position: usize,
    pub list: [Judgement; TEXT_ACTIONS],
    pub count: usize,
}

impl PlanTextVerdict {
    pub const EMPTY: Self = PlanTextVerdict {
        accepted: 0,
        refusal: 0,
        line: 0,
        position: 0,
        list: [Judgement { decision: 0, violations: 0 }; TEXT_ACTIONS],
        count: 0,
    };
}

#[repr(C)]
#[derive(Clone, Debug, PartialEq, Eq)]
pub struct RegisterRead {
    pub state: Register,
    pub accepted: u32,
    pub refusal: u32,
    pub line: usize,
}

#[repr(C)]
#[derive(Clone, Debug, PartialEq, Eq)]
pub struct ActionRead {
    pub action: Action,
    pub accepted: u32,
    pub refusal: u32,
    pub line: usize,
}

#[repr(C)]
#[derive(Clone, Copy, Debug, PartialEq, Eq)]
pub struct JsonRead {
    pub action: Action,
    pub accepted: u32,
    pub refusal: u32,
    pub kind: u32,
    pub id_len: u32,
    pub id: [u8; JSON_ID],
}

impl Zero for JsonRead {
    const ZERO: Self = JsonRead { action: Action::ZERO, accepted: 0, refusal: 0, kind: 0, id_len: 0, id: [0; JSON_ID] };
}

#[repr(C)]
#[derive(Clone, Copy, Debug, PartialEq, Eq)]
pub struct Written {
    pub accepted: u32,
    pub refusal: u32,
    pub length: usize,
}

/// The version of the calls.
#[repr(C)]
#[derive(Clone, Debug, PartialEq, Eq)]
pub struct VersionNumbers {
    pub major: u32,
    pub minor: u32,
    pub patch: u32,
}

/// Actors who are willing to sign a grant.
#[repr(C)]
#[derive(Clone, Copy, Debug, PartialEq, Eq)]
pub struct Signers {
    pub list: [u32; SIGNERS],
    pub count: usize,
}

#[repr(C)]
#[derive(Clone, Copy, Debug, PartialEq, Eq)]
pub struct Proposal {
    pub kind: u64,
    pub claim: Claim,
}

impl Zero for Proposal {
    const ZERO: Self = Proposal { kind: 0, claim: Claim::ZERO };
}

#[repr(C)]
#[derive(Clone, Copy, Debug, PartialEq, Eq)]
pub struct Proposed {
    pub proposal: Proposal,
    pub accepted: u32,
    pub refusal: u32,
}

#[repr(C)]
#[derive(Clone, Copy, Debug, PartialEq, Eq)]
pub struct Checked {
    pub answer: u32,
    pub refusal: u32,
}

/// Who may make a use, in register order.
#[repr(C)]
#[derive(Clone, Debug, PartialEq, Eq)]
pub struct Holders {
    pub accepted: u32,
    pub refusal: u32,
    pub ids: [u32; ACTORS],
    pub count: usize,
}

impl Holders {
    pub const NONE: Self = Holders { accepted: 0, refusal: 0, ids: [0; ACTORS], count: 0 };
}

/// The claims from one up to its root, at most.
pub const CHAIN: usize = HOPS + 1;

#[repr(C)]
#[derive(Clone, Copy, Debug, PartialEq, Eq)]
pub struct Reason {
    pub kind: u32,
    pub count: u32,
    pub chain: [u32; CHAIN],
    pub keeper: u32,
    pub ended: u32,
}

impl Zero for Reason {
    const ZERO: Self = Reason { kind: 0, count: 0, chain: [0; CHAIN], keeper: 0, ended: 0 };
}

/// The reason of an actor and, of a machine with an owner, his.
#[repr(C)]
#[derive(Clone, Copy, Debug, PartialEq, Eq)]
pub struct UseReason {
    pub accepted: u32,
    pub refusal: u32,
    pub actor: Reason,
    pub owner: u32,
    pub owners: Reason,
}

impl Zero for UseReason {
    const ZERO: Self = UseReason { accepted: 0, refusal: 0, actor: Reason::ZERO, owner: 0, owners: Reason::ZERO };
}

#[repr(C)]
#[derive(Clone, Copy, Debug, PartialEq, Eq)]
pub struct Fingerprint {
    pub bytes: [u8; FINGERPRINT],
}

impl Zero for Fingerprint {
    const ZERO: Self = Fingerprint { bytes: [0; FINGERPRINT] };
}

#[repr(C)]
#[derive(Clone, Copy, Debug, PartialEq, Eq)]
pub struct Entry {
    pub resource: u32,
    pub fingerprint: Fingerprint,
}

impl Zero for Entry {
    const ZERO: Self = Entry { resource: 0, fingerprint: Fingerprint::ZERO };
}

#[repr(C)]
#[derive(Clone, Debug, PartialEq, Eq)]
pub struct Book {
    pub entries: [Entry; PLACES],
    pub count: usize,
}

impl Book {
    pub const EMPTY: Self = Book { entries: [Entry::ZERO; PLACES], count: 0 };
}

#[repr(C)]
#[derive(Clone, Debug, PartialEq, Eq)]
pub struct Attached {
    pub book: Book,
    pub accepted: u32,
    pub refusal: u32,
}

#[repr(C)]
#[derive(Clone, Copy, Debug, PartialEq, Eq)]
pub struct Fetched {
    pub fingerprint: Fingerprint,
    pub accepted: u32,
    pub refusal: u32,
}

/// The first fault of a register or of a text.
#[repr(C)]
#[derive(Clone, Copy, Debug, PartialEq, Eq)]
pub struct FirstFault {
    pub sound: u32,
    pub why: u32,
    pub list: u32,
    pub id: u32,
    pub place: usize,
    pub line: usize,
}

impl FirstFault {
    pub const NONE: Self = FirstFault { sound: 1, why: 0, list: 0, id: 0, place: 0, line: 0 };

    pub fn of(why: crate::model::Refusal, list: u32, place: usize, id: u32) -> Self {
        FirstFault { sound: 0, why: why as u32, list, id, place, line: 0 }
    }
}

/// What is said of a claim: it lives, or the first of these that holds.
pub const LIVES: u32 = 1;
pub const WEIGHTLESS: u32 = 2;
pub const EXPIRED: u32 = 3;
pub const SOURCE_DEAD: u32 = 4;

/// What a cell holds besides the place of a claim.
pub const CELL_PUBLIC: u32 = 256;
pub const CELL_NOTHING: u32 = 257;

pub const CELLS: usize = RESOURCES * (RIGHT_MAX as usize + 1);

/// The cover table of an actor, by places of claims and of cells.
#[repr(C)]
#[derive(Clone, Debug, PartialEq, Eq)]
pub struct CoverTable {
    pub accepted: u32,
    pub refusal: u32,
    pub owner: u32,
    pub hops: [u32; CLAIMS],
    pub states: [u32; CLAIMS],
    pub own: [u32; CELLS],
    pub owners: [u32; CELLS],
}

impl CoverTable {
    pub const EMPTY: Self = CoverTable {
        accepted: 0,
        refusal: 0,
        owner: 0,
        hops: [0; CLAIMS],
        states: [0; CLAIMS],
        own: [CELL_NOTHING; CELLS],
        owners: [CELL_NOTHING; CELLS],
    };
}
