//! Rights and flags, and sets of them.

use guvrendik_sys as sys;

/// An enum of numbered members and the sets of them, as the sum of their parts that the library takes.
macro_rules! set {
    ($(#[$member_doc:meta])* $member:ident, $(#[$set_doc:meta])* $set:ident, { $($name:ident = $number:expr,)* }) => {
        $(#[$member_doc])*
        #[derive(Clone, Copy, Debug, PartialEq, Eq, Hash, PartialOrd, Ord)] #[repr(u32)] #[allow(missing_docs)]
        pub enum $member { $($name = $number,)* }

        impl $member {
            /// All, by number.
            pub const ALL: &'static [$member] = &[$($member::$name,)*];

            /// Its number, as a use or a violation has it.
            #[must_use]
            pub const fn number(self) -> u32 {
                self as u32
            }
        }

        $(#[$set_doc])*
        #[derive(Clone, Copy, Debug, Default, PartialEq, Eq, Hash)]
        pub struct $set(u32);

        impl $set {
            /// Every member. The default is none.
            pub const ALL: $set = $set($(1 << $number |)* 0);

            /// Whether the member is in the set.
            #[must_use]
            pub const fn contains(self, member: $member) -> bool {
                self.0 >> member.number() & 1 == 1
            }

            /// The members, by number.
            pub fn iter(self) -> impl Iterator<Item = $member> {
                $member::ALL.iter().copied().filter(move |member| self.contains(*member))
            }

            /// The sum of the members' parts.
            #[must_use]
            pub const fn sum(self) -> u32 {
                self.0
            }

            /// The members whose parts are in the sum.
            #[must_use]
            pub const fn of_sum(sum: u32) -> $set {
                $set(sum & $set::ALL.0)
            }
        }

        impl From<$member> for $set {
            fn from(member: $member) -> $set {
                $set(1 << member.number())
            }
        }

        impl<I: Into<$set>> std::ops::BitOr<I> for $set {
            type Output = $set;
            fn bitor(self, other: I) -> $set {
                $set(self.0 | other.into().0)
            }
        }

        impl<I: Into<$set>> std::ops::BitOr<I> for $member {
            type Output = $set;
            fn bitor(self, other: I) -> $set {
                $set::from(self) | other
            }
        }
    };
}

set! {
    /// One of the seventeen rights.
    Right,
    /// A set of rights: `Right::Read | Right::Delegate`.
    Rights, {
        Read = sys::RIGHT_READ, Write = sys::RIGHT_WRITE, Execute = sys::RIGHT_EXECUTE, Delete = sys::RIGHT_DELETE,
        Delegate = sys::RIGHT_DELEGATE, NetworkEgress = sys::RIGHT_NETWORK_EGRESS,
        NetworkIngress = sys::RIGHT_NETWORK_INGRESS, FileSystem = sys::RIGHT_FILE_SYSTEM,
        ProcessSpawn = sys::RIGHT_PROCESS_SPAWN, MemoryWrite = sys::RIGHT_MEMORY_WRITE,
        CredentialRead = sys::RIGHT_CREDENTIAL_READ, CredentialWrite = sys::RIGHT_CREDENTIAL_WRITE,
        AuditRead = sys::RIGHT_AUDIT_READ, AuditWrite = sys::RIGHT_AUDIT_WRITE, PolicyRead = sys::RIGHT_POLICY_READ,
        RegistryModify = sys::RIGHT_REGISTRY_MODIFY, PolicyModify = sys::RIGHT_POLICY_MODIFY,
    }
}

set! {
    /// One of the ten flags of an action.
    Flag,
    /// A set of flags: `Flag::Coerces | Flag::Deceives`.
    Flags, {
        IncreasesSovereignty = sys::SETS_INCREASES_SOVEREIGNTY.trailing_zeros(),
        ResistsCorrection = sys::SETS_RESISTS_CORRECTION.trailing_zeros(),
        BypassesVerifier = sys::SETS_BYPASSES_VERIFIER.trailing_zeros(),
        WeakensVerifier = sys::SETS_WEAKENS_VERIFIER.trailing_zeros(),
        DisablesCorrigibility = sys::SETS_DISABLES_CORRIGIBILITY.trailing_zeros(),
        CoalitionDominion = sys::SETS_COALITION_DOMINION.trailing_zeros(),
        Coerces = sys::SETS_COERCES.trailing_zeros(), Deceives = sys::SETS_DECEIVES.trailing_zeros(),
        SelfModification = sys::SETS_SELF_MODIFICATION.trailing_zeros(),
        CoalitionReducesFreedom = sys::SETS_COALITION_REDUCES_FREEDOM.trailing_zeros(),
    }
}
