//! The structs as the bytes that C sees, fields at the offsets of `types`, nothing between them: what crosses the pipes to the
//! driver, and what whole answers are compared as.

use crate::types::*;
use std::mem::size_of;

/// A value with a fixed number of bytes.
pub trait Wire: Sized {
    fn put(&self, out: &mut Vec<u8>);
    /// Reads what `put` wrote from the front of the bytes. Panics where they are too few.
    fn take(from: &mut &[u8]) -> Self;
}

/// The bytes of one value.
pub fn bytes_of<T: Wire>(value: &T) -> Vec<u8> {
    let mut out = Vec::with_capacity(size_of::<T>());
    value.put(&mut out);
    out
}

macro_rules! numbers {
    ($($number:ty),*) => {$(
        impl Wire for $number {
            fn put(&self, out: &mut Vec<u8>) {
                out.extend_from_slice(&self.to_le_bytes());
            }
            fn take(from: &mut &[u8]) -> Self {
                let (front, rest) = from.split_at(size_of::<$number>());
                *from = rest;
                <$number>::from_le_bytes(front.try_into().expect("split at its size"))
            }
        }
    )*};
}

numbers!(u8, u32, u64, usize);

impl<T: Wire, const N: usize> Wire for [T; N] {
    fn put(&self, out: &mut Vec<u8>) {
        self.iter().for_each(|entry| entry.put(out));
    }
    fn take(from: &mut &[u8]) -> Self {
        std::array::from_fn(|_| T::take(from))
    }
}

macro_rules! structs {
    ($($name:ty { $($field:ident),* })*) => {$(
        impl Wire for $name {
            fn put(&self, out: &mut Vec<u8>) {
                $(self.$field.put(out);)*
            }
            fn take(from: &mut &[u8]) -> Self {
                $(let $field = Wire::take(from);)*
                Self { $($field),* }
            }
        }
    )*
        /// By struct: its size, and how many bytes its fields come to.
        #[cfg(test)]
        fn sizes() -> Vec<(&'static str, usize, usize)> {
            let zeros = vec![0; size_of::<RegisterRead>()];
            vec![$((stringify!($name), size_of::<$name>(), bytes_of(&<$name>::take(&mut &zeros[..])).len())),*]
        }
    };
}

structs! {
    Actor { id, kind, owner }
    Resource { id, is_public, keeper, len, path }
    Claim { id, parent, grantor, holder, resource, rights, weight, left, expiry }
    Actors { list, count }
    Resources { list, count }
    Claims { list, count }
    Register { actors, resources, claims, version }
    Usage { resource, right }
    Action { actor, flags, now, uses, used, governs, governed }
    Plan { actions, count }
    Soundness { sound }
    Containment { contained, length }
    Granted { state, accepted, refusal }
    Revoked { state, accepted, refusal, removed }
    Violation { kind, value }
    Verdict { decision, refusal, violations, count, hops }
    Judgement { decision, violations }
    PlanVerdict { accepted, refusal, position, list, count }
    PlanTextVerdict { accepted, refusal, line, position, list, count }
    RegisterRead { state, accepted, refusal, line }
    ActionRead { action, accepted, refusal, line }
    JsonRead { action, accepted, refusal, kind, id_len, id }
    Written { accepted, refusal, length }
    Fingerprint { bytes }
    Entry { resource, fingerprint }
    Book { entries, count }
    Attached { book, accepted, refusal }
    Fetched { fingerprint, accepted, refusal }
    Holders { accepted, refusal, ids, count }
    CoverTable { accepted, refusal, owner, hops, states, own, owners }
    Reason { kind, count, chain, keeper, ended }
    UseReason { accepted, refusal, actor, owner, owners }
    Signers { list, count }
    Proposal { kind, claim }
    Proposed { proposal, accepted, refusal }
    Checked { answer, refusal }
    FirstFault { sound, why, list, id, place, line }
}

#[cfg(test)]
mod tests {
    #[test]
    fn no_struct_has_bytes_between_or_behind_its_fields() {
        for (name, size, fields) in super::sizes() {
            assert_eq!(size, fields, "{name}");
        }
    }
}
