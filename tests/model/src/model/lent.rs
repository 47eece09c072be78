//! The register that lent bytes hold.

use super::{Fault, Model};
use crate::types::*;
use std::mem::size_of;

/// What is left of the bytes, read from the front.
struct Reader<'a> {
    rest: &'a [u8],
    greatest_first: bool,
}

impl Reader<'_> {
    fn number(&mut self, size: usize) -> u64 {
        let (front, rest) = self.rest.split_at(size);
        self.rest = rest;
        let above = |number: u64, byte: &u8| number << 8 | u64::from(*byte);
        if self.greatest_first {
            front.iter().fold(0, above)
        } else {
            front.iter().rev().fold(0, above)
        }
    }

    fn narrow(&mut self) -> u32 {
        self.number(size_of::<u32>()) as u32
    }

    fn wide(&mut self) -> u64 {
        self.number(size_of::<u64>())
    }

    fn path(&mut self) -> [u8; PATH] {
        std::array::from_fn(|_| self.number(1) as u8)
    }

    fn actor(&mut self) -> Actor {
        Actor { id: self.narrow(), kind: self.narrow(), owner: self.narrow() }
    }

    fn resource(&mut self) -> Resource {
        Resource {
            id: self.narrow(),
            is_public: self.narrow(),
            keeper: self.narrow(),
            len: self.narrow(),
            path: self.path(),
        }
    }

    fn claim(&mut self) -> Claim {
        Claim {
            id: self.narrow(),
            parent: self.narrow(),
            grantor: self.narrow(),
            holder: self.narrow(),
            resource: self.narrow(),
            rights: self.narrow(),
            weight: self.narrow(),
            left: self.narrow(),
            expiry: self.wide(),
        }
    }

    fn list<T, const LIMIT: usize>(&mut self, entry: impl Fn(&mut Self) -> T) -> List<T, LIMIT> {
        List { list: std::array::from_fn(|_| entry(self)), count: self.wide() as usize }
    }
}

impl Model {
    /// The register whose fields stand in the bytes one behind the other, the least byte of a number first; of bytes that are not
    /// as many as a register has, that of version 0.
    pub fn held(&self, bytes: &[u8]) -> Register {
        if bytes.len() != size_of::<Register>() {
            return Register { version: 0, ..Register::EMPTY };
        }
        let mut reader = Reader { rest: bytes, greatest_first: self.has(Fault::BigEndFirst) };
        Register {
            actors: reader.list(Reader::actor),
            resources: reader.list(Reader::resource),
            claims: reader.list(Reader::claim),
            version: reader.wide(),
        }
    }
}

#[cfg(test)]
mod tests {
    use super::*;
    use crate::wire::bytes_of;

    /// A register whose numbers and bytes are all other than the ones beside them.
    fn counted() -> Register {
        let mut register = Register::EMPTY;
        for (at, actor) in (1..).zip(&mut register.actors.list) {
            *actor = Actor { id: at, kind: 100 + at, owner: 0x0403_0200 + at };
        }
        for (at, resource) in (1..).zip(&mut register.resources.list) {
            *resource = Resource {
                id: at,
                is_public: 70 + at,
                keeper: 300 + at,
                len: 0x9000_0000 + at,
                path: [at as u8; PATH],
            };
            resource.path[PATH - 1] = 255;
        }
        for (at, claim) in (1..).zip(&mut register.claims.list) {
            claim.id = at;
            claim.expiry = 0x0102_0304_0506_0000 + u64::from(at);
        }
        (register.actors.count, register.resources.count, register.claims.count) = (1, usize::MAX, 3);
        register.version = VERSION_2;
        register
    }

    #[test]
    fn the_bytes_of_a_register_hold_it() {
        let register = counted();
        assert_eq!(Model::default().held(&bytes_of(&register)), register);
    }

    #[test]
    fn other_lengths_hold_none() {
        let bytes = bytes_of(&counted());
        for length in [0, 1, bytes.len() - 1] {
            assert!(!Model::default().sound(&Model::default().held(&bytes[..length])));
        }
    }

    #[test]
    fn a_number_is_turned_by_the_fault() {
        let held = Model { fault: Some(Fault::BigEndFirst) }.held(&bytes_of(&counted()));
        assert_eq!(held.version, VERSION_2 << 56);
        assert_eq!(held.actors.list[0], Actor { id: 1 << 24, kind: 101 << 24, owner: 0x0102_0304 });
        assert_eq!(held.resources.list[63].path, counted().resources.list[63].path);
    }
}
