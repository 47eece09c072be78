//! The fingerprint book: what is attached to a resource's number, and fetched.

use super::{Fault, Model, Refusal, Sound};
use crate::types::*;

impl Book {
    /// The entries that count, where there are at most 64 and no two for one number.
    fn fitting(&self) -> Option<&[Entry]> {
        let entries = self.entries.get(..self.count)?;
        let before = |at: usize| entries[..at].iter().any(|other| other.resource == entries[at].resource);
        (!(0..entries.len()).any(before)).then_some(entries)
    }

    /// Where the number's entry stands, of a book that fits.
    fn place(&self, resource: u32) -> Option<usize> {
        self.entries[..self.count].iter().position(|entry| entry.resource == resource)
    }
}

impl Model {
    /// Whether the actor may do this one use: 1, 30, 2, 3, then 27 where the gate does not permit it.
    fn may_use(&self, book: &Book, register: &Register, actor: u32, usage: Usage, now: u64) -> Result<(), Refusal> {
        let sound = Sound::of(register).ok_or(Refusal::Unsound)?;
        book.fitting().ok_or(Refusal::BadBook)?;
        let mut action = Action { actor, now, used: 1, ..Action::ZERO };
        action.uses[0] = usage;
        let acting = self.acting(&sound, &action)?;
        match self.judge(&sound, &action, acting).decision {
            PERMITTED => Ok(()),
            _ => Err(Refusal::NotPermitted),
        }
    }

    pub fn attach(
        &self,
        book: &mut Book,
        register: &Register,
        actor: u32,
        resource: u32,
        now: u64,
        fingerprint: Fingerprint,
    ) -> Result<(), Refusal> {
        self.may_use(book, register, actor, Usage { resource, right: WRITE }, now)?;
        let place = book.place(resource).unwrap_or(book.count);
        if place == PLACES {
            return Err(Refusal::BookFull);
        }
        book.count = book.count.max(place + 1);
        let place = if self.has(Fault::EntryBefore) { place.saturating_sub(1) } else { place };
        book.entries[place] = Entry { resource, fingerprint };
        Ok(())
    }

    pub fn fetch(&self, book: &Book, register: &Register, actor: u32, resource: u32, now: u64) -> Fetched {
        let may = self.may_use(book, register, actor, Usage { resource, right: READ }, now);
        let stands = || book.place(resource).map(|place| book.entries[place].fingerprint);
        let refused = |refusal, fingerprint| Fetched { fingerprint, accepted: 0, refusal: refusal as u32 };
        match may {
            Err(refusal) if refusal == Refusal::NotPermitted && self.has(Fault::ToldWithRefusal) => {
                refused(refusal, stands().unwrap_or(Fingerprint::ZERO))
            }
            Err(refusal) => refused(refusal, Fingerprint::ZERO),
            Ok(()) => stands().map_or_else(
                || refused(Refusal::NoEntry, Fingerprint::ZERO),
                |fingerprint| Fetched { fingerprint, accepted: 1, refusal: 0 },
            ),
        }
    }
}
