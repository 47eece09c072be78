//! The portal builder's JSON actions: the ActionWire form of source document 002, version 2.

use super::text::{decimal, Sink, Text};
use super::{Fault, Model, Refusal};
use crate::types::*;

/// The keys in 002's order.
pub const KEYS: [&str; 9] = [
    "id",
    "actor",
    "capability_kind",
    "resources_read",
    "resources_write",
    "resources_execute",
    "flags",
    "trust_domain",
    "delegation_depth",
];
/// The places of some of them. What the arrays have are uses of right 0, 1 and 2; the last two keys may be missing.
const ID: usize = 0;
const ACTOR: usize = 1;
const KIND: usize = 2;
const FIRST_ARRAY: usize = 3;
const LAST_ARRAY: usize = 5;
const FLAGS: usize = 6;
const TRUST_DOMAIN: usize = 7;

const ARRAYS: usize = LAST_ARRAY - FIRST_ARRAY + 1;

/// The name of flag i is at i.
pub const FLAG_NAMES: [&str; 10] = [
    "increases_machine_sovereignty",
    "resists_human_correction",
    "bypasses_verifier",
    "weakens_verifier",
    "disables_corrigibility",
    "machine_coalition_dominion",
    "coerces",
    "deceives",
    "self_modification_weakens_verifier",
    "machine_coalition_reduces_freedom",
];

/// The name of right b is at b.
pub const KINDS: [&str; 17] = [
    "READ",
    "WRITE",
    "EXECUTE",
    "DELETE",
    "DELEGATE",
    "NETWORK_EGRESS",
    "NETWORK_INGRESS",
    "FILE_SYSTEM",
    "PROCESS_SPAWN",
    "MEMORY_WRITE",
    "CREDENTIAL_READ",
    "CREDENTIAL_WRITE",
    "AUDIT_READ",
    "AUDIT_WRITE",
    "POLICY_READ",
    "REGISTRY_MODIFY",
    "POLICY_MODIFY",
];

fn is_id(id: &[u8]) -> bool {
    id.len() <= JSON_ID && id.iter().all(|&byte| (0x20..=0x7E).contains(&byte) && byte != b'"' && byte != b'\\')
}

type Read<T> = Result<T, Refusal>;

/// Of another form, where it does not hold.
fn demand(holds: bool) -> Read<()> {
    if holds {
        Ok(())
    } else {
        Err(Refusal::JsonForm)
    }
}

/// The place of a name among those that are known.
fn place(names: &[&str], name: &[u8]) -> Read<usize> {
    names.iter().position(|known| known.as_bytes() == name).ok_or(Refusal::JsonForm)
}

/// Which keys of an object were read, a bit for each place.
struct Seen(u32);

impl Seen {
    /// Notes a key, and answers whether it is the first of its name.
    fn is_first(&mut self, key: usize) -> bool {
        let before = self.0;
        self.0 |= 1 << key;
        self.0 != before
    }

    /// Whether every key before this place was read.
    fn has_all(&self, end: usize) -> bool {
        self.0.trailing_ones() as usize >= end
    }
}

/// The numbers of the three arrays, 32 in all at most, until each of them is read.
struct Arrays {
    resources: [[u32; USES]; ARRAYS],
    counts: [usize; ARRAYS],
}

impl Arrays {
    fn push(&mut self, array: usize, resource: u32) -> Read<()> {
        demand(self.counts.iter().sum::<usize>() < USES)?;
        self.resources[array][self.counts[array]] = resource;
        self.counts[array] += 1;
        Ok(())
    }

    fn put_uses(&self, action: &mut Action) {
        for (right, (resources, &count)) in self.resources.iter().zip(&self.counts).enumerate() {
            for &resource in &resources[..count] {
                action.uses[action.used] = Usage { resource, right: right as u32 };
                action.used += 1;
            }
        }
    }
}

/// What of a text is not yet read.
struct Reader<'t> {
    rest: &'t [u8],
    takes_second_actor: bool,
}

impl<'t> Reader<'t> {
    fn blanks(&mut self) {
        while let [b' ' | b'\t' | b'\n' | b'\r', rest @ ..] = self.rest {
            self.rest = rest;
        }
    }

    /// Whether this token is the next, blanks before it or not; then it is read.
    fn next_is(&mut self, token: &[u8]) -> bool {
        self.blanks();
        let rest = self.rest.strip_prefix(token);
        self.rest = rest.unwrap_or(self.rest);
        rest.is_some()
    }

    fn token(&mut self, token: &[u8]) -> Read<()> {
        demand(self.next_is(token))
    }

    /// The bytes between two quotes. There are no escapes: no name, number or id has a backslash.
    fn string(&mut self) -> Read<&'t [u8]> {
        self.token(b"\"")?;
        let end = self.rest.iter().position(|&byte| byte == b'"').ok_or(Refusal::JsonForm)?;
        let string = &self.rest[..end];
        self.rest = &self.rest[end + 1..];
        Ok(string)
    }

    /// A string that holds the number of an actor or a resource.
    fn number(&mut self) -> Read<u32> {
        let number = decimal(self.string()?, false).filter(|&number| number <= ID_MAX.into());
        number.map(|number| number as u32).ok_or(Refusal::JsonForm)
    }

    fn boolean(&mut self) -> Read<bool> {
        if self.next_is(b"true") {
            Ok(true)
        } else {
            self.token(b"false").map(|()| false)
        }
    }

    /// What stands between two marks, with commas between the entries.
    fn entries(&mut self, open: &[u8], close: &[u8], mut entry: impl FnMut(&mut Self) -> Read<()>) -> Read<()> {
        self.token(open)?;
        if self.next_is(close) {
            return Ok(());
        }
        loop {
            entry(self)?;
            if !self.next_is(b",") {
                return self.token(close);
            }
        }
    }

    /// The members of an object. `value` reads the value of the key that stands at a place among the names.
    fn members(&mut self, names: &[&str], mut value: impl FnMut(&mut Self, usize) -> Read<()>) -> Read<()> {
        self.entries(b"{", b"}", |reader| {
            let key = place(names, reader.string()?)?;
            reader.token(b":")?;
            value(reader, key)
        })
    }

    fn flags(&mut self) -> Read<u32> {
        let (mut flags, mut seen) = (0, Seen(0));
        self.members(&FLAG_NAMES, |reader, flag| {
            demand(seen.is_first(flag))?;
            flags |= u32::from(reader.boolean()?) << flag;
            Ok(())
        })?;
        demand(seen.has_all(FLAG_NAMES.len()))?;
        Ok(flags)
    }

    fn action(&mut self, now: u64) -> Read<JsonRead> {
        let mut read = JsonRead { accepted: 1, ..JsonRead::ZERO };
        read.action.now = now;
        let mut arrays = Arrays { resources: [[0; USES]; ARRAYS], counts: [0; ARRAYS] };
        let mut seen = Seen(0);
        self.members(&KEYS, |reader, key| {
            demand(seen.is_first(key) || key == ACTOR && reader.takes_second_actor)?;
            match key {
                ID => {
                    let id = reader.string()?;
                    demand(is_id(id))?;
                    read.id_len = id.len() as u32;
                    read.id[..id.len()].copy_from_slice(id);
                }
                ACTOR => read.action.actor = reader.number()?,
                KIND => read.kind = place(&KINDS, reader.string()?)? as u32,
                FIRST_ARRAY..=LAST_ARRAY => {
                    reader.entries(b"[", b"]", |reader| arrays.push(key - FIRST_ARRAY, reader.number()?))?;
                }
                FLAGS => read.action.flags = reader.flags()?,
                TRUST_DOMAIN => demand(reader.string()? == b"default")?,
                _ => reader.token(b"0")?,
            }
            Ok(())
        })?;
        self.blanks();
        demand(self.rest.is_empty() && seen.has_all(TRUST_DOMAIN))?;
        arrays.put_uses(&mut read.action);
        Ok(read)
    }
}

/// An action with what the caller gives beside it, all of it in range and with a place in the form.
struct Page<'p> {
    action: &'p Action,
    id: &'p [u8],
    kind: usize,
}

impl Text for Page<'_> {
    fn text(&self, out: &mut impl Sink) {
        let Action { actor, flags, uses, used, .. } = self.action;
        out.bytes(b"{\"id\":\"");
        out.bytes(self.id);
        out.bytes(b"\",\"actor\":\"");
        out.number((*actor).into());
        out.bytes(b"\",\"capability_kind\":\"");
        out.bytes(KINDS[self.kind].as_bytes());
        out.bytes(b"\"");
        for (right, key) in KEYS[FIRST_ARRAY..=LAST_ARRAY].iter().enumerate() {
            out.bytes(b",\"");
            out.bytes(key.as_bytes());
            out.bytes(b"\":[");
            let mut before: &[u8] = b"\"";
            for usage in uses[..*used].iter().filter(|usage| usage.right as usize == right) {
                out.bytes(before);
                out.number(usage.resource.into());
                out.bytes(b"\"");
                before = b",\"";
            }
            out.bytes(b"]");
        }
        out.bytes(b",\"flags\":");
        let mut before: &[u8] = b"{\"";
        for (flag, name) in FLAG_NAMES.iter().enumerate() {
            out.bytes(before);
            out.bytes(name.as_bytes());
            out.bytes(if flags >> flag & 1 == 1 { b"\":true" } else { b"\":false" });
            before = b",\"";
        }
        out.bytes(b"},\"trust_domain\":\"default\",\"delegation_depth\":0}");
    }
}

impl Model {
    pub fn read_json(&self, text: &[u8], now: u64) -> JsonRead {
        let mut reader = Reader { rest: text, takes_second_actor: self.has(Fault::SecondActorTaken) };
        let read = if now <= MOMENT_MAX { reader.action(now) } else { Err(Refusal::Range) };
        read.unwrap_or_else(|refusal| JsonRead { refusal: refusal as u32, ..JsonRead::ZERO })
    }

    /// Writes the action to the front of the buffer and answers its length. Refused, the buffer is untouched.
    pub fn write_json(&self, action: &Action, id: &[u8], kind: u32, buffer: &mut [u8]) -> Result<usize, Refusal> {
        if !action.in_range() || !is_id(id) || kind > RIGHT_MAX {
            return Err(Refusal::Range);
        }
        let has_place = |usage: &Usage| (usage.right as usize) < ARRAYS;
        if !action.uses[..action.used].iter().all(has_place) || action.governed > 0 {
            return Err(Refusal::JsonLacks);
        }
        let page = Page { action, id, kind: kind as usize };
        if self.has(Fault::ShortBufferBegun) {
            let mut whole = [0; JSON_TEXT];
            let begun = page.write(&mut whole)?.min(buffer.len());
            buffer[..begun].copy_from_slice(&whole[..begun]);
        }
        page.write(buffer)
    }
}
