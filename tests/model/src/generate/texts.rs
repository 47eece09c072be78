//! Texts of registers and actions: of the form, and with something wrong.

use super::random::Random;
use super::registers::{self, standing};
use crate::case::{Call, Script};
use guvrendik_model::types::*;
use std::io::Write as _;

/// The text of a register whose counts are within the limits, sound or not.
pub fn register_text(register: &Register) -> Vec<u8> {
    let mut out = Vec::with_capacity(REGISTER_TEXT);
    let all = writeln!(out, "register={}\nactors={}", register.version, register.actors.count).and_then(|()| {
        for Actor { id, kind, owner } in standing(&register.actors) {
            let kind = if *kind == HUMAN { "human" } else { "machine" };
            writeln!(out, "actor={id}\nkind={kind}\nowner={owner}")?;
        }
        writeln!(out, "resources={}", register.resources.count)?;
        for Resource { id, is_public, keeper, len, path } in standing(&register.resources) {
            write!(out, "resource={id}\npublic={is_public}\nkeeper={keeper}\nscope=")?;
            out.extend_from_slice(&path[..PATH.min(*len as usize)]);
            out.push(b'\n');
        }
        writeln!(out, "claims={}", register.claims.count)?;
        for Claim { id, parent, grantor, holder, resource, rights, weight, left, expiry } in standing(&register.claims) {
            writeln!(
                out,
                "claim={id}\nparent={parent}\ngrantor={grantor}\nholder={holder}\nresource={resource}\nrights={rights}\n\
                 weight={weight}"
            )?;
            if register.version == VERSION_2 {
                writeln!(out, "left={left}")?;
            }
            writeln!(out, "expiry={expiry}")?;
        }
        Ok(())
    });
    all.expect("a vector takes all");
    out
}

/// The text of an action, in range or not; entries past the limits are left out.
pub fn action_text(action: &Action) -> Vec<u8> {
    let mut out = Vec::new();
    let all = writeln!(out, "now={}\nactor={}\nflags={}\nuses={}", action.now, action.actor, action.flags, action.used)
        .and_then(|()| {
            for Usage { resource, right } in action.uses.iter().take(action.used) {
                writeln!(out, "use={resource}\nright={right}")?;
            }
            writeln!(out, "governs={}", action.governed)?;
            for governed in action.governs.iter().take(action.governed) {
                writeln!(out, "govern={governed}")?;
            }
            Ok(())
        });
    all.expect("a vector takes all");
    out
}

/// The rule book's case R.
pub fn case_r() -> (Vec<u8>, Vec<u8>) {
    let lines = |items: &str| items.split(' ').flat_map(|item| item.bytes().chain([b'\n'])).collect();
    (
        lines(
            "register=1 actors=2 actor=1 kind=human owner=0 actor=2 kind=machine owner=1 resources=1 resource=10 public=0 \
             keeper=1 scope=site/a claims=2 claim=1 parent=0 grantor=1 holder=1 resource=10 rights=19 weight=1000 expiry=0 \
             claim=2 parent=1 grantor=1 holder=2 resource=10 rights=1 weight=600 expiry=2000",
        ),
        lines("now=1999 actor=2 flags=0 uses=2 use=10 right=0 use=10 right=1 governs=0"),
    )
}

/// Case R's register as version 2: the root may pass through 16 hands more, the claim drawn from it through 15.
pub fn case_r_as_two() -> Vec<u8> {
    let text = String::from_utf8(case_r().0).expect("ASCII");
    let two = text.replace("register=1", "register=2");
    two.replace("weight=1000\n", "weight=1000\nleft=16\n").replace("weight=600\n", "weight=600\nleft=15\n").into_bytes()
}

/// The starts of the lines, and the end of the text.
fn line_starts(text: &[u8]) -> Vec<usize> {
    let after = text.iter().enumerate().filter(|(_, byte)| **byte == b'\n').map(|(at, _)| at + 1);
    let mut starts: Vec<usize> = std::iter::once(0).chain(after).collect();
    if starts.last() != Some(&text.len()) {
        starts.push(text.len());
    }
    starts
}

pub const NUMBERS: [&str; 26] = [
    "0",
    "1",
    "2",
    "8",
    "9",
    "16",
    "17",
    "32",
    "33",
    "64",
    "65",
    "256",
    "257",
    "1000",
    "1001",
    "1023",
    "1024",
    "65535",
    "65536",
    "131071",
    "131072",
    "4294967295",
    "4294967296",
    "18446744073709551615",
    "18446744073709551616",
    "99999999999999999999",
];

/// Puts other bytes in place of the value of one line.
fn revalue(random: &mut Random, text: &mut Vec<u8>, value: impl FnOnce(&[u8], &mut Random) -> Vec<u8>) {
    let starts = line_starts(text);
    let line = random.below(starts.len() - 1);
    let (start, end) = (starts[line], starts[line + 1]);
    let Some(equals) = text[start..end].iter().position(|&byte| byte == b'=') else {
        return;
    };
    let from = start + equals + 1;
    let to = if text[end - 1] == b'\n' { end - 1 } else { end };
    let new = value(&text[from..to], random);
    text.splice(from..to, new);
}

/// Puts another value on the nth of the text's count lines.
fn recount(random: &mut Random, text: &mut Vec<u8>, value: &[u8]) {
    const KEYS: [&[u8]; 6] = [b"actors=", b"resources=", b"claims=", b"uses=", b"governs=", b"plan="];
    let starts = line_starts(text);
    let counts: Vec<(usize, usize)> = starts
        .windows(2)
        .filter_map(|line| {
            let key = KEYS.iter().find(|key| text[line[0]..line[1]].starts_with(key))?;
            Some((line[0] + key.len(), line[1] - 1))
        })
        .collect();
    if let Some(&(from, to)) = counts.get(random.below(counts.len().max(1))) {
        text.splice(from..to, value.iter().copied());
    }
}

/// Puts something else in place of a line that begins so, where there is one.
fn replace_line(random: &mut Random, text: &mut Vec<u8>, key: &[u8], other: impl FnOnce(&mut Random) -> Vec<u8>) {
    let starts = line_starts(text);
    let lines: Vec<&[usize]> = starts.windows(2).filter(|line| text[line[0]..line[1]].starts_with(key)).collect();
    if !lines.is_empty() {
        let line = *random.pick(&lines);
        let (start, end) = (line[0], line[1]);
        text.splice(start..end, other(random));
    }
}

/// One thing wrong, or at an edge.
pub fn spoil(random: &mut Random, text: &mut Vec<u8>) {
    if text.is_empty() {
        text.extend(b"register=1\n");
    }
    let at = random.below(text.len());
    let starts = line_starts(text);
    let line = random.below(starts.len() - 1);
    let range = starts[line]..starts[line + 1];
    match random.below(27) {
        0 => text[at] = random.word() as u8,
        1 => text[at] = *random.pick(b"0123456789=\n\r /.-+x"),
        2 => text[at] = text[at].wrapping_add(1),
        3 => {
            text.remove(at);
        }
        4 => text.insert(at, *random.pick(b"0123456789=\n\r \0")),
        5 => {
            text.drain(range);
        }
        6 => {
            let doubled = text[range.clone()].to_vec();
            text.splice(range.start..range.start, doubled);
        }
        7 => {
            let other = random.below(starts.len() - 1);
            let (low, high) = (line.min(other), line.max(other));
            if low < high {
                let later = text[starts[high]..starts[high + 1]].to_vec();
                let earlier = text.splice(starts[low]..starts[low + 1], later.iter().copied()).collect::<Vec<u8>>();
                let shift = later.len();
                let from = starts[high] - earlier.len() + shift;
                text.splice(from..from + later.len(), earlier);
            }
        }
        8 => text.truncate(at),
        9 => {
            text.pop();
        }
        10 => text.extend(*random.pick(&[
            &b"\n"[..],
            b"x",
            b"claims=999\n",
            b"governs=9\n",
            b"\0",
            b"=",
            b"register=1\n",
        ])),
        11 => revalue(random, text, |value, _| [b"0", value].concat()),
        12 => revalue(random, text, |value, _| [value, b"0"].concat()),
        13 => revalue(random, text, |value, random| {
            [value, *random.pick(&[&b"\r"[..], b" ", b"x", b".0", b"="])].concat()
        }),
        14 => revalue(random, text, |value, random| [*random.pick(&[&b"+"[..], b"-", b" ", b"0x"]), value].concat()),
        15 | 16 => revalue(random, text, |_, random| random.pick(&NUMBERS).bytes().collect()),
        17 => revalue(random, text, |_, _| Vec::new()),
        18 => revalue(random, text, |value, random| {
            // The number that wraps to the one that was there.
            let number: u128 = std::str::from_utf8(value).ok().and_then(|digits| digits.parse().ok()).unwrap_or(0);
            (number + random.pick(&[1u128 << 16, 1 << 32, 1 << 64])).to_string().into_bytes()
        }),
        19 => revalue(random, text, |_, random| {
            random.pick(&["human", "machine", "Human", "2", "mach"]).bytes().collect()
        }),
        20 => {
            let number = *random.pick(&NUMBERS);
            recount(random, text, number.as_bytes());
        }
        21 => {
            let length = random.between(1, 60);
            let mut digits = vec![b'9'; length];
            if random.chance(40) {
                digits.extend(random.pick(&[&b"x"[..], b"\r", b" ", b"9"]).iter());
            }
            if random.chance(25) {
                digits.insert(0, b'0');
            }
            recount(random, text, &digits);
            if random.chance(20) {
                text.pop();
            }
        }
        22 => {
            // One more or less than there are.
            let plus = random.chance(50);
            revalue(random, text, |value, _| {
                let number: u64 = std::str::from_utf8(value).ok().and_then(|digits| digits.parse().ok()).unwrap_or(0);
                if plus { number.saturating_add(1) } else { number.saturating_sub(1) }.to_string().into_bytes()
            });
        }
        23 => replace_line(random, text, b"register=", |random| {
            random
                .pick(&[&b"register=1\n"[..], b"register=2\n", b"register=3\n", b"register=0\n", b"register=02\n"])
                .to_vec()
        }),
        24 => replace_line(random, text, b"left=", |random| {
            random.pick(&[&b""[..], b"left=\n", b"left=0\n", b"left=16\n", b"left=17\n", b"left=016\n"]).to_vec()
        }),
        25 => replace_line(random, text, b"expiry=", |random| {
            [*random.pick(&[&b"left=0\n"[..], b"left=16\n"]), b"expiry=0\n"].concat()
        }),
        _ => text.splice(range.start..range.start, [b'\n']).for_each(drop),
    }
}

/// Every text one step from this one: cut at every byte, each byte changed, each line dropped, doubled and swapped with the next.
pub fn neighbours(text: &[u8], call: fn(Vec<u8>) -> Call) -> Script {
    let mut calls = vec![call(text.to_vec())];
    calls.extend((0..text.len()).map(|at| call(text[..at].to_vec())));
    for at in 0..text.len() {
        for byte in [b'0', b'1', b'9', b'\n', b'=', b' '] {
            let mut changed = text.to_vec();
            changed[at] = byte;
            calls.push(call(changed));
        }
    }
    for line in line_starts(text).windows(3) {
        let (before, one, two, after) =
            (&text[..line[0]], &text[line[0]..line[1]], &text[line[1]..line[2]], &text[line[2]..]);
        calls.push(call([before, two, after].concat()));
        calls.push(call([before, one, one, two, after].concat()));
        calls.push(call([before, two, one, after].concat()));
    }
    Script { register: None, calls }
}

/// Counts of any length.
pub fn count_values() -> Vec<Vec<u8>> {
    let mut values: Vec<Vec<u8>> = NUMBERS
        .iter()
        .map(|number| number.bytes().collect())
        .chain([vec![], b"00".to_vec(), b"065".to_vec()])
        .collect();
    values.extend([10, 19, 20, 21, 39, 1_000, 60_000, 65_517, 70_000].map(|length| vec![b'9'; length]));
    values.extend([20, 60_000].map(|length| [&vec![b'9'; length][..], b"x"].concat()));
    values.push([&b"1"[..], &vec![b'0'; 60_000]].concat());
    values.push([&b"0"[..], &vec![b'9'; 60_000]].concat());
    values
}

/// Counts of any length, on a line and at the end of the text.
pub fn counts() -> Script {
    let mut calls = Vec::new();
    let register_starts: [&[u8]; 3] =
        [b"register=1\nactors=", b"register=1\nactors=0\nresources=", b"register=1\nactors=0\nresources=0\nclaims="];
    let action_starts: [&[u8]; 2] = [b"now=0\nactor=0\nflags=0\nuses=", b"now=0\nactor=0\nflags=0\nuses=0\ngoverns="];
    for value in &count_values() {
        for end in [&b"\n"[..], b"", b"\r\n", b" \n"] {
            calls.extend(register_starts.map(|start| Call::ReadRegister([start, value, end].concat())));
            calls.extend(action_starts.map(|start| Call::ReadAction([start, value, end].concat())));
        }
    }
    Script { register: None, calls }
}

/// A register's text, mostly with something wrong.
pub fn some_register(random: &mut Random, base: &[u8]) -> Vec<u8> {
    let mut text = base.to_vec();
    for _ in 0..[0, 1, 1, 1, 1, 2][random.below(6)] {
        spoil(random, &mut text);
    }
    text
}

/// The call that prints a verdict, into a buffer of about the right size.
pub fn verdict_text(random: &mut Random, register: Vec<u8>, action: Vec<u8>) -> Call {
    let mut exact = [0; 1_024];
    let length =
        guvrendik_model::model::Model::default().verdict_text(&register, &action, &mut exact).unwrap_or(exact.len());
    let room = room(random, length, exact.len());
    Call::VerdictText { register, action, room, fill: random.word() as u8 }
}

/// A buffer's length beside a text's.
pub fn room(random: &mut Random, length: usize, most: usize) -> usize {
    match random.below(8) {
        0 => 0,
        1 => length.saturating_sub(1),
        2 => random.below(length + 1),
        3 => most,
        4 => length + 1,
        _ => length,
    }
}

/// A full register's text of a version cut and spoiled in some places, and the longest one whole.
pub fn large(random: &mut Random, version: u64) -> Script {
    let longest = register_text(&registers::longest(version));
    let mut calls = vec![Call::ReadRegister(longest.clone())];
    for _ in 0..60 {
        calls.push(Call::ReadRegister(longest[..random.below(longest.len())].to_vec()));
        calls.push(Call::ReadRegister(some_register(random, &longest)));
    }
    Script { register: None, calls }
}
