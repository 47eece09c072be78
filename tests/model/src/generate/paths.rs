//! Pairs of paths.

use super::random::Random;
use crate::case::{Call, Script};

/// Every pair of the paths of up to four bytes out of a letter, a slash and a dot.
pub fn all_short() -> impl Iterator<Item = Script> {
    let mut paths = vec![Vec::new()];
    let mut start = 0;
    for _ in 0..4 {
        let end = paths.len();
        for at in start..end {
            for byte in *b"a/." {
                let mut path = paths[at].clone();
                path.push(byte);
                paths.push(path);
            }
        }
        start = end;
    }
    let inners = paths.clone();
    paths.into_iter().map(move |outer| {
        let calls = inners.iter().map(|inner| Call::Contains { outer: outer.clone(), inner: inner.clone() });
        Script { register: None, calls: calls.collect() }
    })
}

/// Long ones: of one component, of slashes, of dots, and with a `..` at the very end.
pub fn long() -> Script {
    let mut calls = Vec::new();
    for length in [63, 64, 65, 4_096, 65_536] {
        let same = vec![b'a'; length];
        let slashes = vec![b'/'; length];
        let mut within = same.clone();
        within.extend(b"/b");
        let mut beside = same.clone();
        beside.push(b'a');
        let mut climbing = same.clone();
        climbing.extend(b"/..");
        let mut ended = same.clone();
        ended.extend(&slashes);
        for (outer, inner) in [
            (&same, &same),
            (&same, &within),
            (&same, &beside),
            (&within, &same),
            (&slashes, &slashes),
            (&slashes, &same),
            (&ended, &same),
            (&ended, &within),
            (&climbing, &climbing),
            (&same, &climbing),
        ] {
            calls.push(Call::Contains { outer: outer.clone(), inner: inner.clone() });
        }
    }
    Script { register: None, calls }
}

const PARTS: [&[u8]; 14] =
    [b"a", b"b", b"ab", b"/", b"/", b"/", b"//", b".", b"..", b"/..", b"../", b"a..b", b"x", b"\0"];

fn some(random: &mut Random) -> Vec<u8> {
    if random.chance(5) {
        return (0..random.below(80)).map(|_| random.word() as u8).collect();
    }
    (0..random.below(8)).flat_map(|_| *random.pick(&PARTS)).copied().collect()
}

/// Two paths of which the one is often made from the other.
pub fn pair(random: &mut Random) -> Call {
    let outer = some(random);
    let inner = if random.chance(25) {
        some(random)
    } else {
        let mut inner = outer.clone();
        if random.chance(50) {
            while inner.last() == Some(&b'/') {
                inner.pop();
            }
        }
        if random.chance(70) {
            inner.extend(some(random));
        }
        inner
    };
    Call::Contains { outer, inner }
}
