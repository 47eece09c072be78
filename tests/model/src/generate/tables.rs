//! Tables of claims, lent beside the version, the actors and the resources of a register.

use super::random::Random;
use super::registers::standing;
use crate::case::{Call, Script};
use guvrendik_model::types::*;

/// How many records a table of roots has: about the limit, and well above it.
const LENGTHS: [usize; 6] = [0, 1, CLAIMS - 1, CLAIMS, CLAIMS + 1, CLAIMS + 44];

/// The register's own claims, with one more where their count is above the limit: the table is sound exactly where the register is.
pub fn own(register: &Register) -> Call {
    let mut claims = standing(&register.claims).to_vec();
    if register.claims.count > CLAIMS {
        claims.push(claims[0]);
    }
    Call::SoundTable(claims)
}

/// So many roots on the first resource, which its keeper grants itself.
#[inline(never)]
fn roots(register: &Register, length: usize) -> Vec<Claim> {
    let first = &register.resources.list[0];
    let root =
        Claim { grantor: first.keeper, holder: first.keeper, resource: first.id, rights: 1, weight: 1, ..Claim::ZERO };
    (1..=length as u32).map(|id| Claim { id, ..root }).collect()
}

/// Puts a number into a record that no sound register of version 2 holds there; some are cut to one that it may hold where fewer bits are kept.
fn spoil(random: &mut Random, claim: &mut Claim) {
    match random.below(9) {
        0 => claim.id += ID_MAX + 1,
        1 => claim.parent += ID_MAX + 1,
        2 => claim.grantor += ID_MAX + 1,
        3 => claim.holder += ID_MAX + 1,
        4 => claim.resource += ID_MAX + 1,
        5 => claim.rights += 1 << 31,
        6 => claim.weight = u32::MAX,
        7 => claim.left = LEFT_MAX + 1,
        _ => claim.expiry = u64::MAX,
    }
}

/// The register's own table, that with a record spoiled, one of roots, and that with a record spoiled.
pub fn calls(random: &mut Random, register: &Register) -> Vec<Call> {
    let mut calls = Vec::new();
    for claims in [standing(&register.claims).to_vec(), roots(register, LENGTHS[random.below(LENGTHS.len())])] {
        calls.push(Call::SoundTable(claims.clone()));
        if !claims.is_empty() {
            let mut spoiled = claims;
            let at = random.below(spoiled.len());
            spoil(random, &mut spoiled[at]);
            calls.push(Call::SoundTable(spoiled));
        }
    }
    calls
}

/// Tables of roots of each length, in every version from 0 to 3, and with counts above the limits beside them.
pub fn fixed() -> Vec<Script> {
    let mut register = Box::new(Register::EMPTY);
    register.actors.push(Actor { id: 1, kind: HUMAN, owner: 0 });
    register.resources.push(Resource { id: 10, keeper: 1, ..Resource::ZERO });
    let mut scripts = Vec::new();
    for version in 0..=VERSION_2 + 1 {
        register.version = version;
        let calls = LENGTHS.iter().map(|length| Call::SoundTable(roots(&register, *length))).collect();
        scripts.push(Script { register: Some(register.clone()), calls });
    }
    register.version = VERSION_1;
    for (actors, resources) in [(ACTORS + 1, 1), (1, RESOURCES + 1), (usize::MAX, usize::MAX)] {
        let mut above = register.clone();
        (above.actors.count, above.resources.count) = (actors, resources);
        scripts.push(Script { register: Some(above), calls: vec![Call::SoundTable(roots(&register, 1))] });
    }
    scripts
}
