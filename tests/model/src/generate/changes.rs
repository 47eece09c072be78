//! Grants and withdrawals on a register, and pairs of withdrawals.

use super::actions::moment;
use super::random::Random;
use super::registers::{some_left, standing};
use crate::case::Call;
use crate::pairs::Pair;
use guvrendik_model::types::*;

/// A grant that mostly is acceptable but for one twist.
pub fn grant(random: &mut Random, register: &Register, keep: bool) -> Call {
    let claims = standing(&register.claims);
    let actors = standing(&register.actors);
    let resources = standing(&register.resources);
    let mut now = moment(random, register);
    let mut claim = Claim {
        id: fresh_id(random, claims),
        parent: 0,
        grantor: 1,
        holder: 1,
        resource: 1,
        rights: 1 + random.below(RIGHTS_MAX as usize) as u32,
        weight: random.below(1_001) as u32,
        left: if register.version == VERSION_2 { random.below(17) as u32 } else { some_left(random) },
        expiry: if random.chance(50) { 0 } else { moment(random, register) },
    };
    let parents: Vec<usize> = (0..claims.len()).filter(|&at| claims[at].rights >> DELEGATE & 1 == 1).collect();
    if !actors.is_empty() {
        claim.holder = random.pick(actors).id;
    }
    if random.chance(75) && !parents.is_empty() {
        let parent = match random.below(10) {
            0..=1 => deepest(claims, &parents),
            // The later ones are often deeper.
            2..=5 => &claims[parents[parents.len() - 1 - random.below(parents.len().min(8))]],
            _ => &claims[*random.pick(&parents)],
        };
        claim.parent = parent.id;
        claim.grantor = parent.holder;
        claim.resource = parent.resource;
        claim.rights = parent.rights & (random.word() | 1 << DELEGATE);
        if let Some(grantor) = actors.iter().find(|actor| actor.id == parent.holder) {
            if grantor.kind == MACHINE && random.chance(80) {
                claim.rights &= !NOT_BY_MACHINE;
            }
        }
        claim.weight = if random.chance(50) { parent.weight } else { random.below(parent.weight as usize + 1) as u32 };
        if register.version == VERSION_2 && parent.left > 0 {
            claim.left = if random.chance(60) { parent.left - 1 } else { random.below(parent.left as usize) as u32 };
        }
        if random.chance(75) {
            // Before the parent's end.
            now = if parent.expiry == 0 { now } else { random.below(parent.expiry.min(1 << 20) as usize) as u64 };
        } else if random.chance(70) {
            now = parent.expiry;
        }
    } else if !resources.is_empty() {
        let resource = random.pick(resources);
        claim.resource = resource.id;
        claim.grantor = resource.keeper;
        if random.chance(60) {
            claim.rights |= 1 << DELEGATE;
        }
    }
    if random.chance(45) {
        twist(random, register, &mut claim, &mut now);
    }
    Call::Grant { claim, now, keep }
}

/// The one with the longest chain above it: at its end the hops run out, and what is left.
fn deepest<'c>(claims: &'c [Claim], parents: &[usize]) -> &'c Claim {
    let deepest = parents.iter().max_by_key(|&&at| chain(claims, claims[at].id).len());
    &claims[*deepest.expect("there are parents")]
}

/// Ids are often small, so that freed ones come again.
fn fresh_id(random: &mut Random, claims: &[Claim]) -> u32 {
    for _ in 0..8 {
        let id =
            if random.chance(70) { random.between(1, claims.len() + 3) } else { random.between(1, ID_MAX as usize) }
                as u32;
        if claims.iter().all(|claim| claim.id != id) {
            return id;
        }
    }
    random.between(1, ID_MAX as usize) as u32
}

fn twist(random: &mut Random, register: &Register, claim: &mut Claim, now: &mut u64) {
    let claims = standing(&register.claims);
    let actors = standing(&register.actors);
    let resources = standing(&register.resources);
    let parent = claims.iter().find(|parent| parent.id == claim.parent);
    let some_id = random.between(1, ID_MAX as usize) as u32;
    let odd = *random.pick(&[0, 65_536, u32::MAX]);
    match random.below(31) {
        0 => claim.id = odd,
        1 => claim.id = claim.id.wrapping_add(65_536),
        2 => claim.parent = claim.parent.wrapping_add(65_536),
        3 => claim.grantor = odd,
        4 => claim.grantor = claim.grantor.wrapping_add(65_536),
        5 => claim.holder = odd,
        6 => claim.holder = claim.holder.wrapping_add(65_536),
        7 => claim.resource = odd,
        8 => claim.resource = claim.resource.wrapping_add(65_536),
        9 => claim.rights = *random.pick(&[0, RIGHTS_MAX + 1, u32::MAX, (RIGHTS_MAX + 1).wrapping_add(claim.rights)]),
        10 => claim.weight = *random.pick(&[1_001, u32::MAX, 65_536]),
        11 => claim.expiry = *random.pick(&[1 << 32, u64::MAX, claim.expiry.wrapping_add(1 << 32)]),
        12 => *now = *random.pick(&[1 << 32, u64::MAX, (1 << 32) + *now]),
        13 => claim.grantor = some_id,
        14 => claim.holder = some_id,
        15 => claim.resource = some_id,
        16 if !claims.is_empty() => claim.id = random.pick(claims).id,
        17 => claim.parent = *random.pick(&[some_id, claim.id]),
        18 if !claims.is_empty() => claim.parent = random.pick(claims).id,
        19 if !actors.is_empty() => claim.grantor = random.pick(actors).id,
        20 if !resources.is_empty() => claim.resource = random.pick(resources).id,
        21 => claim.rights |= 1 << random.below(17),
        22 => claim.rights |= NOT_BY_MACHINE,
        23 => claim.weight = parent.map_or(0, |parent| parent.weight).wrapping_add(1),
        24 => *now = parent.map_or(*now, |parent| parent.expiry),
        25 => claim.holder = claim.grantor,
        26 => claim.left = parent.map_or(LEFT_MAX, |parent| parent.left),
        27 => claim.left = parent.map_or(LEFT_MAX, |parent| parent.left).wrapping_add(1),
        28 => claim.left = some_left(random),
        29 => {
            // The grantor of the root, or a holder on the way to it.
            let mut above = parent;
            for _ in 0..random.between(1, HOPS) {
                if let Some(next) = above {
                    claim.holder = if next.parent == 0 { next.grantor } else { next.holder };
                    above = claims.iter().find(|claim| claim.id == next.parent);
                }
            }
        }
        _ => {
            // A claim that passes nothing on, as the parent.
            if let Some(plain) = claims.iter().find(|claim| claim.rights >> DELEGATE & 1 == 0) {
                (claim.parent, claim.grantor, claim.resource) = (plain.id, plain.holder, plain.resource);
                *now = plain.expiry.saturating_sub(1);
            }
        }
    }
}

pub fn revoke(random: &mut Random, register: &Register, keep: bool) -> Call {
    let (revoker, claim) = revocation(random, register);
    Call::Revoke { revoker, claim, keep }
}

/// Who revokes which claim, mostly someone on its chain.
fn revocation(random: &mut Random, register: &Register) -> (u32, u32) {
    let claims = standing(&register.claims);
    let actors = standing(&register.actors);
    let some_id = random.between(0, ID_MAX as usize) as u32;
    if claims.is_empty() || random.chance(6) {
        let revoker = if actors.is_empty() || random.chance(30) { some_id } else { random.pick(actors).id };
        let claim = *random.pick(&[0, some_id, 65_536, u32::MAX]);
        return (revoker, claim);
    }
    // Later claims take less with them, so that sequences keep something to go on.
    let at = claims.len()
        - 1
        - if random.chance(70) { random.below(claims.len().min(12)) } else { random.below(claims.len()) };
    let claim = &claims[at];
    let mut grantor = claim;
    for _ in 0..random.below(HOPS) {
        grantor = claims.iter().find(|above| above.id == grantor.parent).unwrap_or(grantor);
    }
    let mut call = (grantor.grantor, claim.id);
    match random.below(12) {
        0 => call.0 = claim.holder,
        1 if !actors.is_empty() => call.0 = random.pick(actors).id,
        2 => call.0 = *random.pick(&[0, some_id, call.0.wrapping_add(65_536)]),
        3 => call.1 = call.1.wrapping_add(65_536),
        _ => (),
    }
    call
}

/// A clearing of a resource, mostly by its keeper.
pub fn clear_resource(random: &mut Random, register: &Register, keep: bool) -> Call {
    let resources = standing(&register.resources);
    let some_id = random.between(0, ID_MAX as usize) as u32;
    let (mut caller, mut resource) = (some_id, some_id);
    if !resources.is_empty() {
        let cleared = random.pick(resources);
        (caller, resource) = (cleared.keeper, cleared.id);
    }
    match random.below(10) {
        0 => caller = someone(random, register),
        // Often the keeper's machine, or the keeper of another.
        1 if !resources.is_empty() => caller = random.pick(resources).keeper,
        2 => caller = *random.pick(&[0, some_id, caller.wrapping_add(65_536)]),
        3 => resource = *random.pick(&[0, some_id, resource.wrapping_add(65_536)]),
        _ => (),
    }
    Call::ClearResource { caller, resource, keep }
}

/// A clearing of old claims, mostly by a human.
pub fn clear_expired(random: &mut Random, register: &Register, keep: bool) -> Call {
    let some_id = random.between(0, ID_MAX as usize) as u32;
    let humans: Vec<u32> =
        standing(&register.actors).iter().filter(|actor| actor.kind == HUMAN).map(|actor| actor.id).collect();
    let mut caller = if humans.is_empty() { some_id } else { *random.pick(&humans) };
    let mut now = moment(random, register);
    match random.below(10) {
        0 => caller = someone(random, register),
        1 => caller = *random.pick(&[0, some_id, caller.wrapping_add(65_536)]),
        2 => now = *random.pick(&[1 << 32, u64::MAX, (1 << 32) + now]),
        _ => (),
    }
    Call::ClearExpired { caller, now, keep }
}

/// An actor, of whatever kind.
fn someone(random: &mut Random, register: &Register) -> u32 {
    let actors = standing(&register.actors);
    if actors.is_empty() {
        return random.between(0, ID_MAX as usize) as u32;
    }
    random.pick(actors).id
}

/// Any of the two clearings.
pub fn clear(random: &mut Random, register: &Register, keep: bool) -> Call {
    if random.chance(50) {
        clear_resource(random, register, keep)
    } else {
        clear_expired(random, register, keep)
    }
}

/// The claim with this id, its parent, and so on.
fn chain(claims: &[Claim], id: u32) -> Vec<&Claim> {
    let named = |id: u32| claims.iter().find(|claim| claim.id == id);
    // A register with a defect may have a circle.
    std::iter::successors(named(id), |claim| named(claim.parent)).take(HOPS + 1).collect()
}

/// Two withdrawals on a register, two in five of them revocations.
pub fn withdraw_pair(random: &mut Random, register: Box<Register>) -> Pair {
    if random.chance(40) {
        return revoke_pair(random, register);
    }
    let one = clear(random, &register, true);
    let two = if random.chance(50) { revoke(random, &register, true) } else { clear(random, &register, true) };
    Pair { register, calls: [one, two], on_one_chain: false }
}

/// Two revocations on a register, half of them of claims on one chain.
fn revoke_pair(random: &mut Random, register: Box<Register>) -> Pair {
    let claims = standing(&register.claims);
    let one = revocation(random, &register);
    let [one, two] = match random.below(10) {
        0 => [one, one],
        1..=4 => [one, revocation(random, &register)],
        _ if claims.is_empty() => [one, one],
        _ => {
            // The later ones often have something above them.
            let below = &claims[claims.len() - 1 - random.below(claims.len().div_ceil(2))];
            let above = *random.pick(&chain(claims, below.id));
            [above, below].map(|claim| (caller(random, &register, claim), claim.id))
        }
    };
    let is_above = |above: u32, below: u32| chain(claims, below).iter().any(|claim| claim.id == above);
    let on_one_chain = is_above(one.1, two.1) || is_above(two.1, one.1);
    let calls = [one, two].map(|(revoker, claim)| Call::Revoke { revoker, claim, keep: true });
    Pair { register, calls, on_one_chain }
}

/// Who revokes a claim: mostly a grantor on its chain, else its holder or anyone.
fn caller(random: &mut Random, register: &Register, claim: &Claim) -> u32 {
    match random.below(10) {
        0..=5 => random.pick(&chain(standing(&register.claims), claim.id)).grantor,
        6..=8 => claim.holder,
        _ => random.pick(&register.actors.list).id,
    }
}
