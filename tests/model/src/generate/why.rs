//! Who may make a use, mostly one that a claim of the register has, and why an actor may or may not.

use super::actions::moment;
use super::random::Random;
use super::registers::standing;
use crate::case::{Call, Script};
use guvrendik_model::types::*;

/// So many questions about a register.
pub fn questions(random: &mut Random, register: Box<Register>, count: usize) -> Script {
    let calls = (0..count)
        .map(|_| {
            let (usage, moment) = (usage(random, &register), moment(random, &register));
            let moment = if random.below(25) == 0 { *random.pick(&[MOMENT_MAX + 1, u64::MAX]) } else { moment };
            if random.chance(30) {
                Call::Who { usage, moment }
            } else {
                Call::WhyUse { actor: actor(random, &register), usage, moment }
            }
        })
        .collect();
    Script { register: Some(register), calls }
}

/// An actor of the register, mostly one who holds something; now and then nobody.
fn actor(random: &mut Random, register: &Register) -> u32 {
    let holders: Vec<u32> = standing(&register.claims).iter().map(|claim| claim.holder).collect();
    let actors: Vec<u32> = standing(&register.actors).iter().map(|actor| actor.id).collect();
    match random.below(30) {
        0 => *random.pick(&[0, ID_MAX, ID_MAX + 1, u32::MAX]),
        1..=9 if !actors.is_empty() => *random.pick(&actors),
        _ if !holders.is_empty() => *random.pick(&holders),
        _ => 1,
    }
}

/// A use: of a claim's resource or another, for a right that the claim has or another, now and then out of range.
fn usage(random: &mut Random, register: &Register) -> Usage {
    let resources: Vec<u32> = standing(&register.resources).iter().map(|one| one.id).collect();
    let claims = standing(&register.claims);
    let mut usage = Usage { resource: 1, right: random.below(17) as u32 };
    if !resources.is_empty() {
        usage.resource = *random.pick(&resources);
    }
    if !claims.is_empty() && random.chance(70) {
        let claim = random.pick(claims);
        let rights: Vec<u32> = (0..=RIGHT_MAX).filter(|right| claim.has_right(*right)).collect();
        usage.resource = if random.chance(70) { claim.resource } else { usage.resource };
        if !rights.is_empty() {
            usage.right = *random.pick(&rights);
        }
    }
    match random.below(30) {
        0 => usage.resource = *random.pick(&[0, ID_MAX, ID_MAX + 1, u32::MAX]),
        1 => usage.right = *random.pick(&[RIGHT_MAX + 1, 32, u32::MAX]),
        _ => (),
    }
    usage
}
