//! Actions and plans about a register.

use super::random::Random;
use super::registers::{standing, ABOUT_NOW};
use guvrendik_model::types::*;

/// A moment: mostly at or beside the expiry of some claim.
pub fn moment(random: &mut Random, register: &Register) -> u64 {
    let claims = standing(&register.claims);
    match random.below(12) {
        0 => 0,
        1 => MOMENT_MAX,
        2..=4 => ABOUT_NOW - 6 + random.below(13) as u64,
        5 => random.next() >> 32,
        _ if claims.is_empty() => 1,
        _ => {
            let expiry = random.pick(claims).expiry;
            expiry.saturating_add(random.below(3) as u64).saturating_sub(1).min(MOMENT_MAX)
        }
    }
}

/// An action, mostly of an actor of the register and about what it or its owner holds.
pub fn action(random: &mut Random, register: &Register) -> Box<Action> {
    let mut action = Box::new(Action::ZERO);
    if random.chance(30) {
        // What stands past the counts is ignored.
        action.uses.fill_with(|| Usage { resource: random.word(), right: random.word() });
        action.governs.fill_with(|| random.word());
    }
    let actors = standing(&register.actors);
    let claims = standing(&register.claims);
    let actor = match random.below(20) {
        0 => None,
        1..=7 if !claims.is_empty() => {
            actors.iter().find(|actor| actor.id == claims[random.below(claims.len())].holder)
        }
        _ if actors.is_empty() => None,
        _ => Some(random.pick(actors)),
    };
    let stranger = random_id(random);
    action.actor = actor.map_or_else(|| *random.pick(&[0, 1, ID_MAX, stranger]), |actor| actor.id);
    action.now = moment(random, register);
    action.flags = match random.below(20) {
        0 => FLAGS_MAX,
        1..=2 => 1 << random.below(10),
        3 => random.word() & FLAGS_MAX,
        _ => 0,
    };
    let machine = actor.is_some_and(|actor| actor.kind == MACHINE);
    action.governed = match random.below(if machine { 12 } else { 3 }) {
        0 => GOVERNS,
        1 => random.between(1, GOVERNS),
        _ => 0,
    };
    let governed = action.governed;
    action.governs[..governed].fill_with(|| random_id(random));
    action.used = match random.below(20) {
        0 => 0,
        1 => USES,
        2..=3 => random.between(1, USES),
        _ => random.between(1, 4),
    };
    let holders = [action.actor, actor.map_or(0, |actor| actor.owner)];
    let held: Vec<&Claim> = claims.iter().filter(|claim| holders.contains(&claim.holder)).collect();
    for at in 0..action.used {
        action.uses[at] = usage(random, register, &held);
    }
    if random.chance(6) {
        spoil(random, &mut action);
    }
    action
}

fn random_id(random: &mut Random) -> u32 {
    random.below(ID_MAX as usize + 1) as u32
}

fn usage(random: &mut Random, register: &Register, held: &[&Claim]) -> Usage {
    let resources = standing(&register.resources);
    let claim = (!held.is_empty() && random.chance(80)).then(|| *random.pick(held));
    let stranger = random_id(random);
    let resource = match random.below(20) {
        0 => *random.pick(&[0, ID_MAX, stranger]),
        1..=11 if claim.is_some() => claim.map_or(0, |claim| claim.resource),
        12..=16 if claim.is_some() && !resources.is_empty() => {
            nearby(random, resources, claim.map_or(0, |claim| claim.resource))
        }
        _ if resources.is_empty() => 1,
        _ => random.pick(resources).id,
    };
    let right = match (claim, random.below(10)) {
        (Some(claim), 0..=6) => some_right(claim.rights, random),
        (_, 7) => READ,
        (_, 8) => RIGHT_MAX,
        _ => random.below(17) as u32,
    };
    Usage { resource, right }
}

/// A resource whose path begins like that of the given one.
fn nearby(random: &mut Random, resources: &[Resource], id: u32) -> u32 {
    let Some(outer) = resources.iter().find(|resource| resource.id == id) else {
        return random.pick(resources).id;
    };
    let start = &outer.path[..outer.len.min(4) as usize];
    let near: Vec<u32> =
        resources.iter().filter(|resource| resource.path.starts_with(start)).map(|resource| resource.id).collect();
    *random.pick(&near)
}

/// One of the rights in a rights number.
fn some_right(rights: u32, random: &mut Random) -> u32 {
    let set: Vec<u32> = (0..=RIGHT_MAX).filter(|right| rights >> right & 1 == 1).collect();
    if set.is_empty() {
        READ
    } else {
        *random.pick(&set)
    }
}

/// Puts one number out of its range.
pub fn spoil(random: &mut Random, action: &mut Action) {
    match random.below(8) {
        0 => action.actor = *random.pick(&[65_536, 65_536 + (action.actor & ID_MAX), u32::MAX]),
        1 => action.flags = *random.pick(&[1_024, 1_025, 1 << 31, 65_536]),
        2 => action.now = *random.pick(&[1 << 32, (1 << 32) + action.now, u64::MAX]),
        3 => action.used = *random.pick(&[USES + 1, 1 << 32, usize::MAX]),
        4 => action.governed = *random.pick(&[GOVERNS + 1, 1 << 32, usize::MAX]),
        5 if action.used > 0 => {
            let usage = &mut action.uses[random.below(action.used)];
            usage.resource = *random.pick(&[65_536, usage.resource.wrapping_add(65_536), u32::MAX]);
        }
        6 if action.used > 0 => {
            action.uses[random.below(action.used)].right = *random.pick(&[17, 32, 256, u32::MAX]);
        }
        _ => {
            action.governed = random.between(1, GOVERNS);
            let governed = action.governed;
            action.governs[..governed].fill(7);
            action.governs[random.below(governed)] = *random.pick(&[65_536, u32::MAX]);
        }
    }
}

/// A plan of 0 to 16 actions, sometimes with a count above that.
pub fn plan(random: &mut Random, register: &Register) -> Box<Plan> {
    let mut plan = Box::new(Plan::EMPTY);
    plan.count = match random.below(12) {
        0 => 0,
        1 => 1,
        2..=3 => ACTIONS,
        4 => *random.pick(&[ACTIONS + 1, 1 << 32, usize::MAX]),
        _ => random.between(2, ACTIONS),
    };
    let actors = standing(&register.actors);
    // A plan whose every action passes the tests would be rare by chance alone.
    let passes = random.chance(75) && !actors.is_empty();
    for at in 0..plan.count.min(ACTIONS) {
        let mut one = action(random, register);
        // In a register with a defect it may be that none passes.
        for _ in 0..8 {
            if passes && !in_range(&one) {
                one = action(random, register);
            }
        }
        if passes && !actors.iter().any(|actor| actor.id == one.actor) {
            one.actor = random.pick(actors).id;
        }
        if one.flags != 0 && random.chance(60) {
            one.flags = 0;
        }
        plan.actions[at] = *one;
    }
    if random.chance(20) && plan.count < ACTIONS {
        let past = plan.count;
        plan.actions[past] = Action { flags: u32::MAX, used: usize::MAX, ..Action::ZERO };
    }
    plan
}

fn in_range(action: &Action) -> bool {
    action.actor <= ID_MAX
        && action.flags <= FLAGS_MAX
        && action.now <= MOMENT_MAX
        && action.used <= USES
        && action.governed <= GOVERNS
        && action.uses[..action.used].iter().all(|usage| usage.resource <= ID_MAX && usage.right <= RIGHT_MAX)
        && action.governs[..action.governed].iter().all(|&governed| governed <= ID_MAX)
}
