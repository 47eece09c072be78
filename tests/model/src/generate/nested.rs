//! Registers in which one holder has claims on paths that lie in each other, and actions that several of them cover.

use super::actions::moment;
use super::random::Random;
use super::registers::{add_actors, expiry, ids, lay_version, scatter, standing, weight};
use guvrendik_model::types::*;

const FOLDERS: [&str; 5] = ["site", "lab", "a", "b", "ab"];

/// Paths each in the one before it but for slashes at their ends, from the empty one or `/` on; some come twice.
fn paths(random: &mut Random) -> Vec<Vec<u8>> {
    let mut deepest: Vec<u8> = if random.chance(30) { b"/".to_vec() } else { Vec::new() };
    let mut paths = Vec::new();
    for _ in 0..random.between(3, 7) {
        for _ in 0..random.between(1, 2) {
            let mut path = deepest.clone();
            path.extend(vec![b'/'; *random.pick(&[0, 0, 0, 1, 2])]);
            paths.push(path);
        }
        if !deepest.is_empty() && deepest != b"/" {
            deepest.push(b'/');
        }
        deepest.extend(random.pick(&FOLDERS).bytes());
    }
    if random.chance(10) {
        deepest.extend(b"/..");
        paths.push(deepest);
    }
    paths
}

/// Lays the paths, from the outermost on, from the innermost on, or anyhow, each with a keeper among the humans.
fn add_resources(random: &mut Random, register: &mut Register, humans: &[u32]) {
    let mut paths = paths(random);
    match random.below(3) {
        0 => (),
        1 => paths.reverse(),
        _ => random.shuffle(&mut paths),
    }
    for (id, path) in ids(random, paths.len()).into_iter().zip(paths) {
        let resource = &mut register.resources.list[register.resources.count];
        resource.id = id;
        resource.is_public = random.chance(15).into();
        resource.keeper = *random.pick(humans);
        resource.len = path.len() as u32;
        resource.path[..path.len()].copy_from_slice(&path);
        register.resources.count += 1;
    }
}

/// A claim of the holder on the resource, with the claims that it is drawn from: the keeper's root, and humans between them.
fn grant(random: &mut Random, register: &mut Register, humans: &[u32], resource: u32, keeper: u32, holder: u32) {
    let mut through: Vec<u32> = humans.iter().copied().filter(|&human| human != keeper && human != holder).collect();
    random.shuffle(&mut through);
    through.truncate(if holder == keeper { 0 } else { random.below(4) });
    through.push(holder);
    let (mut parent, mut grantor) = (0, keeper);
    for (step, &next) in through.iter().enumerate() {
        let last = step + 1 == through.len();
        let id = register.claims.count as u32 + 1;
        register.claims.push(Claim {
            id,
            parent,
            grantor,
            holder: next,
            resource,
            rights: if last && random.chance(20) { random.between(1, 31) as u32 } else { RIGHTS_MAX },
            weight: if last { weight(random, WEIGHT_MAX) } else { WEIGHT_MAX },
            left: 0,
            expiry: if last && random.chance(40) { expiry(random, false) } else { 0 },
        });
        (parent, grantor) = (id, next);
    }
}

/// A sound register in which one actor, and its owner where it has one, holds claims on most of the nested paths.
pub fn register(random: &mut Random, litter: bool) -> Box<Register> {
    let mut register = Box::new(Register::EMPTY);
    if litter {
        scatter(random, &mut register);
    }
    let version = *random.pick(&[VERSION_1, VERSION_2]);
    let actors = random.between(4, 10);
    add_actors(random, &mut register, actors);
    let humans: Vec<u32> =
        standing(&register.actors).iter().filter(|actor| actor.kind == HUMAN).map(|actor| actor.id).collect();
    add_resources(random, &mut register, &humans);
    let reader = *random.pick(standing(&register.actors));
    let mut laid: Vec<(u32, u32)> = standing(&register.resources).iter().map(|one| (one.id, one.keeper)).collect();
    if random.chance(30) {
        random.shuffle(&mut laid);
    }
    for (resource, keeper) in laid {
        if random.chance(85) {
            grant(random, &mut register, &humans, resource, keeper, reader.id);
        }
        if reader.owner != 0 && random.chance(60) {
            grant(random, &mut register, &humans, resource, keeper, reader.owner);
        }
    }
    lay_version(random, &mut register, version);
    register
}

/// An action of the actor that holds the most claims.
pub fn action(random: &mut Random, register: &Register) -> Box<Action> {
    let claims = standing(&register.claims);
    let held = |actor: &&Actor| claims.iter().filter(|claim| claim.holder == actor.id).count();
    let mut action = Box::new(Action::ZERO);
    action.actor = standing(&register.actors).iter().max_by_key(held).map_or(0, |actor| actor.id);
    action.now = moment(random, register);
    action.used = random.between(1, 6);
    for at in 0..action.used {
        let resource = random.pick(standing(&register.resources)).id;
        let right = if random.chance(70) { READ } else { random.below(17) as u32 };
        action.uses[at] = Usage { resource, right };
    }
    action
}

#[cfg(test)]
mod tests {
    use super::*;
    use crate::case::Call;
    use crate::generate::Generator;
    use guvrendik_model::model::paths::contains;
    use guvrendik_model::model::Sound;

    #[test]
    fn every_register_is_sound() {
        let mut random = Random::new(2);
        for round in 0..600 {
            let register = register(&mut random, round % 2 == 0);
            assert!(Sound::of(&register).is_some(), "round {round}: {register:?}");
        }
    }

    /// The lengths of the claims of the actor that cover a use, in register order.
    fn lengths(register: &Register, action: &Action, usage: &Usage) -> Vec<usize> {
        let path = |id: u32| {
            let found = standing(&register.resources).iter().find(|resource| resource.id == id);
            found.map(|resource| &resource.path[..PATH.min(resource.len as usize)])
        };
        let Some(inner) = path(usage.resource) else {
            return Vec::new();
        };
        let covering = standing(&register.claims).iter().filter(|claim| {
            let live = claim.weight > 0 && (claim.expiry == 0 || claim.expiry > action.now);
            claim.holder == action.actor && live && claim.rights >> usage.right.min(31) & 1 == 1
        });
        covering.filter_map(|claim| contains(path(claim.resource)?, inner)).collect()
    }

    #[test]
    fn a_third_of_the_actions_have_several_covering_claims() {
        let mut generator = Generator::new(3);
        let (mut actions, mut several, mut first, mut later, mut tied) = (0, 0, 0, 0, 0);
        for script in (0..120).flat_map(|round| generator.round(round)) {
            let Some(register) = &script.register else {
                continue;
            };
            for call in &script.calls {
                let Call::Gate(action) = call else {
                    continue;
                };
                let uses = &action.uses[..action.used.min(USES)];
                let lengths: Vec<Vec<usize>> = uses.iter().map(|usage| lengths(register, action, usage)).collect();
                actions += 1;
                several += usize::from(lengths.iter().any(|lengths| lengths.len() > 1));
                for lengths in lengths.iter().filter(|lengths| lengths.len() > 1) {
                    let most = *lengths.iter().max().expect("several");
                    let nearest = lengths.iter().filter(|&&length| length == most).count();
                    tied += usize::from(nearest > 1);
                    first += usize::from(nearest == 1 && lengths[0] == most);
                    later += usize::from(nearest == 1 && lengths[0] < most);
                }
            }
        }
        assert!(several * 3 >= actions, "{several} of {actions}");
        assert!(first > 200 && later > 200 && tied > 200, "first {first}, later {later}, tied {tied}");
    }
}
