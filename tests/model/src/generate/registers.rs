//! Sound registers.

use super::random::Random;
use guvrendik_model::shapes::*;
use guvrendik_model::types::*;

pub const EMPTY: Shape = Shape { actors: 0, resources: 0, claims: 0 };

/// The moments that most expiries lie around.
pub const ABOUT_NOW: u64 = 2_000;

/// A sound register. With `litter`, what stands past its counts and paths is anything.
pub fn sound(random: &mut Random, shape: Shape, litter: bool) -> Box<Register> {
    let mut register = Box::new(Register::EMPTY);
    if litter {
        scatter(random, &mut register);
    }
    add_actors(random, &mut register, shape.actors);
    add_resources(random, &mut register, shape.resources);
    add_claims(random, &mut register, shape.claims);
    lay_version(random, &mut register, VERSION_1);
    register
}

/// The same register as version 2. With `stored`, each claim has 16 less its hop count left, as a version 1 register has it.
pub fn as_two(random: &mut Random, register: &Register, stored: bool) -> Box<Register> {
    let mut two = Box::new(register.clone());
    two.version = VERSION_2;
    lay_lefts(random, &mut two, stored);
    two
}

/// Gives a register its version, and its claims a `left`: in version 1 often rubbish, in version 2 one that is sound.
pub fn lay_version(random: &mut Random, register: &mut Register, version: u64) {
    register.version = version;
    if version == VERSION_2 {
        let stored = random.chance(20);
        return lay_lefts(random, register, stored);
    }
    let rubbish = random.chance(60);
    let count = register.claims.count;
    register.claims.list[..count].iter_mut().for_each(|claim| claim.left = if rubbish { some_left(random) } else { 0 });
}

/// Any number at all, often a small one.
pub fn some_left(random: &mut Random) -> u32 {
    let any = random.word();
    *random.pick(&[0, 1, 15, LEFT_MAX, LEFT_MAX + 1, u32::MAX, 65_536, any])
}

/// In register order: what each claim has left is below its parent's, and leaves enough for those drawn from it.
fn lay_lefts(random: &mut Random, register: &mut Register, stored: bool) {
    let count = register.claims.count;
    let claims = &mut register.claims.list[..count];
    let parents: Vec<Option<usize>> = (0..count)
        .map(|at| claims[..at].iter().position(|parent| claims[at].parent != 0 && parent.id == claims[at].parent))
        .collect();
    let mut below = vec![0; count];
    for at in (0..count).rev() {
        if let Some(parent) = parents[at] {
            below[parent] = below[parent].max(below[at] + 1);
        }
    }
    for at in 0..count {
        let most = parents[at].map_or(LEFT_MAX, |parent| claims[parent].left - 1);
        claims[at].left = match random.below(6) {
            _ if stored => most,
            0..=2 => most,
            3 => below[at],
            _ => random.between(below[at] as usize, most as usize) as u32,
        };
    }
}

/// Some shape that is not larger than the given one.
pub fn within(random: &mut Random, shape: Shape) -> Shape {
    Shape {
        actors: random.between(1, shape.actors),
        resources: random.between(1, shape.resources),
        claims: random.between(0, shape.claims),
    }
}

pub fn scatter(random: &mut Random, register: &mut Register) {
    for actor in &mut register.actors.list {
        *actor = Actor { id: random.word() >> 16, kind: random.word() & 3, owner: random.word() >> 16 };
    }
    for resource in &mut register.resources.list {
        resource.id = random.word() >> 16;
        resource.is_public = random.word();
        resource.keeper = random.word();
        resource.len = random.word();
        resource.path.fill_with(|| random.word() as u8);
    }
    for claim in &mut register.claims.list {
        *claim = Claim {
            id: random.word() >> 16,
            parent: random.word() >> 16,
            grantor: random.word() >> 16,
            holder: random.word() >> 16,
            resource: random.word(),
            rights: random.word() >> 15,
            weight: random.word(),
            left: random.word(),
            expiry: random.next(),
        };
    }
}

/// Distinct ids: from 1 on, from the top down, or anywhere.
pub fn ids(random: &mut Random, count: usize) -> Vec<u32> {
    match random.below(4) {
        0 => (1..=count as u32).collect(),
        1 => (0..count as u32).map(|down| ID_MAX - down).collect(),
        _ => {
            let mut ids = Vec::with_capacity(count);
            while ids.len() < count {
                let id = 1 + random.below(ID_MAX as usize) as u32;
                if !ids.contains(&id) {
                    ids.push(id);
                }
            }
            ids
        }
    }
}

pub fn add_actors(random: &mut Random, register: &mut Register, count: usize) {
    let ids = ids(random, count);
    // Decided first: an owner may stand later in the list. The first id is a human's, wherever it lands.
    let humans: Vec<u32> =
        ids.iter().enumerate().filter(|(at, _)| *at == 0 || random.chance(45)).map(|(_, id)| *id).collect();
    let mut order = ids;
    shuffle(random, &mut order);
    for id in order {
        let actor = if humans.contains(&id) {
            Actor { id, kind: HUMAN, owner: 0 }
        } else {
            Actor { id, kind: MACHINE, owner: if random.chance(85) { *random.pick(&humans) } else { 0 } }
        };
        register.actors.push(actor);
    }
}

pub fn shuffle<T>(random: &mut Random, list: &mut [T]) {
    for last in (1..list.len()).rev() {
        list.swap(last, random.below(last + 1));
    }
}

fn add_resources(random: &mut Random, register: &mut Register, count: usize) {
    let keepers: Vec<u32> =
        standing(&register.actors).iter().filter(|actor| actor.kind == HUMAN).map(|actor| actor.id).collect();
    if keepers.is_empty() {
        return;
    }
    let mut paths: Vec<Vec<u8>> = Vec::with_capacity(count);
    for id in ids(random, count) {
        let path = path(random, &paths);
        let at = register.resources.count;
        let resource = &mut register.resources.list[at];
        resource.id = id;
        resource.is_public = random.chance(25).into();
        resource.keeper = *random.pick(&keepers);
        resource.len = path.len() as u32;
        resource.path[..path.len()].copy_from_slice(&path);
        register.resources.count += 1;
        paths.push(path);
    }
}

const FOLDERS: [&str; 12] = ["site", "lab", "a", "b", "ab", "reports", "2024", "blood", "x", "a..b", ".", "..."];

/// A path that often lies in, above or beside one of those before it.
fn path(random: &mut Random, before: &[Vec<u8>]) -> Vec<u8> {
    let mut path = if before.is_empty() || random.chance(25) { Vec::new() } else { random.pick(before).clone() };
    match random.below(100) {
        0..=4 => path.clear(),
        5..=7 => path = b"/".to_vec(),
        8..=11 => path.push(b'/'),
        12..=13 => path.extend(b"//"),
        14..=19 => path.push(b'x'),
        20..=23 => path.extend(b"/.."),
        24..=25 => path.splice(0..0, *b"../").for_each(drop),
        26..=29 => path.truncate(path.len() / 2),
        30..=32 => path.resize_with(PATH, || random.between(0x21, 0x7E) as u8),
        33..=35 => path = vec![random.between(0x21, 0x7E) as u8; random.between(0, 5)],
        36..=39 => (),
        _ => {
            for _ in 0..random.between(1, 2) {
                if !path.is_empty() || random.chance(20) {
                    path.push(b'/');
                }
                path.extend(random.pick(&FOLDERS).bytes());
            }
        }
    }
    path.truncate(PATH);
    path
}

/// The entries that count of a list within its limit.
pub fn standing<T: Zero, const LIMIT: usize>(list: &List<T, LIMIT>) -> &[T] {
    &list.list[..list.count.min(LIMIT)]
}

fn add_claims(random: &mut Random, register: &mut Register, count: usize) {
    if register.resources.count == 0 {
        return;
    }
    let ids = ids(random, count);
    let mut hops = Vec::with_capacity(count);
    // Some registers have a long chain first.
    let deep = if random.chance(40) { HOPS + 1 } else { 0 };
    for (at, &id) in ids.iter().enumerate() {
        let parent = if at < deep {
            at.checked_sub(1)
        } else if random.chance(25) {
            None
        } else if random.chance(40) {
            at.checked_sub(1)
        } else {
            Some(random.below(at.max(1))).filter(|_| at > 0)
        };
        let child = parent.and_then(|parent| {
            if hops[parent] == HOPS {
                return None;
            }
            Some((child_of(random, register, parent, id, at < deep)?, hops[parent] + 1))
        });
        let (claim, hop) = child.unwrap_or_else(|| (root(random, register, id, at < deep), 0));
        hops.push(hop);
        register.claims.push(claim);
    }
}

fn root(random: &mut Random, register: &Register, id: u32, delegates: bool) -> Claim {
    let resource = random.pick(standing(&register.resources));
    let holder = if random.chance(30) { resource.keeper } else { random.pick(standing(&register.actors)).id };
    let mut rights = match random.below(5) {
        0 => RIGHTS_MAX,
        1 => 19,
        2 => 1 << random.below(17),
        _ => 1 + random.below(RIGHTS_MAX as usize) as u32,
    };
    if delegates || random.chance(70) {
        rights |= 1 << DELEGATE;
    }
    let weight = if delegates { WEIGHT_MAX } else { weight(random, WEIGHT_MAX) };
    Claim {
        id,
        parent: 0,
        grantor: resource.keeper,
        holder,
        resource: resource.id,
        rights,
        weight,
        left: 0,
        expiry: expiry(random, delegates),
    }
}

/// A claim under another, or `None` where the rules allow none or luck finds none.
fn child_of(random: &mut Random, register: &Register, parent: usize, id: u32, delegates: bool) -> Option<Claim> {
    let claims = standing(&register.claims);
    let parent = &claims[parent];
    let grantor = standing(&register.actors).iter().find(|actor| actor.id == parent.holder)?;
    let mut grantable = parent.rights;
    if grantor.kind == MACHINE {
        if grantor.owner == 0 {
            return None;
        }
        grantable &= !NOT_BY_MACHINE;
    }
    if parent.rights & 1 << DELEGATE == 0 {
        return None;
    }
    let mut rights = match random.below(3) {
        0 => grantable,
        _ => grantable & random.word(),
    };
    if delegates || random.chance(70) {
        rights |= 1 << DELEGATE;
    }
    if rights == 0 {
        return None;
    }
    let mut barred = vec![];
    let mut above = Some(parent);
    while let Some(claim) = above {
        barred.push(claim.holder);
        if claim.parent == 0 {
            barred.push(claim.grantor);
        }
        above = claims.iter().find(|other| other.id == claim.parent);
    }
    let holder = (0..12).find_map(|_| {
        let actor = random.pick(standing(&register.actors));
        let passes_on = actor.kind == HUMAN || actor.owner != 0;
        (!barred.contains(&actor.id) && (passes_on || !delegates)).then_some(actor.id)
    })?;
    Some(Claim {
        id,
        parent: parent.id,
        grantor: grantor.id,
        holder,
        resource: parent.resource,
        rights,
        // A long chain is to stay alive.
        weight: if delegates && random.chance(90) { parent.weight } else { weight(random, parent.weight) },
        left: 0,
        expiry: expiry(random, delegates),
    })
}

pub fn weight(random: &mut Random, most: u32) -> u32 {
    match random.below(10) {
        0 => 0,
        1..=6 => most,
        _ => random.below(most as usize + 1) as u32,
    }
}

/// One of a long chain mostly never runs out, so that the chain stays alive; of others the source often runs out before the child.
pub fn expiry(random: &mut Random, delegates: bool) -> u64 {
    if delegates && random.chance(93) {
        return 0;
    }
    match random.below(20) {
        0..=7 => 0,
        8 => 1,
        9 => MOMENT_MAX,
        10 => random.next() >> 32,
        _ => ABOUT_NOW - 5 + random.below(11) as u64,
    }
}

/// The register of a version whose text is the longest that a sound one has: every number at its most digits.
pub fn longest(version: u64) -> Box<Register> {
    let mut register = Box::new(Register { version, ..Register::EMPTY });
    let keeper = 10_000;
    register.actors.push(Actor { id: keeper, kind: HUMAN, owner: 0 });
    for id in 1..ACTORS as u32 {
        register.actors.push(Actor { id: keeper + id, kind: MACHINE, owner: keeper });
    }
    for id in 0..RESOURCES as u32 {
        let path: [u8; PATH] = std::array::from_fn(|at| 0x21 + ((at as u32 + id) % 94) as u8);
        register.resources.push(Resource { id: 20_000 + id, is_public: id & 1, keeper, len: PATH as u32, path });
    }
    for id in 0..CLAIMS as u32 {
        register.claims.push(Claim {
            id: 30_000 + id,
            parent: if id == 0 { 0 } else { 30_000 },
            grantor: keeper,
            holder: if id == 0 { keeper } else { keeper + 1 + id % 63 },
            resource: 20_000,
            rights: if id == 0 { RIGHTS_MAX } else { 100_000 + id * 16 },
            weight: WEIGHT_MAX,
            left: if id == 0 { LEFT_MAX } else { 10 + id % 6 },
            expiry: MOMENT_MAX - u64::from(id),
        });
    }
    register
}

#[cfg(test)]
mod tests {
    use super::*;
    use guvrendik_model::model::{Model, Sound};

    #[test]
    fn every_register_is_sound() {
        let mut random = Random::new(1);
        let mut deepest = 0;
        for round in 0..600 {
            let shape = match round % 6 {
                0 => FULL,
                1 => MEDIUM,
                2 => EMPTY,
                3 => within(&mut random, FULL),
                _ => SMALL,
            };
            let register = sound(&mut random, shape, round % 2 == 0);
            let tables = Sound::of(&register).unwrap_or_else(|| panic!("round {round}: {register:?}"));
            let two = as_two(&mut random, &register, round % 3 == 0);
            assert!(Sound::of(&two).is_some(), "round {round}: {two:?}");
            deepest = (0..tables.claims.len()).map(|at| tables.hops(at)).fold(deepest, usize::max);
            if round % 6 == 0 {
                assert_eq!((register.resources.count, register.claims.count), (RESOURCES, CLAIMS));
            }
        }
        assert_eq!(deepest, HOPS);
    }

    /// Gate and plan ask the same of a register and of it as version 2, each claim with what it had left.
    #[test]
    fn verdicts_are_the_same_as_version_2() {
        let (mut random, model) = (Random::new(5), Model::default());
        for round in 0..300 {
            let register = sound(&mut random, if round % 10 == 0 { FULL } else { MEDIUM }, round % 2 == 0);
            let two = as_two(&mut random, &register, true);
            for _ in 0..10 {
                let action = super::super::actions::action(&mut random, &register);
                assert_eq!(model.gate(&register, &action), model.gate(&two, &action));
            }
            let plan = super::super::actions::plan(&mut random, &register);
            assert_eq!(model.judge_plan(&register, &plan), model.judge_plan(&two, &plan));
            let text = super::super::trees::deepest(&mut random, &register);
            assert_eq!(model.judge_plan_text(&register, &text), model.judge_plan_text(&two, &text));
        }
    }

    #[test]
    fn the_longest_text() {
        let mut buffer = vec![0; REGISTER_TEXT];
        assert_eq!(Model::default().write_register(&longest(VERSION_1), &mut buffer), Ok(37_731));
        assert_eq!(Model::default().write_register(&longest(VERSION_2), &mut buffer), Ok(39_779));
    }
}
