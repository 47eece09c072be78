//! Single defects of soundness, each put into a sound register.

use super::random::Random;
use super::registers::{lay_version, standing};
use guvrendik_model::types::*;

/// Puts the defect in, or answers `false` where this register has no place for it and is left as it was.
pub type Defect = fn(&mut Register, &mut Random) -> bool;

/// Changes one entry that counts. `false` where there is none.
fn one<T: Zero, const LIMIT: usize>(
    list: &mut List<T, LIMIT>,
    random: &mut Random,
    fits: impl Fn(&T) -> bool,
    change: impl FnOnce(&mut T, &mut Random),
) -> bool {
    let fitting: Vec<usize> = (0..list.count).filter(|&at| fits(&list.list[at])).collect();
    if fitting.is_empty() {
        return false;
    }
    let at = *random.pick(&fitting);
    change(&mut list.list[at], random);
    true
}

fn actor(register: &mut Register, random: &mut Random, change: fn(&mut Actor)) -> bool {
    one(&mut register.actors, random, |_| true, |actor, _| change(actor))
}

fn actor_of(register: &mut Register, random: &mut Random, kind: u32, change: fn(&mut Actor)) -> bool {
    one(&mut register.actors, random, |actor| actor.kind == kind, |actor, _| change(actor))
}

fn resource(register: &mut Register, random: &mut Random, change: fn(&mut Resource)) -> bool {
    one(&mut register.resources, random, |_| true, |resource, _| change(resource))
}

fn claim(register: &mut Register, random: &mut Random, change: fn(&mut Claim)) -> bool {
    one(&mut register.claims, random, |_| true, |claim, _| change(claim))
}

/// Changes one claim that has a parent.
fn child(register: &mut Register, random: &mut Random, change: impl FnOnce(&mut Claim, &mut Random)) -> bool {
    one(&mut register.claims, random, |claim| claim.parent != 0, change)
}

fn byte(register: &mut Register, random: &mut Random, byte: u8) -> bool {
    one(
        &mut register.resources,
        random,
        |resource| resource.len > 0,
        |resource, random| resource.path[random.below(resource.len as usize)] = byte,
    )
}

/// Gives one entry the id of another.
fn double<T: Zero, const LIMIT: usize>(
    list: &mut List<T, LIMIT>,
    random: &mut Random,
    id: fn(&mut T) -> &mut u32,
) -> bool {
    if list.count < 2 {
        return false;
    }
    let (from, shift) = (random.below(list.count), random.between(1, list.count - 1));
    let to = (from + shift) % list.count;
    let taken = *id(&mut list.list[from]);
    *id(&mut list.list[to]) = taken;
    true
}

/// An id that no actor, resource or claim has.
fn absent(register: &Register, random: &mut Random) -> u32 {
    loop {
        let id = 1 + random.below(ID_MAX as usize) as u32;
        let taken = standing(&register.actors).iter().any(|actor| actor.id == id)
            || standing(&register.resources).iter().any(|resource| resource.id == id)
            || standing(&register.claims).iter().any(|claim| claim.id == id);
        if !taken {
            return id;
        }
    }
}

/// The parent's position of a claim that has one.
fn parent_of(register: &Register, claim: &Claim) -> Option<usize> {
    standing(&register.claims).iter().position(|parent| claim.parent != 0 && parent.id == claim.parent)
}

/// The claims with a parent, as (the claim's position, the parent's), that fit.
fn pairs(register: &Register, fits: impl Fn(&Claim, &Claim) -> bool) -> Vec<(usize, usize)> {
    let claims = standing(&register.claims);
    let found = claims.iter().enumerate().filter_map(|(at, claim)| Some((at, parent_of(register, claim)?)));
    found.filter(|&(at, parent)| fits(&claims[at], &claims[parent])).collect()
}

fn actor_at(register: &Register, id: u32) -> Option<usize> {
    standing(&register.actors).iter().position(|actor| actor.id == id)
}

fn is_machine(register: &Register, id: u32) -> bool {
    actor_at(register, id).is_some_and(|at| register.actors.list[at].kind == MACHINE)
}

/// The claim's ancestors' positions, from the parent to the root.
fn above(register: &Register, at: usize) -> Vec<usize> {
    let mut found = Vec::new();
    let mut next = parent_of(register, &register.claims.list[at]);
    while let Some(parent) = next {
        found.push(parent);
        next = parent_of(register, &register.claims.list[parent]);
    }
    found
}

/// Whether no claim has this one as its parent.
fn is_leaf(register: &Register, at: usize) -> bool {
    let id = register.claims.list[at].id;
    standing(&register.claims).iter().all(|claim| claim.parent != id)
}

/// Puts another holder on a claim that nothing hangs from.
fn leaf_held_by(
    register: &mut Register,
    random: &mut Random,
    holder: impl Fn(&Register, &[usize], &mut Random) -> u32,
) -> bool {
    let leaves: Vec<usize> =
        pairs(register, |_, _| true).into_iter().map(|(at, _)| at).filter(|&at| is_leaf(register, at)).collect();
    if leaves.is_empty() {
        return false;
    }
    let at = *random.pick(&leaves);
    let above = above(register, at);
    register.claims.list[at].holder = holder(register, &above, random);
    true
}

/// Appends a claim under an existing one, otherwise right, that nothing but the change spoils.
fn append_child(
    register: &mut Register,
    random: &mut Random,
    fits: impl Fn(&Register, usize) -> bool,
    change: impl FnOnce(&mut Claim),
) -> bool {
    if register.claims.count >= CLAIMS {
        return false;
    }
    let claims = standing(&register.claims);
    let able = |at: usize| {
        let grantor = actor_at(register, claims[at].holder).map(|at| register.actors.list[at]);
        claims[at].rights & 1 << DELEGATE != 0 && grantor.is_some_and(|actor| actor.kind == HUMAN || actor.owner != 0)
    };
    let parents: Vec<usize> = (0..claims.len()).filter(|&at| able(at) && fits(register, at)).collect();
    if parents.is_empty() {
        return false;
    }
    let at = *random.pick(&parents);
    let parent = claims[at];
    let mut barred: Vec<u32> = above(register, at).into_iter().chain([at]).map(|at| claims[at].holder).collect();
    let root = above(register, at).last().copied().unwrap_or(at);
    barred.push(claims[root].grantor);
    let Some(holder) = standing(&register.actors).iter().map(|actor| actor.id).find(|id| !barred.contains(id)) else {
        return false;
    };
    let id = absent(register, random);
    let mut claim = Claim { id, parent: parent.id, grantor: parent.holder, holder, rights: 1 << DELEGATE, ..parent };
    change(&mut claim);
    register.claims.push(claim);
    true
}

/// Each with the numbers that its first fault may have: another record may be spoiled with the one that is changed, and stand before it.
pub const DEFECTS: &[(&str, &[u32], Defect)] = &[
    ("65 actors", &[2], |register, _| {
        register.actors.count = ACTORS + 1;
        true
    }),
    ("actors without number", &[2], |register, _| {
        register.actors.count = usize::MAX;
        true
    }),
    ("65 resources", &[2], |register, _| {
        register.resources.count = RESOURCES + 1;
        true
    }),
    ("resources wrap to none", &[2], |register, _| {
        register.resources.count = 1 << 32;
        true
    }),
    ("257 claims", &[2], |register, _| {
        register.claims.count = CLAIMS + 1;
        true
    }),
    ("claims wrap to none", &[2], |register, _| {
        register.claims.count = 1 << 32;
        true
    }),
    ("version 0", &[2], |register, _| versioned(register, 0)),
    ("version 3", &[2], |register, _| versioned(register, 3)),
    ("version wraps", &[2], |register, _| versioned(register, register.version + (1 << 32))),
    ("version without number", &[2], |register, _| versioned(register, u64::MAX)),
    ("actor id 0", &[2], |register, random| actor_of(register, random, MACHINE, |actor| actor.id = 0)),
    ("actor id 65536", &[2], |register, random| actor_of(register, random, MACHINE, |actor| actor.id = 65_536)),
    ("actor id wraps", &[2, 32], |register, random| actor(register, random, |actor| actor.id += 65_536)),
    ("actor id doubled", &[31, 32], |register, random| double(&mut register.actors, random, |actor| &mut actor.id)),
    ("actor kind 0", &[2, 32], |register, random| actor(register, random, |actor| actor.kind = 0)),
    ("actor kind 3", &[2, 32], |register, random| actor(register, random, |actor| actor.kind = 3)),
    ("actor kind wraps", &[2, 32], |register, random| actor(register, random, |actor| actor.kind += 256)),
    ("human with itself as owner", &[32], |register, random| {
        actor_of(register, random, HUMAN, |actor| actor.owner = actor.id)
    }),
    ("human with an owner", &[32], |register, random| {
        let humans: Vec<u32> =
            standing(&register.actors).iter().filter(|actor| actor.kind == HUMAN).map(|actor| actor.id).collect();
        !humans.is_empty()
            && one(
                &mut register.actors,
                random,
                |actor| actor.kind == HUMAN,
                |actor, random| actor.owner = *random.pick(&humans),
            )
    }),
    ("machine owned by itself", &[32], |register, random| {
        actor_of(register, random, MACHINE, |actor| actor.owner = actor.id)
    }),
    ("machine owned by a machine", &[32], |register, random| {
        let machines: Vec<u32> =
            standing(&register.actors).iter().filter(|actor| actor.kind == MACHINE).map(|actor| actor.id).collect();
        !machines.is_empty()
            && one(
                &mut register.actors,
                random,
                |actor| actor.kind == MACHINE,
                |actor, random| actor.owner = *random.pick(&machines),
            )
    }),
    ("machine owned by nobody known", &[32], |register, random| {
        let owner = absent(register, random);
        one(&mut register.actors, random, |actor| actor.kind == MACHINE, |actor, _| actor.owner = owner)
    }),
    ("owner wraps to a human", &[2], |register, random| {
        one(
            &mut register.actors,
            random,
            |actor| actor.kind == MACHINE && actor.owner != 0,
            |actor, _| actor.owner += 65_536,
        )
    }),
    ("owner 65536 for none", &[2], |register, random| {
        one(&mut register.actors, random, |actor| actor.owner == 0, |actor, _| actor.owner = 65_536)
    }),
    ("resource id 0", &[2], |register, random| resource(register, random, |resource| resource.id = 0)),
    ("resource id wraps", &[2], |register, random| resource(register, random, |resource| resource.id += 65_536)),
    ("resource id doubled", &[31], |register, random| {
        double(&mut register.resources, random, |resource| &mut resource.id)
    }),
    ("public 2", &[2], |register, random| resource(register, random, |resource| resource.is_public = 2)),
    ("public wraps", &[2], |register, random| resource(register, random, |resource| resource.is_public += 256)),
    ("keeper 0", &[2], |register, random| resource(register, random, |resource| resource.keeper = 0)),
    ("keeper wraps", &[2], |register, random| resource(register, random, |resource| resource.keeper += 65_536)),
    ("keeper nobody known", &[33], |register, random| {
        let keeper = absent(register, random);
        one(&mut register.resources, random, |_| true, |resource, _| resource.keeper = keeper)
    }),
    ("keeper a machine", &[33], |register, random| {
        let Some(machine) = standing(&register.actors).iter().find(|actor| actor.kind == MACHINE).map(|actor| actor.id)
        else {
            return false;
        };
        one(&mut register.resources, random, |_| true, |resource, _| resource.keeper = machine)
    }),
    ("path of 65 bytes", &[2], |register, random| {
        resource(register, random, |resource| resource.len = PATH as u32 + 1)
    }),
    ("path without length", &[2], |register, random| resource(register, random, |resource| resource.len = u32::MAX)),
    ("path length wraps", &[2], |register, random| resource(register, random, |resource| resource.len += 1 << 16)),
    ("blank in a path", &[2], |register, random| byte(register, random, 0x20)),
    ("DEL in a path", &[2], |register, random| byte(register, random, 0x7F)),
    ("NUL in a path", &[2], |register, random| byte(register, random, 0)),
    ("LF in a path", &[2], |register, random| byte(register, random, b'\n')),
    ("high byte in a path", &[2], |register, random| byte(register, random, 0xA1)),
    ("claim id 0", &[2], |register, random| claim(register, random, |claim| claim.id = 0)),
    ("claim id wraps", &[2], |register, random| claim(register, random, |claim| claim.id += 65_536)),
    ("claim id doubled", &[4, 9], |register, random| double(&mut register.claims, random, |claim| &mut claim.id)),
    ("parent wraps", &[2], |register, random| child(register, random, |claim, _| claim.parent += 65_536)),
    ("parent 65536 for none", &[2], |register, random| {
        one(&mut register.claims, random, |claim| claim.parent == 0, |claim, _| claim.parent = 65_536)
    }),
    ("parent does not stand", &[9], |register, random| {
        let parent = absent(register, random);
        child(register, random, |claim, _| claim.parent = parent)
    }),
    ("parent removed", &[9], |register, random| {
        let pairs = pairs(register, |_, _| true);
        if pairs.is_empty() {
            return false;
        }
        let &(_, parent) = random.pick(&pairs);
        let claims = &mut register.claims;
        claims.list[parent..claims.count].rotate_left(1);
        claims.count -= 1;
        true
    }),
    ("parent is the claim", &[9], |register, random| child(register, random, |claim, _| claim.parent = claim.id)),
    ("parent later in the list", &[9], |register, random| {
        let pairs = pairs(register, |_, _| true);
        if pairs.is_empty() {
            return false;
        }
        let &(at, parent) = random.pick(&pairs);
        register.claims.list.swap(at, parent);
        true
    }),
    ("grantor 0", &[2], |register, random| claim(register, random, |claim| claim.grantor = 0)),
    ("grantor wraps", &[2], |register, random| claim(register, random, |claim| claim.grantor += 65_536)),
    ("grantor nobody known", &[3], |register, random| {
        let grantor = absent(register, random);
        one(&mut register.claims, random, |_| true, |claim, _| claim.grantor = grantor)
    }),
    ("holder 0", &[2], |register, random| claim(register, random, |claim| claim.holder = 0)),
    ("holder wraps", &[2], |register, random| claim(register, random, |claim| claim.holder += 65_536)),
    ("holder nobody known", &[3], |register, random| {
        let holder = absent(register, random);
        one(&mut register.claims, random, |_| true, |claim, _| claim.holder = holder)
    }),
    ("resource 0", &[2], |register, random| claim(register, random, |claim| claim.resource = 0)),
    ("resource wraps", &[2], |register, random| claim(register, random, |claim| claim.resource += 65_536)),
    ("resource not known", &[3], |register, random| {
        let resource = absent(register, random);
        one(&mut register.claims, random, |_| true, |claim, _| claim.resource = resource)
    }),
    ("no rights", &[2], |register, random| claim(register, random, |claim| claim.rights = 0)),
    ("right 17", &[2], |register, random| claim(register, random, |claim| claim.rights |= 1 << 17)),
    ("weight 1001 at a root", &[2], |register, random| {
        one(&mut register.claims, random, |claim| claim.parent == 0, |claim, _| claim.weight = 1_001)
    }),
    ("weight wraps", &[2], |register, random| claim(register, random, |claim| claim.weight += 65_536)),
    ("expiry 2^32", &[2], |register, random| claim(register, random, |claim| claim.expiry = 1 << 32)),
    ("expiry wraps", &[2], |register, random| claim(register, random, |claim| claim.expiry += 1 << 32)),
    ("root not granted by the keeper", &[6], |register, random| {
        let others: Vec<u32> =
            standing(&register.actors).iter().filter(|actor| actor.kind == HUMAN).map(|actor| actor.id).collect();
        let roots: Vec<usize> = (0..register.claims.count).filter(|&at| register.claims.list[at].parent == 0).collect();
        if roots.is_empty() || others.len() < 2 {
            return false;
        }
        let root = &mut register.claims.list[*random.pick(&roots)];
        root.grantor = *others.iter().find(|id| **id != root.grantor).expect("two humans");
        true
    }),
    ("parent held by another", &[10], |register, random| {
        let pairs = pairs(register, |claim, _| claim.grantor != 0);
        let humans: Vec<u32> =
            standing(&register.actors).iter().filter(|actor| actor.kind == HUMAN).map(|actor| actor.id).collect();
        if pairs.is_empty() {
            return false;
        }
        let &(at, parent) = random.pick(&pairs);
        let held_by = register.claims.list[parent].holder;
        let Some(other) = humans.iter().find(|id| **id != held_by) else {
            return false;
        };
        register.claims.list[at].grantor = *other;
        true
    }),
    ("parent on another resource", &[10], |register, random| {
        let resources: Vec<u32> = standing(&register.resources).iter().map(|resource| resource.id).collect();
        resources.len() > 1
            && child(register, random, |claim, _| {
                claim.resource = *resources.iter().find(|id| **id != claim.resource).expect("two resources");
            })
    }),
    ("parent lacks DELEGATE", &[12, 13], |register, random| {
        let pairs = pairs(register, |_, _| true);
        if pairs.is_empty() {
            return false;
        }
        let &(_, parent) = random.pick(&pairs);
        let parent = &mut register.claims.list[parent];
        parent.rights &= !(1 << DELEGATE);
        parent.rights |= u32::from(parent.rights == 0);
        true
    }),
    ("a right the parent lacks", &[13], |register, random| {
        let pairs = pairs(register, |claim, parent| {
            parent.rights != RIGHTS_MAX && (!parent.rights & RIGHTS_MAX & !NOT_BY_MACHINE != 0 || claim.grantor == 0)
        });
        if pairs.is_empty() {
            return false;
        }
        let &(at, parent) = random.pick(&pairs);
        let lacking = !register.claims.list[parent].rights & RIGHTS_MAX & !NOT_BY_MACHINE;
        register.claims.list[at].rights |= 1 << lacking.trailing_zeros();
        true
    }),
    ("weight above the parent's", &[14], |register, random| {
        let pairs = pairs(register, |_, parent| parent.weight < WEIGHT_MAX);
        if pairs.is_empty() {
            return false;
        }
        let &(at, parent) = random.pick(&pairs);
        register.claims.list[at].weight = register.claims.list[parent].weight + 1;
        true
    }),
    ("granted by a machine without owner", &[7], |register, random| {
        let machines: Vec<usize> = pairs(register, |_, _| true)
            .into_iter()
            .filter(|&(at, _)| is_machine(register, register.claims.list[at].grantor))
            .map(|(at, _)| at)
            .collect();
        if machines.is_empty() {
            return false;
        }
        let grantor = register.claims.list[*random.pick(&machines)].grantor;
        let at = actor_at(register, grantor).expect("it stands");
        register.actors.list[at].owner = 0;
        true
    }),
    ("right 13 granted by a machine", &[8], |register, random| machine_grants(register, random, 13)),
    ("right 15 granted by a machine", &[8], |register, random| machine_grants(register, random, 15)),
    ("right 16 granted by a machine", &[8], |register, random| machine_grants(register, random, 16)),
    ("17 hops", &[15], |register, random| {
        append_child(register, random, |register, at| above(register, at).len() == HOPS, |_| ())
    }),
    ("left 17 at a root", &[2], |register, random| {
        in_two(register, random, |register, random| {
            one(&mut register.claims, random, |claim| claim.parent == 0, |claim, _| claim.left = LEFT_MAX + 1)
        })
    }),
    ("left wraps", &[2], |register, random| {
        in_two(register, random, |register, random| claim(register, random, |claim| claim.left += 65_536))
    }),
    ("as much left as the parent", &[15], |register, random| {
        in_two(register, random, |register, random| left_over(register, random, 0))
    }),
    ("more left than the parent", &[15], |register, random| {
        in_two(register, random, |register, random| left_over(register, random, 1))
    }),
    ("held already higher on the chain", &[16], |register, random| {
        leaf_held_by(register, random, |register, above, random| register.claims.list[*random.pick(above)].holder)
    }),
    ("held by the root's grantor", &[16], |register, random| {
        leaf_held_by(register, random, |register, above, _| register.claims.list[above[above.len() - 1]].grantor)
    }),
    ("rights joined from two claims", &[13], |register, random| {
        // Another claim of the grantor on the resource has the right that the parent lacks.
        let claims = standing(&register.claims);
        let joined = pairs(register, |claim, parent| {
            claims.iter().any(|other| {
                other.holder == claim.grantor
                    && other.resource == claim.resource
                    && other.rights & !parent.rights & !NOT_BY_MACHINE != 0
            })
        });
        if joined.is_empty() {
            return false;
        }
        let &(at, parent) = random.pick(&joined);
        let (claim, parent) = (claims[at], claims[parent]);
        let other = claims.iter().find(|other| {
            other.holder == claim.grantor
                && other.resource == claim.resource
                && other.rights & !parent.rights & !NOT_BY_MACHINE != 0
        });
        let more = other.map_or(0, |other| other.rights & !NOT_BY_MACHINE);
        register.claims.list[at].rights |= more;
        true
    }),
];

/// Gives the register another version.
fn versioned(register: &mut Register, version: u64) -> bool {
    register.version = version;
    true
}

/// Puts a defect of version 2 in: a register of version 1 becomes one of version 2 first.
fn in_two(register: &mut Register, random: &mut Random, defect: fn(&mut Register, &mut Random) -> bool) -> bool {
    let before = register.clone();
    if register.version == VERSION_1 {
        lay_version(random, register, VERSION_2);
    }
    let fits = defect(register, random);
    if !fits {
        *register = before;
    }
    fits
}

/// Gives a claim so much more left than its parent has.
fn left_over(register: &mut Register, random: &mut Random, more: u32) -> bool {
    let pairs = pairs(register, |_, parent| parent.left + more <= LEFT_MAX);
    if pairs.is_empty() {
        return false;
    }
    let &(at, parent) = random.pick(&pairs);
    register.claims.list[at].left = register.claims.list[parent].left + more;
    true
}

/// Gives a claim that a machine granted, and the whole chain above it, a right that the machine may not grant.
fn machine_grants(register: &mut Register, random: &mut Random, right: u32) -> bool {
    let granted: Vec<usize> = pairs(register, |_, _| true)
        .into_iter()
        .map(|(at, _)| at)
        .filter(|&at| is_machine(register, register.claims.list[at].grantor))
        // Above it only humans grant, so that the right can come down to it.
        .filter(|&at| {
            above(register, at).iter().all(|&higher| !is_machine(register, register.claims.list[higher].grantor))
        })
        .collect();
    if granted.is_empty() {
        return false;
    }
    let at = *random.pick(&granted);
    for higher in above(register, at).into_iter().chain([at]) {
        register.claims.list[higher].rights |= 1 << right;
    }
    true
}

#[cfg(test)]
mod tests {
    use super::super::registers;
    use super::*;
    use guvrendik_model::model::Model;
    use guvrendik_model::shapes::*;

    #[test]
    fn every_defect_fits_and_is_one() {
        let mut random = Random::new(3);
        for (name, numbers, defect) in DEFECTS {
            let (mut fitted, mut told) = (0, std::collections::BTreeSet::new());
            for round in 0..120 {
                let shape = [SMALL, MEDIUM, FULL, Shape { claims: 200, ..FULL }][round % 4];
                let mut register = registers::sound(&mut random, shape, round % 2 == 0);
                if round % 8 < 4 {
                    register = registers::as_two(&mut random, &register, round % 3 == 0);
                }
                let before = register.clone();
                if defect(&mut register, &mut random) {
                    fitted += 1;
                    assert!(!Model::default().sound(&register), "{name}");
                    let why = Model::default().why_unsound(&register).why;
                    assert!(numbers.contains(&why), "{name}: {why}");
                    told.insert(why);
                    let verdict = Model::default().gate(&register, &Action::ZERO);
                    assert_eq!((verdict.decision, verdict.refusal, verdict.count), (STOPPED, 1, 0), "{name}");
                } else {
                    assert_eq!(register, before, "{name}");
                }
            }
            assert!(fitted > 5, "{name}: {fitted}");
            assert_eq!(told.len(), numbers.len(), "{name}: {told:?}");
        }
    }
}
