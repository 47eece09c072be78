//! Registers changed where the actor of an action does not see it.

use super::actions;
use super::books;
use super::random::Random;
use super::registers::standing;
use crate::guesses::{alike, asked, hidden, Guess};
use guvrendik_model::model::Sound;
use guvrendik_model::types::*;

/// An action on a sound register, and that register changed. `None` where the actor sees a change.
pub fn guess(random: &mut Random, register: &Register) -> Option<Guess> {
    let mut action = actions::action(random, register);
    let unseen: Vec<u32> = {
        let sound = Sound::of(register).expect("it is sound");
        let ids = sound.resources.iter().map(|resource| resource.id);
        ids.filter(|&id| hidden(&sound, action.actor, id)).collect()
    };
    let mut second = Box::new(register.clone());
    let absent = unused(random, register);
    if random.chance(70) && (1..=USES).contains(&action.used) {
        let resource = if unseen.is_empty() { absent } else { *random.pick(&unseen) };
        let at = random.below(action.used);
        action.uses[at].resource = resource;
        change(random, &mut second, resource, absent);
    }
    for _ in 0..random.below(3) {
        let resource = if unseen.is_empty() { absent } else { *random.pick(&unseen) };
        change(random, &mut second, resource, absent);
    }
    if random.chance(50) {
        reorder(random, &mut second);
    }
    if !alike(register, &second, &action) {
        return None;
    }
    let registers = [Box::new(register.clone()), second];
    let book = Box::new(books::about(random, &registers, asked(&registers, &action)));
    let fingerprint = books::fingerprint(random);
    Some(Guess { registers, action, book, fingerprint })
}

/// A number that no resource has.
fn unused(random: &mut Random, register: &Register) -> u32 {
    loop {
        let id = 1 + random.below(ID_MAX as usize) as u32;
        if standing(&register.resources).iter().all(|resource| resource.id != id) {
            return id;
        }
    }
}

/// Takes a resource away with the claims on it, gives it another number, path or mark, takes a claim of somebody, or puts a resource of that
/// number in.
fn change(random: &mut Random, register: &mut Register, resource: u32, absent: u32) {
    let Some(at) = standing(&register.resources).iter().position(|one| one.id == resource) else {
        return put(random, register, resource);
    };
    match random.below(6) {
        0..=1 => {
            take_claims(register, |claim| claim.resource == resource);
            let end = register.resources.count;
            register.resources.list[at..end].rotate_left(1);
            register.resources.count -= 1;
        }
        2 => {
            register.resources.list[at].id = absent;
            let count = register.claims.count;
            let claims = register.claims.list[..count].iter_mut();
            claims.filter(|claim| claim.resource == resource).for_each(|claim| claim.resource = absent);
        }
        3 => lay_path(random, &mut register.resources.list[at]),
        4 => register.resources.list[at].is_public ^= u32::from(random.chance(20)),
        _ => {
            let parents: Vec<u32> = standing(&register.claims).iter().map(|claim| claim.parent).collect();
            take_claims(register, |claim| claim.resource == resource && !parents.contains(&claim.id));
        }
    }
}

fn take_claims(register: &mut Register, taken: impl Fn(&Claim) -> bool) {
    let kept: Vec<Claim> = standing(&register.claims).iter().copied().filter(|claim| !taken(claim)).collect();
    register.claims.list[..kept.len()].copy_from_slice(&kept);
    register.claims.count = kept.len();
}

/// A resource of that number, kept by some human.
fn put(random: &mut Random, register: &mut Register, id: u32) {
    let humans: Vec<u32> = standing(&register.actors).iter().filter(|a| a.kind == HUMAN).map(|a| a.id).collect();
    if register.resources.count == RESOURCES || humans.is_empty() {
        return;
    }
    let mut resource = Resource { id, keeper: *random.pick(&humans), ..Resource::ZERO };
    lay_path(random, &mut resource);
    register.resources.push(resource);
}

/// A path that is mostly in no other.
fn lay_path(random: &mut Random, resource: &mut Resource) {
    let path = format!("unseen/{}", random.below(1_000));
    resource.path[..path.len()].copy_from_slice(path.as_bytes());
    resource.len = path.len() as u32;
}

/// Actors and resources in another order. Claims keep theirs, since each stands behind its parent.
fn reorder(random: &mut Random, register: &mut Register) {
    let (actors, resources) = (register.actors.count, register.resources.count);
    random.shuffle(&mut register.actors.list[..actors]);
    random.shuffle(&mut register.resources.list[..resources]);
}
