//! Who may make a use, and why an actor may or may not.

use super::paths::{climbs, reach};
use super::{Fault, Model, Refusal, Sound};
use crate::types::*;

impl Usage {
    /// Whether the numbers of the use, and this moment, are in their range.
    fn in_range_at(&self, moment: u64) -> bool {
        self.resource <= ID_MAX && self.right <= RIGHT_MAX && moment <= MOMENT_MAX
    }
}

impl Model {
    /// Every actor who covers the use and, of machines, has an owner who does: 1, then 2.
    pub fn who(&self, register: &Register, usage: Usage, moment: u64) -> Holders {
        let refused = |refusal| Holders { refusal: refusal as u32, ..Holders::NONE };
        let Some(sound) = Sound::of(register) else {
            return refused(Refusal::Unsound);
        };
        if !usage.in_range_at(moment) {
            return refused(Refusal::Range);
        }
        let mut holders = Holders { accepted: 1, ..Holders::NONE };
        for actor in sound.actors {
            let owned = || actor.owner != 0 && self.covers(&sound, actor.owner, usage, moment);
            let alone = actor.kind != MACHINE || self.has(Fault::OwnerUnasked);
            if self.covers(&sound, actor.id, usage, moment) && (alone || owned()) {
                holders.ids[holders.count] = actor.id;
                holders.count += 1;
            }
        }
        holders
    }

    /// The actor's reason and, of a machine with an owner, his: the gate's 1, 2 and 3.
    pub fn why_use(&self, register: &Register, actor: u32, usage: Usage, moment: u64) -> UseReason {
        let refused = |refusal| UseReason { refusal: refusal as u32, ..UseReason::ZERO };
        let Some(sound) = Sound::of(register) else {
            return refused(Refusal::Unsound);
        };
        let mut action = Action { actor, now: moment, used: 1, ..Action::ZERO };
        action.uses[0] = usage;
        let acting = match self.acting(&sound, &action) {
            Ok(acting) => acting,
            Err(refusal) => return refused(refusal),
        };
        let owner = if acting.kind == MACHINE { acting.owner } else { 0 };
        let owners = if owner == 0 { Reason::ZERO } else { self.reason(&sound, owner, usage, moment) };
        UseReason { accepted: 1, refusal: 0, actor: self.reason(&sound, actor, usage, moment), owner, owners }
    }

    fn reason(&self, sound: &Sound, holder: u32, usage: Usage, moment: u64) -> Reason {
        let Some(at) = sound.resource_position(usage.resource) else {
            return Reason { kind: 5, ..Reason::ZERO };
        };
        let used = &sound.resources[at];
        let held: Vec<(usize, usize)> = (0..sound.claims.len())
            .filter(|&position| sound.claims[position].holder == holder)
            .filter_map(|position| reached(sound, &sound.claims[position], used).map(|length| (position, length)))
            .collect();
        let nearest = |passes: &dyn Fn(usize) -> bool| {
            let all = held.iter().filter(|(position, _)| passes(*position));
            all.fold(None, |best: Option<(usize, usize)>, &(position, length)| match best {
                Some((_, longest)) if longest >= length => best,
                _ => Some((position, length)),
            })
        };
        let has = |position: usize| sound.claims[position].has_right(usage.right);
        if let Some((position, _)) = nearest(&|position| has(position) && self.live(sound, position, moment)) {
            return told(sound, 1, position);
        }
        if used.is_public == 1 && usage.right == READ {
            return Reason { kind: 2, ..Reason::ZERO };
        }
        if let Some((position, _)) = nearest(&has) {
            let mut over = sound.chain(position).filter(|claim| !self.lasts(claim, moment)).map(|claim| claim.id);
            let ended = if self.has(Fault::LastEnded) { over.last() } else { over.next() };
            return Reason { ended: ended.unwrap_or(0), ..told(sound, 3, position) };
        }
        match nearest(&|_| true) {
            Some((position, _)) => told(sound, 4, position),
            None => Reason { kind: 5, ..Reason::ZERO },
        }
    }

    /// Whether the actor numbered so covers the use: by a live claim with the right, or since it is a public READ.
    fn covers(&self, sound: &Sound, holder: u32, usage: Usage, moment: u64) -> bool {
        let Some(at) = sound.resource_position(usage.resource) else {
            return false;
        };
        let used = &sound.resources[at];
        let by = |(position, claim): (usize, &Claim)| {
            claim.holder == holder
                && claim.has_right(usage.right)
                && reached(sound, claim, used).is_some()
                && self.live(sound, position, moment)
        };
        used.is_public == 1 && usage.right == READ || sound.claims.iter().enumerate().any(by)
    }
}

/// A reason with a claim: its chain, and the grantor of its root.
fn told(sound: &Sound, kind: u32, position: usize) -> Reason {
    let mut reason = Reason { kind, ..Reason::ZERO };
    for (at, claim) in sound.chain(position).enumerate() {
        reason.chain[at] = claim.id;
        reason.count = at as u32 + 1;
        reason.keeper = claim.grantor;
    }
    reason
}

/// How far the path of the claim's resource reaches to the used one, where it contains it.
fn reached(sound: &Sound, claim: &Claim, used: &Resource) -> Option<usize> {
    let outer =
        &sound.resources[sound.resource_position(claim.resource).expect("a sound register's claim names a resource")];
    let (outer, inner) = (&outer.path[..outer.len as usize], &used.path[..used.len as usize]);
    if climbs(outer) || climbs(inner) {
        return None;
    }
    reach(outer, inner)
}
