//! The gate for one action.

use super::paths::{climbs, reach};
use super::{Fault, Model, Refusal, Sound};
use crate::types::*;

/// What a violation is, with the flag, actor or position it is about.
enum Breach {
    Flag(usize),
    Ownerless(u32),
    Governs(usize),
    NotCovered(usize),
    OwnerNotCovered(usize),
}

impl From<Breach> for Violation {
    fn from(breach: Breach) -> Self {
        let (kind, value) = match breach {
            Breach::Flag(flag) => (1, flag as u32),
            Breach::Ownerless(actor) => (2, actor),
            Breach::Governs(position) => (3, position as u32),
            Breach::NotCovered(position) => (4, position as u32),
            Breach::OwnerNotCovered(position) => (5, position as u32),
        };
        Violation { kind, value }
    }
}

impl Verdict {
    /// The answer of a refused call.
    pub fn stopped(refusal: Refusal) -> Self {
        Verdict { decision: STOPPED, refusal: refusal as u32, ..Verdict::EMPTY }
    }

    fn add(&mut self, breach: Breach) {
        self.violations[self.count] = breach.into();
        self.count += 1;
    }
}

impl Action {
    /// Whether every number and both counts are in their range.
    pub fn in_range(&self) -> bool {
        let (Some(uses), Some(governs)) = (self.uses.get(..self.used), self.governs.get(..self.governed)) else {
            return false;
        };
        self.actor <= ID_MAX
            && self.flags <= FLAGS_MAX
            && self.now <= MOMENT_MAX
            && uses.iter().all(|usage| usage.resource <= ID_MAX && usage.right <= RIGHT_MAX)
            && governs.iter().all(|&governed| governed <= ID_MAX)
    }
}

impl Model {
    pub fn gate(&self, register: &Register, action: &Action) -> Verdict {
        let judged = match Sound::of(register) {
            Some(sound) => self.acting(&sound, action).map(|actor| self.judge(&sound, action, actor)),
            None => Err(Refusal::Unsound),
        };
        judged.unwrap_or_else(Verdict::stopped)
    }

    /// The actor of the action, once tests 2 and 3 are passed.
    pub fn acting<'r>(&self, sound: &Sound<'r>, action: &Action) -> Result<&'r Actor, Refusal> {
        if !action.in_range() {
            return Err(Refusal::Range);
        }
        sound.actor(action.actor).ok_or(Refusal::Absent)
    }

    /// The verdict on an action that passed the tests.
    pub fn judge(&self, sound: &Sound, action: &Action, actor: &Actor) -> Verdict {
        let mut verdict = Verdict::EMPTY;
        (0..10).filter(|flag| action.flags >> flag & 1 == 1).for_each(|flag| verdict.add(Breach::Flag(flag)));
        if actor.kind == MACHINE {
            if actor.owner == 0 {
                verdict.add(Breach::Ownerless(actor.id));
            }
            (0..action.governed).for_each(|position| verdict.add(Breach::Governs(position)));
        }
        if action.used > 0 {
            self.judge_uses(sound, action, actor, &mut verdict);
        }
        verdict.decision = if verdict.count == 0 { PERMITTED } else { REFUSED };
        verdict
    }

    fn judge_uses(&self, sound: &Sound, action: &Action, actor: &Actor, verdict: &mut Verdict) {
        let mut climbing = Climbing::default();
        let held = self.holdings(sound, actor.id, action.now, &mut climbing);
        let has_owner = actor.kind == MACHINE && actor.owner != 0;
        let owned = has_owner.then(|| self.holdings(sound, actor.owner, action.now, &mut climbing));
        for (position, usage) in action.uses[..action.used].iter().enumerate() {
            let Some(at) = sound.resource_position(usage.resource) else {
                verdict.add(Breach::NotCovered(position));
                continue;
            };
            let resource = &sound.resources[at];
            let climbs = climbing.of(sound, at);
            let is_open = resource.is_public == 1 && usage.right == READ;
            let nearest = if climbs { None } else { self.nearest(sound, &held, resource, usage.right) };
            verdict.hops[position] = match nearest {
                Some((_, 0)) if self.has(Fault::LengthZeroPassedOver) => 0,
                Some((claim, _)) => sound.hops(claim),
                None if self.has(Fault::HiddenTold) && !is_open => 1,
                None => 0,
            };
            if is_open {
                continue;
            }
            if nearest.is_none() {
                verdict.add(Breach::NotCovered(position));
            } else if owned.as_ref().is_some_and(|owned| self.nearest(sound, owned, resource, usage.right).is_none()) {
                verdict.add(Breach::OwnerNotCovered(position));
            }
        }
    }

    /// The claims of one holder that can cover a use: live, on a resource whose path does not climb.
    fn holdings(&self, sound: &Sound, holder: u32, now: u64, climbing: &mut Climbing) -> Holdings {
        let mut holdings = Holdings { claims: [0; CLAIMS], resources: [0; CLAIMS], count: 0 };
        for (position, claim) in sound.claims.iter().enumerate() {
            if claim.holder != holder || !self.live(sound, position, now) {
                continue;
            }
            let resource = sound.resource_position(claim.resource).expect("a sound register's claim names a resource");
            if !climbing.of(sound, resource) {
                holdings.claims[holdings.count] = position as u8;
                holdings.resources[holdings.count] = resource as u8;
                holdings.count += 1;
            }
        }
        holdings
    }

    /// Of the claims that cover a use of the resource, whose path does not climb: the position of the one with the longest
    /// trimmed path, the first of them on a tie, and that length.
    fn nearest(&self, sound: &Sound, holdings: &Holdings, used: &Resource, right: u32) -> Option<(usize, usize)> {
        let inner = &used.path[..used.len as usize];
        let mut nearest: Option<(usize, usize)> = None;
        for (claim, resource) in holdings.iter() {
            if !sound.claims[claim].has_right(right) {
                continue;
            }
            let outer = &sound.resources[resource];
            let Some(trimmed) = reach(&outer.path[..outer.len as usize], inner) else {
                continue;
            };
            let length = if self.has(Fault::UntrimmedLength) { outer.len as usize } else { trimmed };
            let nearer = match nearest {
                None => true,
                Some(_) if self.has(Fault::FirstCovering) => false,
                Some((_, best)) if self.has(Fault::LastOnTie) => length >= best,
                Some((_, best)) => length > best,
            };
            if nearer {
                nearest = Some((claim, length));
            }
        }
        nearest
    }
}

/// Positions of claims in register order, each with the position of its resource.
struct Holdings {
    claims: [u8; CLAIMS],
    resources: [u8; CLAIMS],
    count: usize,
}

impl Holdings {
    fn iter(&self) -> impl Iterator<Item = (usize, usize)> + '_ {
        let claims = self.claims[..self.count].iter();
        claims.zip(&self.resources[..self.count]).map(|(&claim, &resource)| (claim.into(), resource.into()))
    }
}

/// Which resources' paths climb, each looked at once: a bit for each position.
#[derive(Default)]
struct Climbing {
    known: u64,
    climbs: u64,
}

impl Climbing {
    fn of(&mut self, sound: &Sound, position: usize) -> bool {
        let bit = 1 << position;
        if self.known & bit == 0 {
            self.known |= bit;
            let resource = &sound.resources[position];
            if climbs(&resource.path[..resource.len as usize]) {
                self.climbs |= bit;
            }
        }
        self.climbs & bit != 0
    }
}
