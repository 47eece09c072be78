//! When a register is sound, and what can be looked up in one that is.

use super::ids::Ids;
use super::{Fault, Model};
use crate::types::*;

/// A register that was found sound, with its tables.
pub struct Sound<'r> {
    pub version: u64,
    pub actors: &'r [Actor],
    pub resources: &'r [Resource],
    pub claims: &'r [Claim],
    actor_ids: Ids<128>,
    resource_ids: Ids<128>,
    claim_ids: Ids<512>,
    /// By claim: the position of its parent. A root has its own.
    parents: [u8; CLAIMS],
    /// By claim: the steps up to its root.
    hops: [u8; CLAIMS],
}

impl Resource {
    /// The path, or `None` where its length is above the limit.
    pub fn path(&self) -> Option<&[u8]> {
        self.path.get(..self.len as usize)
    }
}

impl Claim {
    pub fn has_right(&self, right: u32) -> bool {
        self.rights >> right & 1 == 1
    }

    /// Whether every number is in its range. Of a claim in a register of this version and of one to be granted there: in version 1
    /// `left` may be any number.
    pub fn in_range(&self, version: u64) -> bool {
        is_id(self.id)
            && self.parent <= ID_MAX
            && is_id(self.grantor)
            && is_id(self.holder)
            && is_id(self.resource)
            && (1..=RIGHTS_MAX).contains(&self.rights)
            && self.weight <= WEIGHT_MAX
            && (version == VERSION_1 || self.left <= LEFT_MAX)
            && self.expiry <= MOMENT_MAX
    }
}

fn is_id(number: u32) -> bool {
    (1..=ID_MAX).contains(&number)
}

impl Model {
    pub fn sound(&self, register: &Register) -> bool {
        Sound::of(register).is_some()
    }

    /// Whether the register of the version, the actors, the resources and the claims of a table is sound. Of more than 256 claims it is not.
    pub fn sound_table(&self, claims: &[Claim], version: u64, actors: &Actors, resources: &Resources) -> bool {
        let most = if self.has(Fault::TableCutAt256) { claims.len().min(CLAIMS) } else { claims.len() };
        let claims = &claims[..most];
        if claims.len() > CLAIMS {
            return false;
        }
        let (actors, resources) = (actors.clone(), resources.clone());
        let mut register = Register { actors, resources, claims: List::EMPTY, version };
        claims.iter().for_each(|claim| register.claims.push(*claim));
        self.sound(&register)
    }

    /// Whether the claim at a position is live: every claim on its chain has weight and has not expired.
    pub fn live(&self, sound: &Sound, position: usize, now: u64) -> bool {
        let asked = if self.has(Fault::SourceUnasked) { 1 } else { CLAIMS };
        sound.chain(position).take(asked).all(|claim| self.lasts(claim, now))
    }

    /// Whether the claim by itself has weight and has not expired.
    pub fn lasts(&self, claim: &Claim, now: u64) -> bool {
        claim.weight > 0
            && (claim.expiry == 0 || claim.expiry > now || claim.expiry == now && self.has(Fault::ExpiryEqualLive))
    }
}

impl<'r> Sound<'r> {
    /// The register's tables, or `None` where it is not sound.
    pub fn of(register: &'r Register) -> Option<Self> {
        let version = Some(register.version).filter(|version| (VERSION_1..=VERSION_2).contains(version))?;
        let actors = register.actors.entries()?;
        let resources = register.resources.entries()?;
        let claims = register.claims.entries()?;
        let mut sound = Sound {
            version,
            actors,
            resources,
            claims,
            actor_ids: Ids::of(actors.iter().map(|actor| actor.id))?,
            resource_ids: Ids::of(resources.iter().map(|resource| resource.id))?,
            claim_ids: Ids::of(claims.iter().map(|claim| claim.id))?,
            parents: [0; CLAIMS],
            hops: [0; CLAIMS],
        };
        let entries_hold = actors.iter().all(|actor| sound.actor_holds(actor))
            && resources.iter().all(|resource| sound.resource_holds(resource))
            && (0..claims.len()).all(|position| sound.place(position));
        entries_hold.then_some(sound)
    }

    pub fn actor(&self, id: u32) -> Option<&'r Actor> {
        self.actor_ids.find(id).map(|position| &self.actors[position])
    }

    pub fn resource_position(&self, id: u32) -> Option<usize> {
        self.resource_ids.find(id)
    }

    pub fn resource(&self, id: u32) -> Option<&'r Resource> {
        self.resource_position(id).map(|position| &self.resources[position])
    }

    pub fn claim_position(&self, id: u32) -> Option<usize> {
        self.claim_ids.find(id)
    }

    /// The steps from the claim at a position up to its root.
    pub fn hops(&self, position: usize) -> usize {
        usize::from(self.hops[position])
    }

    /// How many more hands the claim at a position may pass through: in version 1 16 less its hop count, in version 2 as it says.
    pub fn left(&self, position: usize) -> u32 {
        if self.version == VERSION_1 {
            LEFT_MAX - u32::from(self.hops[position])
        } else {
            self.claims[position].left
        }
    }

    /// Whether the claim at a position may be passed on with so much left: in version 1 whatever it says, up to 16 hops.
    pub fn passes_on(&self, position: usize, left: u32) -> bool {
        if self.version == VERSION_1 {
            self.hops(position) < HOPS
        } else {
            left < self.claims[position].left
        }
    }

    /// The parent's position, `None` for a root.
    pub fn parent(&self, position: usize) -> Option<usize> {
        (self.claims[position].parent != 0).then(|| usize::from(self.parents[position]))
    }

    /// The claim at a position, its parent, and so on up to the root.
    pub fn chain(&self, position: usize) -> impl Iterator<Item = &'r Claim> + '_ {
        std::iter::successors(Some(position), |&position| self.parent(position)).map(|position| &self.claims[position])
    }

    fn is_human(&self, id: u32) -> bool {
        self.actor(id).is_some_and(|actor| actor.kind == HUMAN)
    }

    fn actor_holds(&self, actor: &Actor) -> bool {
        match actor.kind {
            HUMAN => actor.owner == 0,
            MACHINE => actor.owner == 0 || self.is_human(actor.owner),
            _ => false,
        }
    }

    fn resource_holds(&self, resource: &Resource) -> bool {
        resource.is_public <= 1
            && self.is_human(resource.keeper)
            && resource.path().is_some_and(|path| path.iter().all(|byte| (0x21..=0x7E).contains(byte)))
    }

    /// Whether the claim at a position holds, the claims before it being placed; then it is placed too.
    fn place(&mut self, position: usize) -> bool {
        let claim = &self.claims[position];
        let (Some(grantor), Some(_), Some(resource)) =
            (self.actor(claim.grantor), self.actor(claim.holder), self.resource(claim.resource))
        else {
            return false;
        };
        if !claim.in_range(self.version) || !may_grant(grantor, claim) {
            return false;
        }
        if claim.parent == 0 {
            return claim.grantor == resource.keeper;
        }
        let Some(above) = self.claim_position(claim.parent).filter(|&above| above < position) else {
            return false;
        };
        let parent = &self.claims[above];
        self.parents[position] = above as u8;
        self.hops[position] = self.hops[above] + 1;
        parent.holder == claim.grantor
            && parent.resource == claim.resource
            && parent.has_right(DELEGATE)
            && claim.rights & !parent.rights == 0
            && claim.weight <= parent.weight
            && self.passes_on(above, claim.left)
            && !self.circles(claim.holder, above)
    }

    /// Whether a claim held by `holder` under the one at `above` would close a circle.
    pub fn circles(&self, holder: u32, above: usize) -> bool {
        self.chain(above).any(|claim| claim.holder == holder || claim.parent == 0 && claim.grantor == holder)
    }
}

/// A machine grants only where it has an owner, and never the rights kept from machines.
fn may_grant(grantor: &Actor, claim: &Claim) -> bool {
    grantor.kind != MACHINE || grantor.owner != 0 && claim.rights & NOT_BY_MACHINE == 0
}
