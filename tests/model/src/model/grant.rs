//! Granting a claim.

use super::{Fault, Model, Refusal, Sound};
use crate::types::*;

impl Model {
    /// Grants the claim: it goes to the end of the list, with what it has left. Refused, the register is unchanged.
    pub fn grant(&self, register: &mut Register, claim: &Claim, now: u64) -> Result<(), Refusal> {
        let left = self.grantable(register, claim, now)?;
        register.claims.push(Claim { left, ..*claim });
        if self.has(Fault::VersionLost) {
            register.version = VERSION_1;
        }
        Ok(())
    }

    /// How many more hands the claim may pass through once it is granted. Else the first test that the grant fails.
    pub fn grantable(&self, register: &Register, claim: &Claim, now: u64) -> Result<u32, Refusal> {
        let sound = Sound::of(register).ok_or(Refusal::Unsound)?;
        demand(claim.in_range(sound.version) && now <= MOMENT_MAX, Refusal::Range)?;
        let grantor = sound.actor(claim.grantor).ok_or(Refusal::Absent)?;
        sound.actor(claim.holder).ok_or(Refusal::Absent)?;
        let resource = sound.resource(claim.resource).ok_or(Refusal::Absent)?;
        demand(sound.claim_position(claim.id).is_none(), Refusal::Stands)?;
        demand(sound.claims.len() < CLAIMS, Refusal::Full)?;
        let is_root = claim.parent == 0;
        demand(!is_root || claim.grantor == resource.keeper, Refusal::NotKeeper)?;
        if grantor.kind == MACHINE {
            demand(grantor.owner != 0, Refusal::Ownerless)?;
            demand(claim.rights & NOT_BY_MACHINE == 0, Refusal::NotByMachine)?;
        }
        if is_root {
            return Ok(if sound.version == VERSION_1 { LEFT_MAX } else { claim.left });
        }
        let above = sound.claim_position(claim.parent).ok_or(Refusal::NoParent)?;
        let parent = &sound.claims[above];
        demand(parent.holder == claim.grantor && parent.resource == claim.resource, Refusal::NotHeld)?;
        demand(self.live(&sound, above, now), Refusal::NotLive)?;
        demand(parent.has_right(DELEGATE), Refusal::NoDelegate)?;
        demand(claim.rights & !parent.rights == 0, Refusal::RightLacking)?;
        demand(claim.weight <= parent.weight, Refusal::Weight)?;
        let equal = self.has(Fault::EqualLeft) && sound.version == VERSION_2 && claim.left == parent.left;
        demand(sound.passes_on(above, claim.left) || equal, Refusal::Hops)?;
        demand(!sound.circles(claim.holder, above), Refusal::Circle)?;
        Ok(if sound.version == VERSION_1 { sound.left(above) - 1 } else { claim.left })
    }
}

fn demand(holds: bool, refusal: Refusal) -> Result<(), Refusal> {
    if holds {
        Ok(())
    } else {
        Err(refusal)
    }
}
