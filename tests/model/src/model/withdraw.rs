//! Withdrawing claims: revoking one, clearing a resource, clearing old claims.

use super::{Fault, Model, Refusal, Sound};
use crate::types::*;

impl Model {
    /// Revokes the claim with this id: it and every claim with it on its chain go. Answers how many went. Refused, the register is
    /// unchanged.
    pub fn revoke(&self, register: &mut Register, revoker: u32, claim: u32) -> Result<usize, Refusal> {
        let goes = self.revocable(register, revoker, claim)?;
        Ok(withdraw(&mut register.claims, &goes))
    }

    /// Removes every claim on the resource on behalf of its keeper. Answers how many went. Refused, the register is unchanged.
    pub fn clear_resource(&self, register: &mut Register, caller: u32, resource: u32) -> Result<usize, Refusal> {
        let goes = self.on_resource(register, caller, resource)?;
        Ok(withdraw(&mut register.claims, &goes))
    }

    /// Removes every claim whose expiry is not 0 and not above the moment, with everything drawn from these, on behalf of a human.
    /// Answers how many went. Refused, the register is unchanged.
    pub fn clear_expired(&self, register: &mut Register, caller: u32, now: u64) -> Result<usize, Refusal> {
        let goes = self.run_out(register, caller, now)?;
        Ok(withdraw(&mut register.claims, &goes))
    }

    /// By position: which claims would go. Else the first test that the revocation fails.
    fn revocable(&self, register: &Register, revoker: u32, claim: u32) -> Result<[bool; CLAIMS], Refusal> {
        let sound = Sound::of(register).ok_or(Refusal::Unsound)?;
        sound.actor(revoker).ok_or(Refusal::Absent)?;
        let revoked = sound.claim_position(claim).ok_or(Refusal::NoClaim)?;
        if sound.chain(revoked).all(|above| above.grantor != revoker) {
            return Err(Refusal::NoGrantor);
        }
        let mut goes = [false; CLAIMS];
        goes[revoked] = true;
        // A parent stands earlier in the list, so one pass meets each claim after all that is above it.
        for position in revoked + 1..sound.claims.len() {
            goes[position] = sound.parent(position).is_some_and(|above| match self.fault {
                Some(Fault::DirectChildren) => above == revoked,
                Some(Fault::OnlyNamed) => false,
                _ => goes[above],
            });
        }
        Ok(goes)
    }

    /// The same of a clearing of a resource.
    fn on_resource(&self, register: &Register, caller: u32, resource: u32) -> Result<[bool; CLAIMS], Refusal> {
        let sound = Sound::of(register).ok_or(Refusal::Unsound)?;
        sound.actor(caller).ok_or(Refusal::Absent)?;
        if sound.resource(resource).ok_or(Refusal::Absent)?.keeper != caller {
            return Err(Refusal::NoGrantor);
        }
        let mut goes = [false; CLAIMS];
        for (goes, claim) in goes.iter_mut().zip(sound.claims) {
            *goes = claim.resource == resource;
        }
        Ok(goes)
    }

    /// The same of a clearing of old claims.
    fn run_out(&self, register: &Register, caller: u32, now: u64) -> Result<[bool; CLAIMS], Refusal> {
        let sound = Sound::of(register).ok_or(Refusal::Unsound)?;
        if now > MOMENT_MAX {
            return Err(Refusal::Range);
        }
        if sound.actor(caller).ok_or(Refusal::Absent)?.kind != HUMAN {
            return Err(Refusal::NoGrantor);
        }
        let mut goes = [false; CLAIMS];
        for (position, claim) in sound.claims.iter().enumerate() {
            let old =
                claim.expiry != 0 && claim.expiry <= now && !(claim.expiry == now && self.has(Fault::ExpiryEqualKept));
            let drawn = sound.parent(position).is_some_and(|above| goes[above]) && !self.has(Fault::DrawnKept);
            goes[position] = old || drawn || claim.weight == 0 && self.has(Fault::WeightlessCleared);
        }
        Ok(goes)
    }
}

/// Takes the claims that go: the rest keep their order, and the freed places hold the zero claim. Answers how many went.
fn withdraw(claims: &mut Claims, goes: &[bool; CLAIMS]) -> usize {
    let Claims { list, count } = claims;
    let mut kept = 0;
    for position in 0..*count {
        if !goes[position] {
            list[kept] = list[position];
            kept += 1;
        }
    }
    list[kept..].fill(Claim::ZERO);
    std::mem::replace(count, kept) - kept
}
