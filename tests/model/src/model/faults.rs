//! The first fault of a register, and of a text: record by record from the front, nothing looked up before.

use super::{Fault, Model, Refusal};
use crate::types::*;

/// What is told of a record: the first of its tests that fails.
type Told = Result<(), Refusal>;

fn ask(holds: bool, refusal: Refusal) -> Told {
    if holds {
        Ok(())
    } else {
        Err(refusal)
    }
}

fn id_fits(number: u32) -> bool {
    number != 0 && number <= ID_MAX
}

impl Model {
    pub fn why_unsound(&self, register: &Register) -> FirstFault {
        let version = register.version;
        if version != VERSION_1 && version != VERSION_2 {
            return FirstFault::of(Refusal::Range, 0, 0, 0);
        }
        let counts =
            [(register.actors.count, ACTORS), (register.resources.count, RESOURCES), (register.claims.count, CLAIMS)];
        for (list, (count, most)) in (1..).zip(counts) {
            if count > most {
                return FirstFault::of(Refusal::Range, list, most, 0);
            }
        }
        let actors = &register.actors.list[..register.actors.count];
        let resources = &register.resources.list[..register.resources.count];
        let claims = &register.claims.list[..register.claims.count];
        for (place, actor) in actors.iter().enumerate() {
            if let Err(why) = actor_told(actors, place) {
                return FirstFault::of(why, 1, place, actor.id);
            }
        }
        for (place, resource) in resources.iter().enumerate() {
            if let Err(why) = resource_told(actors, &resources[..place], resource) {
                return FirstFault::of(why, 2, place, resource.id);
            }
        }
        for (place, claim) in claims.iter().enumerate() {
            if let Err(why) = claim_told(version, actors, resources, &claims[..place], claim) {
                let behind = usize::from(self.has(Fault::FaultBehind));
                return FirstFault::of(why, 3, place + behind, claim.id);
            }
        }
        FirstFault::NONE
    }

    /// Of a text: its failing line, or else the fault of the register that its lines say.
    pub fn why_unread(&self, text: &[u8]) -> FirstFault {
        let mut register = Register::EMPTY;
        match self.read_lines(text, &mut register) {
            Err(unread) => FirstFault { line: unread.line, ..FirstFault::of(unread.refusal, 0, 0, 0) },
            Ok(()) => self.why_unsound(&register),
        }
    }
}

fn is_human(actors: &[Actor], id: u32) -> bool {
    actors.iter().any(|actor| actor.id == id && actor.kind == HUMAN)
}

fn actor_told(actors: &[Actor], place: usize) -> Told {
    let Actor { id, kind, owner } = actors[place];
    ask(id_fits(id) && (kind == HUMAN || kind == MACHINE) && owner <= ID_MAX, Refusal::Range)?;
    ask(owner == 0 || kind == MACHINE && is_human(actors, owner), Refusal::BadOwner)?;
    ask(actors[..place].iter().all(|earlier| earlier.id != id), Refusal::Doubled)
}

fn resource_told(actors: &[Actor], earlier: &[Resource], resource: &Resource) -> Told {
    let path = resource.path.get(..resource.len as usize);
    let spelled = path.is_some_and(|path| path.iter().all(|byte| *byte > b' ' && *byte < 0x7F));
    ask(id_fits(resource.id) && resource.is_public < 2 && id_fits(resource.keeper) && spelled, Refusal::Range)?;
    ask(is_human(actors, resource.keeper), Refusal::BadKeeper)?;
    ask(earlier.iter().all(|other| other.id != resource.id), Refusal::Doubled)
}

fn claim_told(version: u64, actors: &[Actor], resources: &[Resource], earlier: &[Claim], claim: &Claim) -> Told {
    ask(claim.in_range(version), Refusal::Range)?;
    let grantor = actors.iter().find(|actor| actor.id == claim.grantor).ok_or(Refusal::Absent)?;
    let resource = resources.iter().find(|resource| resource.id == claim.resource).ok_or(Refusal::Absent)?;
    ask(actors.iter().any(|actor| actor.id == claim.holder), Refusal::Absent)?;
    ask(earlier.iter().all(|other| other.id != claim.id), Refusal::Stands)?;
    ask(claim.parent != 0 || resource.keeper == claim.grantor, Refusal::NotKeeper)?;
    ask(grantor.kind != MACHINE || grantor.owner != 0, Refusal::Ownerless)?;
    ask(grantor.kind != MACHINE || claim.rights & NOT_BY_MACHINE == 0, Refusal::NotByMachine)?;
    if claim.parent == 0 {
        return Ok(());
    }
    let chain = chain_from(earlier, claim.parent);
    let parent = chain.first().ok_or(Refusal::NoParent)?;
    ask(parent.holder == claim.grantor && parent.resource == claim.resource, Refusal::NotHeld)?;
    ask(parent.rights >> DELEGATE & 1 == 1, Refusal::NoDelegate)?;
    ask(claim.rights | parent.rights == parent.rights, Refusal::RightLacking)?;
    ask(claim.weight <= parent.weight, Refusal::Weight)?;
    let passes = if version == VERSION_2 { claim.left < parent.left } else { chain.len() <= HOPS };
    ask(passes, Refusal::Hops)?;
    let root = chain[chain.len() - 1];
    ask(root.grantor != claim.holder && chain.iter().all(|above| above.holder != claim.holder), Refusal::Circle)
}

/// The claim of an id and those above it, among earlier ones that are sound.
fn chain_from(earlier: &[Claim], id: u32) -> Vec<&Claim> {
    let mut chain = Vec::new();
    let mut next = id;
    while let Some(claim) = earlier.iter().find(|claim| next != 0 && claim.id == next) {
        chain.push(claim);
        next = claim.parent;
    }
    chain
}
