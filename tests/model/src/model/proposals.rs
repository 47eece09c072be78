//! Whose signature is missing: the planner of one grant, and the check of a proposal.

use super::{Fault, Model, Refusal, Sound};
use crate::types::*;

/// The kinds of a proposal. 0, beside a refusal, is neither.
pub const PROPOSES_NONE: u64 = 1;
pub const PROPOSES_GRANT: u64 = 2;

/// What the check answers.
pub const CHECK_PASSES: u32 = 1;
pub const CHECK_FAILS: u32 = 2;
pub const CHECK_STOPPED: u32 = 3;

/// The one use of an actor at a moment, and who is willing to sign for it.
#[derive(Clone, Copy, Debug, PartialEq, Eq)]
pub struct Question {
    pub actor: u32,
    pub usage: Usage,
    pub moment: u64,
    pub signers: Signers,
}

impl Question {
    /// The signers that count, where all of it is in range.
    fn asked(&self) -> Option<&[u32]> {
        let fits = self.usage.resource <= ID_MAX && self.usage.right <= RIGHT_MAX && self.moment <= MOMENT_MAX;
        self.signers.list.get(..self.signers.count).filter(|_| fits)
    }

    /// The action of that use alone: no flag, and nothing governed.
    pub fn action(&self) -> Action {
        let mut action = Action { actor: self.actor, now: self.moment, used: 1, ..Action::ZERO };
        action.uses[0] = self.usage;
        action
    }

    /// The grant to that actor of that single right on that resource.
    fn grant(&self, id: u32, parent: u32, grantor: u32, weight: u32) -> Claim {
        let (holder, resource, rights) = (self.actor, self.usage.resource, 1 << self.usage.right);
        Claim { id, parent, grantor, holder, resource, rights, weight, left: 0, expiry: 0 }
    }

    fn is_of_form(&self, claim: &Claim, signers: &[u32]) -> bool {
        claim.holder == self.actor
            && claim.resource == self.usage.resource
            && claim.rights == 1 << self.usage.right
            && signers.contains(&claim.grantor)
    }
}

impl Model {
    /// The tests of both calls: 1; 2 for the signers, the use and the moment; 3 for the actor.
    fn ask<'q>(&self, register: &Register, question: &'q Question) -> Result<&'q [u32], Refusal> {
        let sound = Sound::of(register).ok_or(Refusal::Unsound)?;
        let signers = question.asked().ok_or(Refusal::Range)?;
        sound.actor(question.actor).ok_or(Refusal::Absent)?;
        Ok(signers)
    }

    fn permits(&self, register: &Register, question: &Question) -> bool {
        self.gate(register, &question.action()).decision == PERMITTED
    }

    /// Whether the grant would be accepted at the moment, and the one use then be permitted.
    fn helps(&self, register: &Register, question: &Question, claim: &Claim) -> bool {
        let mut after = register.clone();
        self.grant(&mut after, claim, question.moment).is_ok() && self.permits(&after, question)
    }

    fn passes(&self, register: &Register, question: &Question, signers: &[u32], proposal: &Proposal) -> bool {
        match proposal.kind {
            PROPOSES_NONE => self.permits(register, question),
            PROPOSES_GRANT => {
                question.is_of_form(&proposal.claim, signers) && self.helps(register, question, &proposal.claim)
            }
            _ => false,
        }
    }

    pub fn check_proposal(&self, register: &Register, question: &Question, proposal: &Proposal) -> Checked {
        match self.ask(register, question) {
            Err(refusal) => Checked { answer: CHECK_STOPPED, refusal: refusal as u32 },
            Ok(signers) if self.passes(register, question, signers, proposal) => {
                Checked { answer: CHECK_PASSES, refusal: 0 }
            }
            Ok(_) => Checked { answer: CHECK_FAILS, refusal: 0 },
        }
    }

    pub fn propose(&self, register: &Register, question: &Question) -> Proposed {
        match self.proposal(register, question) {
            Ok(proposal) => Proposed { proposal, accepted: 1, refusal: 0 },
            Err(refusal) => Proposed { proposal: Proposal::ZERO, accepted: 0, refusal: refusal as u32 },
        }
    }

    fn proposal(&self, register: &Register, question: &Question) -> Result<Proposal, Refusal> {
        let signers = self.ask(register, question)?;
        if self.permits(register, question) {
            return Ok(Proposal { kind: PROPOSES_NONE, claim: Claim::ZERO });
        }
        let candidates = signers.iter().flat_map(|&signer| self.candidates(register, question, signer));
        let found = candidates.into_iter().find(|claim| self.serves(register, question, claim));
        found.map(|claim| Proposal { kind: PROPOSES_GRANT, claim }).ok_or(Refusal::NoProposal)
    }

    /// Whether a candidate is proposed: where it helps.
    fn serves(&self, register: &Register, question: &Question, claim: &Claim) -> bool {
        self.helps(register, question, claim)
            || self.has(Fault::OwnerNotAsked) && self.helps_but_for_the_owner(register, question, claim)
            || self.has(Fault::LeftZeroParent) && self.helps_below_nothing_left(register, question, claim)
    }

    /// What the planner would answer that did not ask whether the owner covers the use.
    fn helps_but_for_the_owner(&self, register: &Register, question: &Question, claim: &Claim) -> bool {
        let mut after = register.clone();
        let accepted = self.grant(&mut after, claim, question.moment).is_ok();
        let verdict = self.gate(&after, &question.action());
        accepted && verdict.violations[..verdict.count].iter().all(|violation| violation.kind == 5)
    }

    /// What the planner would answer that drew from a claim with nothing left.
    fn helps_below_nothing_left(&self, register: &Register, question: &Question, claim: &Claim) -> bool {
        let mut other = register.clone();
        let count = other.claims.count;
        // The claims above it say one more each, where they must.
        let (mut id, mut least) = (claim.parent, 1);
        while let Some(above) = other.claims.list[..count].iter_mut().find(|above| above.id == id) {
            above.left = above.left.max(least);
            (id, least) = (above.parent, above.left + 1);
        }
        self.helps(&other, question, claim)
    }

    /// What a signer would sign: a root, then a claim below each of those on the resource that are his, as no other parent would be taken.
    fn candidates(&self, register: &Register, question: &Question, signer: u32) -> Vec<Claim> {
        let claims = &register.claims.list[..register.claims.count];
        let id = (1..).find(|id| claims.iter().all(|claim| claim.id != *id)).unwrap_or(0);
        let his = claims.iter().filter(|parent| parent.holder == signer && parent.resource == question.usage.resource);
        let root = question.grant(id, 0, signer, WEIGHT_MAX);
        std::iter::once(root).chain(his.map(|parent| question.grant(id, parent.id, signer, parent.weight))).collect()
    }
}
