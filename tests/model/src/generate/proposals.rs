//! Questions whose signature is missing, what the planner answers to them, and proposals that are near to passing.

use super::actions::moment;
use super::random::Random;
use super::registers::{some_left, standing};
use crate::case::{Call, Script};
use guvrendik_model::model::proposals::{Question, PROPOSES_GRANT, PROPOSES_NONE};
use guvrendik_model::model::Model;
use guvrendik_model::types::*;

/// How many proposals are checked for each question.
const CHECKED: usize = 3;

/// So many questions about a register, each with what the planner says and some proposals.
pub fn questions(random: &mut Random, register: Box<Register>, count: usize) -> Script {
    let mut calls = Vec::new();
    for _ in 0..count {
        let question = Box::new(question(random, &register));
        calls.push(Call::Propose(question.clone()));
        let proposed = Model::default().propose(&register, &question).proposal;
        for _ in 0..CHECKED {
            let proposal = proposal(random, &register, &question, proposed);
            calls.push(Call::CheckProposal { question: question.clone(), proposal });
        }
    }
    Script { register: Some(register), calls }
}

/// One of a list's, or this where it is empty.
fn one_of<T: Copy>(random: &mut Random, list: &[T], other: T) -> T {
    if list.is_empty() {
        other
    } else {
        *random.pick(list)
    }
}

/// A question, mostly of an actor about a resource that a claim with DELEGATE is on, for a right that it has.
fn question(random: &mut Random, register: &Register) -> Question {
    let (actors, resources) = (standing(&register.actors), standing(&register.resources));
    let actor = one_of(random, actors, Actor { id: 1, ..Actor::ZERO });
    let resource = one_of(random, resources, Resource { id: 1, ..Resource::ZERO });
    let drawn: Vec<&Claim> = standing(&register.claims).iter().filter(|claim| claim.has_right(DELEGATE)).collect();
    let mut question = Question {
        actor: actor.id,
        usage: Usage { resource: resource.id, right: random.below(17) as u32 },
        moment: moment(random, register),
        signers: Signers { list: [0; SIGNERS], count: 0 },
    };
    if !drawn.is_empty() && random.chance(70) {
        let claim = random.pick(&drawn);
        let rights: Vec<u32> = (0..=RIGHT_MAX).filter(|right| claim.has_right(*right)).collect();
        question.usage = Usage { resource: claim.resource, right: *random.pick(&rights) };
    }
    question.signers = signers(random, register, &question);
    let spent: Vec<&Claim> =
        drawn.iter().filter(|claim| register.version == VERSION_2 && claim.left == 0).copied().collect();
    if !spent.is_empty() && random.chance(30) {
        // Who holds a claim that may not be passed on is asked alone, mostly before any claim runs out.
        let claim = random.pick(&spent);
        let rights: Vec<u32> = (0..=RIGHT_MAX).filter(|right| claim.has_right(*right)).collect();
        question.usage = Usage { resource: claim.resource, right: *random.pick(&rights) };
        question.moment = if random.chance(80) { 0 } else { question.moment };
        (question.signers.list[0], question.signers.count) = (claim.holder, 1);
    }
    match random.below(50) {
        0 => question.actor = *random.pick(&[0, ID_MAX, ID_MAX + 1, u32::MAX]),
        1 => question.usage.resource = *random.pick(&[0, ID_MAX, ID_MAX + 1, u32::MAX]),
        2 => question.usage.right = *random.pick(&[RIGHT_MAX + 1, 32, u32::MAX]),
        3 => question.moment = *random.pick(&[MOMENT_MAX + 1, u64::MAX]),
        4 => question.signers.count = *random.pick(&[SIGNERS + 1, 256, usize::MAX]),
        _ => (),
    }
    question
}

/// Up to eight signers: who holds something on the resource, its keeper, others, and numbers of nobody. Some stand past the count.
fn signers(random: &mut Random, register: &Register, question: &Question) -> Signers {
    let resource = question.usage.resource;
    let holders: Vec<u32> = standing(&register.claims)
        .iter()
        .filter(|claim| claim.resource == resource)
        .map(|claim| claim.holder)
        .collect();
    let keepers: Vec<u32> =
        standing(&register.resources).iter().filter(|one| one.id == resource).map(|one| one.keeper).collect();
    let actors: Vec<u32> = standing(&register.actors).iter().map(|actor| actor.id).collect();
    let keeper_asked = random.chance(50);
    let list = std::array::from_fn(|_| match random.below(10) {
        0 => *random.pick(&[0, question.actor, ID_MAX + 1, u32::MAX]),
        1..=2 => one_of(random, &actors, 1),
        3 if keeper_asked => one_of(random, &keepers, 2),
        _ => one_of(random, &holders, 3),
    });
    let count = match random.below(6) {
        0 => 0,
        1 => SIGNERS,
        _ => random.between(1, SIGNERS),
    };
    Signers { list, count }
}

/// A proposal near to passing: what the planner says or a grant of the form, often with one thing otherwise.
fn proposal(random: &mut Random, register: &Register, question: &Question, proposed: Proposal) -> Proposal {
    let mut proposal = proposed;
    if proposed.kind != PROPOSES_GRANT || random.chance(30) {
        proposal.kind = if random.chance(15) { PROPOSES_NONE } else { PROPOSES_GRANT };
        proposal.claim = grant(random, register, question);
    }
    let claims = standing(&register.claims);
    let some = one_of(random, claims, Claim { id: 1, ..Claim::ZERO });
    let claim = &mut proposal.claim;
    let parent_weight =
        claims.iter().find(|parent| parent.id == claim.parent).map_or(WEIGHT_MAX, |parent| parent.weight);
    match random.below(20) {
        0 => proposal.kind = *random.pick(&[0, PROPOSES_NONE, 3, 257, (1 << 32) + 1, (1 << 32) + 2, u64::MAX]),
        1 => claim.id = *random.pick(&[0, some.id, ID_MAX, ID_MAX + 1]),
        2 => claim.parent = *random.pick(&[0, some.id, ID_MAX, u32::MAX]),
        3 => claim.grantor = *random.pick(&[0, some.grantor, question.signers.list[SIGNERS - 1]]),
        4 => claim.holder = *random.pick(&[0, some.holder, u32::MAX]),
        5 => claim.resource = some.resource,
        6 => claim.rights ^= 1 << random.below(18),
        7..=9 => claim.weight = *random.pick(&[0, 1, parent_weight, parent_weight + 1]),
        10..=11 => claim.expiry = *random.pick(&[0, question.moment, question.moment.saturating_add(1), u64::MAX]),
        12..=14 => claim.left = some_left(random),
        _ => (),
    }
    proposal
}

/// A grant of the form, by a signer, of his own or another's claim on the resource or a root.
fn grant(random: &mut Random, register: &Register, question: &Question) -> Claim {
    let claims = standing(&register.claims);
    let signers = &question.signers.list[..question.signers.count.min(SIGNERS)];
    let grantor = one_of(random, signers, question.actor);
    let near: Vec<&Claim> = claims.iter().filter(|claim| claim.resource == question.usage.resource).collect();
    let his: Vec<&Claim> = near.iter().filter(|claim| claim.holder == grantor).copied().collect();
    let root = Claim { weight: WEIGHT_MAX, ..Claim::ZERO };
    let parent = match random.below(10) {
        0..=6 => one_of(random, &his, &root),
        7 => one_of(random, &near, &root),
        _ => &root,
    };
    Claim {
        id: (1..).find(|id| claims.iter().all(|claim| claim.id != *id)).unwrap_or(1),
        parent: parent.id,
        grantor,
        holder: question.actor,
        resource: question.usage.resource,
        rights: 1u32.checked_shl(question.usage.right).unwrap_or(1),
        weight: parent.weight,
        ..Claim::ZERO
    }
}
