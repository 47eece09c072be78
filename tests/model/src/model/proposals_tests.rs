use super::proposals::*;
use super::{Model, Refusal};
use crate::types::*;

/// A small source of numbers, the same in every run.
struct Numbers(u64);

impl Numbers {
    fn below(&mut self, bound: u64) -> u32 {
        self.0 = self.0.wrapping_mul(6_364_136_223_846_793_005).wrapping_add(1_442_695_040_888_963_407);
        ((self.0 >> 33) % bound) as u32
    }

    fn pick<T: Copy>(&mut self, list: &[T]) -> T {
        list[self.below(list.len() as u64) as usize]
    }
}

const NOW: u64 = 100;

/// Three humans and three machines, a resource kept by actor 1 and one within it, and claims as they are granted at random.
fn small_register(numbers: &mut Numbers, version: u64) -> Register {
    let mut register = Register { version, ..Register::EMPTY };
    for (id, kind, owner) in
        [(1, HUMAN, 0), (2, HUMAN, 0), (3, HUMAN, 0), (4, MACHINE, 1), (5, MACHINE, 2), (6, MACHINE, 0)]
    {
        register.actors.push(Actor { id, kind, owner });
    }
    let climbs = numbers.below(12) == 0;
    for (id, path) in [(10, &b"a"[..]), (11, if climbs { &b"a/.."[..] } else { b"a/b" })] {
        let is_public = u32::from(numbers.below(12) == 0);
        let mut resource = Resource { id, is_public, keeper: 1, len: path.len() as u32, path: [0; PATH] };
        resource.path[..path.len()].copy_from_slice(path);
        register.resources.push(resource);
    }
    for id in 1..=10u32 {
        let parent = numbers.below(id.into());
        let above = register.claims.list[..register.claims.count].iter().find(|claim| claim.id == parent).copied();
        let root = Claim { holder: 1, resource: 10 + numbers.below(2), weight: 5, left: 4, ..Claim::ZERO };
        let above = above.unwrap_or(root);
        let claim = Claim {
            id,
            parent: above.id,
            grantor: above.holder,
            holder: 1 + numbers.below(6),
            resource: above.resource,
            rights: 1 << READ | 1 << WRITE | u32::from(numbers.below(6) != 0) << DELEGATE | numbers.below(2) << 13,
            weight: numbers.below(u64::from(above.weight) + 1).max(numbers.below(2)),
            left: numbers.below(u64::from(above.left) + 1),
            expiry: numbers.pick(&[0, 0, 0, NOW, NOW + 1]),
        };
        // At an earlier moment, so that some do not live any more.
        let _ = Model::default().grant(&mut register, &claim, 0);
    }
    register
}

/// Every proposal of a grant of the form: parents that stand or not, each weight, expiry and left that matters, ids free and used.
fn all_grants(register: &Register, question: &Question) -> Vec<Claim> {
    let claims = &register.claims.list[..register.claims.count];
    let signers = &question.signers.list[..question.signers.count];
    let parents = [(0, WEIGHT_MAX), (77, 5)].into_iter().chain(claims.iter().map(|claim| (claim.id, claim.weight)));
    let mut all = Vec::new();
    for (parent, most) in parents {
        for &grantor in signers {
            for weight in [0, 1, most, most + 1] {
                for expiry in [0, NOW, NOW + 1] {
                    for left in [0, 1, LEFT_MAX, LEFT_MAX + 1] {
                        for id in [0, 1, 11, ID_MAX] {
                            let (holder, resource) = (question.actor, question.usage.resource);
                            let rights = 1 << question.usage.right;
                            all.push(Claim { id, parent, grantor, holder, resource, rights, weight, left, expiry });
                        }
                    }
                }
            }
        }
    }
    all
}

#[test]
fn what_is_proposed_passes_and_26_is_said_where_nothing_does() {
    let (mut numbers, model) = (Numbers(26), Model::default());
    let mut met = [0; 3];
    for round in 0..240 {
        let register = small_register(&mut numbers, [VERSION_1, VERSION_2][round % 2]);
        for _ in 0..3 {
            let mut signers = Signers { list: [0; SIGNERS], count: numbers.below(4) as usize };
            signers.list = signers.list.map(|_| numbers.below(8));
            let usage =
                Usage { resource: numbers.pick(&[10, 10, 11, 11, 12]), right: numbers.pick(&[READ, WRITE, WRITE, 13]) };
            let question = Question { actor: 1 + numbers.below(6), usage, moment: NOW, signers };
            let proposed = model.propose(&register, &question);
            let check = |proposal| model.check_proposal(&register, &question, &proposal).answer == CHECK_PASSES;
            let none_passes = check(Proposal { kind: PROPOSES_NONE, claim: Claim::ZERO });
            assert_eq!(none_passes, proposed.proposal.kind == PROPOSES_NONE);
            met[proposed.proposal.kind as usize] += 1;
            if proposed.accepted == 1 {
                assert!(check(proposed.proposal), "{question:?}");
                continue;
            }
            assert_eq!((proposed.refusal, proposed.proposal), (Refusal::NoProposal as u32, Proposal::ZERO));
            for claim in all_grants(&register, &question) {
                assert!(!check(Proposal { kind: PROPOSES_GRANT, claim }), "{question:?} {claim:?}");
            }
        }
    }
    assert!(met.iter().all(|count| *count > 20), "{met:?}");
}

#[test]
fn the_tests_come_in_their_order() {
    let model = Model::default();
    let register = small_register(&mut Numbers(1), VERSION_1);
    let signers = Signers { list: [1; SIGNERS], count: SIGNERS };
    let good = Question { actor: 4, usage: Usage { resource: 10, right: WRITE }, moment: NOW, signers };
    let refusals = [
        (Question { signers: Signers { count: SIGNERS + 1, ..signers }, actor: 9, ..good }, 2),
        (Question { usage: Usage { resource: ID_MAX + 1, right: 0 }, ..good }, 2),
        (Question { usage: Usage { resource: 10, right: RIGHT_MAX + 1 }, ..good }, 2),
        (Question { moment: MOMENT_MAX + 1, ..good }, 2),
        (Question { actor: ID_MAX + 1, ..good }, 3),
        (Question { actor: 0, ..good }, 3),
        (Question { usage: Usage { resource: 12, right: READ }, ..good }, 26),
        (Question { actor: 6, ..good }, 26),
    ];
    for (question, refusal) in refusals {
        assert_eq!(model.propose(&register, &question).refusal, refusal, "{question:?}");
        let checked = model.check_proposal(&register, &question, &Proposal::ZERO);
        let stopped = if refusal == 26 { (CHECK_FAILS, 0) } else { (CHECK_STOPPED, refusal) };
        assert_eq!((checked.answer, checked.refusal), stopped, "{question:?}");
    }
    let unsound = Register { version: 3, ..register };
    let beyond = Question { moment: MOMENT_MAX + 1, ..good };
    assert_eq!(model.propose(&unsound, &beyond).refusal, 1);
    assert_eq!(model.check_proposal(&unsound, &beyond, &Proposal::ZERO).refusal, 1);
}
