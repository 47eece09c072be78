//! Two withdrawals on one register, in both orders: what the theorems of the crate `history` on their order say of the answers.

use crate::case::{Call, Outcome, Script, YES};
use guvrendik_model::model::Refusal;
use guvrendik_model::types::*;

const NO_CLAIM: Outcome = Refusal::NoClaim as Outcome;
const NO_GRANTOR: Outcome = Refusal::NoGrantor as Outcome;

/// What a run must meet: the outcome of a call when it comes first, and when it comes second.
pub const DEMANDED: [(Outcome, Outcome); 2] = [(YES, NO_CLAIM), (NO_GRANTOR, NO_CLAIM)];

pub struct Pair {
    pub register: Box<Register>,
    /// Each keeps what it leaves, so that the second is made on that.
    pub calls: [Call; 2],
    /// Whether both are revocations, and one of the two claims stands on the other's chain, itself included.
    pub on_one_chain: bool,
}

impl Pair {
    /// Whether each of the calls is a revocation.
    pub fn revokes(&self) -> [bool; 2] {
        [0, 1].map(|at| matches!(self.calls[at], Call::Revoke { .. }))
    }

    /// The calls in the order given, and in the other.
    pub fn scripts(&self) -> [Script; 2] {
        let [one, two] = &self.calls;
        [[one, two], [two, one]]
            .map(|calls| Script { register: Some(self.register.clone()), calls: calls.map(Call::clone).to_vec() })
    }
}

/// The answers to a pair: to the calls in the order given, and to the calls in the other; and whether each call is a revocation.
pub struct Answers<'a>(pub [[&'a Revoked; 2]; 2], pub [bool; 2]);

impl Answers<'_> {
    /// By call: its outcome when it comes first, and when it comes second.
    pub fn told(&self) -> [(Outcome, Outcome); 2] {
        let [[one_first, two_second], [two_first, one_second]] = &self.0;
        [(outcome(one_first), outcome(one_second)), (outcome(two_first), outcome(two_second))]
    }

    /// The first of the theorems that the answers break, in words.
    pub fn broken(&self) -> Option<&'static str> {
        let [[one_first, two_second], [two_first, one_second]] = &self.0;
        if one_second.state != two_second.state {
            return Some("the other order leaves another register");
        }
        if one_first.removed + two_second.removed != two_first.removed + one_second.removed {
            return Some("the numbers removed come to another sum in the other order");
        }
        let [one, two] = self.told();
        for ((first, second), other, revokes) in [(one, two.0, self.1[0]), (two, one.0, self.1[1])] {
            if second == first {
                continue;
            }
            if second != NO_CLAIM || !revokes {
                return Some("a call that comes second is told neither the same nor, as a revocation, 17");
            }
            if other != YES || first != YES && first != NO_GRANTOR {
                return Some("a call is told 17 that the other one took nothing from");
            }
        }
        None
    }
}

fn outcome(answer: &Revoked) -> Outcome {
    if answer.accepted == 1 {
        YES
    } else {
        answer.refusal
    }
}

#[cfg(test)]
mod tests {
    use super::*;
    use guvrendik_model::model::{Fault, Model};
    use guvrendik_model::wire::Wire;
    use std::mem::size_of;

    /// Human 1 keeps the resource; claim 1 from human 1 to 2, claim 2 drawn from it for 3, claim 3 drawn from that for 4.
    fn line() -> Box<Register> {
        let mut register = Box::new(Register::EMPTY);
        (1..=4).for_each(|id| register.actors.push(Actor { id, kind: HUMAN, owner: 0 }));
        register.resources.push(Resource { id: 1, keeper: 1, ..Resource::ZERO });
        for id in 1..=3 {
            let (rights, weight) = (1 << DELEGATE, 1);
            let (grantor, holder) = (id, id + 1);
            register.claims.push(Claim {
                id,
                parent: id - 1,
                grantor,
                holder,
                resource: 1,
                rights,
                weight,
                ..Claim::ZERO
            });
        }
        register
    }

    fn by(revoker: u32, claim: u32) -> Call {
        Call::Revoke { revoker, claim, keep: true }
    }

    fn check(model: &Model, one: Call, two: Call) -> (Option<&'static str>, [(Outcome, Outcome); 2]) {
        let pair = Pair { register: line(), calls: [one, two], on_one_chain: true };
        let [[one, two], [three, four]] = pair.scripts().map(|script| {
            let mut state = script.start();
            [0, 1].map(|at| {
                let mut answer = Vec::new();
                script.calls[at].answer(model, &mut state, &mut answer);
                Revoked::take(&mut &answer[size_of::<u32>()..])
            })
        });
        let answers = Answers([[&one, &two], [&three, &four]], pair.revokes());
        (answers.broken(), answers.told())
    }

    #[test]
    fn a_claim_and_one_drawn_from_it() {
        let told = [(YES, YES), (YES, NO_CLAIM)];
        assert_eq!(check(&Model::default(), by(1, 1), by(3, 3)), (None, told));
    }

    #[test]
    fn a_caller_without_standing() {
        let told = [(NO_GRANTOR, NO_CLAIM), (YES, YES)];
        assert_eq!(check(&Model::default(), by(4, 2), by(1, 1)), (None, told));
    }

    #[test]
    fn a_model_that_leaves_what_was_drawn_is_found() {
        let model = Model { fault: Some(Fault::OnlyNamed) };
        assert_eq!(check(&model, by(1, 1), by(3, 3)).0, Some("the other order leaves another register"));
    }

    #[test]
    fn a_clearing_takes_a_claim_from_a_revocation() {
        let clear = Call::ClearResource { caller: 1, resource: 1, keep: true };
        assert_eq!(check(&Model::default(), by(3, 3), clear), (None, [(YES, NO_CLAIM), (YES, YES)]));
    }

    #[test]
    fn two_clearings_are_told_the_same() {
        let clear = Call::ClearResource { caller: 1, resource: 1, keep: true };
        let old = Call::ClearExpired { caller: 4, now: 9, keep: true };
        assert_eq!(check(&Model::default(), clear, old), (None, [(YES, YES), (YES, YES)]));
    }
}
