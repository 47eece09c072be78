//! The gate for a plan.

use super::{Fault, Model, Refusal, Sound};
use crate::types::*;

impl PlanVerdict {
    pub fn stopped(refusal: Refusal, position: usize) -> Self {
        PlanVerdict { refusal: refusal as u32, position, ..PlanVerdict::EMPTY }
    }
}

impl Model {
    pub fn judge_plan(&self, register: &Register, plan: &Plan) -> PlanVerdict {
        let Some(sound) = Sound::of(register) else {
            return PlanVerdict::stopped(Refusal::Unsound, 0);
        };
        let Some(actions) = plan.actions.get(..plan.count) else {
            return PlanVerdict::stopped(Refusal::Range, 0);
        };
        let mut verdict = PlanVerdict { accepted: 1, count: plan.count, ..PlanVerdict::EMPTY };
        match self.judge_list(&sound, actions, &mut verdict.list) {
            Ok(()) => verdict,
            Err((refusal, position)) => PlanVerdict::stopped(refusal, position),
        }
    }

    /// Judges actions in order, or answers the first refusal and the position of its action.
    pub fn judge_list(
        &self,
        sound: &Sound,
        actions: &[Action],
        list: &mut [Judgement],
    ) -> Result<(), (Refusal, usize)> {
        // Every action is tested before any is judged: also one that would be cancelled can stop the plan.
        let mut actors = [&Actor::ZERO; TEXT_ACTIONS];
        for (position, action) in actions.iter().enumerate() {
            let actor = self.acting(sound, action).map_err(|refusal| (refusal, position))?;
            if let Some(place) = actors.get_mut(position) {
                *place = actor;
            }
        }
        let mut cancelled = false;
        for ((judgement, action), actor) in list.iter_mut().zip(actions).zip(actors) {
            *judgement = if cancelled && !self.has(Fault::CancelledJudged) {
                Judgement { decision: CANCELLED, violations: 0 }
            } else {
                let verdict = self.judge(sound, action, actor);
                Judgement { decision: verdict.decision, violations: verdict.count as u32 }
            };
            cancelled |= action.flags != 0;
        }
        Ok(())
    }
}
