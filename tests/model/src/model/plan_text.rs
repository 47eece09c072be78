//! The gate for a plan's text: the flat list of its actions, and the lines that the program prints of it.

use super::text::{PlanText, Sink, Text};
use super::{Fault, Model, Refusal, Sound};
use crate::types::*;

impl PlanTextVerdict {
    fn stopped(refusal: Refusal, line: usize, position: usize) -> Self {
        PlanTextVerdict { refusal: refusal as u32, line, position, ..PlanTextVerdict::EMPTY }
    }
}

impl Model {
    /// The text comes first, then the register, then the actors.
    pub fn judge_plan_text(&self, register: &Register, text: &[u8]) -> PlanTextVerdict {
        let plan = match self.read_plan(text) {
            Ok(plan) => plan,
            Err(unread) => return PlanTextVerdict::stopped(unread.refusal, unread.line, 0),
        };
        let Some(sound) = Sound::of(register) else {
            return PlanTextVerdict::stopped(Refusal::Unsound, 0, 0);
        };
        let mut verdict = PlanTextVerdict { accepted: 1, count: plan.actions.len(), ..PlanTextVerdict::EMPTY };
        if let Err((refusal, position)) = self.judge_list(&sound, &plan.actions, &mut verdict.list) {
            return PlanTextVerdict::stopped(refusal, 0, position);
        }
        if self.has(Fault::FlagPerPlan) {
            self.judge_apart(&sound, &plan, &mut verdict.list);
        }
        verdict
    }

    /// Each plan's own actions as a list of their own.
    fn judge_apart(&self, sound: &Sound, plan: &PlanText, list: &mut [Judgement]) {
        for number in 0..plan.plans {
            let places: Vec<usize> = (0..plan.actions.len()).filter(|&at| plan.homes[at] == number).collect();
            let actions: Vec<Action> = places.iter().map(|&at| plan.actions[at]).collect();
            let mut judged = [Judgement { decision: 0, violations: 0 }; TEXT_ACTIONS];
            if self.judge_list(sound, &actions, &mut judged).is_ok() {
                places.iter().zip(judged).for_each(|(&at, judgement)| list[at] = judgement);
            }
        }
    }

    /// Writes what the program for plan texts prints for these two texts, and answers its length.
    pub fn plan_verdict_text(&self, register: &[u8], plan: &[u8], buffer: &mut [u8]) -> Result<usize, Refusal> {
        let mut read = Register::EMPTY;
        match self.read_register(register, &mut read) {
            // A line of the register's text is not named.
            Err(unread) => PlanTextVerdict::stopped(unread.refusal, 0, 0).write(buffer),
            Ok(()) => self.judge_plan_text(&read, plan).write(buffer),
        }
    }
}

impl Text for PlanTextVerdict {
    fn text(&self, out: &mut impl Sink) {
        if self.accepted == 0 {
            out.words("plan", b"stopped");
            out.line("refusal", self.refusal.into());
            if self.line > 0 {
                out.line("line", self.line as u64);
            }
            if self.refusal == Refusal::Absent as u32 {
                out.line("position", self.position as u64);
            }
            return;
        }
        out.words("plan", b"judged");
        out.line("verdicts", self.count as u64);
        for judgement in &self.list[..self.count] {
            match judgement.decision {
                PERMITTED => out.words("verdict", b"permitted"),
                CANCELLED => out.words("verdict", b"cancelled"),
                _ => {
                    out.words("verdict", b"refused");
                    out.line("violations", judgement.violations as u64);
                }
            }
        }
    }
}
