//! Texts of plans in plans: of the form, at the edges of their limits, and with something wrong.

use super::actions;
use super::random::Random;
use super::registers::standing;
use super::texts::{self, action_text};
use crate::case::{Call, Script};
use guvrendik_model::model::{Model, Refusal};
use guvrendik_model::types::*;
use std::io::Write as _;

/// A step of a plan.
#[derive(Clone)]
enum Step {
    Action(Box<Action>),
    Plan(Vec<Step>),
}

/// The text of a plan with these steps.
fn text(steps: &[Step]) -> Vec<u8> {
    let mut out = Vec::new();
    put(steps, &mut out);
    out
}

fn put(steps: &[Step], out: &mut Vec<u8>) {
    writeln!(out, "plan={}", steps.len()).expect("a vector takes all");
    for step in steps {
        match step {
            Step::Action(action) => {
                out.extend(b"step=action\n");
                out.extend(action_text(action));
            }
            Step::Plan(steps) => {
                out.extend(b"step=plan\n");
                put(steps, out);
            }
        }
    }
}

/// How many levels a plan with these steps has.
fn levels(steps: &[Step]) -> usize {
    let below = steps.iter().map(|step| match step {
        Step::Action(_) => 0,
        Step::Plan(steps) => levels(steps),
    });
    1 + below.max().unwrap_or(0)
}

/// Some plan of these actions in their order, of at most so many levels; some plans in it are empty.
fn grouped(random: &mut Random, actions: &[Action], most: usize) -> Vec<Step> {
    let mut steps = Vec::new();
    let mut rest = actions;
    loop {
        if most > 1 && random.chance(30) {
            let (inside, behind) = rest.split_at(random.below(rest.len() + 1));
            steps.push(Step::Plan(grouped(random, inside, most - 1)));
            rest = behind;
        } else if let [first, behind @ ..] = rest {
            steps.push(Step::Action(Box::new(*first)));
            rest = behind;
        } else {
            return steps;
        }
    }
}

/// The plan of just so many levels, by plans around it; beside it they have empty ones at most.
fn lowered(random: &mut Random, mut steps: Vec<Step>, to: usize) -> Vec<Step> {
    for _ in levels(&steps)..to {
        let mut around = vec![Step::Plan(steps)];
        if random.chance(20) {
            around.insert(random.below(2), Step::Plan(Vec::new()));
        }
        steps = around;
    }
    steps
}

/// Some plan of these actions.
fn plan(random: &mut Random, actions: &[Action]) -> Vec<Step> {
    let most = random.between(1, LEVELS);
    let steps = grouped(random, actions, most);
    match random.below(10) {
        0 => lowered(random, steps, LEVELS + 1),
        1..=2 => lowered(random, steps, LEVELS),
        3 => lowered(random, steps, most),
        _ => steps,
    }
}

/// So many actions. Most lists have none that stops the plan, and few flags.
fn actions(random: &mut Random, register: &Register, count: usize, passes: bool) -> Vec<Action> {
    let actors = standing(&register.actors);
    let passes = passes && !actors.is_empty();
    let one = |_| {
        let mut action = actions::action(random, register);
        // In a register with a defect it may be that none passes.
        for _ in 0..8 {
            if passes && !action.in_range() {
                action = actions::action(random, register);
            }
        }
        if passes && !actors.iter().any(|actor| actor.id == action.actor) {
            action.actor = random.pick(actors).id;
        }
        if random.chance(85) {
            action.flags = 0;
        }
        *action
    };
    (0..count).map(one).collect()
}

fn some_actions(random: &mut Random, register: &Register) -> Vec<Action> {
    let count = match random.below(40) {
        0..=1 => 0,
        2..=21 => random.between(1, 6),
        22..=31 => random.between(7, 20),
        32..=34 => random.between(21, TEXT_ACTIONS - 1),
        35..=36 => TEXT_ACTIONS,
        37..=38 => TEXT_ACTIONS + 1,
        _ => TEXT_ACTIONS + 2,
    };
    let passes = random.chance(80);
    actions(random, register, count, passes)
}

/// The starts of the lines that begin so.
fn starts(text: &[u8], key: &[u8]) -> Vec<usize> {
    let lines = std::iter::once(0).chain((1..text.len()).filter(|&at| text[at - 1] == b'\n'));
    lines.filter(|&at| text[at..].starts_with(key)).collect()
}

/// The end of the line that starts there, its LF included where it has one.
fn line_end(text: &[u8], start: usize) -> usize {
    text[start..].iter().position(|&byte| byte == b'\n').map_or(text.len(), |at| start + at + 1)
}

/// One thing wrong, or at an edge.
fn spoil(random: &mut Random, text: &mut Vec<u8>) {
    const WORDS: [&[u8]; 10] =
        [b"action", b"plan", b"actions", b"Plan", b"plan ", b"", b"acti", b"0", b"plan\r", b"action=plan"];
    const BEHIND: [&[u8]; 6] =
        [b"plan=0\n", b"step=action\n", b"step=plan\nplan=0\n", b"plan=65\n", b"\n", b"governs=0\n"];
    let steps = starts(text, b"step=");
    match random.below(8) {
        0..=1 if !steps.is_empty() => {
            let start = *random.pick(&steps);
            let end = line_end(text, start) - 1;
            text.splice(start + b"step=".len()..end, random.pick(&WORDS).iter().copied());
        }
        2..=3 if !steps.is_empty() => {
            let end = line_end(text, *random.pick(&steps));
            text.truncate(end - random.below(2));
        }
        4 => text.extend(*random.pick(&BEHIND)),
        _ => texts::spoil(random, text),
    }
}

/// Where the text is refused as too deep or with too many actions: cut behind that line or before its LF, or spoiled behind it.
fn edged(random: &mut Random, text: &mut Vec<u8>) {
    let Err(unread) = Model::default().read_plan(text) else {
        return;
    };
    if !matches!(unread.refusal, Refusal::TooDeep | Refusal::TooManyActions) {
        return;
    }
    let starts = starts(text, b"");
    let end = line_end(text, starts[unread.line - 1]);
    match random.below(3) {
        0 => text.truncate(end),
        1 => text.truncate(end - 1),
        _ => text.splice(end..end, b"nothing of the form\n".iter().copied()).for_each(drop),
    }
}

/// Readings of plans about a register: whole, spoiled, and the same actions in two plans.
pub fn calls(random: &mut Random, register: &Register, count: usize) -> Vec<Call> {
    let mut calls = Vec::new();
    while calls.len() < count {
        let actions = some_actions(random, register);
        let mut one = text(&plan(random, &actions));
        match random.below(8) {
            0..=1 => calls.push(Call::PlanText(text(&plan(random, &actions)))),
            2..=3 => spoil(random, &mut one),
            4 => edged(random, &mut one),
            _ => (),
        }
        calls.push(Call::PlanText(one));
    }
    calls.truncate(count);
    calls
}

/// A text of eight levels with as many actions as there may be, none of which stops the plan; half of them stand at the eighth level.
pub fn deepest(random: &mut Random, register: &Register) -> Vec<u8> {
    let actions = actions(random, register, TEXT_ACTIONS, true);
    let (inside, behind) = actions.split_at(TEXT_ACTIONS / 2);
    let innermost = inside.iter().map(|action| Step::Action(Box::new(*action))).collect();
    let mut steps = vec![Step::Plan(lowered(random, innermost, LEVELS - 1))];
    steps.extend(grouped(random, behind, LEVELS));
    text(&steps)
}

/// A plan of so many levels, each plan with so many in it and the innermost empty.
fn empties(steps: usize, levels: usize) -> Vec<Step> {
    match levels {
        1 => Vec::new(),
        _ => vec![Step::Plan(empties(steps, levels - 1)); steps],
    }
}

/// Plans of one action at and beside each limit.
fn edges(action: &Step) -> Vec<Vec<Step>> {
    let flat = |count| vec![action.clone(); count];
    let around = |steps| vec![Step::Plan(steps)];
    let mut edges = vec![Vec::new(), flat(1), flat(TEXT_ACTIONS), flat(TEXT_ACTIONS + 1)];
    // The last action, or one more, in a plan of its own, and an empty plan in its place.
    for last in [around(flat(1)), around(Vec::new()), around(around(flat(1)))] {
        edges.push([flat(TEXT_ACTIONS - 1), last.clone()].concat());
        edges.push([around(flat(TEXT_ACTIONS)), last.clone()].concat());
        edges.push([around(flat(TEXT_ACTIONS - 1)), last].concat());
    }
    edges.push([around(flat(TEXT_ACTIONS)), flat(1)].concat());
    // Plans in each other, the innermost empty or with an action, and an action behind each of them.
    for levels in 1..=LEVELS + 2 {
        edges.push(empties(1, levels));
        edges.push((1..levels).fold(flat(1), |steps, _| around(steps)));
        edges.push((1..levels).fold(flat(1), |steps, _| [around(steps), flat(1)].concat()));
    }
    edges.extend([empties(2, LEVELS), empties(2, LEVELS + 1), empties(STEPS, 3)]);
    edges.push(vec![Step::Plan(empties(STEPS, 3)); 3]);
    edges
}

/// Counts of any length, on each of a plan's count lines and at the end of the text.
fn counts() -> impl Iterator<Item = Call> {
    const STARTS: [&[u8]; 4] = [
        b"plan=",
        b"plan=1\nstep=plan\nplan=",
        b"plan=1\nstep=action\nnow=0\nactor=1\nflags=0\nuses=",
        b"plan=1\nstep=action\nnow=0\nactor=1\nflags=0\nuses=0\ngoverns=",
    ];
    const ENDS: [&[u8]; 3] = [b"\n", b"", b"\r\n"];
    texts::count_values().into_iter().flat_map(|value| {
        STARTS.into_iter().flat_map(move |start| ENDS.map(|end| Call::PlanText([start, &value, end].concat())))
    })
}

/// The texts that are the same in every run, on case R.
pub fn fixed() -> Script {
    let (register, action) = texts::case_r();
    let model = Model::default();
    let mut case_r = Box::new(Register::EMPTY);
    model.read_register(&register, &mut case_r).expect("case R is sound");
    let action = Step::Action(Box::new(model.read_action(&action).expect("case R's action is of the form")));
    let mut calls: Vec<Call> = edges(&action).iter().map(|steps| Call::PlanText(text(steps))).collect();
    // A long text with a byte behind it, and without its last one.
    let long = text(&empties(STEPS, 3));
    calls.push(Call::PlanText([&long[..], b"x"].concat()));
    calls.push(Call::PlanText(long[..long.len() - 1].to_vec()));
    let small = text(&[action.clone(), Step::Plan(vec![action, Step::Plan(Vec::new())])]);
    calls.extend(texts::neighbours(&small, Call::PlanText).calls);
    calls.extend(counts());
    Script { register: Some(case_r), calls }
}

#[cfg(test)]
mod tests {
    use super::*;
    use crate::generate::registers;
    use guvrendik_model::shapes::MEDIUM;

    #[test]
    fn the_same_actions_in_another_plan_are_judged_alike() {
        let mut random = Random::new(5);
        for round in 0..200 {
            let register = registers::sound(&mut random, MEDIUM, false);
            let actions = actions(&mut random, &register, round % 60, round % 5 != 0);
            let [one, two] = [0, 1].map(|_| text(&grouped(&mut random, &actions, LEVELS)));
            let model = Model::default();
            if let (Ok(first), Ok(second)) = (model.read_plan(&one), model.read_plan(&two)) {
                assert_eq!(first.actions, second.actions);
                assert_eq!(model.judge_plan_text(&register, &one), model.judge_plan_text(&register, &two));
            }
        }
    }

    #[test]
    fn the_edges_are_met() {
        let mut random = Random::new(6);
        let register = registers::sound(&mut random, MEDIUM, false);
        let (mut deep, mut full, mut deepest, mut too_deep, mut too_many) = (0, 0, 0, 0, 0);
        for _ in 0..400 {
            let actions = some_actions(&mut random, &register);
            let steps = plan(&mut random, &actions);
            match Model::default().read_plan(&text(&steps)) {
                Ok(read) => {
                    deep += usize::from(levels(&steps) == LEVELS);
                    full += usize::from(read.actions.len() == TEXT_ACTIONS);
                    deepest += usize::from(levels(&steps) == LEVELS && read.actions.len() == TEXT_ACTIONS);
                }
                Err(unread) => {
                    too_deep += usize::from(unread.refusal == Refusal::TooDeep);
                    too_many += usize::from(unread.refusal == Refusal::TooManyActions);
                }
            }
        }
        let met = [deep, full, deepest, too_deep, too_many];
        assert!(met.iter().all(|&count| count >= 2), "{met:?}");
    }
}
