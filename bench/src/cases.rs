//! The calls that are timed. The answers of the two sides are compared before anything is: a difference ends the run.

use crate::figures::Goal;
use crate::inputs::*;
use crate::library;
use crate::measure::Timed;
use crate::random::Random;
use guvrendik_model::model::proposals::{Question, PROPOSES_GRANT};
use guvrendik_model::model::{paths as model_paths, Model, Sound};
use guvrendik_model::types::*;
use std::fmt::Debug;
use std::hint::black_box;
use std::mem::MaybeUninit;
use std::ptr;

const MODEL: Model = Model { fault: None };

/// One call on one sort of input, on both sides.
pub struct Case {
    pub name: String,
    /// `None` where there is no register.
    pub shape: Option<Shape>,
    /// The bytes of text or of paths that one call goes through.
    pub bytes: Option<usize>,
    pub goal: Goal,
    pub library: Timed<'static>,
    pub model: Timed<'static>,
    /// Of the gate: the model's gate on a register that is known to be sound, and the library's soundness alone.
    pub parts: Option<[Timed<'static>; 2]>,
}

/// The inputs live as long as the run.
fn leak<T>(value: T) -> &'static T {
    Box::leak(Box::new(value))
}

fn same<T: PartialEq + Debug>(name: &str, input: usize, library: &T, model: &T) {
    if library != model {
        eprintln!("{name}, input {input}: the library answers\n{library:?}\nand the model\n{model:?}");
        std::process::exit(1);
    }
}

/// The model's grant as the library has it: from a register that stays to an answer with a register of its own.
fn model_grant(answer: &mut MaybeUninit<Granted>, register: &Register, claim: &Claim) {
    let answer = answer.as_mut_ptr();
    // SAFETY: the place is large enough, and each field is written before it is read.
    unsafe {
        ptr::copy_nonoverlapping(register, &raw mut (*answer).state, 1);
        let result = MODEL.grant(&mut (*answer).state, claim, NOW);
        (*answer).accepted = result.is_ok().into();
        (*answer).refusal = result.map_or_else(|refusal| refusal as u32, |()| 0);
    }
}

fn model_withdraw(answer: &mut MaybeUninit<Revoked>, register: &Register, (caller, what): (u32, Withdrawn)) {
    let answer = answer.as_mut_ptr();
    // SAFETY: as above.
    unsafe {
        ptr::copy_nonoverlapping(register, &raw mut (*answer).state, 1);
        let result = match what {
            Withdrawn::Claim(claim) => MODEL.revoke(&mut (*answer).state, caller, claim),
            Withdrawn::Resource(resource) => MODEL.clear_resource(&mut (*answer).state, caller, resource),
            Withdrawn::Expired(now) => MODEL.clear_expired(&mut (*answer).state, caller, now),
        };
        (*answer).accepted = result.is_ok().into();
        (*answer).refusal = result.map_or_else(|refusal| refusal as u32, |_| 0);
        (*answer).removed = result.unwrap_or(0);
    }
}

fn model_read(answer: &mut MaybeUninit<RegisterRead>, text: &[u8]) {
    let answer = answer.as_mut_ptr();
    // SAFETY: a register of all zeros is one, and each field is written before it is read.
    unsafe {
        (&raw mut (*answer).state).write_bytes(0, 1);
        let result = MODEL.read_register(text, &mut (*answer).state);
        (*answer).accepted = result.is_ok().into();
        (*answer).refusal = result.map_or_else(|unread| unread.refusal as u32, |()| 0);
        (*answer).line = result.map_or_else(|unread| unread.line, |()| 0);
    }
}

fn model_read_action(text: &[u8]) -> ActionRead {
    match MODEL.read_action(text) {
        Ok(action) => ActionRead { action, accepted: 1, refusal: 0, line: 0 },
        Err(unread) => {
            ActionRead { action: Action::ZERO, accepted: 0, refusal: unread.refusal as u32, line: unread.line }
        }
    }
}

fn place<T>() -> MaybeUninit<T> {
    MaybeUninit::uninit()
}

pub fn sound(shape: Shape, world: &World, name: &str) -> Case {
    let register = leak(*world.register.clone());
    let name = name.to_owned();
    same(&name, 0, &library::sound(register).sound, &MODEL.sound(register).into());
    Case {
        name,
        shape: Some(shape),
        bytes: None,
        goal: Goal::judging(shape, 1.5, 4.47),
        library: Box::new(|_| {
            black_box(library::sound(black_box(register)));
        }),
        model: Box::new(|_| {
            black_box(MODEL.sound(black_box(register)));
        }),
        parts: None,
    }
}

/// A table stands against the library's own soundness of the register that its claims are of.
pub fn sound_table(shape: Shape, world: &World, name: &str) -> Case {
    let register = leak(*world.register.clone());
    let name = name.to_owned();
    same(&name, 0, &library::sound_table(register), &library::sound(register));
    Case {
        name,
        shape: Some(shape),
        bytes: None,
        goal: Goal::Times(1.1),
        library: Box::new(|_| {
            black_box(library::sound_table(black_box(register)));
        }),
        model: Box::new(|_| {
            black_box(library::sound(black_box(register)));
        }),
        parts: None,
    }
}

/// The register lent where it lies.
pub fn sound_lent(shape: Shape, world: &World, name: &str) -> Case {
    let register = leak(*world.register.clone());
    let name = name.to_owned();
    same(&name, 0, &library::sound_lent(register).sound, &MODEL.sound(register).into());
    Case {
        name,
        shape: Some(shape),
        bytes: None,
        goal: Goal::Times(1.3),
        library: Box::new(|_| {
            black_box(library::sound_lent(black_box(register)));
        }),
        model: Box::new(|_| {
            black_box(MODEL.sound(black_box(register)));
        }),
        parts: None,
    }
}

pub fn gate_lent(shape: Shape, world: &World, what: &str, actions: Vec<Action>) -> Case {
    let register = leak(*world.register.clone());
    let actions = leak(actions);
    let name = format!("gate lent, {what}");
    for (at, action) in actions.iter().enumerate() {
        same(&name, at, &library::gate_lent(register, action), &MODEL.gate(register, action));
    }
    Case {
        name,
        shape: Some(shape),
        bytes: None,
        goal: Goal::Times(if shape == SMALL { 1.6 } else { 1.4 }),
        library: Box::new(move |at| {
            black_box(&library::gate_lent(black_box(register), &actions[at % VARIED]));
        }),
        model: Box::new(|at| {
            black_box(MODEL.gate(black_box(register), &actions[at % VARIED]));
        }),
        parts: None,
    }
}

pub fn plan_lent(shape: Shape, world: &World, used: usize) -> Case {
    let register = leak(*world.register.clone());
    let plans = leak(world.plans(used));
    let name = format!("plan lent of 16, {used} uses each");
    for (at, plan) in plans.iter().enumerate() {
        same(&name, at, &library::judge_plan_lent(register, plan), &MODEL.judge_plan(register, plan));
    }
    Case {
        name,
        shape: Some(shape),
        bytes: None,
        goal: Goal::Times(1.3),
        library: Box::new(move |at| {
            black_box(&library::judge_plan_lent(black_box(register), &plans[at % VARIED]));
        }),
        model: Box::new(|at| {
            black_box(MODEL.judge_plan(black_box(register), &plans[at % VARIED]));
        }),
        parts: None,
    }
}

pub fn grant(shape: Shape, world: &World, name: &str, grants: Vec<Claim>) -> Case {
    let register = leak(*world.register.clone());
    let grants = leak(grants);
    let name = name.to_owned();
    let mut theirs = Box::new(place());
    for (at, claim) in grants.iter().enumerate() {
        model_grant(&mut theirs, register, claim);
        // SAFETY: it was filled by the line before.
        same(&name, at, &library::grant(register, claim, NOW), unsafe { theirs.assume_init_ref() });
    }
    Case {
        name,
        shape: Some(shape),
        bytes: None,
        goal: Goal::judging(shape, 1.5, 4.43),
        library: Box::new(move |at| {
            black_box(&library::grant(black_box(register), &grants[at % VARIED], NOW));
        }),
        model: Box::new(move |at| {
            model_grant(&mut theirs, black_box(register), &grants[at % VARIED]);
            black_box(&mut theirs);
        }),
        parts: None,
    }
}

pub fn revoke(shape: Shape, world: &World) -> Case {
    withdraw(shape, world, "revoke", world.revocations())
}

pub fn clear_resource(shape: Shape, world: &World) -> Case {
    withdraw(shape, world, "clear resource", world.resource_clearings())
}

pub fn clear_expired(shape: Shape, world: World) -> Case {
    let (world, clearings) = world.expired_clearings();
    withdraw(shape, &world, "clear expired", clearings)
}

fn withdraw(shape: Shape, world: &World, name: &str, withdrawals: Vec<(u32, Withdrawn)>) -> Case {
    let register = leak(*world.register.clone());
    let withdrawals = leak(withdrawals);
    let name = name.to_owned();
    let mut theirs = Box::new(place());
    for (at, &withdrawal) in withdrawals.iter().enumerate() {
        model_withdraw(&mut theirs, register, withdrawal);
        // SAFETY: it was filled by the line before.
        same(&name, at, &library::withdraw(register, withdrawal), unsafe { theirs.assume_init_ref() });
    }
    Case {
        name,
        shape: Some(shape),
        bytes: None,
        goal: Goal::judging(shape, 1.5, 3.02),
        library: Box::new(move |at| {
            black_box(&library::withdraw(black_box(register), withdrawals[at % VARIED]));
        }),
        model: Box::new(move |at| {
            model_withdraw(&mut theirs, black_box(register), withdrawals[at % VARIED]);
            black_box(&mut theirs);
        }),
        parts: None,
    }
}

/// Why stands against the library's own soundness of the register that is sound; of one that is not, the last claim is broken.
pub fn why_unsound(shape: Shape, world: &World, broken: bool) -> Case {
    let register = leak(*world.register.clone());
    let mut asked = register.clone();
    if broken {
        asked.claims.list[asked.claims.count - 1].rights = 0;
    }
    let asked = leak(asked);
    let (name, times) =
        if broken { ("why unsound, the last claim", 12.0) } else { ("why unsound, of a sound one", 1.2) };
    same(name, 0, &library::why_unsound(asked), &MODEL.why_unsound(asked));
    Case {
        name: name.to_owned(),
        shape: Some(shape),
        bytes: None,
        goal: Goal::Times(times),
        library: Box::new(|_| {
            black_box(&library::why_unsound(black_box(asked)));
        }),
        model: Box::new(|_| {
            black_box(library::sound(black_box(register)));
        }),
        parts: None,
    }
}

pub fn gate(shape: Shape, world: &World, what: &str, actions: Vec<Action>) -> Case {
    let register = leak(*world.register.clone());
    let actions = leak(actions);
    let known = leak(Sound::of(register).expect("it is sound"));
    let small = match what {
        "1 use, 8 claims" => 5.24,
        "32 uses not covered, 8 claims" => 3.77,
        _ => 3.17,
    };
    let name = format!("gate, {what}");
    for (at, action) in actions.iter().enumerate() {
        same(&name, at, &library::gate(register, action), &MODEL.gate(register, action));
    }
    Case {
        name,
        shape: Some(shape),
        bytes: None,
        goal: Goal::judging(shape, 1.8, small),
        library: Box::new(move |at| {
            black_box(&library::gate(black_box(register), &actions[at % VARIED]));
        }),
        model: Box::new(|at| {
            black_box(MODEL.gate(black_box(register), &actions[at % VARIED]));
        }),
        parts: Some([
            Box::new(move |at| {
                let action = &actions[at % VARIED];
                let sound = black_box(known);
                black_box(MODEL.acting(sound, action).map(|actor| MODEL.judge(sound, action, actor)).ok());
            }),
            Box::new(|_| {
                black_box(library::sound(black_box(register)));
            }),
        ]),
    }
}

/// The planner stands against the library's own gate of the one use.
pub fn propose(shape: Shape, world: &World, name: &str, questions: Vec<Question>) -> Case {
    let register = leak(*world.register.clone());
    let questions = leak(questions);
    let actions: &[Action] = leak(questions.iter().map(Question::action).collect::<Vec<_>>());
    let name = name.to_owned();
    for (at, question) in questions.iter().enumerate() {
        same(&name, at, &library::propose(register, question), &MODEL.propose(register, question));
    }
    Case {
        name,
        shape: Some(shape),
        bytes: None,
        goal: Goal::Times(2.0),
        library: Box::new(move |at| {
            black_box(&library::propose(black_box(register), &questions[at % VARIED]));
        }),
        model: Box::new(move |at| {
            black_box(&library::gate(black_box(register), &actions[at % VARIED]));
        }),
        parts: None,
    }
}

/// The check of a grant stands against the library's own two gates of the one use and a grant.
pub fn check_proposal(shape: Shape, world: &World, name: &str, grants: Vec<Claim>) -> Case {
    let register = leak(*world.register.clone());
    let questions = leak(world.questions(&grants));
    let actions: &[Action] = leak(questions.iter().map(Question::action).collect::<Vec<_>>());
    let single = |(grant, question): (&Claim, &Question)| Claim { rights: 1 << question.usage.right, ..*grant };
    let grants: &[Claim] = leak(grants.iter().zip(questions.iter()).map(single).collect::<Vec<_>>());
    let proposals: &[Proposal] =
        leak(grants.iter().map(|&claim| Proposal { kind: PROPOSES_GRANT, claim }).collect::<Vec<_>>());
    let name = name.to_owned();
    for (at, (question, proposal)) in questions.iter().zip(proposals).enumerate() {
        let model = MODEL.check_proposal(register, question, proposal);
        same(&name, at, &library::check_proposal(register, question, proposal), &model);
    }
    Case {
        name,
        shape: Some(shape),
        bytes: None,
        goal: Goal::Times(1.2),
        library: Box::new(|at| {
            let (question, proposal) = (&questions[at % VARIED], &proposals[at % VARIED]);
            black_box(library::check_proposal(black_box(register), question, proposal));
        }),
        model: Box::new(move |at| {
            black_box(&library::gate(black_box(register), &actions[at % VARIED]));
            black_box(&library::grant(black_box(register), &grants[at % VARIED], NOW));
            black_box(&library::gate(black_box(register), &actions[at % VARIED]));
        }),
        parts: None,
    }
}

/// An attach, which is accepted, stands against the library's own gate of the one use.
pub fn attach(shape: Shape, world: &World, name: &str) -> Case {
    let register = leak(*world.register.clone());
    let (actions, book) = (leak(world.single_uses(WRITE)), leak(world.book()));
    let fingerprint = leak(Fingerprint { bytes: [0xA5; FINGERPRINT] });
    let name = name.to_owned();
    for (at, action) in actions.iter().enumerate() {
        let mut after = book.clone();
        let resource = action.uses[0].resource;
        let attached = MODEL.attach(&mut after, register, action.actor, resource, action.now, *fingerprint);
        attached.expect("it may be written");
        let expected = Attached { book: after, accepted: 1, refusal: 0 };
        same(&name, at, &library::attach(book, register, action, fingerprint), &expected);
    }
    Case {
        name,
        shape: Some(shape),
        bytes: None,
        goal: Goal::Times(1.2),
        library: Box::new(move |at| {
            let action = &actions[at % VARIED];
            black_box(&library::attach(black_box(book), black_box(register), action, fingerprint));
        }),
        model: Box::new(move |at| {
            black_box(&library::gate(black_box(register), &actions[at % VARIED]));
        }),
        parts: None,
    }
}

/// A fetch of what is attached stands against the same.
pub fn fetch(shape: Shape, world: &World, name: &str) -> Case {
    let register = leak(*world.register.clone());
    let (actions, book) = (leak(world.single_uses(READ)), leak(world.book()));
    let name = name.to_owned();
    for (at, action) in actions.iter().enumerate() {
        let expected = MODEL.fetch(book, register, action.actor, action.uses[0].resource, action.now);
        assert_eq!(expected.accepted, 1, "it may be read");
        same(&name, at, &library::fetch(book, register, action), &expected);
    }
    Case {
        name,
        shape: Some(shape),
        bytes: None,
        goal: Goal::Times(1.2),
        library: Box::new(move |at| {
            black_box(&library::fetch(black_box(book), black_box(register), &actions[at % VARIED]));
        }),
        model: Box::new(move |at| {
            black_box(&library::gate(black_box(register), &actions[at % VARIED]));
        }),
        parts: None,
    }
}

/// Who may make the first use of each action, at its moment.
pub fn who(shape: Shape, world: &World, what: &str, actions: Vec<Action>) -> Case {
    let register = leak(*world.register.clone());
    let actions = leak(actions);
    let name = format!("who, {what}");
    for (at, action) in actions.iter().enumerate() {
        let model = MODEL.who(register, action.uses[0], action.now);
        same(&name, at, &library::who(register, &action.uses[0], action.now), &model);
    }
    Case {
        name,
        shape: Some(shape),
        bytes: None,
        goal: Goal::Times(1.8),
        library: Box::new(move |at| {
            let action = &actions[at % VARIED];
            black_box(&library::who(black_box(register), &action.uses[0], action.now));
        }),
        model: Box::new(|at| {
            let action = &actions[at % VARIED];
            black_box(MODEL.who(black_box(register), action.uses[0], action.now));
        }),
        parts: None,
    }
}

/// Why an actor may make the one use of each action stands against the library's own gate of it.
pub fn why_use(shape: Shape, world: &World, what: &str, actions: Vec<Action>) -> Case {
    let register = leak(*world.register.clone());
    let actions = leak(actions);
    let name = format!("why use, {what}");
    for (at, action) in actions.iter().enumerate() {
        let model = MODEL.why_use(register, action.actor, action.uses[0], action.now);
        same(&name, at, &library::why_use(register, action), &model);
    }
    Case {
        name,
        shape: Some(shape),
        bytes: None,
        goal: Goal::Times(1.5),
        library: Box::new(move |at| {
            black_box(&library::why_use(black_box(register), &actions[at % VARIED]));
        }),
        model: Box::new(move |at| {
            black_box(&library::gate(black_box(register), &actions[at % VARIED]));
        }),
        parts: None,
    }
}

pub fn plan(shape: Shape, world: &World, used: usize, whose: &str) -> Case {
    let register = leak(*world.register.clone());
    let plans = leak(world.plans(used));
    let name = format!("plan of 16, {used} uses each{whose}");
    for (at, plan) in plans.iter().enumerate() {
        same(&name, at, &library::judge_plan(register, plan), &MODEL.judge_plan(register, plan));
    }
    Case {
        name,
        shape: Some(shape),
        bytes: None,
        goal: if shape == SMALL { Goal::TwiceTheModelAndFourCopies } else { Goal::judging(shape, 1.5, 2.5) },
        library: Box::new(move |at| {
            black_box(&library::judge_plan(black_box(register), &plans[at % VARIED]));
        }),
        model: Box::new(|at| {
            black_box(MODEL.judge_plan(black_box(register), &plans[at % VARIED]));
        }),
        parts: None,
    }
}

/// The plain gate, beside the model's own walk.
pub fn plain_gate(shape: Shape, world: &World, what: &str, actions: Vec<Action>) -> Case {
    let register = leak(*world.register.clone());
    let actions = leak(actions);
    let name = format!("plain gate, {what}");
    for (at, action) in actions.iter().enumerate() {
        same(&name, at, &library::plain_gate(register, action), &MODEL.plain_gate(register, action));
    }
    Case {
        name,
        shape: Some(shape),
        bytes: None,
        goal: Goal::judging(shape, 1.8, 4.5),
        library: Box::new(move |at| {
            black_box(&library::plain_gate(black_box(register), &actions[at % VARIED]));
        }),
        model: Box::new(|at| {
            black_box(MODEL.plain_gate(black_box(register), &actions[at % VARIED]));
        }),
        parts: None,
    }
}

/// The table of each action's actor at its moment.
pub fn cover_table(shape: Shape, world: &World, actions: Vec<Action>) -> Case {
    let register = leak(*world.register.clone());
    let actions = leak(actions);
    let name = "cover table".to_owned();
    for (at, action) in actions.iter().enumerate() {
        let model = MODEL.cover_table(register, action.actor, action.now);
        same(&name, at, &library::cover_table(register, action), &model);
    }
    Case {
        name,
        shape: Some(shape),
        bytes: None,
        goal: Goal::judging(shape, 1.8, 4.5),
        library: Box::new(move |at| {
            black_box(&library::cover_table(black_box(register), &actions[at % VARIED]));
        }),
        model: Box::new(|at| {
            let action = &actions[at % VARIED];
            black_box(MODEL.cover_table(black_box(register), action.actor, action.now));
        }),
        parts: None,
    }
}

pub fn plain_plan(shape: Shape, world: &World, used: usize) -> Case {
    let register = leak(*world.register.clone());
    let plans = leak(world.plans(used));
    let name = format!("plain plan of 16, {used} uses each");
    for (at, plan) in plans.iter().enumerate() {
        same(&name, at, &library::plain_plan(register, plan), &MODEL.plain_plan(register, plan));
    }
    Case {
        name,
        shape: Some(shape),
        bytes: None,
        goal: Goal::judging(shape, 1.8, 4.5),
        library: Box::new(move |at| {
            black_box(&library::plain_plan(black_box(register), &plans[at % VARIED]));
        }),
        model: Box::new(|at| {
            black_box(MODEL.plain_plan(black_box(register), &plans[at % VARIED]));
        }),
        parts: None,
    }
}

/// Judges texts of plans, or, where their last line fails, only reads them.
pub fn plan_text(shape: Shape, world: &World, what: &str, texts: Vec<Vec<u8>>, goal: f64) -> Case {
    let register = leak(*world.register.clone());
    let texts = leak(texts);
    let name = format!("plan text of 64, {what}");
    for (at, text) in texts.iter().enumerate() {
        same(&name, at, &library::judge_plan_text(register, text), &MODEL.judge_plan_text(register, text));
    }
    Case {
        name,
        shape: Some(shape),
        bytes: Some(texts.iter().map(Vec::len).sum::<usize>() / texts.len()),
        goal: Goal::Times(goal),
        library: Box::new(move |at| {
            black_box(&library::judge_plan_text(black_box(register), &texts[at % VARIED]));
        }),
        model: Box::new(|at| {
            black_box(MODEL.judge_plan_text(black_box(register), &texts[at % VARIED]));
        }),
        parts: None,
    }
}

pub fn read(shape: Shape, world: &World, name: &str, goal: Goal) -> Case {
    let text = leak(register_text(&world.register));
    let name = name.to_owned();
    let mut theirs = Box::new(place());
    model_read(&mut theirs, text);
    // SAFETY: it was filled by the line before.
    same(&name, 0, &library::read_register(text), unsafe { theirs.assume_init_ref() });
    Case {
        name,
        shape: Some(shape),
        bytes: Some(text.len()),
        goal,
        library: Box::new(move |_| {
            black_box(&library::read_register(black_box(text)));
        }),
        model: Box::new(move |_| {
            model_read(&mut theirs, black_box(text));
            black_box(&mut theirs);
        }),
        parts: None,
    }
}

pub fn write(shape: Shape, world: &World, name: &str, goal: Goal) -> Case {
    let register = leak(*world.register.clone());
    let text = register_text(register);
    let name = name.to_owned();
    let (mut ours, mut theirs) = (vec![0; REGISTER_TEXT], vec![0; REGISTER_TEXT]);
    same(&name, 0, &library::write_register(register, &mut ours).length, &text.len());
    same(&name, 0, &ours[..text.len()].to_vec(), &text);
    Case {
        name,
        shape: Some(shape),
        bytes: Some(text.len()),
        goal,
        library: Box::new(move |_| {
            black_box(library::write_register(black_box(register), black_box(&mut ours)));
        }),
        model: Box::new(move |_| {
            black_box(MODEL.write_register(black_box(register), black_box(&mut theirs)).ok());
        }),
        parts: None,
    }
}

pub fn read_action(used: usize) -> Case {
    let action = &world(FULL, Holding { human: 64, machine: 0 }).actions(1, used, Covered::All)[0];
    let text = leak(action_text(action));
    let name = format!("read action, {used} uses");
    same(&name, 0, &library::read_action(text), &model_read_action(text));
    Case {
        name,
        shape: None,
        bytes: Some(text.len()),
        goal: Goal::Times(2.0),
        library: Box::new(move |_| {
            black_box(&library::read_action(black_box(text)));
        }),
        model: Box::new(|_| {
            black_box(model_read_action(black_box(text)));
        }),
        parts: None,
    }
}

/// Reads a text of each action. All are of one length.
pub fn read_json(what: &str, texts: Vec<Vec<u8>>) -> Case {
    let texts = leak(texts);
    let name = format!("read JSON action, {what}");
    for (at, text) in texts.iter().enumerate() {
        same(&name, at, &library::read_json(text, NOW), &MODEL.read_json(text, NOW));
    }
    Case {
        name,
        shape: None,
        bytes: Some(texts[0].len()),
        goal: Goal::Times(1.5),
        library: Box::new(move |at| {
            black_box(&library::read_json(black_box(&texts[at % VARIED]), NOW));
        }),
        model: Box::new(|at| {
            black_box(MODEL.read_json(black_box(&texts[at % VARIED]), NOW));
        }),
        parts: None,
    }
}

pub fn write_json(what: &str, actions: Vec<JsonAction>) -> Case {
    let actions = leak(actions);
    let name = format!("write JSON action, {what}");
    let (mut ours, mut theirs) = (vec![0; JSON_TEXT], vec![0; JSON_TEXT]);
    for (at, JsonAction { action, id, kind }) in actions.iter().enumerate() {
        let written = MODEL.write_json(action, id, *kind, &mut theirs);
        same(&name, at, &library::write_json(action, id, *kind, &mut ours), &written.into());
        same(&name, at, &ours, &theirs);
    }
    Case {
        name,
        shape: None,
        bytes: Some(actions[0].text().len()),
        goal: Goal::Times(1.5),
        library: Box::new(move |at| {
            let JsonAction { action, id, kind } = black_box(&actions[at % VARIED]);
            black_box(library::write_json(action, id, *kind, black_box(&mut ours)));
        }),
        model: Box::new(move |at| {
            let JsonAction { action, id, kind } = black_box(&actions[at % VARIED]);
            black_box(MODEL.write_json(action, id, *kind, black_box(&mut theirs)).ok());
        }),
        parts: None,
    }
}

pub fn contains(what: &str, outer: Vec<u8>, inner: Vec<u8>) -> Case {
    let (outer, inner) = (leak(outer), leak(inner));
    let name = format!("contains, {what}");
    same(&name, 0, &library::contains(outer, inner), &Containment::of(outer, inner));
    Case {
        name,
        shape: None,
        bytes: Some(outer.len() + inner.len()),
        goal: Goal::Times(2.0),
        library: Box::new(|_| {
            black_box(library::contains(black_box(outer), black_box(inner)));
        }),
        model: Box::new(|_| {
            black_box(model_paths::contains(black_box(outer), black_box(inner)));
        }),
        parts: None,
    }
}

/// A copy of a register.
pub fn copy() -> Timed<'static> {
    let from = leak(*world(FULL, Holding { human: 8, machine: 8 }).register);
    let mut to = Box::new(place::<Register>());
    Box::new(move |_| {
        // SAFETY: one register to the place of another.
        unsafe { ptr::copy_nonoverlapping(black_box(from), to.as_mut_ptr(), 1) };
        black_box(&mut to);
    })
}

/// Every case but those of the growth.
pub fn all() -> Vec<Case> {
    let mut cases = Vec::new();
    for shape in SHAPES {
        let usual =
            || world(shape, Holding { human: 8.min(shape.claims), machine: if shape == SMALL { 0 } else { 8 } });
        // Where every claim stands, a grant is refused.
        let roomy = || if shape == FULL { usual().cut(CLAIMS - 1) } else { usual() };
        cases.push(sound(shape, &usual(), "sound"));
        cases.push(sound_table(shape, &usual(), "sound table"));
        cases.push(why_unsound(shape, &usual(), false));
        cases.push(why_unsound(shape, &usual(), true));
        cases.push(sound_lent(shape, &usual(), "sound lent"));
        cases.push(gate_lent(shape, &usual(), "1 use, 8 claims", usual().actions(usual().human, 1, Covered::All)));
        cases.push(plan_lent(shape, &usual(), 4));
        if shape == FULL {
            cases.push(sound(shape, &deep(), "sound, chains of 16 hops"));
            cases.push(sound_table(shape, &deep(), "sound table, chains of 16 hops"));
        }
        cases.push(grant(shape, &roomy(), "grant", roomy().grants()));
        cases.push(propose(shape, &roomy(), "propose", roomy().questions(&roomy().grants())));
        cases.push(check_proposal(shape, &roomy(), "check proposal", roomy().grants()));
        cases.push(attach(shape, &usual().with_read_and_write(), "attach, book of 64"));
        cases.push(fetch(shape, &usual().with_read_and_write(), "fetch, book of 64"));
        cases.push(revoke(shape, &usual()));
        cases.push(clear_resource(shape, &usual()));
        cases.push(clear_expired(shape, usual()));
        let mut gates = |world: World, human: &str, machine: Option<&str>| {
            for (used, uses) in [(1, "1 use"), (USES, "32 uses")] {
                let actions = world.actions(world.human, used, Covered::All);
                cases.push(gate(shape, &world, &format!("{uses}, {human}"), actions));
            }
            let actions = world.actions(world.human, USES, Covered::None);
            cases.push(gate(shape, &world, &format!("32 uses not covered, {human}"), actions));
            if let Some(machine) = machine {
                let actions = world.actions(world.machine, USES, Covered::All);
                cases.push(gate(shape, &world, &format!("32 uses, {machine}"), actions));
            }
        };
        gates(usual(), "8 claims", (shape != SMALL).then_some("machine and owner with 8 claims each"));
        if shape == FULL {
            gates(world(shape, Holding { human: CLAIMS, machine: 0 }), "256 claims", None);
            let halves = world(shape, Holding { human: CLAIMS / 2, machine: CLAIMS / 2 });
            let actions = halves.actions(halves.machine, USES, Covered::All);
            cases.push(gate(shape, &halves, "32 uses, machine and owner with 128 claims each", actions));
            let chains = deep();
            let actions = chains.actions(chains.human, USES, Covered::All);
            cases.push(gate(shape, &chains, "32 uses, claims of 16 hops", actions));
            cases.push(plan(shape, &chains, 4, ", chains of 16 hops"));
            let chains = chains.cut(CLAIMS - 1);
            cases.push(grant(shape, &chains, "grant, claim of 16 hops", chains.deep_grants()));
            cases.push(propose(shape, &chains, "propose, claims of 15 hops, all circles", chains.circling_questions()));
            for (by, what) in
                [(Covering::OnePath, "each by all 256 claims"), (Covering::Nested, "by 64 paths in each other")]
            {
                let world = covering(by);
                let actions = world.actions(world.human, USES, Covered::All);
                cases.push(gate(shape, &world, &format!("32 uses, {what}"), actions));
            }
        }
        let asked = usual();
        cases.push(who(shape, &asked, "a use of 8 claims' holder", asked.actions(asked.human, 1, Covered::All)));
        cases.push(why_use(shape, &asked, "covered, 8 claims", asked.actions(asked.human, 1, Covered::All)));
        cases.push(why_use(shape, &asked, "not covered, 8 claims", asked.actions(asked.human, 1, Covered::None)));
        cases.push(plan(shape, &usual(), 4, ""));
        cases.push(plan(shape, &usual(), USES, ""));
        plain_calls(shape, &usual(), &mut cases);
        cases.push(read(shape, &usual(), "read register", Goal::texts(shape)));
        cases.push(write(shape, &usual(), "write register", Goal::texts(shape)));
        if shape == FULL {
            plan_texts(shape, &usual(), &mut cases);
            cases.push(sound(shape, &usual().as_two(), "sound, version 2"));
            cases.push(sound(shape, &deep().as_two(), "sound, version 2, chains of 16 hops"));
            cases.push(sound_table(shape, &usual().as_two(), "sound table, version 2"));
            cases.push(sound_table(shape, &deep().as_two(), "sound table, version 2, chains of 16 hops"));
            let roomy = roomy().as_two();
            cases.push(grant(shape, &roomy, "grant, version 2", roomy.grants()));
            cases.push(read(shape, &usual().as_two(), "read register, version 2", Goal::Times(1.2)));
            cases.push(write(shape, &usual().as_two(), "write register, version 2", Goal::Times(1.2)));
        }
    }
    cases.push(read_action(USES));
    let random = &mut Random::new(23);
    cases.push(read_json("32 uses", json_actions(USES).iter().map(JsonAction::text).collect()));
    let shuffled = json_actions(USES).iter().map(|action| action.shuffled_text(random)).collect();
    cases.push(read_json("32 uses, shuffled with blanks", shuffled));
    cases.push(write_json("32 uses", json_actions(USES)));
    cases.extend(paths().into_iter().map(|(what, outer, inner)| contains(what, outer, inner)));
    cases
}

/// The plain gate of a human and, where there is one, of a machine, and the plain plan.
fn plain_calls(shape: Shape, world: &World, cases: &mut Vec<Case>) {
    let actions = world.actions(world.human, USES, Covered::All);
    cases.push(cover_table(shape, world, actions.clone()));
    cases.push(plain_gate(shape, world, "32 uses, 8 claims", actions));
    if shape != SMALL {
        let actions = world.actions(world.machine, USES, Covered::All);
        cases.push(plain_gate(shape, world, "32 uses, machine and owner with 8 claims each", actions));
    }
    if shape == FULL {
        let all = crate::inputs::world(shape, Holding { human: CLAIMS, machine: 0 });
        cases.push(plain_gate(shape, &all, "32 uses, 256 claims", all.actions(all.human, USES, Covered::All)));
    }
    cases.push(plain_plan(shape, world, 4));
}

/// Plan texts flat and of eight levels, whole and with a last line that lacks its LF.
fn plan_texts(shape: Shape, world: &World, cases: &mut Vec<Case>) {
    for (levels, deep) in [(Levels::One, ""), (Levels::Eight, ", eight levels")] {
        for used in [4, USES] {
            let texts = world.plan_texts(used, levels);
            let failing = texts.iter().map(|text| text[..text.len() - 1].to_vec()).collect();
            cases.push(plan_text(shape, world, &format!("{used} uses each{deep}"), texts, 1.6));
            cases.push(plan_text(shape, world, &format!("{used} uses each{deep}, last line fails"), failing, 1.2));
        }
    }
}

/// The cases of a register with so many claims, 64 actors and 64 resources.
pub fn grown(claims: usize) -> Vec<Case> {
    let shape = Shape { claims, ..FULL };
    let cut = || world(FULL, Holding { human: 8, machine: 8 }).cut(claims);
    let roomy = || world(FULL, Holding { human: 8, machine: 8 }).cut(claims.min(CLAIMS - 1));
    let uses = {
        let world = cut();
        world.actions(world.human, USES, Covered::All)
    };
    let mut cases = vec![sound(shape, &cut(), "sound"), grant(shape, &roomy(), "grant", roomy().grants())];
    if claims > 0 {
        cases.push(revoke(shape, &cut()));
    }
    cases.push(plain_gate(shape, &cut(), "32 uses", uses.clone()));
    cases.push(gate(shape, &cut(), "32 uses", uses));
    cases.push(plan(shape, &cut_for_plan(claims), 4, ""));
    cases.push(read(shape, &cut(), "read register", Goal::texts(shape)));
    cases.push(write(shape, &cut(), "write register", Goal::texts(shape)));
    cases
}

/// A plan's actors are holders: there is one at least.
fn cut_for_plan(claims: usize) -> World {
    world(FULL, Holding { human: 8, machine: 8 }).cut(claims.max(1))
}
