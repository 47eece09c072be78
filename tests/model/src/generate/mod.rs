//! What is compared: scripts made from a seed, in rounds that each have something of every kind, so that a run may stop early.

pub mod actions;
pub mod books;
pub mod changes;
pub mod defects;
pub mod guesses;
pub mod json;
pub mod nested;
pub mod paths;
pub mod proposals;
pub mod random;
pub mod registers;
pub mod tables;
pub mod texts;
pub mod trees;
pub mod why;

use crate::case::{Call, Script};
use crate::guesses::Guess;
use crate::pairs::Pair;
use defects::DEFECTS;
use guvrendik_model::model::Model;
use guvrendik_model::shapes::*;
use guvrendik_model::types::*;
use random::Random;
use registers::{standing, EMPTY};

pub struct Generator {
    pub random: Random,
    /// Of the plan texts alone, so that a seed gives the other scripts whatever these take.
    trees: Random,
    /// Of the tables alone, likewise.
    tables: Random,
    /// Of the books alone, for the same.
    books: Random,
    /// Of the proposals alone, for the same.
    proposals: Random,
    /// Of who may and why alone, for the same.
    whys: Random,
}

impl Generator {
    pub fn new(seed: u64) -> Self {
        Generator {
            random: Random::new(seed),
            trees: Random::new(!seed),
            tables: Random::new(seed.rotate_left(32)),
            books: Random::new(seed ^ 0x5555),
            proposals: Random::new(seed ^ 0xAAAA),
            whys: Random::new(seed ^ 0x3333),
        }
    }

    /// The scripts that are the same in every run: the rule book's texts and all that lies beside them.
    pub fn fixed(&mut self) -> Vec<Script> {
        let (register, action) = texts::case_r();
        let mut scripts: Vec<Script> = paths::all_short().collect();
        scripts.push(paths::long());
        scripts.push(texts::neighbours(&register, Call::ReadRegister));
        scripts.push(texts::neighbours(&action, Call::ReadAction));
        scripts.push(texts::neighbours(&texts::case_r_as_two(), Call::ReadRegister));
        scripts.push(texts::counts());
        for (version, length) in [(VERSION_1, 37_731), (VERSION_2, 39_779)] {
            scripts.push(texts::large(&mut self.random, version));
            let rooms = [REGISTER_TEXT, length, length - 1, 0];
            scripts.push(Script {
                register: Some(registers::longest(version)),
                calls: rooms.map(|room| Call::WriteRegister { room, fill: 0xEE }).to_vec(),
            });
        }
        scripts.push(Script::alone(Call::VerdictText { register, action, room: 100, fill: b'#' }));
        scripts.extend(json::fixed());
        scripts.push(trees::fixed());
        scripts.extend(tables::fixed());
        scripts
    }

    /// The scripts of one round.
    pub fn round(&mut self, round: usize) -> Vec<Script> {
        let shape = self.shape(round);
        let litter = self.random.chance(50);
        let register = registers::sound(&mut self.random, shape, litter);
        vec![
            self.texts(&register, round),
            self.calls(register.clone()),
            self.trees(register.clone()),
            self.nested(),
            self.defect(round),
            self.sequence(register.clone()),
            Script { register: None, calls: (0..18).map(|_| paths::pair(&mut self.random)).collect() },
            self.json(),
            self.tables(register.clone()),
        ]
        .into_iter()
        .chain(self.as_two(&register, round))
        .chain(self.books(&register))
        .chain(self.proposals(&register))
        .chain(self.whys(&register))
        .collect()
    }

    /// The register as version 2: what the gate and plans say of it where each claim has what it had left, its text, changes of one that
    /// says otherwise, each by itself and one after the other, and one with a defect.
    fn as_two(&mut self, register: &Register, round: usize) -> Vec<Script> {
        let random = &mut self.random;
        let stored = registers::as_two(random, register, true);
        let mut calls: Vec<Call> = (0..5).map(|_| Call::Gate(actions::action(random, register))).collect();
        calls.push(Call::Plan(actions::plan(random, register)));
        calls.extend(trees::calls(&mut self.trees, register, 1));
        let scripts = [register, &stored]
            .map(|register| Script { register: Some(Box::new(register.clone())), calls: calls.clone() });
        let two = registers::as_two(random, register, false);
        let texts = Script { register: None, calls: self.register_texts(&two, round, 6, 2) };
        let tables = self.tables(two.clone());
        let others = [texts, self.changes(two.clone()), self.sequence(two), self.defect(round), tables];
        scripts.into_iter().chain(others).collect()
    }

    /// Changes that leave the register as it was, and its text.
    fn changes(&mut self, register: Box<Register>) -> Script {
        let random = &mut self.random;
        let mut calls = vec![Call::Sound];
        calls.extend((0..10).map(|_| changes::grant(random, &register, false)));
        calls.extend((0..2).map(|_| changes::revoke(random, &register, false)));
        calls.push(changes::clear(random, &register, false));
        let room = texts::room(random, texts::register_text(&register).len(), REGISTER_TEXT);
        calls.push(Call::WriteRegister { room, fill: random.word() as u8 });
        Script { register: Some(register), calls }
    }

    /// The pairs of withdrawals of one round: on a sound register, and now and then on one with a defect.
    pub fn pairs(&mut self, round: usize) -> Vec<Pair> {
        let shape = self.shape(round);
        let litter = self.random.chance(50);
        let mut registers = vec![registers::sound(&mut self.random, shape, litter)];
        if round % 2 == 0 {
            registers[0] = registers::as_two(&mut self.random, &registers[0], false);
        }
        if round % 8 == 0 {
            registers.extend(self.defect(round).register);
        }
        registers.into_iter().map(|register| changes::withdraw_pair(&mut self.random, register)).collect()
    }

    /// The registers of one round that look alike to an action's actor.
    pub fn guesses(&mut self, round: usize) -> Vec<Guess> {
        let shape = self.shape(round);
        let litter = self.random.chance(50);
        let mut register = registers::sound(&mut self.random, shape, litter);
        if round % 2 == 0 {
            register = registers::as_two(&mut self.random, &register, false);
        }
        (0..20).filter_map(|_| guesses::guess(&mut self.random, &register)).collect()
    }

    /// Large registers take the most time, and are the rarest.
    fn shape(&mut self, round: usize) -> Shape {
        let random = &mut self.random;
        match round % 40 {
            0 => FULL,
            13 => registers::within(random, FULL),
            26 => EMPTY,
            7 => Shape { actors: 20, resources: 4, claims: CLAIMS - 4 },
            // Actors enough for the longest chain, and little else.
            10 | 22 | 34 => Shape { actors: 22, resources: 2, claims: HOPS + 8 },
            at if at % 4 == 1 => MEDIUM,
            at if at % 4 == 3 => registers::within(random, MEDIUM),
            at if at % 4 == 2 => registers::within(random, SMALL),
            _ => SMALL,
        }
    }

    /// Calls of every kind that leave the register as it was.
    fn calls(&mut self, register: Box<Register>) -> Script {
        let random = &mut self.random;
        let mut calls = vec![Call::Sound];
        calls.extend((0..14).map(|_| Call::Gate(actions::action(random, &register))));
        calls.extend((0..5).map(|_| Call::Plan(actions::plan(random, &register))));
        calls.extend((0..14).map(|_| changes::grant(random, &register, false)));
        calls.extend((0..8).map(|_| changes::revoke(random, &register, false)));
        calls.extend((0..4).map(|_| changes::clear_resource(random, &register, false)));
        calls.extend((0..4).map(|_| changes::clear_expired(random, &register, false)));
        let length = texts::register_text(&register).len();
        calls.extend((0..2).map(|_| {
            let room = texts::room(random, length, REGISTER_TEXT);
            Call::WriteRegister { room, fill: random.word() as u8 }
        }));
        Script { register: Some(register), calls }
    }

    /// Attaches and fetches over the register, the same as version 2, another one and one that is not sound.
    fn books(&mut self, register: &Register) -> Vec<Script> {
        let random = &mut self.books;
        let mut broken = Box::new(register.clone());
        broken.version = 3;
        let registers = [
            Box::new(register.clone()),
            registers::as_two(random, register, false),
            registers::sound(random, SMALL, false),
            registers::sound(random, SMALL, true),
            broken,
        ];
        books::row(random, &registers)
    }

    /// Questions about the register, the same as version 2, a small one of each version and one that is not sound.
    fn proposals(&mut self, register: &Register) -> Vec<Script> {
        let random = &mut self.proposals;
        let small = registers::sound(random, SMALL, true);
        let mut broken = Box::new(register.clone());
        broken.version = 3;
        let registers = [
            (Box::new(register.clone()), 2),
            (registers::as_two(random, register, false), 2),
            (registers::as_two(random, &small, false), 5),
            (small, 3),
            (broken, 1),
        ];
        registers.map(|(register, questions)| proposals::questions(random, register, questions)).into()
    }

    /// Who may and why, of the register, of the same as version 2, of one whose claims are in each other and of one that is not sound.
    fn whys(&mut self, register: &Register) -> Vec<Script> {
        let random = &mut self.whys;
        let nested = nested::register(random, true);
        let mut broken = Box::new(register.clone());
        broken.version = 3;
        let registers = [
            (Box::new(register.clone()), 14),
            (registers::as_two(random, register, false), 6),
            (nested, 10),
            (broken, 2),
        ];
        registers.map(|(register, count)| why::questions(random, register, count)).into()
    }

    /// Texts of plans in plans.
    fn trees(&mut self, register: Box<Register>) -> Script {
        let calls = trees::calls(&mut self.trees, &register, 17);
        Script { register: Some(register), calls }
    }

    /// Tables beside what the register has.
    fn tables(&mut self, register: Box<Register>) -> Script {
        let calls = tables::calls(&mut self.tables, &register);
        Script { register: Some(register), calls }
    }

    /// Actions that several claims of the actor cover.
    fn nested(&mut self) -> Script {
        let random = &mut self.random;
        let litter = random.chance(50);
        let register = nested::register(random, litter);
        let calls = (0..12).map(|_| Call::Gate(nested::action(random, &register))).collect();
        Script { register: Some(register), calls }
    }

    /// Every call on a register with one defect.
    fn defect(&mut self, round: usize) -> Script {
        let random = &mut self.random;
        let (_, _, defect) = DEFECTS[round % DEFECTS.len()];
        let register = loop {
            let shape = match random.below(30) {
                0 => FULL,
                1..=9 => MEDIUM,
                // Many actors, so that chains can be long.
                10..=11 => Shape { actors: 24, resources: 4, claims: 60 },
                _ => SMALL,
            };
            let litter = random.chance(50);
            let mut register = registers::sound(random, shape, litter);
            if random.chance(50) {
                register = registers::as_two(random, &register, false);
            }
            if defect(&mut register, random) {
                break register;
            }
        };
        let mut calls = vec![
            Call::Sound,
            Call::Gate(actions::action(random, &register)),
            Call::Plan(actions::plan(random, &register)),
            changes::grant(random, &register, false),
            changes::revoke(random, &register, false),
            changes::clear_resource(random, &register, false),
            changes::clear_expired(random, &register, false),
            trees::calls(&mut self.trees, &register, 1).remove(0),
            tables::own(&register),
            Call::WriteRegister { room: random.below(REGISTER_TEXT), fill: random.word() as u8 },
        ];
        if register.actors.count <= ACTORS && register.resources.count <= RESOURCES && register.claims.count <= CLAIMS {
            calls.push(Call::ReadRegister(texts::register_text(&register)));
        }
        Script { register: Some(register), calls }
    }

    /// Grants and withdrawals one after the other, each on what the last one left; clocks go back, ids come again.
    fn sequence(&mut self, register: Box<Register>) -> Script {
        let random = &mut self.random;
        let model = Model::default();
        let mut state = register.clone();
        let mut calls = Vec::new();
        let mut answer = Vec::new();
        for step in 0..24 {
            let call = match random.below(10) {
                0 => Call::Gate(actions::action(random, &state)),
                1 if step % 3 == 0 => Call::Sound,
                2..=3 => changes::revoke(random, &state, true),
                // It takes more with it.
                4 if step % 3 == 0 => changes::clear(random, &state, true),
                _ => changes::grant(random, &state, true),
            };
            answer.clear();
            call.answer(&model, &mut state, &mut answer);
            calls.push(call);
        }
        Script { register: Some(register), calls }
    }

    /// Readings and writings of JSON actions.
    fn json(&mut self) -> Script {
        let random = &mut self.random;
        let mut calls: Vec<Call> = (0..12).map(|_| json::reading(random)).collect();
        calls.extend((0..8).map(|_| json::writing(random)));
        Script { register: None, calls }
    }

    /// Readings and printings about the register's text.
    fn texts(&mut self, register: &Register, round: usize) -> Script {
        // Fewer of the long ones.
        let (readings, printings) = if standing(&register.claims).len() > 100 { (5, 2) } else { (13, 6) };
        let mut calls = self.register_texts(register, round, readings, printings);
        let random = &mut self.random;
        for at in 0..8 {
            let mut action = texts::action_text(&actions::action(random, register));
            if at % 4 != 0 {
                texts::spoil(random, &mut action);
            }
            calls.push(Call::ReadAction(action));
        }
        Script { register: None, calls }
    }

    /// So many readings of the register's text, and so many printings of what the gate says by it.
    fn register_texts(&mut self, register: &Register, round: usize, readings: usize, printings: usize) -> Vec<Call> {
        let random = &mut self.random;
        let base = texts::register_text(register);
        let mut calls = Vec::new();
        calls.extend((0..readings).map(|_| Call::ReadRegister(texts::some_register(random, &base))));
        for at in 0..printings {
            let mut action = texts::action_text(&actions::action(random, register));
            let mut text = base.clone();
            match (round + at) % 8 {
                0 => texts::spoil(random, &mut text),
                1 => texts::spoil(random, &mut action),
                _ => (),
            }
            calls.push(texts::verdict_text(random, text, action));
        }
        calls
    }
}
