//! What was measured, and the goals it is held to.

use crate::cases::{self, Case};
use crate::inputs::{Shape, FULL, SMALL};
use crate::measure;
use guvrendik_model::types::CLAIMS;

/// Turns of each case. The least of so many is steady also where others use the machine.
const TURNS: usize = 400;

/// Times in nanoseconds.
pub struct Row {
    pub name: String,
    pub shape: Option<Shape>,
    pub bytes: Option<usize>,
    pub goal: Goal,
    pub library: f64,
    pub model: f64,
    /// Of the gate: the library's soundness and the model's gate without it.
    pub parts: Option<[f64; 2]>,
    /// One copy of a register, taken in the same turns.
    pub copy: f64,
}

/// What a call may take.
#[derive(Clone, Copy)]
pub enum Goal {
    /// So many times the model.
    Times(f64),
    TwiceTheModelAndFourCopies,
}

impl Goal {
    /// Of a call that judges a register: on the full one so many times the model, on the small one so many, on the one between 2.5 times.
    pub fn judging(shape: Shape, full: f64, small: f64) -> Goal {
        Goal::Times(match shape {
            FULL => full,
            SMALL => small,
            _ => 2.5,
        })
    }

    /// Of a text of a register of this shape.
    pub fn texts(shape: Shape) -> Goal {
        if shape == FULL {
            Goal::Times(2.0)
        } else {
            Goal::TwiceTheModelAndFourCopies
        }
    }
}

impl Row {
    fn of(case: Case, copy: &mut measure::Timed<'static>) -> Row {
        let mut calls = vec![case.library, case.model, std::mem::replace(copy, Box::new(|_| ()))];
        calls.extend(case.parts.into_iter().flatten());
        let times = measure::least(&mut calls, TURNS);
        *copy = calls.swap_remove(2);
        let (name, shape, bytes, goal) = (case.name, case.shape, case.bytes, case.goal);
        let parts = times.get(3).map(|&gate| [times[4], gate]);
        Row { name, shape, bytes, goal, library: times[0], model: times[1], parts, copy: times[2] }
    }

    pub fn ratio(&self) -> f64 {
        self.library / self.model
    }

    /// The most that the call may take.
    pub fn allowed(&self) -> f64 {
        match self.goal {
            Goal::Times(most) => most * self.model,
            Goal::TwiceTheModelAndFourCopies => 2.0 * self.model + 4.0 * self.copy,
        }
    }

    /// Whether the goal is reached, judged as it is shown: to the second place.
    pub fn reached(&self) -> bool {
        (self.library / self.allowed() * 100.0).round() <= 100.0
    }
}

/// The cases by their number of claims.
pub struct Growth {
    pub claims: usize,
    pub rows: Vec<Row>,
}

pub struct Figures {
    pub rows: Vec<Row>,
    pub growth: Vec<Growth>,
}

impl Figures {
    pub fn measure() -> Figures {
        let copy = &mut cases::copy();
        let mut rows = |cases: Vec<Case>| -> Vec<Row> { cases.into_iter().map(|case| Row::of(case, copy)).collect() };
        let growth =
            (0..=CLAIMS).step_by(32).map(|claims| Growth { claims, rows: rows(cases::grown(claims)) }).collect();
        Figures { rows: rows(cases::all()), growth }
    }
}
