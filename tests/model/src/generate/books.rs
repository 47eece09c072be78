//! Attaches and fetches in a row, over several registers. The book is handed on from call to call as the model leaves it.

use super::actions::moment;
use super::random::Random;
use super::registers::standing;
use crate::case::{Call, Script};
use guvrendik_model::model::Model;
use guvrendik_model::types::*;

/// How many calls a row has, and how many are made on one register before another is taken.
const ROW: usize = 60;
const PART: usize = 5;

/// A row of calls over the registers. Its scripts are to be made in their order.
pub fn row(random: &mut Random, registers: &[Box<Register>]) -> Vec<Script> {
    let mut book = Box::new(start(random, registers));
    (0..ROW / PART)
        .map(|_| {
            let register = random.pick(registers).clone();
            let calls = (0..PART).map(|_| call(random, &register, &mut book)).collect();
            Script { register: Some(register), calls }
        })
        .collect()
}

pub fn fingerprint(random: &mut Random) -> Fingerprint {
    match random.below(8) {
        0 => Fingerprint::ZERO,
        _ => Fingerprint { bytes: std::array::from_fn(|_| random.word() as u8) },
    }
}

/// The book that a row begins with: empty, with some entries, nearly full, full or broken; past its count there may be entries too.
fn start(random: &mut Random, registers: &[Box<Register>]) -> Book {
    let mut book = Book::EMPTY;
    let mut numbers: Vec<u32> = (0..PLACES).map(|at| 70_000 + 512 * at as u32).collect();
    let known: Vec<u32> =
        registers.iter().flat_map(|register| standing(&register.resources)).map(|one| one.id).collect();
    for number in known {
        if random.chance(30) && !numbers.contains(&number) {
            let at = random.below(PLACES);
            numbers[at] = number;
        }
    }
    if random.chance(70) {
        for (entry, number) in book.entries.iter_mut().zip(numbers) {
            *entry = Entry { resource: number, fingerprint: fingerprint(random) };
        }
    }
    let stands = book.entries[0] != Entry::ZERO;
    book.count = match random.below(12) {
        _ if !stands => 0,
        0..=2 => 0,
        3..=4 => PLACES - 1,
        5..=6 => PLACES,
        7 => *random.pick(&[PLACES + 1, 256, 257, usize::MAX]),
        _ => random.below(PLACES),
    };
    if random.chance(8) && (2..=PLACES).contains(&book.count) {
        book.entries[book.count - 1].resource = book.entries[random.below(book.count - 1)].resource;
    }
    book
}

/// A book as a row begins with, where one of its entries is often of this number.
pub fn about(random: &mut Random, registers: &[Box<Register>], resource: Option<u32>) -> Book {
    let mut book = start(random, registers);
    let has = |number| book.entries.iter().any(|entry| entry.resource == number);
    if let Some(number) = resource.filter(|&number| random.chance(60) && book.count > 0 && !has(number)) {
        let at = random.below(book.count.min(PLACES));
        book.entries[at] = Entry { resource: number, fingerprint: fingerprint(random) };
    }
    book
}

/// A call, mostly about what a claim is on and by who holds it or another.
fn call(random: &mut Random, register: &Register, book: &mut Box<Book>) -> Call {
    let claims = standing(&register.claims);
    let (actors, resources) = (standing(&register.actors), standing(&register.resources));
    let (mut actor, mut resource) = (1, 1);
    if !actors.is_empty() {
        actor = random.pick(actors).id;
    }
    if !resources.is_empty() {
        resource = random.pick(resources).id;
    }
    if !claims.is_empty() && random.chance(75) {
        let claim = random.pick(claims);
        (actor, resource) = (claim.holder, claim.resource);
    }
    let mut now = moment(random, register);
    match random.below(40) {
        0 => actor = *random.pick(&[0, ID_MAX, ID_MAX + 1, u32::MAX]),
        1 => resource = *random.pick(&[0, ID_MAX, ID_MAX + 1, u32::MAX]),
        2 => now = *random.pick(&[MOMENT_MAX + 1, u64::MAX]),
        3 => resource = random.pick(&book.entries).resource,
        _ => (),
    }
    if random.chance(50) {
        return Call::Fetch { book: book.clone(), actor, resource, now };
    }
    let fingerprint = fingerprint(random);
    let call = Call::Attach { book: book.clone(), actor, resource, now, fingerprint };
    // Refused, the book is as it was.
    let _ = Model::default().attach(book, register, actor, resource, now, fingerprint);
    call
}
