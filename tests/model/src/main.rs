//! Compares the library behind a driver with the model.
//!
//! usage: compare [--seed N] [--rounds N] [--fault NAME] [--found FOLDER] [--lent-stack BYTES] -- DRIVER [ARGUMENT..]

mod case;
mod compare;
mod driver;
mod generate;
mod guesses;
mod pairs;
mod saved;
mod shrink;

use compare::Comparison;
use generate::random::Random;
use generate::Generator;
use guvrendik_model::layout;
use guvrendik_model::model::{Fault, Model};
use std::io;
use std::path::PathBuf;
use std::process::ExitCode;
use std::time::Instant;

const SEED: u64 = 20_260_101;
const ROUNDS: usize = 1_800;
/// A fault has to be found in so many rounds.
const FAULT_ROUNDS: usize = 60;
/// So much stack may the containment of lent paths take: less than the shortest of them is long.
const LENT_STACK: u64 = 48;
/// After so many scripts with a difference, a run ends.
const ENOUGH: usize = 40;

struct Options {
    seed: u64,
    rounds: usize,
    /// Compare with this fault in the model, and show what is found.
    fault: Option<Fault>,
    found: PathBuf,
    lent_stack: u64,
    driver: Vec<String>,
}

fn options() -> Result<Options, String> {
    let mut options = Options {
        seed: SEED,
        rounds: ROUNDS,
        fault: None,
        found: PathBuf::from("tests/found"),
        lent_stack: LENT_STACK,
        driver: Vec::new(),
    };
    let mut words = std::env::args().skip(1);
    while let Some(word) = words.next() {
        if word == "--" {
            options.driver = words.by_ref().collect();
            break;
        }
        let value = words.next().ok_or_else(|| format!("{word} needs a value"))?;
        let number = || value.parse::<u64>().map_err(|_| format!("{word} needs a number"));
        match word.as_str() {
            "--seed" => options.seed = number()?,
            "--rounds" => options.rounds = number()? as usize,
            "--found" => options.found = PathBuf::from(value),
            "--lent-stack" => options.lent_stack = number()?,
            "--fault" => {
                let known = Fault::ALL.iter().find(|(name, _)| *name == value);
                let names = || Fault::ALL.map(|(name, _)| name).join(", ");
                options.fault = Some(known.ok_or_else(|| format!("the faults are {}", names()))?.1);
            }
            _ => return Err(format!("unknown option {word}")),
        }
    }
    if options.driver.is_empty() {
        return Err("no driver after --".to_owned());
    }
    Ok(options)
}

fn main() -> ExitCode {
    let options = match options() {
        Ok(options) => options,
        Err(why) => {
            eprintln!("compare: {why}");
            eprintln!("usage: compare [--seed N] [--rounds N] [--fault NAME] [--found FOLDER] [--lent-stack BYTES] -- DRIVER [ARGUMENT..]");
            return ExitCode::from(2);
        }
    };
    let result = match options.fault {
        Some(fault) => show_fault(&options, fault),
        None => run(&options),
    };
    match result {
        Ok((passed, failed)) => {
            println!("{passed} passed, {failed} failed");
            ExitCode::from(u8::from(failed != 0))
        }
        Err(error) => {
            println!("compare: {error}");
            println!("0 passed, 1 failed");
            ExitCode::FAILURE
        }
    }
}

/// Everything: the boundary, what was found before, the fixed and the random scripts, and the faults.
fn run(options: &Options) -> io::Result<(u64, u64)> {
    println!("seed {}, {} rounds", options.seed, options.rounds);
    if let Some((header, model)) = layout::difference() {
        println!("layout.h has {header}, the model {model}");
        return Ok((0, 1));
    }
    let mut comparison = Comparison::start(&options.driver, Model::default())?;
    let clock = Instant::now();
    comparison.replay(&options.found)?;
    let mut random = Random::new(options.seed);
    comparison.boundary(&mut random)?;
    comparison.threads(&mut random)?;
    comparison.stack(&mut random)?;
    comparison.lent_stack(options.lent_stack)?;
    comparison.words()?;
    println!("{:.1} s until here", clock.elapsed().as_secs_f64());

    let mut generator = Generator::new(options.seed);
    let fixed = generator.fixed();
    let rounds = (0..options.rounds).flat_map(move |round| generator.round(round));
    let mut findings = comparison.run(fixed.into_iter().chain(rounds), ENOUGH)?;
    let mut generator = Generator::new(options.seed);
    let pairs = (0..options.rounds).flat_map(move |round| generator.pairs(round));
    findings.extend(comparison.pairs(pairs, ENOUGH)?);
    let mut generator = Generator::new(options.seed);
    let guesses = (0..options.rounds).flat_map(move |round| generator.guesses(round));
    findings.extend(comparison.guesses(guesses, ENOUGH)?);
    comparison.report(findings, &options.found, options.seed)?;
    comparison.tally.summarise();
    println!("{:.1} s until here", clock.elapsed().as_secs_f64());
    let (mut passed, mut failed) = (comparison.tally.passed, comparison.tally.failed);
    drop(comparison);

    for (name, fault) in Fault::ALL {
        let (found, cases) = find_fault(options, fault)?;
        match found {
            Some(call) => println!("fault {name}: found at guvrendik_{call}, within {cases} cases"),
            None => println!("fault {name}: NOT FOUND in {cases} cases"),
        }
        passed += u64::from(found.is_some());
        failed += u64::from(found.is_none());
    }
    println!("{:.1} s in all", clock.elapsed().as_secs_f64());
    Ok((passed, failed))
}

/// The name of the call that a faulty model first differs at, and after how many cases.
fn find_fault(options: &Options, fault: Fault) -> io::Result<(Option<&'static str>, u64)> {
    let mut comparison = Comparison::start(&options.driver, Model { fault: Some(fault) })?;
    let mut generator = Generator::new(options.seed);
    let rounds = (0..FAULT_ROUNDS).flat_map(move |round| generator.round(round));
    let findings = comparison.run(rounds, 1)?;
    let first = findings.first().map(|finding| finding.script.calls[finding.difference.call].name());
    Ok((first, comparison.tally.passed + comparison.tally.failed))
}

/// Shows what the comparison makes of one fault: the difference made small, saved in the system's folder for passing files.
fn show_fault(options: &Options, fault: Fault) -> io::Result<(u64, u64)> {
    let mut comparison = Comparison::start(&options.driver, Model { fault: Some(fault) })?;
    let mut generator = Generator::new(options.seed);
    let rounds = (0..options.rounds).flat_map(move |round| generator.round(round));
    let mut findings = comparison.run(rounds, 1)?;
    findings.truncate(1);
    comparison.report(findings, &std::env::temp_dir(), options.seed)?;
    Ok((comparison.tally.passed, comparison.tally.failed))
}
