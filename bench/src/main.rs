//! Times the library and the model on the same inputs in one run.
//!
//! usage: bench measure RESULTS FIGURES MACHINE BUILD -- DRIVER [ARGUMENT..]
//!        bench profile CASE SHAPE SECONDS
//!
//! RESULTS has the marks that the tables go between, FIGURES is written whole, MACHINE names the machine in both, and BUILD the library that
//! is timed in the first. DRIVER is tests/model/driver.c, linked with the x86-64 library.

mod cases;
mod figures;
mod inputs;
mod library;
mod measure;
mod picture;
#[allow(dead_code)]
#[path = "../../tests/model/src/generate/random.rs"]
mod random;
mod report;
mod stack;

use figures::Figures;
use std::time::{Duration, Instant};
use std::{env, fs, io, process};

fn main() -> io::Result<()> {
    let words: Vec<String> = env::args().skip(1).collect();
    let words: Vec<&str> = words.iter().map(String::as_str).collect();
    match words[..] {
        ["measure", results, figures, machine, build, "--", driver, ref arguments @ ..] => {
            let stack = stack::of(driver, arguments)?;
            let measured = Figures::measure();
            report::replace(results, &report::tables(machine, build, &measured, &stack))?;
            fs::write(figures, picture::svg(machine, &measured))
        }
        ["profile", name, shape, seconds] => {
            profile(name, shape, Duration::from_secs(seconds.parse().expect("a number of seconds")));
            Ok(())
        }
        _ => {
            eprintln!("usage: bench measure RESULTS FIGURES MACHINE BUILD -- DRIVER [ARGUMENT..]");
            eprintln!("       bench profile CASE SHAPE SECONDS");
            process::exit(2);
        }
    }
}

/// Makes one call over and over, for a profiler to look at, and says how long it took at least.
fn profile(name: &str, shape: &str, time: Duration) {
    const BATCH: u32 = 20;
    let is_asked = |case: &cases::Case| case.name == name && report::shape_name(case.shape) == shape;
    let mut case = cases::all().into_iter().find(is_asked).expect("a case and a shape as in the tables");
    let clock = Instant::now();
    let mut calls = 0;
    let mut least = Duration::MAX;
    while clock.elapsed() < time {
        let batch = Instant::now();
        (0..BATCH as usize).for_each(&mut case.library);
        least = least.min(batch.elapsed());
        calls += BATCH;
    }
    println!("{calls} calls, {} ns each at least", (least / BATCH).as_nanos());
}
