//! The tables of RESULTS.md.

use crate::figures::{Figures, Goal, Row};
use crate::inputs::{Shape, FULL};
use crate::stack::Stack;
use std::fmt::Write;
use std::{fs, io};

const START: &str = "<!-- figures: written by bench/run -->\n";
const END: &str = "<!-- end of figures -->\n";

/// No call may take more stack than this, and one of a JSON action no more than that.
const STACK_GOAL: u64 = 100_000;
const JSON_STACK_GOAL: u64 = 8_000;

/// Puts the tables between the marks of the file.
pub fn replace(file: &str, tables: &str) -> io::Result<()> {
    let text = fs::read_to_string(file)?;
    let marks = text.find(START).zip(text.find(END));
    let (start, end) = marks.ok_or_else(|| io::Error::other(format!("{file} lacks the marks of the figures")))?;
    fs::write(file, format!("{}{START}{tables}{}", &text[..start], &text[end..]))
}

pub fn shape_name(shape: Option<Shape>) -> String {
    shape.map_or_else(|| "-".to_owned(), |shape| shape.name())
}

/// Nanoseconds below ten microseconds, and microseconds from there on.
fn time(nanoseconds: f64) -> String {
    match nanoseconds {
        n if n < 100.0 => format!("{n:.1} ns"),
        n if n < 10_000.0 => format!("{n:.0} ns"),
        n => format!("{:.1} µs", n / 1_000.0),
    }
}

/// Megabytes to the second.
fn speed(bytes: usize, nanoseconds: f64) -> String {
    format!("{:.0}", bytes as f64 * 1_000.0 / nanoseconds)
}

pub fn tables(machine: &str, build: &str, figures: &Figures, stack: &[Stack]) -> String {
    let mut out = format!("\nMachine: {machine}.\nLibrary: {build}.\n\n");
    let copy = figures.rows.iter().map(|row| row.copy).fold(f64::INFINITY, f64::min);
    let reached = figures.rows.iter().filter(|row| row.reached()).count();
    let _ =
        writeln!(out, "One copy of a register: {}. Goals reached: {reached} of {}.", time(copy), figures.rows.len());
    let is_full = |row: &&Row| row.shape == Some(FULL) && row.parts.is_some();
    calls(&mut out, "### Calls", &figures.rows);
    gates(&mut out, &figures.rows.iter().filter(is_full).collect::<Vec<_>>());
    texts(&mut out, &figures.rows.iter().filter(|row| row.bytes.is_some()).collect::<Vec<_>>());
    growth(&mut out, figures);
    stacks(&mut out, stack);
    out.push('\n');
    out
}

fn calls(out: &mut String, title: &str, rows: &[Row]) {
    let _ = write!(
        out,
        "\n{title}\n\nThe goal is so many times the model, or 2 times and four copies of a register (2+).\n\n"
    );
    out.push_str("| call | register | library | model | library / model | goal | allowed | library / allowed | |\n");
    out.push_str("|---|---|--:|--:|--:|---|--:|--:|---|\n");
    for row in rows {
        let goal = match row.goal {
            Goal::Times(most) => most.to_string(),
            Goal::TwiceTheModelAndFourCopies => "2+".to_owned(),
        };
        let _ = writeln!(
            out,
            "| {} | {} | {} | {} | {:.2} | {goal} | {} | {:.2} | {} |",
            row.name,
            shape_name(row.shape),
            time(row.library),
            time(row.model),
            row.ratio(),
            time(row.allowed()),
            row.library / row.allowed(),
            if row.reached() { "reached" } else { "**missed**" }
        );
    }
}

fn gates(out: &mut String, rows: &[&Row]) {
    out.push_str("\n### The gate on the full register, by its parts\n\n");
    out.push_str("| gate | library | library's soundness | what is left | model without soundness | left / model |\n");
    out.push_str("|---|--:|--:|--:|--:|--:|\n");
    for row in rows {
        if let Some([soundness, gate]) = row.parts {
            let left = row.library - soundness;
            let _ = writeln!(
                out,
                "| {} | {} | {} | {} | {} | {:.1} |",
                row.name.trim_start_matches("gate, "),
                time(row.library),
                time(soundness),
                time(left),
                time(gate),
                left / gate
            );
        }
    }
}

fn texts(out: &mut String, rows: &[&Row]) {
    out.push_str("\n### Bytes\n\n| call | register | bytes | library MB/s | model MB/s |\n|---|---|--:|--:|--:|\n");
    for row in rows {
        if let Some(bytes) = row.bytes {
            let (library, model) = (speed(bytes, row.library), speed(bytes, row.model));
            let _ = writeln!(out, "| {} | {} | {bytes} | {library} | {model} |", row.name, shape_name(row.shape));
        }
    }
}

/// The library's time, and beside it the model's, by call and number of claims.
fn growth(out: &mut String, figures: &Figures) {
    out.push_str(
        "\n### Growth with the number of claims\n\n64 actors, 64 resources. Library / model, in microseconds. ",
    );
    out.push_str("A grant on 256 claims would be refused: it is made on 255.\n\n| claims |");
    let Some(names) = figures.growth.last().map(|most| most.rows.iter().map(|row| &row.name).collect::<Vec<_>>())
    else {
        return;
    };
    names.iter().for_each(|name| out.push_str(&format!(" {name} |")));
    let _ = writeln!(out, "\n|--:|{}", "--:|".repeat(names.len()));
    for at in &figures.growth {
        let _ = write!(out, "| {} |", at.claims);
        for name in &names {
            match at.rows.iter().find(|row| row.name == **name) {
                Some(row) => {
                    let _ = write!(out, " {:.1} / {:.1} |", row.library / 1_000.0, row.model / 1_000.0);
                }
                None => out.push_str(" - |"),
            }
        }
        out.push('\n');
    }
}

fn stacks(out: &mut String, stack: &[Stack]) {
    out.push_str(
        "\n### Stack\n\nGoal: at most 100,000 bytes, of a JSON action 8,000, on the x86-64 library, the caller's copies included.\n\n",
    );
    out.push_str("| call | bytes | |\n|---|--:|---|\n");
    for Stack { call, bytes } in stack {
        let goal = if call.ends_with("_json") { JSON_STACK_GOAL } else { STACK_GOAL };
        let reached = if *bytes <= goal { "reached" } else { "**missed**" };
        let _ = writeln!(out, "| {call} | {bytes} | {reached} |");
    }
}
