//! Runs a program on every case of tests/json/table, which says what a case is, and compares what it prints.
//!
//! usage: json_table PROGRAM [ARGUMENT..]

use std::fs;
use std::io;
use std::path::Path;
use std::process::{Command, ExitCode, Stdio};

const TABLE: &str = include_str!("../../../json/table");
const REGISTER: &str = include_str!("../../../../examples/case-r/register.txt");
const CLOCK: &str = "now=1999\n";
/// Fewer would mean that the table was not read.
const LEAST: usize = 200;

/// The files of a case, in the order of reading. `None` where there is no such file.
type Files = [(&'static str, Option<Vec<u8>>); 3];

struct Case {
    /// Its line in the table.
    line: usize,
    changes: String,
    files: Files,
    printed: String,
    why: String,
}

/// The cases, or what is wrong with the table.
fn cases() -> Result<Vec<Case>, String> {
    let page: String = TABLE.lines().filter_map(|line| line.strip_prefix("page ")).collect();
    let mut cases = Vec::new();
    for (at, line) in TABLE.lines().enumerate() {
        if !(line.is_empty() || line.starts_with('#') || line.starts_with("page ")) {
            cases.push(case(at + 1, line, &page).map_err(|why| format!("tests/json/table, line {}: {why}", at + 1))?);
        }
    }
    Ok(cases)
}

fn case(line: usize, text: &str, page: &str) -> Result<Case, String> {
    let columns: Vec<&str> = text.split(" | ").collect();
    let [changes, printed, why] = columns[..] else {
        return Err("three columns are due".to_owned());
    };
    let mut files: Files = [
        ("register.txt", Some(REGISTER.into())),
        ("clock.txt", Some(CLOCK.into())),
        ("action.json", Some(page.into())),
    ];
    if changes != "-" {
        changes.split(" & ").try_for_each(|change| make(change, &mut files))?;
    }
    Ok(Case { line, changes: changes.to_owned(), files, printed: lines(printed)?, why: why.to_owned() })
}

/// Makes one change.
fn make(change: &str, files: &mut Files) -> Result<(), String> {
    let (file, rest) = change.split_once(' ').ok_or("a change without a verb")?;
    let (verb, text) = rest.split_once(' ').unwrap_or((rest, ""));
    let (_, content) =
        files.iter_mut().find(|(name, _)| name.split('.').next() == Some(file)).ok_or("an unknown file")?;
    if verb == "missing" {
        *content = None;
        return Ok(());
    }
    let bytes = content.as_mut().ok_or("the file is missing already")?;
    match verb {
        "put" => {
            let (old, new) = text.split_once(" =>").ok_or("no => in it")?;
            replace(bytes, old, new.strip_prefix(' ').unwrap_or(new))?;
        }
        "drop" => replace(bytes, text, "")?,
        "before" => drop(bytes.splice(..0, plain(text)?)),
        "after" => bytes.extend(plain(text)?),
        "whole" => *bytes = plain(text)?,
        "blanks" => bytes.resize(text.parse().map_err(|_| "no number of bytes")?, b' '),
        _ => return Err(format!("an unknown verb: {verb}")),
    }
    Ok(())
}

/// Puts new bytes in place of old ones, which stand there once.
fn replace(bytes: &mut Vec<u8>, old: &str, new: &str) -> Result<(), String> {
    let (old, new) = (plain(old)?, plain(new)?);
    let places: Vec<usize> = (0..bytes.len()).filter(|&at| !old.is_empty() && bytes[at..].starts_with(&old)).collect();
    let [at] = places[..] else {
        return Err(format!("what is to be changed stands there {} times", places.len()));
    };
    bytes.splice(at..at + old.len(), new);
    Ok(())
}

/// The bytes that a text of the table means.
fn plain(text: &str) -> Result<Vec<u8>, String> {
    let mut bytes = Vec::new();
    let mut rest = text;
    while let Some(first) = rest.chars().next() {
        rest = &rest[first.len_utf8()..];
        match first {
            '\\' => {
                let name = rest.chars().next().ok_or("a text that ends in \\")?;
                rest = &rest[name.len_utf8()..];
                bytes.push(match name {
                    'n' => b'\n',
                    't' => b'\t',
                    'r' => b'\r',
                    's' => b' ',
                    '\\' => b'\\',
                    'x' => {
                        let digits = rest.get(..2).ok_or("\\x without two digits")?;
                        rest = &rest[2..];
                        u8::from_str_radix(digits, 16).map_err(|_| "\\x without two digits")?
                    }
                    _ => return Err(format!("an unknown byte: \\{name}")),
                });
            }
            '(' => {
                let (inside, after) = rest.split_once("){").ok_or("( without ){")?;
                let (times, after) = after.split_once('}').ok_or("{ without }")?;
                let times = times.parse().map_err(|_| "no number of times")?;
                bytes.extend(plain(inside)?.repeat(times));
                rest = after;
            }
            _ => bytes.extend(first.to_string().bytes()),
        }
    }
    Ok(bytes)
}

/// The lines that are printed, from the table's short form of them.
fn lines(printed: &str) -> Result<String, String> {
    let words: Vec<&str> = printed.split(' ').collect();
    match words[..] {
        ["permitted"] => Ok("verdict=permitted\nviolations=0\n".to_owned()),
        ["stopped", refusal] => Ok(format!("verdict=stopped\nrefusal={refusal}\n")),
        ["refused", ref violations @ ..] if !violations.is_empty() => {
            let mut lines = format!("verdict=refused\nviolations={}\n", violations.len());
            for violation in violations {
                let (kind, at) = violation.split_once('@').ok_or("a violation is KIND@AT")?;
                lines += &format!("violation={kind}\nat={at}\n");
            }
            Ok(lines)
        }
        _ => Err("what is printed is permitted, refused or stopped".to_owned()),
    }
}

/// What the program prints in a folder that has the case's files and nothing else.
fn printed(program: &[String], folder: &Path, files: &Files) -> io::Result<Result<Vec<u8>, String>> {
    fs::create_dir(folder)?;
    for (name, content) in files {
        if let Some(content) = content {
            fs::write(folder.join(name), content)?;
        }
    }
    let output = Command::new(&program[0]).args(&program[1..]).current_dir(folder).stdin(Stdio::null()).output()?;
    fs::remove_dir_all(folder)?;
    // The rule book does not say the exit status: it is only asked to be no signal and no failure to start.
    Ok(match output.status.code() {
        Some(code) if code < 126 => Ok(output.stdout),
        _ => Err(format!("{}: {}", output.status, String::from_utf8_lossy(&output.stderr).trim_end())),
    })
}

fn run(program: &[String]) -> Result<bool, String> {
    let cases = cases()?;
    if cases.len() < LEAST {
        return Err(format!("tests/json/table has {} cases, and at least {LEAST} are due", cases.len()));
    }
    let folder = std::env::temp_dir().join(format!("json-table-{}", std::process::id()));
    let mut failed = 0;
    for Case { line, changes, files, printed: expected, why } in &cases {
        let told = match printed(program, &folder, files).map_err(|error| error.to_string())? {
            Ok(got) if got == expected.as_bytes() => None,
            Ok(got) => Some(String::from_utf8_lossy(&got).into_owned()),
            Err(status) => Some(status),
        };
        let mark = if told.is_none() { "ok" } else { "FAILED" };
        println!("{mark} line {line}: {changes:.100} | {why}");
        if let Some(told) = told {
            println!("expected:\n{expected}printed:\n{told}");
            failed += 1;
        }
    }
    println!("{} passed, {failed} failed", cases.len() - failed);
    Ok(failed == 0)
}

fn main() -> ExitCode {
    let program: Vec<String> = std::env::args().skip(1).collect();
    if program.is_empty() {
        eprintln!("usage: json_table PROGRAM [ARGUMENT..]");
        return ExitCode::from(2);
    }
    match run(&program) {
        Ok(passed) => ExitCode::from(u8::from(!passed)),
        Err(why) => {
            println!("{why}\n0 passed, 1 failed");
            ExitCode::FAILURE
        }
    }
}

#[cfg(test)]
mod tests {
    use super::*;
    use guvrendik_model::model::Model;

    /// Of a file no more is read.
    const MOST: usize = 65_536;

    #[test]
    fn the_model_prints_what_the_table_says() {
        let cases = cases().expect("a table of the form");
        assert!(cases.len() >= LEAST);
        for Case { line, files, printed, why, .. } in cases {
            let texts = files.map(|(_, content)| {
                let mut content = content.unwrap_or_default();
                content.truncate(MOST);
                content
            });
            let mut buffer = [0; 1_103];
            let [register, clock, action] = &texts;
            let length = Model::default().json_verdict_text(register, clock, action, &mut buffer).expect("room");
            assert_eq!(String::from_utf8_lossy(&buffer[..length]), printed, "line {line}: {why}");
        }
    }
}
