//! The picture of the figures, as SVG: how far each call is from its goal, and how each grows with the number of claims.

use crate::figures::{Figures, Row};
use crate::inputs::{Shape, FULL, MEDIUM, SMALL};
use guvrendik_model::types::CLAIMS;
use std::fmt::Write;

const WIDTH: f64 = 1_040.0;
const LIBRARY: &str = "#b3411e";
const MODEL: &str = "#2b6c99";
const GRID: &str = "#dddddd";

/// By shape: the colour and the name in the key. The last is for calls without a register.
const KEY: [(Option<Shape>, &str, &str); 4] = [
    (Some(SMALL), "#7fb069", "(4, 4, 8)"),
    (Some(MEDIUM), "#e0a030", "(16, 16, 64)"),
    (Some(FULL), "#b3411e", "(64, 64, 256)"),
    (None, "#2b6c99", "no register"),
];

pub fn svg(machine: &str, figures: &Figures) -> String {
    let mut body = String::new();
    text(&mut body, 20.0, 30.0, "start", 18, "Library against its goals, and growth with the claims");
    text(&mut body, 20.0, 50.0, "start", 12, machine);
    let bottom = goals(&mut body, &figures.rows, 80.0);
    let bottom = growth(&mut body, figures, bottom + 50.0);
    format!(
        "<svg xmlns=\"http://www.w3.org/2000/svg\" width=\"{WIDTH}\" height=\"{bottom}\" viewBox=\"0 0 {WIDTH} {bottom}\" \
         font-family=\"Helvetica, Arial, sans-serif\">\n<rect width=\"100%\" height=\"100%\" fill=\"white\"/>\n{body}</svg>\n"
    )
}

fn text(out: &mut String, x: f64, y: f64, anchor: &str, size: u32, words: &str) {
    let _ = writeln!(
        out,
        "<text x=\"{x:.1}\" y=\"{y:.1}\" text-anchor=\"{anchor}\" font-size=\"{size}\" fill=\"#222222\">{words}</text>"
    );
}

fn line(out: &mut String, (x1, y1): (f64, f64), (x2, y2): (f64, f64), colour: &str, width: f64) {
    let _ = writeln!(
        out,
        "<line x1=\"{x1:.1}\" y1=\"{y1:.1}\" x2=\"{x2:.1}\" y2=\"{y2:.1}\" stroke=\"{colour}\" stroke-width=\"{width}\"/>"
    );
}

fn dot(out: &mut String, x: f64, y: f64, radius: f64, colour: &str) {
    let _ = writeln!(out, "<circle cx=\"{x:.1}\" cy=\"{y:.1}\" r=\"{radius}\" fill=\"{colour}\"/>");
}

/// The name of each call once, those of one kind together.
fn names(rows: &[Row]) -> Vec<&str> {
    let kind = |name: &str| name.split([' ', ',']).next().map(str::to_owned);
    let mut names: Vec<&str> = Vec::new();
    for row in rows.iter().map(|row| row.name.as_str()) {
        if !names.contains(&row) {
            let last = names.iter().rposition(|name| kind(name) == kind(row));
            names.insert(last.map_or(names.len(), |at| at + 1), row);
        }
    }
    names
}

/// A line for each call, with a dot for each register: its time as a part of what the goal allows, on a scale of doublings.
fn goals(out: &mut String, rows: &[Row], top: f64) -> f64 {
    let names = names(rows);
    let (left, right, step) = (370.0, WIDTH - 30.0, 20.0);
    const LEAST: f64 = 1.0 / 32.0;
    let ticks = [LEAST, 0.0625, 0.125, 0.25, 0.5, 1.0, 2.0, 4.0];
    let most = ticks[ticks.len() - 1];
    let across = |part: f64| left + (part.clamp(LEAST, most) / LEAST).log2() / (most / LEAST).log2() * (right - left);
    let bottom = top + 30.0 + step * names.len() as f64;
    text(out, left, top, "start", 13, "time / time that the goal allows; left of the line at 1 the goal is reached");
    for tick in ticks {
        let (colour, width) = if tick == 1.0 { ("#222222", 1.6) } else { (GRID, 1.0) };
        line(out, (across(tick), top + 10.0), (across(tick), bottom), colour, width);
        text(out, across(tick), bottom + 15.0, "middle", 11, &tick.to_string());
    }
    for (at, name) in names.iter().enumerate() {
        let y = top + 28.0 + step * at as f64;
        text(out, left - 12.0, y + 4.0, "end", 12, name);
        line(out, (left, y), (right, y), GRID, 0.6);
        for row in rows.iter().filter(|row| row.name == **name) {
            if let Some((_, colour, _)) = KEY.iter().find(|(shape, ..)| *shape == row.shape) {
                dot(out, across(row.library / row.allowed()), y, 5.0, colour);
            }
        }
    }
    for (at, (_, colour, name)) in KEY.iter().enumerate() {
        let y = top + 28.0 + step * at as f64;
        dot(out, 25.0, y, 5.0, colour);
        text(out, 36.0, y + 4.0, "start", 12, name);
    }
    bottom + 20.0
}

/// A small chart for each call: library and model in microseconds, by the number of claims.
fn growth(out: &mut String, figures: &Figures, top: f64) -> f64 {
    let (columns, wide, high, step_x, step_y) = (4, 190.0, 120.0, 252.0, 180.0);
    let Some(most) = figures.growth.last() else { return top };
    text(out, 20.0, top, "start", 13, "microseconds by the number of claims, on 64 actors and 64 resources:");
    for (at, (colour, name)) in [(LIBRARY, "library"), (MODEL, "model")].into_iter().enumerate() {
        let x = 500.0 + 90.0 * at as f64;
        line(out, (x, top - 4.0), (x + 22.0, top - 4.0), colour, 2.5);
        text(out, x + 28.0, top, "start", 12, name);
    }
    for (at, name) in most.rows.iter().map(|row| &row.name).enumerate() {
        let left = 55.0 + step_x * (at % columns) as f64;
        let base = top + 50.0 + high + step_y * (at / columns) as f64;
        let points: Vec<(usize, &Row)> = figures
            .growth
            .iter()
            .filter_map(|growth| Some((growth.claims, growth.rows.iter().find(|row| row.name == *name)?)))
            .collect();
        let highest = points.iter().map(|(_, row)| row.library.max(row.model)).fold(1.0, f64::max);
        let x = |claims: usize| left + wide * claims as f64 / CLAIMS as f64;
        let y = |time: f64| base - high * time / highest;
        text(out, left, base - high - 10.0, "start", 12, name);
        for part in [0.0, 0.5, 1.0] {
            line(out, (left, y(part * highest)), (left + wide, y(part * highest)), GRID, 1.0);
            text(out, left - 6.0, y(part * highest) + 4.0, "end", 10, &format!("{:.0}", part * highest / 1_000.0));
        }
        for claims in [0, CLAIMS / 2, CLAIMS] {
            text(out, x(claims), base + 14.0, "middle", 10, &claims.to_string());
        }
        for (colour, time) in [(LIBRARY, (|row| row.library) as fn(&Row) -> f64), (MODEL, |row| row.model)] {
            for pair in points.windows(2) {
                let end = |(claims, row): (usize, &Row)| (x(claims), y(time(row)));
                line(out, end(pair[0]), end(pair[1]), colour, 2.0);
            }
        }
    }
    top + 30.0 + step_y * most.rows.len().div_ceil(columns) as f64 + 20.0
}
