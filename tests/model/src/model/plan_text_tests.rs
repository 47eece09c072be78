//! Plan texts: T-01's sentences, the readings taken of them, and the folders that the program for plan texts is tried on.

use super::*;
use crate::types::*;
use std::fs;
use std::path::Path;

const MODEL: Model = Model { fault: None };
const REGISTER: &str = include_str!("../../../../examples/case-r/register.txt");
/// What machine 2 may do until 2000, and the same with flag 0 set.
const READS: &str = "step=action now=1999 actor=2 flags=0 uses=1 use=10 right=0 governs=0 ";
const FLAGGED: &str = "step=action now=1999 actor=2 flags=1 uses=1 use=10 right=0 governs=0 ";
const ABSENT: &str = "step=action now=1999 actor=9 flags=0 uses=0 governs=0 ";

/// One line to each item split by spaces.
fn lines(items: &str) -> String {
    items.split_whitespace().flat_map(|item| [item, "\n"]).collect()
}

fn case_r() -> Register {
    let mut register = Register::EMPTY;
    MODEL.read_register(REGISTER.as_bytes(), &mut register).expect("case R is sound");
    register
}

fn judged(text: &str) -> PlanTextVerdict {
    MODEL.judge_plan_text(&case_r(), text.as_bytes())
}

/// The refusal, the line and the position.
fn stopped(text: &str) -> (u32, usize, usize) {
    let verdict = judged(text);
    assert_eq!((verdict.accepted, verdict.count, verdict.list), (0, 0, PlanTextVerdict::EMPTY.list));
    (verdict.refusal, verdict.line, verdict.position)
}

/// The decisions, each with its number of violations.
fn verdicts(text: &str) -> Vec<(u32, u32)> {
    let verdict = judged(text);
    assert_eq!((verdict.accepted, verdict.refusal, verdict.line, verdict.position), (1, 0, 0, 0));
    assert!(verdict.list[verdict.count..].iter().all(|past| *past == Judgement { decision: 0, violations: 0 }));
    verdict.list[..verdict.count].iter().map(|one| (one.decision, one.violations)).collect()
}

/// So many levels of plans, each the one step of the one around it; the innermost has these steps.
fn deep(levels: usize, steps: usize, inside: &str) -> String {
    lines(&format!("{}plan={steps} {inside}", "plan=1 step=plan ".repeat(levels - 1)))
}

#[test]
fn verdicts_come_in_reading_order_and_a_flag_cancels_across_borders() {
    let text = lines(&format!("plan=3 {READS} step=plan plan=2 {FLAGGED} {READS} {READS}"));
    assert_eq!(verdicts(&text), [(PERMITTED, 0), (REFUSED, 1), (CANCELLED, 0), (CANCELLED, 0)]);
    let text = lines(&format!("plan=2 step=plan plan=1 {FLAGGED} step=plan plan=1 step=plan plan=1 {READS}"));
    assert_eq!(verdicts(&text), [(REFUSED, 1), (CANCELLED, 0)]);
    assert_eq!(verdicts("plan=0\n"), []);
}

#[test]
fn eight_levels_and_no_more() {
    assert_eq!(verdicts(&deep(8, 1, READS)), [(PERMITTED, 0)]);
    assert_eq!(verdicts(&deep(8, 0, "")), []);
    // The line that would open the ninth, whatever follows it.
    assert_eq!(stopped(&deep(9, 1, READS)), (22, 16, 0));
    assert_eq!(stopped(&deep(8, 1, "step=plan")), (22, 16, 0));
    assert_eq!(stopped(deep(8, 1, "step=plan").trim_end()), (19, 16, 0));
    assert_eq!(stopped(&deep(8, 1, "step=plans")), (19, 16, 0));
}

#[test]
fn sixty_four_actions_and_no_more() {
    let many = |count: usize| format!("plan={count} {}", READS.repeat(count));
    assert_eq!(verdicts(&lines(&many(64))).len(), 64);
    assert_eq!(stopped(&lines(&many(65))), (20, 1, 0));
    // Line 1, then two plans: line 2, its count, eight lines to an action.
    let two = |first, second| lines(&format!("plan=2 step=plan {} step=plan {}", many(first), many(second)));
    assert_eq!(verdicts(&two(63, 1)).len(), 64);
    assert_eq!(verdicts(&two(64, 0)).len(), 64);
    assert_eq!(stopped(&two(64, 1)), (23, 3 + 8 * 64 + 3, 0));
    let text = lines(&format!("plan=2 step=plan {} step=action", many(64)));
    assert_eq!(stopped(&text), (23, 3 + 8 * 64 + 1, 0));
    assert_eq!(stopped(text.trim_end()), (19, 3 + 8 * 64 + 1, 0));
}

#[test]
fn the_first_failing_line_decides() {
    for (text, told) in [
        (String::new(), (19, 1, 0)),
        ("plan=65\n".to_owned(), (20, 1, 0)),
        ("plan=65".to_owned(), (19, 1, 0)),
        ("plan=00\n".to_owned(), (19, 1, 0)),
        ("plan=064\n".to_owned(), (19, 1, 0)),
        ("plan=0\nplan=0\n".to_owned(), (19, 2, 0)),
        ("plan=1\nstep=Plan\nplan=0\n".to_owned(), (19, 2, 0)),
        (lines("plan=1 step=actions"), (19, 2, 0)),
        (lines("plan=1 step=plan plan=65"), (20, 3, 0)),
        (lines("plan=1 step=action now=1 actor=1 flags=0 uses=33"), (20, 6, 0)),
        (lines("plan=1 step=action now=1 actor=1 flags=0 uses=0 governs=9"), (20, 7, 0)),
        (lines("plan=1 step=action now=1 actor=65536 flags=0 uses=0 governs=0"), (19, 4, 0)),
        (lines(&format!("plan=2 {READS}")), (19, 10, 0)),
    ] {
        assert_eq!(stopped(&text), told, "{text}");
    }
}

#[test]
fn the_text_then_the_register_then_the_actors() {
    let mut unsound = case_r();
    unsound.actors.count = 65;
    let judged = |text: &str| {
        let verdict = MODEL.judge_plan_text(&unsound, text.as_bytes());
        (verdict.refusal, verdict.line, verdict.position)
    };
    assert_eq!(judged("plan=65\n"), (20, 1, 0));
    assert_eq!(judged(&lines(&format!("plan=1 {ABSENT}"))), (1, 0, 0));
    assert_eq!(judged("plan=0\n"), (1, 0, 0));
    assert_eq!(stopped(&lines(&format!("plan=2 {FLAGGED} step=plan plan=2 {READS} {ABSENT}"))), (3, 0, 2));
}

#[test]
fn the_faults_are_other_answers() {
    let model = |fault| Model { fault: Some(fault) };
    let flags = lines(&format!("plan=2 step=plan plan=1 {FLAGGED} {READS}"));
    let verdict = model(Fault::FlagPerPlan).judge_plan_text(&case_r(), flags.as_bytes());
    assert_eq!(verdict.list[1].decision, PERMITTED);
    let part = format!("step=plan plan=64 {}", READS.repeat(64));
    let verdict =
        model(Fault::RoomPerPlan).judge_plan_text(&case_r(), lines(&format!("plan=2 {part} {part}")).as_bytes());
    assert_eq!((verdict.accepted, verdict.count), (1, 128));
}

/// What the program must print stands in the folder by hand.
#[test]
fn the_folders_of_plan_texts_expect_what_the_model_prints() {
    const MOST: usize = 65_536;
    let root = Path::new(env!("CARGO_MANIFEST_DIR")).join("../..");
    let mut tried = 0;
    for place in ["tests/cases", "examples"] {
        for entry in fs::read_dir(root.join(place)).expect("a folder").flatten() {
            let folder = entry.path();
            let text = |name: &str| {
                let mut text = fs::read(folder.join(name)).unwrap_or_default();
                text.truncate(MOST);
                text
            };
            if !folder.join("plan.txt").exists() || folder.join("action.txt").exists() {
                continue;
            }
            let mut printed = [0; 4_096];
            let length = MODEL.plan_verdict_text(&text("register.txt"), &text("plan.txt"), &mut printed);
            let printed = String::from_utf8_lossy(&printed[..length.expect("room")]).into_owned();
            assert_eq!(printed, String::from_utf8_lossy(&text("expected")), "{}", folder.display());
            tried += 1;
        }
    }
    println!("{tried} folders");
}
