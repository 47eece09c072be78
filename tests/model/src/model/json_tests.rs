//! JSON actions by hand. The ways that are taken and refused stand in tests/json/table, which the model is held to as well.

use super::json::{FLAG_NAMES, KEYS, KINDS};
use super::*;
use crate::types::*;

const MODEL: Model = Model { fault: None };

/// Case R's action as it is written, with id `a-1` and kind WRITE.
const PAGE: &str = "{\"id\":\"a-1\",\"actor\":\"2\",\"capability_kind\":\"WRITE\",\"resources_read\":[\"10\"],\
    \"resources_write\":[\"10\"],\"resources_execute\":[],\"flags\":{\"increases_machine_sovereignty\":false,\
    \"resists_human_correction\":false,\"bypasses_verifier\":false,\"weakens_verifier\":false,\
    \"disables_corrigibility\":false,\"machine_coalition_dominion\":false,\"coerces\":false,\"deceives\":false,\
    \"self_modification_weakens_verifier\":false,\"machine_coalition_reduces_freedom\":false},\
    \"trust_domain\":\"default\",\"delegation_depth\":0}";

fn action(uses: &[(u32, u32)]) -> Action {
    let mut action = Action { actor: 2, now: 1999, used: uses.len(), ..Action::ZERO };
    for (place, &(resource, right)) in action.uses.iter_mut().zip(uses) {
        *place = Usage { resource, right };
    }
    action
}

fn case_r() -> Action {
    action(&[(10, 0), (10, 1)])
}

fn written(action: &Action, id: &[u8], kind: u32) -> Result<String, u32> {
    let mut buffer = [b'#'; JSON_TEXT + 1];
    match MODEL.write_json(action, id, kind, &mut buffer) {
        Ok(length) => {
            assert!(buffer[length..].iter().all(|&byte| byte == b'#'));
            Ok(String::from_utf8(buffer[..length].to_vec()).expect("ASCII"))
        }
        Err(refusal) => {
            assert_eq!(buffer, [b'#'; JSON_TEXT + 1]);
            Err(refusal as u32)
        }
    }
}

fn refused(refusal: u32) -> JsonRead {
    JsonRead { refusal, ..JsonRead::ZERO }
}

#[test]
fn the_page_of_case_r() {
    let case_r = case_r();
    assert_eq!(written(&case_r, b"a-1", 1).as_deref(), Ok(PAGE));
    let mut read = JsonRead { action: case_r, accepted: 1, kind: 1, id_len: 3, ..JsonRead::ZERO };
    read.id[..3].copy_from_slice(b"a-1");
    assert_eq!(MODEL.read_json(PAGE.as_bytes(), 1999), read);
}

#[test]
fn uses_come_back_ordered_by_right_and_otherwise_as_they_were() {
    let mixed = action(&[(5, 2), (9, 0), (7, 1), (5, 2), (4, 0), (9, 0), (6, 1)]);
    let ordered = action(&[(9, 0), (4, 0), (9, 0), (7, 1), (6, 1), (5, 2), (5, 2)]);
    let text = written(&mixed, b"", 16).expect("it has a place for all");
    assert!(text.contains(
        "\"resources_read\":[\"9\",\"4\",\"9\"],\"resources_write\":[\"7\",\"6\"],\"resources_execute\":[\"5\",\"5\"],"
    ));
    assert_eq!(
        MODEL.read_json(text.as_bytes(), 1999),
        JsonRead { action: ordered, accepted: 1, kind: 16, ..JsonRead::ZERO }
    );
    assert_eq!(written(&ordered, b"", 16), Ok(text));
}

#[test]
fn each_flag_and_kind_is_written_and_read_by_its_name() {
    for (flag, name) in FLAG_NAMES.iter().enumerate() {
        let flagged = Action { flags: 1 << flag, ..action(&[]) };
        let text = written(&flagged, b"", 0).expect("in range");
        assert_eq!(text.matches("true").count(), 1);
        assert!(text.contains(&format!("\"{name}\":true")));
        assert_eq!(MODEL.read_json(text.as_bytes(), 1999).action, flagged);
    }
    for (kind, name) in KINDS.iter().enumerate() {
        let text = written(&action(&[]), b"", kind as u32).expect("in range");
        assert!(text.contains(&format!("\"capability_kind\":\"{name}\"")));
        assert_eq!(MODEL.read_json(text.as_bytes(), 1999).kind, kind as u32);
    }
}

#[test]
fn the_longest_page() {
    let most = Action { actor: 65_535, ..action(&[(65_535, 2); USES]) };
    // The braces and eight commas, the keys with quotes and colons.
    let keys: usize = 2 + 8 + KEYS.iter().map(|key| key.len() + 3).sum::<usize>();
    // The id, the actor, CREDENTIAL_WRITE, three pairs of brackets, 32 numbers with 31 commas, `default` and 0.
    let values = 66 + 7 + 18 + 6 + 32 * 7 + 31 + 9 + 1;
    let flags: usize = 2 + 9 + FLAG_NAMES.iter().map(|name| name.len() + 3 + "false".len()).sum::<usize>();
    assert_eq!(keys + values + flags, JSON_TEXT);
    assert_eq!(written(&most, &[b'~'; 64], 11).map(|text| text.len()), Ok(JSON_TEXT));
    let lengths = KINDS.map(str::len);
    assert_eq!(lengths.iter().max(), Some(&lengths[11]));
}

#[test]
fn a_moment_out_of_range_comes_before_the_form() {
    for text in [PAGE, "", "{", &PAGE[1..]] {
        assert_eq!(MODEL.read_json(text.as_bytes(), MOMENT_MAX + 1), refused(2));
        assert_eq!(MODEL.read_json(text.as_bytes(), u64::MAX), refused(2));
    }
    assert_eq!(MODEL.read_json(&PAGE.as_bytes()[1..], MOMENT_MAX), refused(24));
    let read = MODEL.read_json(PAGE.as_bytes(), MOMENT_MAX);
    assert_eq!((read.accepted, read.refusal, read.action.now), (1, 0, MOMENT_MAX));
}

#[test]
fn every_cut_is_refused_and_blanks_are_not_seen() {
    for end in 0..PAGE.len() {
        assert_eq!(MODEL.read_json(&PAGE.as_bytes()[..end], 1999), refused(24));
    }
    // No string of the page has a mark in it.
    let mut airy = PAGE.to_owned();
    for mark in ["{", "}", "[", "]", ":", ",", "false", "0}"] {
        airy = airy.replace(mark, &format!(" \t{mark}\r\n"));
    }
    assert_eq!(MODEL.read_json(airy.as_bytes(), 1999), MODEL.read_json(PAGE.as_bytes(), 1999));
}

#[test]
fn writing_tests_2_then_25_then_21() {
    let case_r = case_r();
    let right = |right| action(&[(10, right)]);
    for (expected, action, id, kind) in [
        (25, right(3), &b""[..], 0),
        (25, right(16), b"", 0),
        (2, right(17), b"", 0),
        (25, Action { governed: 1, ..case_r }, b"", 0),
        (25, Action { governed: 8, ..case_r }, b"", 0),
        (2, Action { governed: 9, ..case_r }, b"", 0),
        (2, Action { now: 1 << 32, ..case_r }, b"", 0),
        (2, Action { now: 1 << 32, ..right(3) }, b"", 0),
        (2, Action { actor: 65_536, ..case_r }, b"", 0),
        (2, Action { flags: 1_024, ..case_r }, b"", 0),
        (2, Action { used: 33, ..case_r }, b"", 0),
        (2, self::action(&[(65_536, 0)]), b"", 0),
        (2, case_r, &[b'~'; 65], 0),
        (2, case_r, b"a\"", 0),
        (2, case_r, b"a\\", 0),
        (2, case_r, b"\x1F", 0),
        (2, case_r, b"\x7F", 0),
        (2, case_r, b"\xFF", 0),
        (2, case_r, b"", 17),
        (2, case_r, b"", u32::MAX),
        (2, Action { governed: 1, ..case_r }, b"", 17),
        (2, right(3), b"\x7F", 0),
    ] {
        assert_eq!(written(&action, id, kind), Err(expected), "{action:?}");
        assert_eq!(MODEL.write_json(&action, id, kind, &mut []), Err(refusal(expected)));
    }
    let mut short = [b'#'; PAGE.len() - 1];
    assert_eq!(MODEL.write_json(&case_r, b"a-1", 1, &mut short), Err(Refusal::Buffer));
    assert_eq!(short, [b'#'; PAGE.len() - 1]);
    assert_eq!(MODEL.write_json(&case_r, b"a-1", 1, &mut [0; PAGE.len()]), Ok(PAGE.len()));
}

fn refusal(number: u32) -> Refusal {
    if number == 2 {
        Refusal::Range
    } else {
        Refusal::JsonLacks
    }
}

#[test]
fn what_stands_past_a_count_is_not_written() {
    let mut littered = case_r();
    littered.uses[2..].fill(Usage { resource: u32::MAX, right: 17 });
    littered.governs.fill(u32::MAX);
    assert_eq!(written(&littered, b"a-1", 1).as_deref(), Ok(PAGE));
}
