//! The rule book's fixed examples, and the readings taken of it.

use super::paths::contains;
use super::*;
use crate::types::*;

const MODEL: Model = Model { fault: None };

const CASE_R: &str = "register=1 actors=2 actor=1 kind=human owner=0 actor=2 kind=machine owner=1 resources=1 resource=10 \
    public=0 keeper=1 scope=site/a claims=2 claim=1 parent=0 grantor=1 holder=1 resource=10 rights=19 weight=1000 expiry=0 \
    claim=2 parent=1 grantor=1 holder=2 resource=10 rights=1 weight=600 expiry=2000";
const ACTION_R: &str = "now=1999 actor=2 flags=0 uses=2 use=10 right=0 use=10 right=1 governs=0";

/// One line to each item split by spaces.
fn lines(items: &str) -> String {
    items.split_whitespace().flat_map(|item| [item, "\n"]).collect()
}

fn read(text: &str) -> Result<Register, (u32, usize)> {
    let mut register = Register::EMPTY;
    match MODEL.read_register(text.as_bytes(), &mut register) {
        Ok(()) => Ok(register),
        Err(unread) => {
            assert_eq!(register, Register::EMPTY);
            Err((unread.refusal as u32, unread.line))
        }
    }
}

fn case_r() -> Register {
    read(&lines(CASE_R)).expect("case R is sound")
}

fn action_r() -> Action {
    MODEL.read_action(lines(ACTION_R).as_bytes()).expect("case R's action is of the form")
}

fn printed(register: &str, action: &str) -> String {
    let mut buffer = [0; 1024];
    let length = MODEL.verdict_text(register.as_bytes(), action.as_bytes(), &mut buffer).expect("room");
    String::from_utf8(buffer[..length].to_vec()).expect("ASCII")
}

fn refusal<T: std::fmt::Debug>(answer: Result<T, Refusal>) -> u32 {
    answer.expect_err("refused") as u32
}

/// A register with one machine-free chain: the keeper 1 holds the root, each holder has granted to the next.
fn chain(hops: u32) -> Register {
    let mut register = Register::EMPTY;
    for id in 1..=20 {
        register.actors.push(Actor { id, kind: HUMAN, owner: 0 });
    }
    register.resources.push(Resource { id: 10, keeper: 1, ..Resource::ZERO });
    for hop in 0..=hops {
        MODEL.grant(&mut register, &link(hop), 0).expect("a link of the chain");
    }
    register
}

/// The claim at a hop of `chain`: its id is one more than the hop.
fn link(hop: u32) -> Claim {
    let grantor = hop.max(1);
    let left = LEFT_MAX.saturating_sub(hop);
    Claim { id: hop + 1, parent: hop, grantor, holder: hop + 1, resource: 10, rights: 17, weight: 5, left, expiry: 0 }
}

#[test]
fn containment_table() {
    for (inner, outer, expected) in [
        ("site/a", "site/a", Some(6)),
        ("site/a/b", "site/a", Some(6)),
        ("site/ab", "site/a", None),
        ("site/a", "site/a/", Some(6)),
        ("x", "", Some(0)),
        ("", "/", Some(0)),
        ("x", "/", None),
        ("a/../b", "a/../b", None),
        ("a..b", "a..b", Some(4)),
        ("/x", "/", Some(0)),
        ("a/..", "", None),
        ("site/a/", "site/a", Some(6)),
        ("a", "a//", Some(1)),
        ("", "a/..", None),
    ] {
        assert_eq!(contains(outer.as_bytes(), inner.as_bytes()), expected, "{inner:?} in {outer:?}");
    }
}

/// Human 1 keeps the resource; claim 1 from human 1 to 2, claim 2 drawn from it for 3, claim 3 drawn from that for 4.
fn line(ends: [(u32, u64); 3]) -> Box<Register> {
    let mut register = Box::new(Register::EMPTY);
    (1..=4).for_each(|id| register.actors.push(Actor { id, kind: HUMAN, owner: 0 }));
    register.resources.push(Resource { id: 1, keeper: 1, ..Resource::ZERO });
    for (id, (weight, expiry)) in (1..).zip(ends) {
        let rights = 1 << DELEGATE | 1 << READ;
        register.claims.push(Claim {
            id,
            parent: id - 1,
            grantor: id,
            holder: id + 1,
            resource: 1,
            rights,
            weight,
            left: 0,
            expiry,
        });
    }
    register
}

/// Whether each of the three claims is live.
fn living(model: &Model, ends: [(u32, u64); 3], now: u64) -> [bool; 3] {
    let register = line(ends);
    let sound = Sound::of(&register).expect("the line is sound");
    [0, 1, 2].map(|position| model.live(&sound, position, now))
}

#[test]
fn liveness() {
    assert_eq!(living(&MODEL, [(600, 2000), (600, 0), (600, 3000)], 1999), [true, true, true]);
    assert_eq!(living(&MODEL, [(600, 2000), (600, 0), (600, 3000)], 2000), [false, false, false]);
    assert_eq!(living(&MODEL, [(600, 0), (600, 2000), (600, 0)], 2000), [true, false, false]);
    assert_eq!(living(&MODEL, [(600, 0), (600, 0), (600, 2000)], 2000), [true, true, false]);
    assert_eq!(living(&MODEL, [(600, 0), (600, 0), (0, 0)], 0), [true, true, false]);
    assert_eq!(living(&MODEL, [(600, 0); 3], MOMENT_MAX), [true, true, true]);
    let unasked = Model { fault: Some(Fault::SourceUnasked) };
    assert_eq!(living(&unasked, [(600, 2000), (600, 0), (600, 3000)], 2000), [false, true, true]);
}

#[test]
fn a_grant_asks_the_whole_chain() {
    let claim =
        Claim { id: 4, parent: 3, grantor: 4, holder: 1, resource: 1, rights: 1 << READ, weight: 600, ..Claim::ZERO };
    let granted = |ends, now| MODEL.grantable(&line(ends), &claim, now);
    assert_eq!(granted([(600, 2000), (600, 0), (600, 0)], 2000), Err(Refusal::NotLive));
    assert_eq!(granted([(600, 2000), (600, 0), (600, 0)], 1999), Err(Refusal::Circle));
}

#[test]
fn case_r_prints_its_four_lines() {
    assert_eq!(printed(&lines(CASE_R), &lines(ACTION_R)), "verdict=refused\nviolations=1\nviolation=4\nat=1\n");
    let verdict = MODEL.gate(&case_r(), &action_r());
    assert_eq!(verdict.hops[..3], [1, 0, 0]);
    assert_eq!(verdict.violations[..2], [Violation { kind: 4, value: 1 }, Violation { kind: 0, value: 0 }]);
    let reading = lines("now=1999 actor=2 flags=0 uses=1 use=10 right=0 governs=0");
    assert_eq!(printed(&lines(CASE_R), &reading), "verdict=permitted\nviolations=0\n");
    assert_eq!(
        printed(&lines(CASE_R), &reading.replace("1999", "2000")),
        "verdict=refused\nviolations=1\nviolation=4\nat=0\n"
    );
    assert_eq!(printed("", &reading), "verdict=stopped\nrefusal=19\n");
    assert_eq!(printed(&lines(CASE_R), &reading.replace("actor=2", "actor=0")), "verdict=stopped\nrefusal=3\n");
}

#[test]
fn case_r_is_written_as_it_was_read() {
    let text = lines(CASE_R);
    let mut buffer = vec![b'#'; text.len() + 3];
    assert_eq!(MODEL.write_register(&case_r(), &mut buffer), Ok(text.len()));
    assert_eq!(buffer, [text.as_bytes(), b"###"].concat());
    let mut short = vec![b'#'; text.len() - 1];
    assert_eq!(refusal(MODEL.write_register(&case_r(), &mut short)), 21);
    assert!(short.iter().all(|&byte| byte == b'#'));
}

#[test]
fn hop_16_is_granted_and_17_refused() {
    let mut register = chain(16);
    assert_eq!(refusal(MODEL.grant(&mut register, &link(17), 0)), 15);
    register.claims.push(link(17));
    assert!(!MODEL.sound(&register));
}

#[test]
fn claim_257_is_refused() {
    let mut register = chain(0);
    for id in 2..=256 {
        MODEL.grant(&mut register, &Claim { id, ..link(0) }, 0).expect("room");
    }
    assert_eq!(refusal(MODEL.grant(&mut register, &Claim { id: 257, ..link(0) }, 0)), 5);
    assert_eq!(register.claims.count, 256);
    assert_eq!(MODEL.revoke(&mut register, 1, 100), Ok(1));
    assert_eq!(register.claims.list[255], Claim::ZERO);
    assert_eq!(register.claims.list[99].id, 101);
    assert_eq!(MODEL.grant(&mut register, &Claim { id: 100, ..link(0) }, 0), Ok(()));
}

#[test]
fn grant_tests_in_order() {
    let root = Claim { id: 3, parent: 0, grantor: 1, holder: 2, resource: 10, rights: 1, weight: 9, ..Claim::ZERO };
    let child = Claim { parent: 1, ..root };
    let unsound = |edit: fn(&mut Register)| {
        let mut register = case_r();
        edit(&mut register);
        register
    };
    let edited = [
        (1, unsound(|register| register.actors.count = 65), root, 0),
        (2, case_r(), Claim { id: 0, ..root }, 0),
        (2, case_r(), Claim { holder: 65_537, ..root }, 0),
        (2, case_r(), root, 1 << 32),
        (2, case_r(), Claim { grantor: 0, ..root }, 0),
        (3, case_r(), Claim { holder: 3, ..root }, 0),
        (3, case_r(), Claim { resource: 11, id: 1, ..root }, 0),
        (4, case_r(), Claim { id: 1, grantor: 2, ..root }, 0),
        (6, case_r(), Claim { grantor: 2, rights: 1 << 13, ..root }, 0),
        (7, unsound(|register| register.actors.list[1].owner = 0), Claim { grantor: 2, rights: 1 << 13, ..child }, 0),
        (8, case_r(), Claim { grantor: 2, rights: 1 << 16, ..child }, 0),
        (9, case_r(), Claim { parent: 3, ..root }, 0),
        (10, case_r(), Claim { parent: 2, ..root }, 0),
        (11, case_r(), Claim { parent: 2, grantor: 2, holder: 1, ..root }, 2000),
        (12, case_r(), Claim { parent: 2, grantor: 2, holder: 1, ..root }, 1999),
        (13, case_r(), Claim { rights: 5, ..child }, 0),
        (14, unsound(|register| register.claims.list[0].weight = 600), Claim { weight: 601, ..child }, 0),
        (16, case_r(), Claim { holder: 1, ..child }, 0),
    ];
    for (expected, mut register, claim, now) in edited {
        let before = register.clone();
        assert_eq!(refusal(MODEL.grant(&mut register, &claim, now)), expected);
        assert_eq!(register, before);
    }
    assert_eq!(MODEL.grant(&mut case_r(), &Claim { weight: 0, expiry: 5, ..child }, 9), Ok(()));
}

#[test]
fn revocation_takes_the_whole_branch() {
    let mut register = chain(16);
    assert_eq!(refusal(MODEL.revoke(&mut register, 0, 5)), 3);
    assert_eq!(refusal(MODEL.revoke(&mut register, 1, 0)), 17);
    assert_eq!(refusal(MODEL.revoke(&mut register, 1, 99)), 17);
    assert_eq!(refusal(MODEL.revoke(&mut register, 5, 5)), 18);
    assert_eq!(MODEL.revoke(&mut register, 2, 5), Ok(13));
    assert_eq!(register.claims.count, 4);
    assert_eq!(register, chain(3));
}

#[test]
fn a_resource_is_cleared_by_its_keeper() {
    let mut register = case_r();
    let mut unsound = case_r();
    unsound.actors.count = 65;
    assert_eq!(refusal(MODEL.clear_resource(&mut unsound, 3, 10)), 1);
    assert_eq!(refusal(MODEL.clear_resource(&mut register, 3, 11)), 3);
    assert_eq!(refusal(MODEL.clear_resource(&mut register, 1, 11)), 3);
    assert_eq!(refusal(MODEL.clear_resource(&mut register, 2, 10)), 18);
    assert_eq!(register, case_r());
    assert_eq!(MODEL.clear_resource(&mut register, 1, 10), Ok(2));
    assert_eq!(MODEL.clear_resource(&mut register, 1, 10), Ok(0));
    assert_eq!(register.claims, Register::EMPTY.claims);
}

#[test]
fn old_claims_are_cleared_by_a_human() {
    let mut register = chain(16);
    register.claims.list[4].expiry = 2000;
    let before = register.clone();
    assert_eq!(refusal(MODEL.clear_expired(&mut register, 99, 1 << 32)), 2);
    assert_eq!(refusal(MODEL.clear_expired(&mut register, 99, 2000)), 3);
    assert_eq!(refusal(MODEL.clear_expired(&mut case_r(), 2, 2000)), 18);
    assert_eq!(MODEL.clear_expired(&mut register, 1, 1999), Ok(0));
    assert_eq!(register, before);
    // The chain below it goes too.
    assert_eq!(MODEL.clear_expired(&mut register, 2, 2000), Ok(13));
    assert_eq!(register, chain(3));
    register.claims.list[3].weight = 0;
    assert_eq!(MODEL.clear_expired(&mut register, 1, 2000), Ok(0));
}

#[test]
fn texts_fail_at_their_first_bad_line() {
    let text = lines(CASE_R);
    for (text, expected) in [
        ("register=1\nactors=65".to_owned(), (19, 2)),
        ("register=1\nactors=65\n".to_owned(), (20, 2)),
        (format!("register=1\nactors={}\n", "9".repeat(70_000)), (20, 2)),
        ("register=1\nactors=065\n".to_owned(), (19, 2)),
        (format!("register=1\nactors={}x\n", "9".repeat(40)), (19, 2)),
        ("register=1\nactors=65\r\n".to_owned(), (19, 2)),
        (text.replacen("owner=0", "owner=1", 1), (1, 0)),
        (text.replace("keeper=1", "keeper=0"), (19, 12)),
        (text.replace("keeper=1", "keeper=9"), (1, 0)),
        (format!("{text}claims=999\n"), (19, 31)),
        (text[..text.len() - 1].to_owned(), (19, 30)),
        (String::new(), (19, 1)),
    ] {
        assert_eq!(read(&text), Err(expected), "{text:.60}");
    }
}

#[test]
fn a_plan_is_tested_whole_before_it_is_judged() {
    let flagged = Action { flags: 1, ..action_r() };
    let absent = Action { actor: 9, ..action_r() };
    let wrong = Action { flags: 1024, ..action_r() };
    let plan = |actions: &[Action]| {
        let mut plan = Plan::EMPTY;
        plan.actions[..actions.len()].copy_from_slice(actions);
        plan.count = actions.len();
        plan
    };
    let judged = |actions: &[Action]| MODEL.judge_plan(&case_r(), &plan(actions));
    let stopped = |refusal, position| PlanVerdict { refusal, position, ..PlanVerdict::EMPTY };
    assert_eq!(judged(&[flagged, absent]), stopped(3, 1));
    assert_eq!(judged(&[absent, wrong]), stopped(3, 0));
    assert_eq!(MODEL.judge_plan(&case_r(), &Plan { count: 17, ..Plan::EMPTY }), stopped(2, 0));
    assert_eq!(judged(&[]), PlanVerdict { accepted: 1, ..PlanVerdict::EMPTY });
    let verdict = judged(&[action_r(), flagged, action_r()]);
    let expected = [(REFUSED, 1), (REFUSED, 2), (CANCELLED, 0), (0, 0)];
    assert_eq!(verdict.list[..4], expected.map(|(decision, violations)| Judgement { decision, violations }));
    assert_eq!(verdict.count, 3);
}

#[test]
fn hop_counts_of_public_reads_and_beside_violations() {
    let mut register = case_r();
    register.resources.list[0].is_public = 1;
    let verdict = MODEL.gate(&register, &Action { flags: 2, ..action_r() });
    assert_eq!(verdict.hops[0], 1);
    assert_eq!(verdict.violations[0], Violation { kind: 1, value: 1 });
    let late = MODEL.gate(&register, &Action { now: 2000, used: 1, ..action_r() });
    assert_eq!((late.decision, late.hops[0]), (PERMITTED, 0));
}

#[test]
fn an_owner_must_cover_too() {
    let mut register = case_r();
    register.claims.list[0].holder = 3;
    register.claims.list[1].grantor = 3;
    register.actors.push(Actor { id: 3, kind: HUMAN, owner: 0 });
    let verdict = MODEL.gate(&register, &Action { used: 1, governed: 2, ..action_r() });
    let expected = [(3, 0), (3, 1), (5, 0), (0, 0)];
    assert_eq!(verdict.violations[..4], expected.map(|(kind, value)| Violation { kind, value }));
    assert_eq!(verdict.hops[0], 1);
}

/// The hop count of the machine's READ of the last path, where it holds a claim on each of the others in their order: a root on the
/// first, on the second one of 1 hop, and so on in turn.
fn hops_among(paths: &[&str], used: &str) -> usize {
    let mut register = case_r();
    register.claims.count = 0;
    register.resources.count = 0;
    for (at, path) in (0..).zip(paths.iter().chain(&[used])) {
        let mut resource = Resource { id: 20 + at, keeper: 1, len: path.len() as u32, ..Resource::ZERO };
        resource.path[..path.len()].copy_from_slice(path.as_bytes());
        register.resources.push(resource);
        let root = Claim {
            id: 100 + at,
            parent: 0,
            grantor: 1,
            holder: 2,
            resource: 20 + at,
            rights: 1,
            weight: 9,
            ..Claim::ZERO
        };
        if at as usize == paths.len() {
            continue;
        }
        if at % 2 == 0 {
            register.claims.push(root);
        } else {
            register.claims.push(Claim { holder: 1, rights: 17, ..root });
            register.claims.push(Claim { id: 200 + at, parent: 100 + at, ..root });
        }
    }
    let mut action = Action { used: 1, ..action_r() };
    action.uses[0] = Usage { resource: 20 + paths.len() as u32, right: READ };
    MODEL.gate(&register, &action).hops[0]
}

#[test]
fn the_nearest_claim_speaks() {
    assert_eq!(hops_among(&["site", "site/a"], "site/a/b"), 1);
    assert_eq!(hops_among(&["site/a", "site"], "site/a/b"), 0);
    assert_eq!(hops_among(&["a", "a//"], "a/b"), 0);
    assert_eq!(hops_among(&["a//", "a"], "a/b"), 0);
    assert_eq!(hops_among(&["a..", "x", "x", ""], "y"), 1);
    assert_eq!(hops_among(&["", "/"], "/x"), 0);
    assert_eq!(hops_among(&["/", ""], "/x"), 0);
    assert_eq!(hops_among(&["", "a/.."], "a/b"), 0);
}

/// Case R as version 2, with so much left at the root and at the claim drawn from it.
fn case_r_as_two(root: &str, drawn: &str) -> String {
    let text = lines(CASE_R).replace("register=1", "register=2");
    text.replace("weight=1000\n", &format!("weight=1000\n{root}"))
        .replace("weight=600\n", &format!("weight=600\n{drawn}"))
}

#[test]
fn version_lines() {
    let text = lines(CASE_R);
    for line in ["register=02\n", "register=0\n", "register=3\n", "register=12\n", "register=\n", "register=1 \n"] {
        assert_eq!(read(&text.replacen("register=1\n", line, 1)), Err((19, 1)), "{line}");
    }
    assert_eq!(read("register=2"), Err((19, 1)));
    // Version 2 asks for a line that case R does not have; version 1 has no place for it.
    assert_eq!(read(&text.replacen("register=1", "register=2", 1)), Err((19, 22)));
    assert_eq!(read(&case_r_as_two("left=16\n", "left=15\n").replacen("register=2", "register=1", 1)), Err((19, 22)));
}

#[test]
fn lines_of_left() {
    for (root, drawn, expected) in [
        ("left=17\n", "left=15\n", (19, 22)),
        ("left=016\n", "left=15\n", (19, 22)),
        ("left=\n", "left=15\n", (19, 22)),
        ("left=16\n", "", (19, 31)),
        ("left=16\n", "left=16\n", (1, 0)),
        ("left=3\n", "left=3\n", (1, 0)),
        ("left=3\n", "left=4\n", (1, 0)),
        ("left=0\n", "left=0\n", (1, 0)),
    ] {
        assert_eq!(read(&case_r_as_two(root, drawn)), Err(expected), "{root}{drawn}");
    }
    for (root, drawn) in [(16, 15), (16, 0), (1, 0), (7, 3)] {
        let text = case_r_as_two(&format!("left={root}\n"), &format!("left={drawn}\n"));
        let register = read(&text).expect("sound");
        assert_eq!((register.version, register.claims.list[0].left, register.claims.list[1].left), (2, root, drawn));
        let mut buffer = vec![0; text.len()];
        assert_eq!(MODEL.write_register(&register, &mut buffer), Ok(text.len()));
        assert_eq!(buffer, text.as_bytes());
    }
}

#[test]
fn version_1_gives_what_is_left_and_asks_nothing_of_it() {
    let register = case_r();
    assert_eq!((register.version, register.claims.list[0].left, register.claims.list[1].left), (1, 16, 15));
    let mut rubbish = register.clone();
    rubbish.claims.list[0].left = 0;
    rubbish.claims.list[1].left = u32::MAX;
    assert!(MODEL.sound(&rubbish));
    let (mut one, mut two) = (vec![0; 500], vec![0; 500]);
    assert_eq!(MODEL.write_register(&rubbish, &mut one), MODEL.write_register(&register, &mut two));
    assert_eq!(one, two);
    let child = Claim { id: 3, parent: 1, grantor: 1, holder: 2, resource: 10, rights: 1, weight: 9, ..Claim::ZERO };
    assert_eq!(MODEL.grant(&mut rubbish, &Claim { left: u32::MAX, ..child }, 0), Ok(()));
    assert_eq!(rubbish.claims.list.map(|claim| claim.left)[..4], [0, u32::MAX, 15, 0]);
    assert_eq!(MODEL.grant(&mut rubbish, &Claim { id: 4, parent: 0, left: 3, ..child }, 0), Ok(()));
    assert_eq!(rubbish.claims.list[3].left, 16);
    assert_eq!(MODEL.revoke(&mut rubbish, 1, 3), Ok(1));
    assert_eq!(rubbish.claims.list.map(|claim| claim.left)[..4], [0, u32::MAX, 16, 0]);
}

#[test]
fn version_2_grants_less_than_the_parent_has_left() {
    let register = read(&case_r_as_two("left=4\n", "left=2\n")).expect("sound");
    let child = Claim { id: 3, parent: 1, grantor: 1, holder: 2, resource: 10, rights: 1, weight: 9, ..Claim::ZERO };
    let granted = |claim: Claim| MODEL.grantable(&register, &claim, 0);
    assert_eq!(granted(Claim { left: 3, ..child }), Ok(3));
    assert_eq!(granted(child), Ok(0));
    assert_eq!(granted(Claim { left: 4, ..child }), Err(Refusal::Hops));
    assert_eq!(granted(Claim { left: 16, ..child }), Err(Refusal::Hops));
    assert_eq!(granted(Claim { left: 17, ..child }), Err(Refusal::Range));
    // A root may have any; 14 comes before 15, and 15 before 16.
    assert_eq!(granted(Claim { left: 16, parent: 0, ..child }), Ok(16));
    assert_eq!(granted(Claim { left: 4, holder: 1, ..child }), Err(Refusal::Hops));
    assert_eq!(granted(Claim { left: 3, holder: 1, ..child }), Err(Refusal::Circle));
    let mut light = register.clone();
    light.claims.list[0].weight = 600;
    assert_eq!(MODEL.grantable(&light, &Claim { left: 4, weight: 601, ..child }, 0), Err(Refusal::Weight));
    let mut after = register.clone();
    assert_eq!(MODEL.grant(&mut after, &Claim { left: 3, ..child }, 0), Ok(()));
    assert_eq!((after.version, after.claims.list[2].left), (2, 3));
    assert_eq!(MODEL.revoke(&mut after, 1, 3), Ok(1));
    assert_eq!(after, register);
}

#[test]
fn no_other_version_is_sound() {
    for version in [0, 3, 12, (1 << 32) + 1, (1 << 32) + 2, u64::MAX] {
        assert!(!MODEL.sound(&Register { version, ..Register::EMPTY }));
        assert_eq!(refusal(MODEL.write_register(&Register { version, ..case_r() }, &mut [])), 1);
    }
    assert!([1, 2].iter().all(|&version| MODEL.sound(&Register { version, ..Register::EMPTY })));
}
