//! The crate against the rules: case R by hand, every folder of tests/cases, each refusal, threads.

use guvrendik::{
    Action, At, Claim, Decision, Flag, Flags, Judgement, ReasonKind, Refusal, Register, Right, Rights, Use, Violation,
};
use std::path::Path;
use std::{fs, thread};

const TEXT: &str = include_str!("../../../examples/case-r/register.txt");
const READ: Use = Use::new(10, Right::Read);
const WRITE: Use = Use::new(10, Right::Write);

fn case_r() -> Register {
    Register::from_text(TEXT).expect("case R is sound")
}

/// Claim 3: human 1 lets machine 2 write report 10, below claim 1.
fn claim() -> Claim {
    let rights = Right::Write.into();
    Claim { id: 3, parent: 1, grantor: 1, holder: 2, resource: 10, rights, weight: 600, left: 0, expiry: 0 }
}

#[test]
fn every_case_is_judged_as_expected() {
    let folders = Path::new(env!("CARGO_MANIFEST_DIR")).join("../../tests/cases");
    let read = |path: &Path| fs::read(path).unwrap_or_default().into_iter().take(65_536).collect::<Vec<u8>>();
    let (mut asked, mut refused) = (0, 0);
    for folder in fs::read_dir(folders).expect("tests/cases is there").map(|entry| entry.expect("an entry").path()) {
        let (register, due) = (read(&folder.join("register.txt")), read(&folder.join("expected")));
        if due.starts_with(b"plan=") || !folder.is_dir() || folder.join("action.json").exists() {
            continue;
        }
        let printed = guvrendik::verdict(&register, read(&folder.join("action.txt")));
        assert_eq!(printed.as_bytes(), due, "{}", folder.display());
        match Register::from_text(&register) {
            Ok(read) => assert_eq!(read.text().as_bytes(), register, "{}", folder.display()),
            Err(why) => {
                assert_eq!(
                    printed,
                    format!("verdict=stopped\nrefusal={}\n", why.refusal.number()),
                    "{}",
                    folder.display()
                );
                assert_eq!(matches!(why.at, At::Line(_)), why.refusal != Refusal::Unsound, "{}", folder.display());
                refused += 1;
            }
        }
        asked += 1;
    }
    assert!(asked >= 250 && refused >= 50, "{asked} folders, {refused} refused");
}

#[test]
fn case_r_is_answered_as_the_rules_say() {
    let r = case_r();
    let both = Action { actor: 2, moment: 1999, uses: vec![READ, WRITE], ..Action::default() };
    assert_eq!(r.gate(&both), Ok(Decision::Refused(vec![Violation::NotCovered(1)])));
    let flagged = Action { flags: Flag::Coerces | Flag::Deceives, uses: vec![READ], governs: vec![1], ..both };
    let due = vec![Violation::Flag(Flag::Coerces), Violation::Flag(Flag::Deceives), Violation::MachineGoverns(0)];
    assert_eq!(r.gate(&flagged), Ok(Decision::Refused(due)));
    assert_eq!((r.may(2, READ, 1999), r.may(2, READ, 2000)), (Ok(true), Ok(false)));
    assert_eq!((r.who(READ, 1999), r.who(READ, 2000)), (Ok(vec![1, 2]), Ok(vec![1])));
    let why = r.why(2, READ, 2000).expect("2 is in the register");
    assert_eq!((why.actor.kind, why.actor.chain, why.actor.ended), (ReasonKind::NotLive, vec![2, 1], Some(2)));
    assert_eq!(why.owner.map(|(who, reason)| (who, reason.kind, reason.chain)), Some((1, ReasonKind::Relies, vec![1])));
    assert_eq!(r.propose(2, READ, 1999, &[1]), Ok(None));
    let proposed = Claim { rights: Right::Read.into(), parent: 0, weight: 1000, ..claim() };
    assert_eq!(r.propose(2, READ, 2000, &[1]), Ok(Some(proposed)));
    let action = |flags| format!("step=action\nnow=0\nactor=1\nflags={flags}\nuses=0\ngoverns=0\n");
    let plan = format!("plan=3\n{}{}{}", action(0), action(1), action(0));
    assert_eq!(r.plan(plan), Ok(vec![Judgement::Permitted, Judgement::Refused(1), Judgement::Cancelled]));
}

#[test]
fn changes_answer_new_registers() {
    let (r, line) = (case_r(), "claim=3\nparent=1\ngrantor=1\nholder=2\nresource=10\nrights=2\nweight=600\nexpiry=0\n");
    let granted = r.grant(&claim(), 0).expect("1 holds claim 1");
    assert_eq!(granted.text(), TEXT.replace("claims=2", "claims=3") + line);
    assert_eq!(
        (r.text(), r.claims().len(), granted.claims().last().map(|c| c.rights)),
        (TEXT.into(), 2, Some(Right::Write.into()))
    );
    assert_eq!(granted.revoke(1, 3).map(|left| left.text()), Ok(TEXT.into()));
    assert_eq!(granted.clear_expired(1, 2000).map(|left| left.claims().map(|c| c.id).collect()), Ok(vec![1, 3]));
    assert_eq!(granted.clear_resource(1, 10).map(|left| left.claims().len()), Ok(0));
}

#[test]
fn refusals_have_number_words_and_place() {
    let r = case_r();
    let number = |changed: Result<Register, guvrendik::Refused>| changed.map(drop).map_err(|why| why.refusal.number());
    let of = |claim: Claim| number(r.grant(&claim, 0));
    assert_eq!(of(Claim { id: 65_536, ..claim() }), Err(2));
    assert_eq!(of(Claim { grantor: 9, ..claim() }), Err(3));
    assert_eq!(of(Claim { id: 2, ..claim() }), Err(4));
    assert_eq!(of(Claim { parent: 9, ..claim() }), Err(9));
    assert_eq!(of(Claim { rights: Rights::ALL, ..claim() }), Err(13));
    assert_eq!(of(Claim { weight: 1000, holder: 1, ..claim() }), Err(16));
    assert_eq!(
        (number(r.revoke(1, 9)), number(r.revoke(2, 1)), number(r.clear_resource(2, 10))),
        (Err(17), Err(18), Err(18))
    );
    assert_eq!(
        (r.may(9, READ, 0).map_err(|why| why.refusal), r.may(2, READ, 1 << 32).is_err()),
        (Err(Refusal::Absent), true)
    );
    let many = Action { actor: 1, uses: vec![READ; 33], ..Action::default() };
    assert_eq!(r.gate(&many).map_err(|why| why.refusal), Err(Refusal::Range));
    let said = |text: &str| Register::from_text(text).expect_err("it is refused").to_string();
    assert_eq!(said(TEXT.trim_end()), "19: text not of the form, line 30");
    assert!(said(&TEXT.replace("weight=600", "weight=1001")).ends_with("line 29"));
    assert!(
        said(&TEXT.replace("rights=1\n", "rights=4\n")).ends_with(", claims, place 1, id 2: a right the parent lacks")
    );
    assert_eq!(
        r.plan("plan=1\nstep=action\nnow=0\nactor=9\nflags=0\nuses=0\ngoverns=0\n").map_err(|why| why.at),
        Err(At::Action(0))
    );
    assert!(
        (1..=33).all(|n| Refusal::of_number(n).number() == n && !matches!(Refusal::of_number(n), Refusal::Other(_)))
    );
}

#[test]
fn sets_are_sums_of_parts() {
    assert_eq!((Rights::ALL.sum(), Flags::ALL.sum(), Rights::default().sum()), (131_071, 1_023, 0));
    let set = Right::Read | Right::Delegate | Right::PolicyModify;
    assert_eq!((set.sum(), set.contains(Right::Write), set.contains(Right::Delegate)), (1 + 16 + 65_536, false, true));
    assert_eq!(set.iter().collect::<Vec<_>>(), [Right::Read, Right::Delegate, Right::PolicyModify]);
    assert_eq!((Right::ALL.len(), Flag::ALL.len(), Rights::of_sum(17)), (17, 10, Right::Read | Right::Delegate));
}

#[test]
fn threads_share_a_register() {
    fn shared<T: Send + Sync>(value: &T) -> &T {
        value
    }
    let r = case_r();
    let r = shared(&r);
    thread::scope(|scope| {
        let asked: Vec<_> =
            (0..8).map(|n| scope.spawn(move || (0..200).all(|_| r.may(2, READ, 1996 + n) == Ok(n < 4)))).collect();
        assert!(asked.into_iter().all(|one| one.join().expect("no thread panics")));
    });
}
