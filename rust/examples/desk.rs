//! Case R of the rule book, as a desk of a portal has it: cargo run --example desk. Machine 2 may read report 10 until second 2000.

use guvrendik::{Action, Claim, Decision, Refusal, Refused, Register, Right, Use};

const READ: Use = Use::new(10, Right::Read);
const WRITE: Use = Use::new(10, Right::Write);

fn main() -> Result<(), Refused> {
    let register = Register::from_text(include_str!("../../examples/case-r/register.txt"))?;
    let asked = Action { actor: 2, moment: 1999, uses: vec![READ, WRITE], ..Action::default() };
    match register.gate(&asked)? {
        Decision::Permitted => println!("permitted"),
        Decision::Refused(violations) => violations.iter().for_each(|why| println!("refused: {why} ({why:?})")),
    }

    let claim = Claim {
        id: 3,
        parent: 1,
        grantor: 1,
        holder: 2,
        resource: 10,
        rights: Right::Write.into(),
        weight: 600,
        ..Claim::default()
    };
    let granted = register.grant(&claim, 1999)?;
    println!("granted: claim 3, machine 2 may write: {}", granted.may(2, WRITE, 1999)?);
    println!("why: {:?}", granted.why(2, READ, 2000)?.actor);

    let revoked = granted.revoke(1, 3)?;
    println!(
        "revoked: machine 2 may write: {}, the register is as before: {}",
        revoked.may(2, WRITE, 1999)?,
        revoked.text() == register.text()
    );
    println!("who may read at 1999: {:?}, at 2000: {:?}", revoked.who(READ, 1999)?, revoked.who(READ, 2000)?);

    let again = revoked.revoke(1, 3).expect_err("claim 3 does not stand");
    assert_eq!(again.refusal, Refusal::NoClaim);
    println!("refused: {again}");
    Ok(())
}
