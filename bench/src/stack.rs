//! The stack of each call, as tests/model/driver.c measures it on the x86-64 library.

use crate::inputs::*;
use guvrendik_model::requests::{put_request, Request, STACK_ORDER};
use guvrendik_model::types::*;
use guvrendik_model::wire::Wire;
use std::io::{self, Read, Write};
use std::process::{Command, Stdio};

pub struct Stack {
    pub call: &'static str,
    pub bytes: u64,
}

/// Has the driver make each call once on a register of 255 claims, with a grant, a revocation and clearings that are accepted, an action
/// of 32 uses, a plan of 16 of them and a plan's text of eight levels and 64 actions of as many uses.
pub fn of(driver: &str, arguments: &[&str]) -> io::Result<Vec<Stack>> {
    let world = world(FULL, Holding { human: 64, machine: 64 }).cut(CLAIMS - 1);
    let action = world.actions(world.machine, USES, Covered::All)[0];
    let claims = &world.register.claims.list;
    let resource = world.register.resources.list[0];
    let plan_text = world.plan_texts(USES, Levels::Eight).swap_remove(0);
    let texts = [action_text(&action), json_actions(USES)[0].text(), plan_text];
    let mut request = Vec::new();
    put_request(&mut request, Request::Stack, |out| {
        world.register.put(out);
        action.put(out);
        world.plans(USES)[0].put(out);
        world.grants()[0].put(out);
        NOW.put(out);
        [claims[0].grantor, claims[0].id, resource.keeper, resource.id, resource.keeper].put(out);
        NOW.put(out);
        for text in texts {
            text.len().put(out);
            out.extend(text);
        }
    });

    let mut driver = Command::new(driver).args(arguments).stdin(Stdio::piped()).stdout(Stdio::piped()).spawn()?;
    let mut answer = Vec::new();
    driver.stdin.take().expect("it is piped").write_all(&request)?;
    driver.stdout.take().expect("it is piped").read_to_end(&mut answer)?;
    if !driver.wait()?.success() || answer.len() != 4 + STACK_ORDER.len() * 8 {
        return Err(io::Error::other("the driver did not answer"));
    }
    let from = &mut &answer[4..];
    Ok(STACK_ORDER.iter().map(|call| Stack { call, bytes: u64::take(from) }).collect())
}
