//! Scripts as readable files: what a difference is saved as, and replayed from.
//!
//! One thing to a line, `#` before a remark. Entries of a list have their position and are left out where all zero, so that also
//! what stands past a count is there. Bytes are quoted, one line of the file to a line of a text.

use crate::case::{Call, Script};
use guvrendik_model::model::proposals::Question;
use guvrendik_model::types::*;
use std::fmt::Write as _;

/// A line's `name=value` parts.
type Parts<'l> = Vec<(&'l str, &'l str)>;

pub fn write(script: &Script) -> String {
    let mut out = String::new();
    if let Some(register) = &script.register {
        write_register(register, &mut out);
    }
    for call in &script.calls {
        write_call(call, &mut out);
    }
    out
}

fn line(out: &mut String, text: std::fmt::Arguments) {
    out.write_fmt(text).expect("a string takes all");
    out.push('\n');
}

fn write_register(register: &Register, out: &mut String) {
    let Register { actors, resources, claims, version } = register;
    let counts = (actors.count, resources.count, claims.count);
    line(
        out,
        format_args!("register actors={} resources={} claims={} version={version}", counts.0, counts.1, counts.2),
    );
    for (at, Actor { id, kind, owner }) in filled(&actors.list) {
        line(out, format_args!("  actor at={at} id={id} kind={kind} owner={owner}"));
    }
    for (at, Resource { id, is_public, keeper, len, path }) in filled(&resources.list) {
        let used = path.iter().rposition(|&byte| byte != 0).map_or(0, |last| last + 1);
        let path = quoted(&path[..used]);
        line(out, format_args!("  resource at={at} id={id} public={is_public} keeper={keeper} len={len} path={path}"));
    }
    for (at, claim) in filled(&claims.list) {
        line(out, format_args!("  claim at={at} {}", claim_parts(claim)));
    }
}

fn claim_parts(claim: &Claim) -> String {
    let Claim { id, parent, grantor, holder, resource, rights, weight, left, expiry } = claim;
    format!(
        "id={id} parent={parent} grantor={grantor} holder={holder} resource={resource} rights={rights} weight={weight} \
         left={left} expiry={expiry}"
    )
}

/// The entries that are not all zero, with their positions.
fn filled<T: Zero + PartialEq>(list: &[T]) -> impl Iterator<Item = (usize, &T)> {
    list.iter().enumerate().filter(|(_, entry)| **entry != T::ZERO)
}

fn write_action(action: &Action, out: &mut String) {
    let Action { actor, flags, now, uses, used, governs, governed } = action;
    line(out, format_args!("  action actor={actor} flags={flags} now={now} used={used} governed={governed}"));
    for (at, Usage { resource, right }) in uses.iter().enumerate() {
        if (*resource, *right) != (0, 0) {
            line(out, format_args!("    use at={at} resource={resource} right={right}"));
        }
    }
    for (at, governed) in governs.iter().enumerate().filter(|(_, governed)| **governed != 0) {
        line(out, format_args!("    govern at={at} actor={governed}"));
    }
}

fn write_book(book: &Book, out: &mut String) {
    for (at, Entry { resource, fingerprint }) in filled(&book.entries) {
        line(out, format_args!("  entry at={at} resource={resource} fingerprint={}", quoted(&fingerprint.bytes)));
    }
}

fn fingerprint(parts: &Parts) -> Result<Fingerprint, String> {
    let bytes =
        unquoted(value(parts, "fingerprint")?)?.try_into().map_err(|_| "a fingerprint has 32 bytes".to_owned())?;
    Ok(Fingerprint { bytes })
}

/// The book of the last call.
fn book(script: &mut Script) -> Result<&mut Book, String> {
    match script.calls.last_mut() {
        Some(Call::Attach { book, .. } | Call::Fetch { book, .. }) => Ok(book),
        _ => Err("the call before it has no book".to_owned()),
    }
}

fn write_bytes(name: &str, bytes: &[u8], out: &mut String) {
    for part in bytes.split_inclusive(|&byte| byte == b'\n') {
        line(out, format_args!("  {name} bytes={}", quoted(part)));
    }
}

fn write_call(call: &Call, out: &mut String) {
    let name = call.name();
    match call {
        Call::Sound => line(out, format_args!("call {name}")),
        Call::SoundTable(claims) => {
            line(out, format_args!("call {name}"));
            claims.iter().for_each(|claim| line(out, format_args!("  record {}", claim_parts(claim))));
        }
        Call::Grant { claim, now, keep } => {
            line(out, format_args!("call {name} {} now={now} keep={}", claim_parts(claim), u8::from(*keep)));
        }
        Call::Revoke { revoker, claim, keep } => {
            line(out, format_args!("call {name} revoker={revoker} claim={claim} keep={}", u8::from(*keep)));
        }
        Call::ClearResource { caller, resource, keep } => {
            line(out, format_args!("call {name} caller={caller} resource={resource} keep={}", u8::from(*keep)));
        }
        Call::ClearExpired { caller, now, keep } => {
            line(out, format_args!("call {name} caller={caller} now={now} keep={}", u8::from(*keep)));
        }
        Call::Gate(action) => {
            line(out, format_args!("call {name}"));
            write_action(action, out);
        }
        Call::Plan(plan) => {
            line(out, format_args!("call {name} count={}", plan.count));
            // Up to the last action that is not all zero, so that each has its place.
            let last = plan.actions.iter().rposition(|action| *action != Action::ZERO).map_or(0, |last| last + 1);
            plan.actions[..last].iter().for_each(|action| write_action(action, out));
        }
        Call::Contains { outer, inner } => {
            line(out, format_args!("call {name} outer={} inner={}", quoted(outer), quoted(inner)));
        }
        Call::ReadRegister(text) | Call::ReadAction(text) | Call::PlanText(text) => {
            line(out, format_args!("call {name}"));
            write_bytes("text", text, out);
        }
        Call::WriteRegister { room, fill } => line(out, format_args!("call {name} room={room} fill={fill}")),
        Call::VerdictText { register, action, room, fill } => {
            line(out, format_args!("call {name} room={room} fill={fill}"));
            write_bytes("register-text", register, out);
            write_bytes("action-text", action, out);
        }
        Call::ReadJson { text, now } => {
            line(out, format_args!("call {name} now={now}"));
            write_bytes("text", text, out);
        }
        Call::WriteJson { action, id, kind, room, fill } => {
            line(out, format_args!("call {name} id={} kind={kind} room={room} fill={fill}", quoted(id)));
            write_action(action, out);
        }
        Call::Attach { book, actor, resource, now, fingerprint } => {
            let bytes = quoted(&fingerprint.bytes);
            let count = book.count;
            line(
                out,
                format_args!(
                    "call {name} actor={actor} resource={resource} now={now} fingerprint={bytes} count={count}"
                ),
            );
            write_book(book, out);
        }
        Call::Fetch { book, actor, resource, now } => {
            line(out, format_args!("call {name} actor={actor} resource={resource} now={now} count={}", book.count));
            write_book(book, out);
        }
        Call::Propose(question) => line(out, format_args!("call {name} {}", question_parts(question))),
        Call::CheckProposal { question, proposal } => {
            let claim = claim_parts(&proposal.claim);
            line(out, format_args!("call {name} {} proposes={} {claim}", question_parts(question), proposal.kind));
        }
        Call::WhyUse { actor, usage, moment } => line(
            out,
            format_args!("call {name} actor={actor} used={} right={} moment={moment}", usage.resource, usage.right),
        ),
        Call::Who { usage, moment } => {
            line(out, format_args!("call {name} used={} right={} moment={moment}", usage.resource, usage.right))
        }
    }
}

fn question_parts(question: &Question) -> String {
    let Question { actor, usage, moment, signers } = question;
    let list = signers.list.map(|signer| signer.to_string()).join(",");
    format!(
        "actor={actor} used={} right={} moment={moment} signers={list} count={}",
        usage.resource, usage.right, signers.count
    )
}

fn question(parts: &Parts) -> Result<Box<Question>, String> {
    let list: Result<Vec<u32>, _> = value(parts, "signers")?.split(',').map(str::parse).collect();
    let list = list.map_err(|_| "a signer is no number")?.try_into().map_err(|_| "there are eight signers")?;
    Ok(Box::new(Question {
        actor: number(parts, "actor")?,
        usage: Usage { resource: number(parts, "used")?, right: number(parts, "right")? },
        moment: number(parts, "moment")?,
        signers: Signers { list, count: number(parts, "count")? },
    }))
}

/// Printable bytes as they are, the rest, blanks and backslashes as `\xNN`, LF as `\n`.
fn quoted(bytes: &[u8]) -> String {
    let mut out = String::from("\"");
    for &byte in bytes {
        match byte {
            b'\n' => out.push_str("\\n"),
            0x21..=0x7E if byte != b'\\' => out.push(byte.into()),
            _ => write!(out, "\\x{byte:02x}").expect("a string takes all"),
        }
    }
    out.push('"');
    out
}

fn unquoted(text: &str) -> Result<Vec<u8>, String> {
    let wrong = || format!("not a quoted text: {text}");
    let inside = text.strip_prefix('"').and_then(|text| text.strip_suffix('"')).ok_or_else(wrong)?;
    let mut bytes = Vec::with_capacity(inside.len());
    let mut rest = inside.as_bytes();
    while let [first, after @ ..] = rest {
        rest = after;
        bytes.push(match (first, after) {
            (b'\\', [b'n', after @ ..]) => {
                rest = after;
                b'\n'
            }
            (b'\\', [b'x', high, low, after @ ..]) => {
                rest = after;
                let digits = [*high, *low];
                let digits = std::str::from_utf8(&digits).map_err(|_| wrong())?;
                u8::from_str_radix(digits, 16).map_err(|_| wrong())?
            }
            (b'\\', _) => return Err(wrong()),
            _ => *first,
        });
    }
    Ok(bytes)
}

/// Reads what `write` wrote. Remarks and empty lines are passed over.
pub fn read(text: &str) -> Result<Script, String> {
    let mut script = Script { register: None, calls: Vec::new() };
    // How many actions of the plan at hand were read.
    let mut planned = 0;
    for (number, line) in text.lines().enumerate() {
        let line = line.trim();
        if !line.is_empty() && !line.starts_with('#') {
            read_line(line, &mut script, &mut planned).map_err(|why| format!("line {}: {why}", number + 1))?;
        }
    }
    Ok(script)
}

fn read_line(line: &str, script: &mut Script, planned: &mut usize) -> Result<(), String> {
    let mut words = line.split_ascii_whitespace();
    let kind = words.next().unwrap_or_default();
    let name = if kind == "call" { words.next().ok_or("a call without a name")? } else { "" };
    let parts: Parts = words.map(|word| word.split_once('=').unwrap_or((word, ""))).collect();
    match kind {
        "register" => {
            let mut register = Box::new(Register::EMPTY);
            register.actors.count = number(&parts, "actors")?;
            register.resources.count = number(&parts, "resources")?;
            register.claims.count = number(&parts, "claims")?;
            register.version = number(&parts, "version")?;
            script.register = Some(register);
        }
        "actor" => {
            *at(&parts, &mut register(script)?.actors.list)? =
                Actor { id: number(&parts, "id")?, kind: number(&parts, "kind")?, owner: number(&parts, "owner")? };
        }
        "resource" => {
            let resource: &mut Resource = at(&parts, &mut register(script)?.resources.list)?;
            resource.id = number(&parts, "id")?;
            resource.is_public = number(&parts, "public")?;
            resource.keeper = number(&parts, "keeper")?;
            resource.len = number(&parts, "len")?;
            let path = unquoted(value(&parts, "path")?)?;
            resource.path.get_mut(..path.len()).ok_or("a path too long")?.copy_from_slice(&path);
        }
        "claim" => *at(&parts, &mut register(script)?.claims.list)? = claim(&parts)?,
        "record" => table(script)?.push(claim(&parts)?),
        "call" => {
            *planned = 0;
            script.calls.push(call(name, &parts)?);
        }
        "action" => {
            let read = Action {
                actor: number(&parts, "actor")?,
                flags: number(&parts, "flags")?,
                now: number(&parts, "now")?,
                used: number(&parts, "used")?,
                governed: number(&parts, "governed")?,
                ..Action::ZERO
            };
            *planned += 1;
            *action(script, *planned)? = read;
        }
        "use" => {
            *at(&parts, &mut action(script, *planned)?.uses)? =
                Usage { resource: number(&parts, "resource")?, right: number(&parts, "right")? };
        }
        "entry" => {
            *at(&parts, &mut book(script)?.entries)? =
                Entry { resource: number(&parts, "resource")?, fingerprint: fingerprint(&parts)? };
        }
        "govern" => *at(&parts, &mut action(script, *planned)?.governs)? = number(&parts, "actor")?,
        "text" | "register-text" | "action-text" => {
            let bytes = unquoted(value(&parts, "bytes")?)?;
            text(script, kind)?.extend(bytes);
        }
        _ => return Err(format!("unknown: {kind}")),
    }
    Ok(())
}

fn value<'l>(parts: &Parts<'l>, name: &str) -> Result<&'l str, String> {
    parts.iter().find(|(known, _)| *known == name).map(|(_, value)| *value).ok_or_else(|| format!("{name} is missing"))
}

fn number<N: std::str::FromStr>(parts: &Parts, name: &str) -> Result<N, String> {
    value(parts, name)?.parse().map_err(|_| format!("{name} is no number"))
}

/// The entry of a list that the line's `at` names.
fn at<'e, T>(parts: &Parts, list: &'e mut [T]) -> Result<&'e mut T, String> {
    let position: usize = number(parts, "at")?;
    list.get_mut(position).ok_or_else(|| "at is too large".to_owned())
}

fn register(script: &mut Script) -> Result<&mut Register, String> {
    script.register.as_deref_mut().ok_or_else(|| "no register line before it".to_owned())
}

/// The action that the last call's lines are about: of a plan, the `planned`th.
fn action(script: &mut Script, planned: usize) -> Result<&mut Action, String> {
    match script.calls.last_mut() {
        Some(Call::Gate(action) | Call::WriteJson { action, .. }) => Ok(action),
        Some(Call::Plan(plan)) => {
            let position = planned.checked_sub(1).ok_or("no action line before it")?;
            plan.actions.get_mut(position).ok_or_else(|| "too many actions".to_owned())
        }
        _ => Err("the call before it has no action".to_owned()),
    }
}

fn text<'s>(script: &'s mut Script, kind: &str) -> Result<&'s mut Vec<u8>, String> {
    match (script.calls.last_mut(), kind) {
        (
            Some(
                Call::ReadRegister(text) | Call::ReadAction(text) | Call::PlanText(text) | Call::ReadJson { text, .. },
            ),
            "text",
        ) => Ok(text),
        (Some(Call::VerdictText { register, .. }), "register-text") => Ok(register),
        (Some(Call::VerdictText { action, .. }), "action-text") => Ok(action),
        _ => Err("the call before it has no such text".to_owned()),
    }
}

fn table(script: &mut Script) -> Result<&mut Vec<Claim>, String> {
    match script.calls.last_mut() {
        Some(Call::SoundTable(claims)) => Ok(claims),
        _ => Err("the call before it has no table".to_owned()),
    }
}

fn claim(parts: &Parts) -> Result<Claim, String> {
    Ok(Claim {
        id: number(parts, "id")?,
        parent: number(parts, "parent")?,
        grantor: number(parts, "grantor")?,
        holder: number(parts, "holder")?,
        resource: number(parts, "resource")?,
        rights: number(parts, "rights")?,
        weight: number(parts, "weight")?,
        left: number(parts, "left")?,
        expiry: number(parts, "expiry")?,
    })
}

fn call(name: &str, parts: &Parts) -> Result<Call, String> {
    let keep = || number::<u8>(parts, "keep").map(|keep| keep == 1);
    Ok(match name {
        "sound" => Call::Sound,
        "sound_table" => Call::SoundTable(Vec::new()),
        "grant" => Call::Grant { claim: claim(parts)?, now: number(parts, "now")?, keep: keep()? },
        "revoke" => Call::Revoke { revoker: number(parts, "revoker")?, claim: number(parts, "claim")?, keep: keep()? },
        "clear_resource" => Call::ClearResource {
            caller: number(parts, "caller")?,
            resource: number(parts, "resource")?,
            keep: keep()?,
        },
        "clear_expired" => {
            Call::ClearExpired { caller: number(parts, "caller")?, now: number(parts, "now")?, keep: keep()? }
        }
        "gate" => Call::Gate(Box::new(Action::ZERO)),
        "judge_plan" => Call::Plan(Box::new(Plan { count: number(parts, "count")?, ..Plan::EMPTY })),
        "judge_plan_text" => Call::PlanText(Vec::new()),
        "contains" => {
            Call::Contains { outer: unquoted(value(parts, "outer")?)?, inner: unquoted(value(parts, "inner")?)? }
        }
        "read_register" => Call::ReadRegister(Vec::new()),
        "write_register" => Call::WriteRegister { room: number(parts, "room")?, fill: number(parts, "fill")? },
        "read_action" => Call::ReadAction(Vec::new()),
        "verdict_text" => Call::VerdictText {
            register: Vec::new(),
            action: Vec::new(),
            room: number(parts, "room")?,
            fill: number(parts, "fill")?,
        },
        "read_json" => Call::ReadJson { text: Vec::new(), now: number(parts, "now")? },
        "write_json" => Call::WriteJson {
            action: Box::new(Action::ZERO),
            id: unquoted(value(parts, "id")?)?,
            kind: number(parts, "kind")?,
            room: number(parts, "room")?,
            fill: number(parts, "fill")?,
        },
        "attach" => Call::Attach {
            book: Box::new(Book { count: number(parts, "count")?, ..Book::EMPTY }),
            actor: number(parts, "actor")?,
            resource: number(parts, "resource")?,
            now: number(parts, "now")?,
            fingerprint: fingerprint(parts)?,
        },
        "fetch" => Call::Fetch {
            book: Box::new(Book { count: number(parts, "count")?, ..Book::EMPTY }),
            actor: number(parts, "actor")?,
            resource: number(parts, "resource")?,
            now: number(parts, "now")?,
        },
        "propose" => Call::Propose(question(parts)?),
        "check_proposal" => Call::CheckProposal {
            question: question(parts)?,
            proposal: Proposal { kind: number(parts, "proposes")?, claim: claim(parts)? },
        },
        "why_use" => Call::WhyUse {
            actor: number(parts, "actor")?,
            usage: Usage { resource: number(parts, "used")?, right: number(parts, "right")? },
            moment: number(parts, "moment")?,
        },
        "who" => Call::Who {
            usage: Usage { resource: number(parts, "used")?, right: number(parts, "right")? },
            moment: number(parts, "moment")?,
        },
        _ => return Err(format!("unknown call: {name}")),
    })
}

#[cfg(test)]
mod tests {
    use crate::generate::Generator;

    #[test]
    fn a_script_is_read_as_it_was_written() {
        let mut generator = Generator::new(7);
        for round in 0..40 {
            for script in generator.round(round) {
                let text = super::write(&script);
                assert_eq!(super::read(&text).as_ref(), Ok(&script), "{text}");
            }
        }
    }

    #[test]
    fn what_is_not_of_the_form_is_told() {
        for text in
            ["call dance", "actor at=0 id=1 kind=1 owner=0", "call contains outer=\"a inner=\"\"", "call revoke"]
        {
            assert!(super::read(text).is_err(), "{text}");
        }
    }
}
