//! Makes a script that shows a difference smaller, as long as it still does.

use crate::case::{Call, Script};
use guvrendik_model::types::*;
use std::ops::Range;

/// How often a smaller script is tried at most.
const TRIES: usize = 3_000;

/// The smallest script found, by dropping and shortening greedily. `differs` says whether a script still shows a difference.
pub fn shrink(script: Script, mut differs: impl FnMut(&Script) -> bool) -> Script {
    let mut best = script;
    let mut tries = 0;
    loop {
        let mut smaller_found = false;
        // Each step is asked for by number, as the list of steps changes with every success.
        let mut step = 0;
        while let Some(smaller) = nth_step(&best, step) {
            if tries == TRIES {
                return best;
            }
            tries += 1;
            if smaller != best && differs(&smaller) {
                best = smaller;
                smaller_found = true;
            } else {
                step += 1;
            }
        }
        if !smaller_found {
            return best;
        }
    }
}

/// The script after the step with this number, or `None` past the last.
fn nth_step(script: &Script, mut step: usize) -> Option<Script> {
    if script.calls.len() > 1 {
        if step < script.calls.len() {
            let mut smaller = script.clone();
            smaller.calls.remove(step);
            return Some(smaller);
        }
        step -= script.calls.len();
    }
    let steps = script.register.as_ref().map_or(0, |register| register_steps(register));
    if step < steps {
        let mut smaller = script.clone();
        step_register(smaller.register.as_deref_mut()?, step);
        return Some(smaller);
    }
    step -= steps;
    for (at, call) in script.calls.iter().enumerate() {
        if step < call_steps(call) {
            let mut smaller = script.clone();
            step_call(&mut smaller.calls[at], step);
            return Some(smaller);
        }
        step -= call_steps(call);
    }
    None
}

fn register_steps(register: &Register) -> usize {
    // The claims first, from the last: others hang from the earlier ones. Then each is taken out of its chains. The last step clears what
    // stands past the counts.
    2 * counted(&register.claims)
        + counted(&register.resources)
        + counted(&register.actors)
        + counted(&register.resources)
        + 1
}

fn counted<T: Zero, const LIMIT: usize>(list: &List<T, LIMIT>) -> usize {
    list.count.min(LIMIT)
}

fn drop_from<T: Zero, const LIMIT: usize>(list: &mut List<T, LIMIT>, at: usize) {
    let end = counted(list);
    list.list.copy_within(at + 1..end, at);
    list.list[end - 1] = T::ZERO;
    // A count above the limit stays above it.
    if list.count <= LIMIT {
        list.count -= 1;
    }
}

/// Drops a claim, and hangs what is drawn from it where it hung itself.
fn take_out(claims: &mut Claims, at: usize) {
    let Claim { id, parent, grantor, .. } = claims.list[at];
    claims
        .list
        .iter_mut()
        .filter(|claim| claim.parent == id)
        .for_each(|claim| (claim.parent, claim.grantor) = (parent, grantor));
    drop_from(claims, at);
}

fn step_register(register: &mut Register, mut step: usize) {
    let claims = counted(&register.claims);
    if step < claims {
        return drop_from(&mut register.claims, claims - 1 - step);
    }
    step -= claims;
    if step < claims {
        return take_out(&mut register.claims, step);
    }
    step -= claims;
    let resources = counted(&register.resources);
    if step < resources {
        return drop_from(&mut register.resources, step);
    }
    step -= resources;
    let actors = counted(&register.actors);
    if step < actors {
        return drop_from(&mut register.actors, step);
    }
    step -= actors;
    if step < resources {
        let resource = &mut register.resources.list[step];
        resource.len = if resource.len as usize > PATH { resource.len } else { resource.len / 2 };
        return;
    }
    register.actors.list[actors..].fill(Actor::ZERO);
    register.resources.list[resources..].fill(Resource::ZERO);
    register.claims.list[claims..].fill(Claim::ZERO);
    for resource in &mut register.resources.list {
        let used = PATH.min(resource.len as usize);
        resource.path[used..].fill(0);
    }
}

fn call_steps(call: &Call) -> usize {
    match call {
        Call::Gate(action) => action_steps(action),
        Call::Plan(plan) => {
            let count = plan.count.min(ACTIONS);
            count + plan.actions[..count].iter().map(action_steps).sum::<usize>() + 1
        }
        Call::Contains { outer, inner } => outer.len() + inner.len() + outer.len().min(inner.len()),
        Call::ReadRegister(text) | Call::ReadAction(text) => text_steps(text, LINE),
        Call::PlanText(text) => entries(text).len() + text_steps(text, LINE),
        Call::VerdictText { register, action, .. } => text_steps(register, LINE) + text_steps(action, LINE) + 1,
        Call::ReadJson { text, .. } => text_steps(text, MEMBER) + 1,
        Call::WriteJson { action, id, .. } => action_steps(action) + id.len() + 2,
        Call::SoundTable(claims) => claims.len(),
        Call::Sound | Call::Grant { .. } | Call::Revoke { .. } => 0,
        Call::ClearResource { .. } | Call::ClearExpired { .. } | Call::Who { .. } | Call::WhyUse { .. } => 0,
        Call::WriteRegister { .. } => 1,
        Call::Attach { book, .. } | Call::Fetch { book, .. } => book.count.min(PLACES) + 1,
        Call::Propose(question) | Call::CheckProposal { question, .. } => question.signers.count.min(SIGNERS) + 1,
    }
}

fn step_call(call: &mut Call, mut step: usize) {
    match call {
        Call::Gate(action) => step_action(action, step),
        Call::Plan(plan) => {
            let count = plan.count.min(ACTIONS);
            if step < count {
                plan.actions.copy_within(step + 1..count, step);
                plan.actions[count - 1] = Action::ZERO;
                plan.count -= usize::from(plan.count <= ACTIONS);
                return;
            }
            step -= count;
            for action in &mut plan.actions[..count] {
                if step < action_steps(action) {
                    return step_action(action, step);
                }
                step -= action_steps(action);
            }
            plan.actions[count..].fill(Action::ZERO);
        }
        Call::Contains { outer, inner } => {
            let common = outer.len().min(inner.len());
            if step < common {
                // From both, as the one often begins the other.
                outer.remove(step);
                inner.remove(step);
            } else if step - common < outer.len() {
                outer.remove(step - common);
            } else {
                inner.remove(step - common - outer.len());
            }
        }
        Call::ReadRegister(text) | Call::ReadAction(text) => step_text(text, LINE, step),
        Call::PlanText(text) => match entries(text).get(step) {
            Some(entry) => drop_entry(text, entry),
            None => step_text(text, LINE, step - entries(text).len()),
        },
        Call::VerdictText { register, action, room, .. } => {
            let steps = text_steps(register, LINE);
            if step < steps {
                step_text(register, LINE, step);
            } else if step - steps < text_steps(action, LINE) {
                step_text(action, LINE, step - steps);
            } else {
                *room /= 2;
            }
        }
        Call::ReadJson { text, now } => {
            if step < text_steps(text, MEMBER) {
                step_text(text, MEMBER, step);
            } else {
                *now = 0;
            }
        }
        Call::WriteJson { action, id, kind, room, .. } => {
            if step < action_steps(action) {
                step_action(action, step);
            } else if step - action_steps(action) < id.len() {
                id.remove(step - action_steps(action));
            } else if step - action_steps(action) == id.len() {
                *kind = 0;
            } else {
                *room /= 2;
            }
        }
        Call::SoundTable(claims) => {
            claims.remove(step);
        }
        Call::WriteRegister { room, .. } => *room /= 2,
        Call::Attach { book, .. } | Call::Fetch { book, .. } => {
            let count = book.count.min(PLACES);
            if step < count {
                book.entries.copy_within(step + 1..count, step);
                book.entries[count - 1] = guvrendik_model::types::Entry::ZERO;
                book.count -= usize::from(book.count <= PLACES);
            } else {
                book.entries[count..].fill(guvrendik_model::types::Entry::ZERO);
            }
        }
        Call::Propose(question) | Call::CheckProposal { question, .. } => {
            let signers = &mut question.signers;
            let count = signers.count.min(SIGNERS);
            if step < count {
                signers.list.copy_within(step + 1..count, step);
                signers.list[count - 1] = 0;
                signers.count -= usize::from(signers.count <= SIGNERS);
            } else {
                signers.list[count..].fill(0);
            }
        }
        Call::Sound | Call::Grant { .. } | Call::Revoke { .. } => (),
        Call::ClearResource { .. } | Call::ClearExpired { .. } | Call::Who { .. } | Call::WhyUse { .. } => (),
    }
}

fn action_steps(action: &Action) -> usize {
    action.used.min(USES) + action.governed.min(GOVERNS) + 2
}

fn step_action(action: &mut Action, mut step: usize) {
    let used = action.used.min(USES);
    if step < used {
        action.uses.copy_within(step + 1..used, step);
        action.uses[used - 1] = Usage { resource: 0, right: 0 };
        action.used -= usize::from(action.used <= USES);
        return;
    }
    step -= used;
    let governed = action.governed.min(GOVERNS);
    if step < governed {
        action.governs.copy_within(step + 1..governed, step);
        action.governs[governed - 1] = 0;
        action.governed -= usize::from(action.governed <= GOVERNS);
    } else if step == governed {
        action.flags = 0;
    } else {
        action.uses[used..].fill(Usage { resource: 0, right: 0 });
        action.governs[governed..].fill(0);
    }
}

/// The parts of a text: the byte that each ends with, and how long a text is at most whose single bytes are tried too.
type Parts = (u8, usize);

const LINE: Parts = (b'\n', 200);
const MEMBER: Parts = (b',', 1_000);

fn lengths(text: &[u8], end: u8) -> Vec<usize> {
    text.split_inclusive(|&byte| byte == end).map(<[u8]>::len).collect()
}

/// Halves, then parts, then single bytes of a short text.
fn text_steps(text: &[u8], (end, short): Parts) -> usize {
    2 + lengths(text, end).len() + if text.len() <= short { text.len() } else { 0 }
}

fn step_text(text: &mut Vec<u8>, (end, _): Parts, step: usize) {
    let parts = lengths(text, end);
    match step {
        0 => text.truncate(text.len() / 2),
        1 => text.drain(..text.len() / 2).for_each(drop),
        _ if step - 2 < parts.len() => {
            let start: usize = parts[..step - 2].iter().sum();
            text.drain(start..start + parts[step - 2]).for_each(drop);
        }
        _ => {
            text.remove(step - 2 - parts.len());
        }
    }
}

/// A counted entry of a plan's text: its lines, and the line that has the count.
struct Entry {
    lines: Range<usize>,
    count: usize,
}

/// The steps, uses and governed entries of a plan's text, as far as it is of the form.
fn entries(text: &[u8]) -> Vec<Entry> {
    let lines: Vec<&[u8]> = text.split_inclusive(|&byte| byte == b'\n').collect();
    let mut entries = Vec::new();
    list_plan(&lines, &mut 0, &mut entries);
    entries
}

/// The count on a line with this key.
fn count_of(line: Option<&&[u8]>, key: &str) -> Option<usize> {
    std::str::from_utf8(line?).ok()?.strip_prefix(key)?.trim_end().parse().ok()
}

fn list_plan(lines: &[&[u8]], at: &mut usize, entries: &mut Vec<Entry>) -> Option<()> {
    let count = *at;
    *at += 1;
    for _ in 0..count_of(lines.get(count), "plan=")? {
        let start = *at;
        *at += 1;
        if lines.get(start)?.starts_with(b"step=plan") {
            list_plan(lines, at, entries)?;
        } else {
            // Behind `now`, `actor` and `flags`.
            *at += 3;
            list_counted(lines, at, "uses=", 2, entries)?;
            list_counted(lines, at, "governs=", 1, entries)?;
        }
        entries.push(Entry { lines: start..*at, count });
    }
    Some(())
}

fn list_counted(lines: &[&[u8]], at: &mut usize, key: &str, size: usize, entries: &mut Vec<Entry>) -> Option<()> {
    let count = *at;
    *at += 1;
    for _ in 0..count_of(lines.get(count), key)?.min(lines.len()) {
        entries.push(Entry { lines: *at..*at + size, count });
        *at += size;
    }
    Some(())
}

fn drop_entry(text: &mut Vec<u8>, entry: &Entry) {
    let mut smaller = Vec::with_capacity(text.len());
    for (at, line) in text.split_inclusive(|&byte| byte == b'\n').enumerate() {
        let key = line.iter().position(|&byte| byte == b'=').map_or(0, |equals| equals + 1);
        match count_of(Some(&&line[key..]), "") {
            _ if entry.lines.contains(&at) => (),
            Some(count) if at == entry.count => {
                smaller.extend_from_slice(&line[..key]);
                smaller.extend_from_slice(format!("{}\n", count - 1).as_bytes());
            }
            _ => smaller.extend_from_slice(line),
        }
    }
    *text = smaller;
}

#[cfg(test)]
mod tests {
    use super::*;
    use crate::generate::Generator;
    use guvrendik_model::model::{Fault, Model};

    /// Whether a model with the fault answers anything in the script otherwise.
    fn differs(script: &Script, fault: Fault) -> bool {
        let (mut right, mut wrong) = (script.start(), script.start());
        script.calls.iter().any(|call| {
            let (mut one, mut two) = (Vec::new(), Vec::new());
            call.answer(&Model::default(), &mut right, &mut one);
            call.answer(&Model { fault: Some(fault) }, &mut wrong, &mut two);
            one != two
        })
    }

    #[test]
    fn faults_shrink_to_a_few_entries() {
        for (name, fault) in Fault::ALL {
            let mut generator = Generator::new(11);
            let found = (0..200).flat_map(|round| generator.round(round)).find(|script| differs(script, fault));
            let small = shrink(found.expect("found in 200 rounds"), |script| differs(script, fault));
            let claims = small.register.as_ref().map_or(0, |register| register.claims.count);
            let lines = |call: &Call| if let Call::PlanText(text) = call { lengths(text, b'\n').len() } else { 0 };
            let room = if fault == Fault::RoomPerPlan { 65 * 7 } else { 0 };
            assert!(
                small.calls.iter().map(lines).sum::<usize>() <= room + 40,
                "{name}: {}",
                crate::saved::write(&small)
            );
            assert!(small.calls.len() <= 3 && claims <= 5, "{name}: {}", crate::saved::write(&small));
        }
    }
}
