//! The model's layout against `layout.h`, whose numbers the driver asserts of the C side.

use crate::types::*;
use std::mem::{offset_of, size_of};

macro_rules! layout {
    ($($c:literal $name:ty { $($field:ident),* })*) => {
        /// The model's own numbers, written as `layout.h` writes them.
        fn lines() -> Vec<String> {
            let mut lines = Vec::new();
            $(
                lines.push(format!("SIZE({}, {})", $c, size_of::<$name>()));
                $(lines.push(format!("FIELD({}, {}, {})", $c, stringify!($field), offset_of!($name, $field)));)*
            )*
            lines
        }
    };
}

layout! {
    "actor" Actor { id, kind, owner }
    "resource" Resource { id, is_public, keeper, len, path }
    "claim" Claim { id, parent, grantor, holder, resource, rights, weight, left, expiry }
    "actors" Actors { list, count }
    "resources" Resources { list, count }
    "claims" Claims { list, count }
    "register" Register { actors, resources, claims, version }
    "usage" Usage { resource, right }
    "action" Action { actor, flags, now, uses, used, governs, governed }
    "plan" Plan { actions, count }
    "soundness" Soundness { sound }
    "containment" Containment { contained, length }
    "granted" Granted { state, accepted, refusal }
    "revoked" Revoked { state, accepted, refusal, removed }
    "violation" Violation { kind, value }
    "verdict" Verdict { decision, refusal, violations, count, hops }
    "judgement" Judgement { decision, violations }
    "plan_verdict" PlanVerdict { accepted, refusal, position, list, count }
    "plan_text_verdict" PlanTextVerdict { accepted, refusal, line, position, list, count }
    "register_read" RegisterRead { state, accepted, refusal, line }
    "action_read" ActionRead { action, accepted, refusal, line }
    "json_read" JsonRead { action, accepted, refusal, kind, id_len, id }
    "written" Written { accepted, refusal, length }
    "version_numbers" VersionNumbers { major, minor, patch }
    "signers" Signers { list, count }
    "proposal" Proposal { kind, claim }
    "proposed" Proposed { proposal, accepted, refusal }
    "checked" Checked { answer, refusal }
    "table" CoverTable { accepted, refusal, owner, hops, states, own, owners }
    "fingerprint" Fingerprint { bytes }
    "entry" Entry { resource, fingerprint }
    "book" Book { entries, count }
    "attached" Attached { book, accepted, refusal }
    "fetched" Fetched { fingerprint, accepted, refusal }
    "fault" FirstFault { sound, why, list, id, place, line }
    "holders" Holders { accepted, refusal, ids, count }
    "reason" Reason { kind, count, chain, keeper, ended }
    "use_reason" UseReason { accepted, refusal, actor, owner, owners }
}

/// The first line where the two differ, as (the header's, the model's).
pub fn difference() -> Option<(String, String)> {
    let header: Vec<&str> = include_str!("../layout.h")
        .lines()
        .filter(|line| line.starts_with("SIZE(") || line.starts_with("FIELD("))
        .collect();
    let own = lines();
    (0..header.len().max(own.len())).find_map(|i| {
        let there = header.get(i).copied().unwrap_or("nothing");
        let here = own.get(i).map_or("nothing", String::as_str);
        (there != here).then(|| (there.to_owned(), here.to_owned()))
    })
}

#[cfg(test)]
mod tests {
    #[test]
    fn the_header_has_the_models_numbers() {
        assert_eq!(super::difference(), None);
    }
}
