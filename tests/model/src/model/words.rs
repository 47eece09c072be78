//! Words for numbers: refusals and violations by the tables of the rule book, rights and flags by the names of the JSON actions.

use super::json::{FLAG_NAMES, KINDS};
use super::Refusal;

/// The four kinds of number, in the order of `driver.c`.
#[derive(Clone, Copy, Debug)]
#[repr(u32)]
pub enum Words {
    Refusal,
    Violation,
    Right,
    Flag,
}

impl Words {
    pub const ALL: [(&'static str, Words); 4] = [
        ("refusal_text", Words::Refusal),
        ("violation_text", Words::Violation),
        ("right_name", Words::Right),
        ("flag_name", Words::Flag),
    ];

    /// The words for a number.
    pub fn text(self, number: u32) -> &'static str {
        match self {
            Words::Refusal => refusal(number),
            Words::Violation => violation(number),
            Words::Right => KINDS.get(number as usize).copied().unwrap_or("unknown right"),
            Words::Flag => FLAG_NAMES.get(number as usize).copied().unwrap_or("unknown flag"),
        }
    }

    /// Writes the words at the front of the buffer, or nothing where they do not fit.
    pub fn write(self, number: u32, buffer: &mut [u8]) -> Result<usize, Refusal> {
        let text = self.text(number).as_bytes();
        buffer.get_mut(..text.len()).ok_or(Refusal::Buffer)?.copy_from_slice(text);
        Ok(text.len())
    }
}

fn refusal(number: u32) -> &'static str {
    match number {
        0 => "not refused",
        1 => "register not sound",
        2 => "field or count of the call out of range",
        3 => "grantor, holder, resource, revoker, caller or acting actor not in the register",
        4 => "claim id already stands",
        5 => "256 claims stand",
        6 => "root grant by anyone but the keeper",
        7 => "grantor is a machine without owner",
        8 => "grantor is a machine and right 13, 15 or 16 is asked",
        9 => "parent does not stand",
        10 => "parent not held by the grantor, or on another resource",
        11 => "parent, or a claim above it, not live at the moment",
        12 => "parent lacks DELEGATE",
        13 => "a right the parent lacks",
        14 => "weight above the parent's",
        15 => "more than 16 hops, or left not below the parent's",
        16 => "circle: the holder holds a claim higher on the chain, or granted its root",
        17 => "claim to revoke does not stand",
        18 => "revoker is no grantor on that claim's chain, or caller is not the keeper or not human",
        19 => "text not of the form",
        20 => "a count line above its limit",
        21 => "buffer too short for the text",
        22 => "plan deeper than 8 levels",
        23 => "more than 64 actions in a plan text",
        24 => "JSON action of another form, with a number out of range or with more than 32 uses",
        25 => "a right above 2 or a governed entry, for which a JSON action has no place",
        26 => "no single grant by one of the signers would permit the use",
        27 => "action not permitted",
        28 => "no fingerprint is attached to the resource's number",
        29 => "64 entries stand, and none of the resource's number",
        30 => "book with more than 64 entries or with two for one number",
        31 => "an earlier record of the list has the id",
        32 => "owner of a human, or owner who is no human of the register",
        33 => "keeper who is no human of the register",
        _ => "unknown refusal",
    }
}

fn violation(kind: u32) -> &'static str {
    match kind {
        1 => "flag set",
        2 => "machine without owner",
        3 => "machine that governs",
        4 => "use that the actor does not cover",
        5 => "use that the machine's owner does not cover",
        _ => "unknown violation",
    }
}
