//! What `driver.c` is asked, and how.

use crate::wire::Wire;

/// The requests of the driver, by the numbers of `driver.c`.
#[derive(Clone, Copy)]
#[repr(u32)]
pub enum Request {
    Load = 1,
    Sound,
    Grant,
    Revoke,
    Gate,
    Plan,
    Contains,
    ReadRegister,
    WriteRegister,
    ReadAction,
    VerdictText,
    ReadJson,
    WriteJson,
    ClearResource,
    ClearExpired,
    PlanText,
    SoundTable,
    Attach,
    Fetch,
    Propose,
    CheckProposal,
    Who,
    WhyUse,
    Boundary,
    Threads,
    Stack,
    LentStack,
    Words,
    WordStack,
}

/// Appends a request whose bytes the closure puts.
pub fn put_request(out: &mut Vec<u8>, request: Request, put: impl FnOnce(&mut Vec<u8>)) {
    (request as u32).put(out);
    0u32.put(out);
    let start = out.len();
    put(out);
    let size = (out.len() - start) as u32;
    out[start - 4..start].copy_from_slice(&size.to_le_bytes());
}

/// The calls, in the order in which the driver answers how much stack each of them took.
pub const STACK_ORDER: [&str; 27] = [
    "sound",
    "grant",
    "revoke",
    "gate",
    "judge_plan",
    "contains",
    "write_register",
    "read_register",
    "read_action",
    "verdict_text",
    "read_json",
    "write_json",
    "clear_resource",
    "clear_expired",
    "judge_plan_text",
    "sound_table",
    "plain_gate",
    "plain_plan",
    "attach",
    "fetch",
    "propose",
    "check_proposal",
    "why_unsound",
    "why_unread",
    "who",
    "cover_table",
    "why_use",
];
