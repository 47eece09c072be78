//! The numbers, structs and calls by pointer of `include/guvrendik.h`, written from it when the crate is compiled; each struct is held to
//! the header's size of it. `GUVRENDIK_LIMIT_CLAIMS` is `LIMIT_CLAIMS` here, `guvrendik_plan_verdict` is `PlanVerdict`, and the calls
//! keep their names. The crate `guvrendik` is the safe face.

#![no_std]
#![allow(clippy::unreadable_literal)]
include!(concat!(env!("OUT_DIR"), "/header.rs"));
