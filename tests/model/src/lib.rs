//! The authority gate a second time, written from the rule book alone and in plain Rust: the model that the proved library is
//! compared with, and the baseline of its measurements. The same functions are exported to C under the names of
//! `include/guvrendik.h`, so that whatever links the library can be linked with the model instead.

pub mod exports;
pub mod layout;
pub mod model;
pub mod requests;
pub mod shapes;
pub mod types;
pub mod wire;
