//! How large registers are: the three sizes that comparisons and measurements share.

use crate::types::*;

/// How many actors, resources and claims a register is to have. Where the rules leave no further claim, it has fewer.
#[derive(Clone, Copy, Debug, PartialEq, Eq)]
pub struct Shape {
    pub actors: usize,
    pub resources: usize,
    pub claims: usize,
}

pub const SMALL: Shape = Shape { actors: 4, resources: 4, claims: 8 };
pub const MEDIUM: Shape = Shape { actors: 16, resources: 16, claims: 64 };
pub const FULL: Shape = Shape { actors: ACTORS, resources: RESOURCES, claims: CLAIMS };

impl Shape {
    pub fn name(&self) -> String {
        format!("({}, {}, {})", self.actors, self.resources, self.claims)
    }
}
