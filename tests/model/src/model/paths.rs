//! Path containment.

use crate::types::Containment;

/// Whether a component of the path equals `..`. Components are cut at slashes only.
pub fn climbs(path: &[u8]) -> bool {
    path.split(|&byte| byte == b'/').any(|component| component == b"..")
}

/// The path without the slashes at its end.
fn trimmed(mut path: &[u8]) -> &[u8] {
    while let [front @ .., b'/'] = path {
        path = front;
    }
    path
}

/// Of paths of which neither climbs: the length of the trimmed outer one where it contains the inner one.
pub fn reach(outer: &[u8], inner: &[u8]) -> Option<usize> {
    let trimmed = trimmed(outer);
    let contains = outer.is_empty() || matches!(inner.strip_prefix(trimmed), Some([] | [b'/', ..]));
    contains.then_some(trimmed.len())
}

/// The length of the trimmed outer path where it contains the inner one.
pub fn contains(outer: &[u8], inner: &[u8]) -> Option<usize> {
    if climbs(outer) || climbs(inner) {
        return None;
    }
    reach(outer, inner)
}

impl Containment {
    pub fn of(outer: &[u8], inner: &[u8]) -> Self {
        let length = contains(outer, inner);
        Containment { contained: length.is_some().into(), length: length.unwrap_or(0) }
    }
}
