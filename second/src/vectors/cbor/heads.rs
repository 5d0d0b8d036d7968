//! Heads by their first byte and width.

use std::collections::BTreeSet;

use super::super::encode::head_forms;
use super::{item_and_head, Case, ARGUMENT_EDGES};

/// Every edge of every head width for every major type, whole and cut after each byte.
pub fn width_edges() -> Vec<Case> {
    let mut seen = BTreeSet::new();
    for major in 0..8 {
        for argument in ARGUMENT_EDGES {
            for form in head_forms(major, argument) {
                seen.extend((1..=form.len()).map(|length| form[..length].to_vec()));
            }
        }
    }
    seen.iter().flat_map(|bytes| item_and_head(bytes)).collect()
}

/// Every first byte alone, before zeros and before ones.
pub fn first_bytes() -> Vec<Case> {
    (0..=0xFF)
        .flat_map(|first| {
            [
                vec![first],
                [vec![first], vec![0x00; 9]].concat(),
                [vec![first], vec![0xFF; 9]].concat(),
            ]
        })
        .flat_map(|bytes| item_and_head(&bytes))
        .collect()
}

/// Every two-byte simple value (RFC 8949, section 3.3).
pub fn simple_values() -> Vec<Case> {
    (0..=0xFF)
        .flat_map(|value| item_and_head(&[0xF8, value]))
        .collect()
}
