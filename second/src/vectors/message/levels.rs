//! Levels 8 and 9 in every place.

use super::super::encode::{held, AROUND};
use super::super::unhex;
use super::parts::*;
use super::term::{encoded, Term};

/// An item inside so many containers, of these sorts in turn.
pub fn nest(depth: usize, inside: &str, sorts: &[(&str, &str)]) -> Term {
    Term::Raw(held(depth, &unhex(inside), sorts))
}

/// Values of 5 to 8 levels in every place of a value, by each sort of container and by all.
pub fn values() -> Vec<Vec<u8>> {
    let mut values = Vec::new();
    for depth in 5..=8 {
        for sorts in AROUND.iter().map(std::slice::from_ref).chain([AROUND]) {
            values.push(nest(depth, "00", sorts));
        }
        for inside in ["80", "A0", "60"] {
            values.push(nest(depth, inside, &AROUND[..1]));
        }
    }
    encoded(values.iter().flat_map(with_value))
}

/// Faulty heads at level 8 and at level 9 in every place of a value: 6 comes after 2 to 5.
pub fn faulty_heads() -> Vec<Vec<u8>> {
    let mut values = Vec::new();
    for depth in 5..=7 {
        for fault in ["98 00", "D8 17", "9C", "BF", "82", "98"] {
            values.push(nest(depth, fault, &AROUND[..1]));
        }
    }
    encoded(values.iter().flat_map(with_value))
}

/// Two deep values side by side: a level that is left is given back.
pub fn siblings() -> Vec<Vec<u8>> {
    let arrays = |depth| nest(depth, "00", &AROUND[..1]);
    let mut cases = Vec::new();
    for first in 3..=7 {
        for second in 3..=7 {
            let objective = |depth| valued(arrays(depth));
            cases.push(flood([
                pair(objective(first), nowhere()),
                pair(objective(second), v4()),
            ]));
            cases.push(invalid([array([arrays(first), arrays(second)])]));
            cases.push(talk(5, valued(array([arrays(first), arrays(second)]))));
        }
    }
    encoded(cases)
}

/// An item that reaches level 8 or 9 in the place of every item of every sample.
pub fn other_places() -> Vec<Vec<u8>> {
    let mut cases = Vec::new();
    for sample in samples() {
        for place in sample.places() {
            for level in [8, 9] {
                let item = nest(level - place.len(), "00", &AROUND[..1]);
                cases.push(sample.with(&place, item));
            }
        }
    }
    encoded(cases)
}
