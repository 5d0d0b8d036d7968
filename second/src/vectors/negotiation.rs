//! The lists of `negotiation_vectors`: each takes a fresh state and steps on it; another state may
//! be put in its place.

pub mod generated;
mod steps;
mod talk;

pub use talk::{Op, Talk};

use super::Files;
use crate::history::negotiates_within;

/// All lists, one after the other, and the lines they give.
pub(super) fn files() -> Files {
    let talks = talks();
    Files {
        stdin: talks.iter().flat_map(Talk::stored).collect(),
        stdout: talks.iter().flat_map(|talk| talk.run().lines).collect(),
    }
}

/// What demand 3 finds wrong in the lists that it speaks of.
pub(super) fn faults() -> Vec<String> {
    let is_within = |talk: &Talk| {
        talk.run()
            .steps
            .is_none_or(|steps| negotiates_within(&steps))
    };
    let talks = talks();
    let wrong = talks
        .iter()
        .enumerate()
        .filter(|(_, talk)| !is_within(talk));
    wrong
        .map(|(place, _)| format!("negotiation {place}: demand 3: too many Negotiates"))
        .collect()
}

/// Every list, in the order of the stored files.
pub fn talks() -> Vec<Talk> {
    [steps::talks(), generated::talks()].concat()
}

#[cfg(test)]
mod tests;
