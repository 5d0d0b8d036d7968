//! Outputs of every length: too short by one byte, just long enough, and longer.

use super::super::message::parts::{array, number, response, v6};
use super::draft::Slot;
use super::kinds::samples;
use super::{Case, Draft, MOST_OUTPUT};
use crate::block::layout::*;

/// Each sample and a description near it that no message has, with outputs of these lengths.
pub fn lengths() -> Vec<Case> {
    let mut cases = Vec::new();
    for draft in samples() {
        let length = draft.source.len();
        let outputs = [0, length - 1, length, length + 1, length + 7];
        cases.extend(outputs.map(|out_len| draft.clone().within(out_len)));
        let wrong = draft.with(Slot::Field(LIST_AT), 1);
        cases.extend([length - 1, length].map(|out_len| wrong.clone().within(out_len)));
    }
    cases
}

/// Outputs as long as the longest message and longer.
pub fn long() -> Vec<Case> {
    let mut cases = Vec::new();
    for sample in [array([number(0)]), response([v6()])] {
        let draft = Draft::said(&sample);
        let wrong = draft.with(Slot::Field(KIND), 10);
        for out_len in [255, 256, 2_047, 2_048, 2_049, MOST_OUTPUT] {
            cases.push(draft.clone().within(out_len));
        }
        cases.push(wrong.within(MOST_OUTPUT));
    }
    cases
}
