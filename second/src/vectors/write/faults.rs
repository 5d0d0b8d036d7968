//! Descriptions that no accepted message has, one fault in each: with room, and where the output
//! is too short as well.

use super::super::message::parts::{accept, array, decline, declined, end, invalid, number, wait};
use super::draft::Slot;
use super::kinds::samples;
use super::{Case, Draft};
use crate::block::layout::*;

/// Every sample with a number for its kind that is none.
pub fn unknown_kinds() -> Vec<Case> {
    let mut cases = Vec::new();
    for draft in samples() {
        let kind = draft.fields[KIND];
        for wrong in [kind + 256, kind + (1 << 32)] {
            cases.push(draft.with(Slot::Field(KIND), wrong).roomy());
        }
    }
    for message in [array([number(0)]), wait(1)] {
        let draft = Draft::said(&message);
        for wrong in [10, 11, 23, 24, 98, 100, 101, 106, 255, 256, 355, u64::MAX] {
            cases.extend(draft.with(Slot::Field(KIND), wrong).roomy_and_short());
        }
    }
    cases
}

/// Every sample said to be of another kind.
pub fn other_kinds() -> Vec<Case> {
    let mut cases = Vec::new();
    for draft in samples() {
        for kind in [0, 1, 2, 3, 6, 7, 9, 99] {
            cases.push(draft.with(Slot::Field(KIND), kind).roomy());
        }
    }
    cases
}

/// Every field of every sample with other numbers, most of them wrong.
pub fn fields() -> Vec<Case> {
    let fields: Vec<Slot> = (1..FIELDS).map(Slot::Field).collect();
    samples()
        .iter()
        .enumerate()
        .flat_map(|(turn, draft)| other_numbers(draft, &fields, turn))
        .collect()
}

/// Every number of every row of every sample with other numbers.
pub fn rows() -> Vec<Case> {
    samples()
        .iter()
        .flat_map(|draft| {
            let listed = (0..draft.list.len()).map(Slot::Listed);
            other_numbers(draft, &listed.collect::<Vec<_>>(), 0)
        })
        .collect()
}

/// Each number one more, one less and much more; for 0 in turn the least other and, where the
/// output is too short as well, the greatest.
fn other_numbers(draft: &Draft, slots: &[Slot], turn: usize) -> Vec<Case> {
    let mut cases = Vec::new();
    for (place, &slot) in slots.iter().enumerate() {
        match draft.get(slot) {
            0 if (place + turn).is_multiple_of(2) => cases.push(draft.with(slot, 1).roomy()),
            0 => cases.push(draft.with(slot, u64::MAX).within(0)),
            said => {
                let others = [said - 1, said + 1, said + (1 << 32)];
                cases.extend(others.map(|other| draft.with(slot, other).roomy()));
            }
        }
    }
    cases
}

/// Every sort of list, number of rows and length of the list that is not the sample's.
pub fn lists() -> Vec<Case> {
    let mut cases = Vec::new();
    for draft in samples() {
        let (list, kind, many) = (&draft.list, draft.fields[LIST], draft.fields[LIST_MANY]);
        let mut others: Vec<Draft> = (0..5)
            .map(|kind| relisted(&draft, list, kind, many))
            .collect();
        for width in [1, LOCATOR_FIELDS, PAIR_FIELDS] {
            let more = [&list[..], &vec![0; width]].concat();
            others.extend([many, many + 1].map(|many| relisted(&draft, &more, kind, many)));
        }
        cases.extend(others.into_iter().map(Draft::roomy));
        if !list.is_empty() {
            let others = wrong_lengths(&draft).into_iter();
            cases.extend(others.flat_map(Draft::roomy_and_short));
        }
    }
    cases
}

/// The same with another list, sort of list and number of rows.
fn relisted(draft: &Draft, list: &[u64], kind: u64, many: u64) -> Draft {
    let mut other = draft.clone();
    other.list = list.to_vec();
    other.fields[LIST] = kind;
    other.fields[LIST_MANY] = many;
    other
}

/// Lists with too few numbers or too many, or of which too few or too many rows are said.
fn wrong_lengths(draft: &Draft) -> Vec<Draft> {
    let (list, kind, many) = (&draft.list, draft.fields[LIST], draft.fields[LIST_MANY]);
    // So many rows of twelve numbers are none if the product keeps 64 bits.
    let wrapped = 1 << 62;
    [
        (vec![], 0),
        (vec![], many),
        (vec![], wrapped),
        (list.clone(), many + wrapped),
        (list[1..].to_vec(), many),
        (list[1..].to_vec(), many - 1),
        (list[..list.len() - 1].to_vec(), many),
        (list[draft.width()..].to_vec(), many),
        (list.repeat(2), many),
        (list.repeat(2), 2 * many),
    ]
    .map(|(list, many)| relisted(draft, &list, kind, many))
    .to_vec()
}

/// Every outcome with and without a reason, and of messages that have none.
pub fn outcomes() -> Vec<Case> {
    let ends = [
        end(accept()),
        end(decline()),
        end(declined("no")),
        end(declined("")),
    ];
    let mut cases = Vec::new();
    for message in ends.iter().chain(&[invalid([number(0)]), wait(1)]) {
        let draft = Draft::said(message);
        for outcome in [0, 1, 2, 3, 4, u64::MAX] {
            let said = draft.with(Slot::Field(OUTCOME), outcome);
            for (at, length) in [(0, 0), (0, 1), (u64::MAX, 0)] {
                cases.push(said.spanning(Slot::Field(ITEM), at, length).roomy());
            }
        }
    }
    cases
}
