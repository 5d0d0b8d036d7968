//! Values and items: their levels, and what is not exactly one well-formed item.

use super::super::encode::AROUND;
use super::super::message::levels::nest;
use super::super::message::parts::*;
use super::super::unhex;
use super::draft::Slot;
use super::{Case, Draft};
use crate::block::layout::*;

/// Bytes that are not one well-formed item, by each refusal of the walk.
const NOT_ONE: &[&str] = &[
    "18",
    "42 00",
    "82 00",
    "A1 00",
    "C0",
    "9B FFFFFFFFFFFFFFFF 00",
    "BB 8000000000000000",
    "1C",
    "F8 1F",
    "5F 40 FF",
    "FF",
    "18 17",
    "59 0001 00",
    "D8 17 00",
    "00 00",
    "80 80",
    "40 00",
    "60 1C",
    "F6 FF",
];

/// Single items of every sort.
const ONE: &[&str] = &[
    "00",
    "3B FFFFFFFFFFFFFFFF",
    "40",
    "61 FF",
    "80",
    "A1 F6 80",
    "D9 D9F7 00",
    "F7",
    "F8 20",
    "F9 0000",
    "FB 0000000000000000",
];

/// A message for every place of a value or item.
fn drafts() -> Vec<Draft> {
    with_value(&number(0)).iter().map(Draft::said).collect()
}

/// The place of the value that is there already.
fn place(draft: &Draft) -> Slot {
    let all = draft.items().into_iter();
    let mut said = all.filter(|slot| draft.get(slot.after(1)) > 0);
    said.next().expect("a value")
}

/// The deepest values that a place holds, and those a level deeper, by several sorts of container.
pub fn levels() -> Vec<Case> {
    let mut cases = Vec::new();
    for draft in drafts() {
        let slot = place(&draft);
        let most = match draft.fields[KIND] {
            99 => 7,
            9 => 5,
            _ => 6,
        };
        for depth in [most, most + 1] {
            for sorts in [&AROUND[..1], AROUND] {
                let value = nest(depth, "00", sorts).encoded();
                cases.push(draft.holding(slot, &value).roomy());
            }
            let empty = nest(depth - 1, "80", &AROUND[4..5]).encoded();
            cases.push(draft.holding(slot, &empty).roomy());
        }
    }
    cases
}

/// Items, and what is not one: all in three places, some in every place.
pub fn not_one_item() -> Vec<Case> {
    let mut cases = Vec::new();
    for (number, draft) in drafts().into_iter().enumerate() {
        let slot = place(&draft);
        let every = if number % 5 == 0 { 1 } else { 6 };
        for value in ONE.iter().chain(NOT_ONE).step_by(every) {
            cases.push(draft.holding(slot, &unhex(value)).roomy());
        }
        for value in ["C0", "00 00"] {
            cases.extend(draft.holding(slot, &unhex(value)).roomy_and_short());
        }
    }
    cases
}

/// What is missing in one value of a Flood and follows another, so that the bytes together, or
/// with what stands between, look whole.
pub fn balanced() -> Vec<Case> {
    let short = [
        "82 00", "42 00", "61", "C0", "A1 00", "18", "19 00", "83 00",
    ];
    let extra = ["00 00", "80 00", "00 80"];
    let valued = || valued(number(0));
    let draft = Draft::said(&flood([pair(valued(), nowhere()), pair(valued(), v4())]));
    let both = |first: &[u8], second: &[u8]| {
        let values = draft.items();
        draft.holding(values[0], first).holding(values[1], second)
    };
    let mut cases = Vec::new();
    for less in short.map(unhex) {
        for more in extra.map(unhex) {
            cases.extend([both(&less, &more), both(&more, &less)].map(Draft::roomy));
        }
    }
    cases.extend(swallowed());
    cases
}

/// Values that would take in what is written after them.
fn swallowed() -> Vec<Case> {
    let mut cases = Vec::new();
    let bare = |value| pair(valued(value), nowhere());
    let one = Draft::said(&flood([bare(number(0)), pair(ex1(), nowhere())]));
    // The empty array, then the whole next pair.
    for value in ["81", "C0", "82", "82 00", "A1", "83 80"] {
        cases.extend(one.holding(place(&one), &unhex(value)).roomy_and_short());
    }
    // The next pair said inside the first one's value.
    for value in [
        "00 80 82 83 63 455831 01 02",
        "00 80 82 84 63 455831 01 02 00",
    ] {
        let draft = one.holding(place(&one), &unhex(value));
        let mut less = draft.clone();
        less.list.truncate(PAIR_FIELDS);
        less.fields[LIST_MANY] = 1;
        cases.extend([draft, less].into_iter().flat_map(Draft::roomy_and_short));
    }
    let last = Draft::said(&response([v4(), valued(number(0))]));
    for value in ["00 00", "00 80", "81"] {
        cases.extend(last.holding(place(&last), &unhex(value)).roomy_and_short());
    }
    cases
}
