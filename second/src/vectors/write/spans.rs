//! Spans at the end of the source, past it, and so far off that place and length do not fit.

use super::super::message::parts::*;
use super::draft::Slot;
use super::{Case, Draft};
use crate::block::layout::*;

/// Messages with all sorts of spans.
fn with_spans() -> Vec<Draft> {
    [
        discovery(valued(number(24))),
        response([v6(), domain("a.example"), valued(text("v"))]),
        talk(3, valued(bytes(2))),
        end(declined("no")),
        flood([pair(valued(number(24)), v4()), pair(ex1(), uri("a:b"))]),
        invalid([number(24)]),
    ]
    .iter()
    .map(Draft::said)
    .collect()
}

/// Every span as the last bytes of the source, and with the source one byte shorter.
pub fn ends() -> Vec<Case> {
    let mut cases = Vec::new();
    for draft in with_spans() {
        for slot in draft.spans() {
            let content = draft.content(slot).to_vec();
            let last = draft.holding(slot, &content);
            let mut cut = last.clone();
            cut.source.pop();
            cases.push(last.clone().roomy());
            cases.extend(cut.roomy_and_short());
            let (at, length) = (last.get(slot), last.get(slot.after(1)));
            cases.push(last.with(slot, at + 1).roomy());
            cases.push(last.with(slot.after(1), length + 1).roomy());
        }
    }
    cases
}

/// Every span with places and lengths near 2^64, near 2^32 and where their sum is as small again.
pub fn far() -> Vec<Case> {
    let mut cases = Vec::new();
    for draft in with_spans() {
        for slot in draft.spans() {
            let (at, length) = (draft.get(slot), draft.get(slot.after(1)));
            for (at, length) in [
                (u64::MAX, length),
                (length.wrapping_neg(), length),
                (at + (1 << 32), length),
                (at, u64::MAX),
                (at, at.wrapping_neg()),
                (u64::MAX, u64::MAX),
                (u64::MAX, 1),
            ] {
                cases.push(draft.spanning(slot, at, length).roomy());
            }
        }
    }
    cases
}

/// Empty spans from the source's start to past its end, and with no source at all.
pub fn empty() -> Vec<Case> {
    let mut cases = Vec::new();
    for draft in with_spans() {
        let length = draft.source.len() as u64;
        for slot in draft.spans() {
            for at in [0, length, length + 1, u64::MAX] {
                cases.push(draft.spanning(slot, at, 0).roomy());
            }
        }
    }
    let bare = [talk(5, named("")), end(declined("")), invalid([]), wait(0)];
    for mut draft in bare.iter().map(Draft::said) {
        draft.source.clear();
        for slot in draft.spans() {
            cases.extend([0, 1].map(|at| draft.spanning(slot, at, 0).roomy()));
            cases.push(draft.spanning(slot, 0, 1).roomy());
        }
        cases.push(draft.roomy());
    }
    cases
}

/// Spans that share bytes of the source.
pub fn shared() -> Vec<Case> {
    let mut cases = Vec::new();
    for draft in with_spans() {
        let mut other = draft.clone();
        other.source = b"\x61a\x61b\x61c\x61d\x61e\x61f\x61g\x61h".to_vec();
        for slot in draft.addresses() {
            other.set(slot, 0);
        }
        for (place, slot) in draft.texts().into_iter().enumerate() {
            other = other.spanning(slot, place as u64, 3);
        }
        for slot in draft.items() {
            other = other.spanning(slot, 4, 2);
        }
        cases.push(other.clone().roomy());
        for slot in other.items() {
            cases.push(other.with(slot, 5).roomy());
        }
    }
    let mut whole = Draft::said(&invalid([number(0)]));
    whole = whole.spanning(Slot::Field(ITEM), 0, whole.source.len() as u64);
    cases.push(whole.roomy());
    cases
}
