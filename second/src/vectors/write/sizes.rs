//! Encodings of up to 2,048 bytes and longer ones.

use super::super::encode::shortest_head;
use super::super::message::parts::*;
use super::super::LONGEST;
use super::draft::Slot;
use super::{Case, Draft, MOST_OUTPUT};
use crate::block::layout::*;
use crate::message::MOST_BYTES;

/// Messages with a part that may be long.
fn drafts() -> Vec<(Draft, Slot)> {
    let value = || valued(number(0));
    [
        (discovery(value()), Slot::Field(OBJECTIVE + VALUE)),
        (response([uri("u"), ex1()]), Slot::Listed(LOCATOR_SPAN)),
        (
            response([divert([domain("d")])]),
            Slot::Listed(LOCATOR_SPAN),
        ),
        (talk(8, value()), Slot::Field(OBJECTIVE + VALUE)),
        (end(declined("r")), Slot::Field(ITEM)),
        (flood([pair(value(), nowhere())]), Slot::Listed(VALUE)),
        (
            flood([pair(ex1(), v4()), pair(ex1(), bare_uri("u"))]),
            Slot::Listed(PAIR_FIELDS + PAIR_LOCATOR + LOCATOR_SPAN),
        ),
        (invalid([number(0)]), Slot::Field(ITEM)),
    ]
    .into_iter()
    .map(|(message, slot)| (Draft::said(&message), slot))
    .collect()
}

/// The same with a long part: a text, or a byte string as the value or item.
fn filled_by(draft: &Draft, slot: Slot, length: usize) -> Draft {
    let content = vec![b'l'; length];
    if draft.texts().contains(&slot) {
        return draft.holding(slot, &content);
    }
    let item = [shortest_head(2, length as u64), content].concat();
    draft.holding(slot, &item)
}

/// The greatest length of the part with which a message has the description.
fn most(draft: &Draft, slot: Slot) -> usize {
    let fits = |length: &usize| filled_by(draft, slot, *length).encoding().is_ok();
    (0..=MOST_BYTES)
        .rev()
        .find(fits)
        .expect("a length that fits")
}

/// Descriptions of 2,047, 2,048 and 2,049 bytes, with outputs that are too short by one and not.
pub fn filled() -> Vec<Case> {
    let mut cases = Vec::new();
    for (place, (draft, slot)) in drafts().into_iter().enumerate() {
        let most = most(&draft, slot);
        let [less, full, more] =
            [most - 1, most, most + 1].map(|length| filled_by(&draft, slot, length));
        assert_eq!(full.encoding().map(|bytes| bytes.len()), Ok(MOST_BYTES));
        let longer = [MOST_BYTES, MOST_BYTES + 1, MOST_OUTPUT][place % 3];
        cases.push(full.clone().within(longer));
        cases.push(more.clone().within(MOST_BYTES + 1));
        if place % 3 == 0 {
            cases.push(less.within(MOST_BYTES - 1));
            cases.push(full.within(MOST_BYTES - 1));
            cases.push(more.within(7 * place));
        }
    }
    cases
}

/// Descriptions of far more than 2,048 bytes, by one part and by several that share a source.
pub fn over_long() -> Vec<Case> {
    let mut cases = Vec::new();
    let (draft, slot) = (Draft::said(&end(declined("r"))), Slot::Field(ITEM));
    let length = LONGEST - draft.source.len();
    let long = draft.holding(slot, &vec![b'l'; length]);
    cases.push(long.within(MOST_OUTPUT));
    for (count, length) in [(2, 1_010), (2, 1_011), (4, 1_024), (8, 247), (8, 248)] {
        let mut draft = Draft::said(&response(vec![bare_uri("u"); count]));
        let at = draft.source.len() as u64;
        draft.source.extend(vec![b'u'; length]);
        for locator in draft.locators() {
            draft = draft.spanning(locator.after(LOCATOR_SPAN), at, length as u64);
        }
        cases.push(draft.roomy());
    }
    cases
}
