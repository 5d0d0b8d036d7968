//! Random descriptions, mostly of messages, and damaged ones.

use super::super::message::generated::message;
use super::draft::Slot;
use super::{Case, Draft, MOST_OUTPUT};
use crate::block::layout::*;
use crate::message::read;
use crate::random::Random;
use crate::vectors::damage;

/// The most locators or pairs, mostly and at times, and the most bytes of a random message.
const FEW: [usize; 4] = [1, 1, 1, 3];
const SHORT: usize = 90;

/// Numbers that a field may be changed to.
const OTHERS: &[u64] = &[
    0,
    1,
    2,
    3,
    4,
    6,
    15,
    16,
    17,
    64,
    103,
    106,
    255,
    256,
    65_535,
    65_536,
    1 << 32,
    1 << 63,
    u64::MAX,
];

/// Random messages' descriptions.
pub fn good() -> Vec<Case> {
    let mut random = Random::new(22);
    (0..1_150)
        .map(|_| Case::Write(good_draft(&mut random)))
        .collect()
}

/// The same with one to three changes.
pub fn damaged() -> Vec<Case> {
    let mut random = Random::new(23);
    (0..850)
        .map(|_| Case::Write(damaged_draft(&mut random)))
        .collect()
}

/// A description of a random message, in a source of its own, mostly with room.
pub fn good_draft(random: &mut Random) -> Draft {
    let draft = described(random).scattered(random);
    with_output(random, draft)
}

/// A description with one to three changes, most of which no message has.
pub fn damaged_draft(random: &mut Random) -> Draft {
    let mut draft = described(random);
    if random.once_in(2) {
        draft = draft.scattered(random);
    }
    for _ in 0..1 + random.below(3) {
        draft = changed(random, draft);
    }
    with_output(random, draft)
}

/// A random message's description.
fn described(random: &mut Random) -> Draft {
    loop {
        let most = *random.pick(&FEW);
        let bytes = message(random, most);
        if bytes.len() <= SHORT && read(&bytes).is_ok() {
            return Draft::of(&bytes);
        }
    }
}

/// One change: of a number, of a span's content, of the list or of the source.
fn changed(random: &mut Random, mut draft: Draft) -> Draft {
    let slots = draft.slots();
    let slot = *random.pick(&slots);
    let said = draft.get(slot);
    match random.below(12) {
        0 | 1 => draft.set(slot, *random.pick(OTHERS)),
        2 => draft.set(slot, said.wrapping_add(1)),
        3 => draft.set(slot, said.wrapping_sub(1)),
        4 => draft.set(slot, said ^ 1 << random.below(64)),
        5 => draft.set(slot, random.number()),
        6 => {
            let other = draft.get(*random.pick(&slots));
            draft.set(slot, other);
        }
        7 => draft.source = damage::damaged(random, &draft.source),
        8 => change_list(random, &mut draft),
        9 => draft.fields[KIND] = *random.pick(&[0, 1, 2, 3, 4, 5, 6, 7, 8, 9, 99]),
        _ => return other_content(random, draft),
    }
    draft
}

/// A row or a number more or less, with the number of rows changed or not.
fn change_list(random: &mut Random, draft: &mut Draft) {
    let width = if random.once_in(4) { 1 } else { draft.width() };
    let many = draft.fields[LIST_MANY];
    if random.once_in(2) {
        draft.list.truncate(draft.list.len().saturating_sub(width));
        draft.fields[LIST_MANY] = many.wrapping_sub(u64::from(random.once_in(2)));
    } else {
        let more = draft.list.iter().copied().cycle().take(width);
        draft.list.extend(more.collect::<Vec<_>>());
        draft.fields[LIST_MANY] = many.wrapping_add(u64::from(random.once_in(2)));
    }
}

/// A span's content damaged, or another span's in its place.
fn other_content(random: &mut Random, draft: Draft) -> Draft {
    let held = |slot: &Slot| {
        let at = usize::try_from(draft.get(*slot)).ok()?;
        let length = usize::try_from(draft.get(slot.after(1))).ok()?;
        draft.source.get(at..)?.get(..length)
    };
    let spans: Vec<Slot> = draft
        .spans()
        .into_iter()
        .filter(|slot| held(slot).is_some())
        .collect();
    if spans.is_empty() {
        return draft;
    }
    let slot = *random.pick(&spans);
    let content = held(random.pick(&spans)).unwrap_or_default();
    if random.once_in(2) {
        return draft.holding(slot, content);
    }
    let content = damage::damaged(random, held(&slot).unwrap_or_default());
    draft.holding(slot, &content)
}

/// Mostly an output that is just long enough or a little longer.
fn with_output(random: &mut Random, mut draft: Draft) -> Draft {
    let length = match draft.encoding() {
        Ok(encoding) => encoding.len(),
        Err(_) => draft.source.len(),
    };
    draft.out_len = match random.below(12) {
        0 => length.saturating_sub(1),
        1 => random.below(length + 1),
        2 => length + random.below(40),
        3..=6 => length,
        _ => length + 1 + random.below(3),
    };
    draft.out_len = draft.out_len.min(MOST_OUTPUT);
    draft
}
