//! Reasons for verdicts and for refusals, each alone and with each other.

use super::draft::Draft;
use super::story::{given, Op, Story, ADDRESS, EX1, NO_NAMES};
use crate::node::{Given, Record};

pub fn stories() -> Vec<Story> {
    vec![
        verdicts(false),
        verdicts(true),
        refusals(0, 3),
        refusals(1, 1 << 32),
        refusals(2, 1),
        refusals(3, u64::MAX),
    ]
}

/// The clock of every call in these stories.
const NOW: u64 = 1_000_000;

/// Every set of reasons for a verdict, with the table full or not.
fn verdicts(is_full: bool) -> Story {
    let mut story = Story::fresh(3, 7);
    if is_full {
        fill(&mut story);
    }
    for set in 0..3 * 32 {
        let (reasons, count) = (set % 32, set / 32);
        let has = |bit: u32| reasons >> bit & 1 == 1;
        let [discovery, flood] = Draft::both();
        let draft = if has(0) { flood } else { discovery };
        let initiator: &[u8] = if has(1) { &ADDRESS } else { &[192, 0, 2, 1] };
        let draft = draft
            .from(initiator)
            .session(1_000 + set)
            .count(count as u8);
        if has(3) {
            story.row(40, draft.row(NOW - 59_999));
        }
        story.links(if has(4) { 2 } else { 7 });
        story.named(NOW, 1, if has(2) { EX1 } else { NO_NAMES }, &draft.bytes());
    }
    story
}

/// Live rows of all sorts in every place.
fn fill(story: &mut Story) {
    let drafts = Draft::four().into_iter().cycle();
    for (place, draft) in drafts.take(64).enumerate() {
        let admitted = NOW - 900 * place as u64;
        story.row(place, draft.session(place as u32).row(admitted));
    }
}

/// Every set of reasons for 12 to 17 and a refused message, with one way to be a bad record and
/// one interface that is not up.
fn refusals(way: usize, interface: u64) -> Story {
    let mut story = Story::fresh(3, 5);
    for (record, row) in [(0, 0), (0, 1), (1, 0), (1, 1)] {
        let record = [good_record(), bad_record(way)][record].clone();
        story.ops.push(Op::Record(record));
        story.row(63, Draft::flood().row(NOW + row));
        for set in 0..32 {
            story.ops.push(Op::Call(faulty(set, interface)));
        }
        for mask in [5, 8] {
            story.links(mask);
        }
    }
    story
}

/// A call with a set of faults.
fn faulty(set: u32, interface: u64) -> Given {
    let has = |bit: u32| set >> bit & 1 == 1;
    let discovery = Draft::discovery().bytes();
    Given {
        clock: if has(0) { NOW - 1 } else { NOW },
        interface: if has(1) { interface } else { 2 },
        names: if has(2) { vec![] } else { NO_NAMES.to_vec() },
        out_len: if has(3) { 2_047 } else { 2_048 },
        ..given(0, 0, if has(4) { &[] } else { &discovery })
    }
}

fn good_record() -> Record {
    Record {
        address: ADDRESS,
        port: 7_017,
        ttl: 60_000,
        count: 3,
        mask: 5,
        clock: NOW,
        tally: 9,
    }
}

/// A record that is bad by its count, its mask or its tally.
fn bad_record(way: usize) -> Record {
    let good = good_record();
    match way {
        0 => Record { count: 0, ..good },
        1 => Record { count: 9, ..good },
        2 => Record { mask: 13, ..good },
        _ => Record {
            tally: (1 << 63) + 1,
            ..good
        },
    }
}
