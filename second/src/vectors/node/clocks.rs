//! Clocks that stand still, go back and jump, and rows that die.

use super::super::message::parts;
use super::draft::Draft;
use super::story::{given, Op, Story, ADDRESS, EX1};
use crate::node::Given;

pub fn stories() -> Vec<Story> {
    [lives(), vec![back_and_forth(), last_clocks()], deaths()].concat()
}

/// For how long a row of each tag lives, from several clocks on.
fn lives() -> Vec<Story> {
    let mut stories = Vec::new();
    for start in [0, 1 << 32, (1 << 63) - 1, u64::MAX - 240_000] {
        let mut story = Story::fresh(2, 3);
        for after in [
            0, 1, 59_999, 60_000, 119_999, 120_000, 179_999, 180_000, 240_000,
        ] {
            for draft in Draft::four() {
                story.call(start + after, after % 2, &draft.bytes());
            }
        }
        stories.push(story);
    }
    stories
}

/// Equal clocks and earlier ones, after calls that were answered and calls that were refused.
fn back_and_forth() -> Story {
    let mut story = Story::fresh(3, 7);
    for clock in [
        100, 100, 99, 100, 0, 101, 100, 99, 60_100, 60_099, 60_101, 1, 60_101,
    ] {
        story.call(clock, 0, &Draft::discovery().bytes());
        story.call(clock, 1, b"\x81\x00");
        story.call(clock + 50_000, 1, b"\x81");
        story.call(clock, 2, &Draft::flood().bytes());
    }
    story
}

/// The last clocks that there are.
fn last_clocks() -> Story {
    let mut story = Story::fresh(3, 7);
    let last = u64::MAX;
    let clocks = [
        0,
        last - 120_000,
        last - 60_000,
        last - 1,
        last,
        last,
        last - 1,
        0,
    ];
    for clock in clocks {
        for draft in Draft::both() {
            story.call(clock, 0, &draft.bytes());
        }
    }
    story.call(last, 0, &Draft::discovery().session(8).bytes());
    story.call(last, 0, &Draft::discovery().session(8).bytes());
    story
}

/// The clock at which rows of many ages stand in the table.
const NOW: u64 = 500_000;

/// Rows of every tag and age, and calls of every verdict and refusal on them.
fn deaths() -> Vec<Story> {
    let call = |message: &[u8]| given(NOW, 1, message);
    let own = Draft::discovery().from(&ADDRESS).bytes();
    let asking = |session| Draft::discovery().session(session).bytes();
    let calls = [
        call(b"\x81\x00"),
        call(&parts::end(parts::accept()).encoded()),
        call(&own),
        Given {
            names: EX1.to_vec(),
            ..call(&asking(70))
        },
        call(&asking(2)),
        call(&Draft::flood().session(9).bytes()),
        call(&Draft::discovery().session(70).count(1).bytes()),
        call(&asking(70)),
        call(b"\x81"),
        Given {
            out_len: 2_047,
            ..call(&asking(70))
        },
    ];
    let mut stories = calls.map(aged).to_vec();
    let mut nowhere = aged(call(&asking(70)));
    nowhere.ops.insert(1, Op::Links(2));
    stories.push(nowhere);
    stories
}

/// The call on the table of many ages, then the same again and a Noop a little later.
fn aged(given: Given) -> Story {
    let mut story = Story::fresh(3, 7);
    let ages = [0, 1, 59_999, 60_000, 60_001, 119_999, 120_000, 120_001, NOW];
    for (place, draft) in Draft::four().iter().enumerate() {
        for (more, age) in ages.into_iter().enumerate() {
            let draft = draft.clone().session(more as u32);
            story.row(5 + 4 * more + place, draft.row(NOW - age));
        }
    }
    story.ops.extend([given.clone(), given].map(Op::Call));
    story.call(NOW + 1, 0, b"\x81\x00");
    story
}
