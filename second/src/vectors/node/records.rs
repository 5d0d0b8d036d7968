//! Fresh records, and records that no list of calls gives.

use super::draft::Draft;
use super::story::{Op, Story, ADDRESS, EX1};
use crate::node::Record;

pub fn stories() -> Vec<Story> {
    [fresh(), vec![put(), tallies(), answers()]].concat()
}

/// Counts and masks, good and bad, some with the low bits of a good one.
fn counts_and_masks() -> Vec<(u64, u64)> {
    let mut all = Vec::new();
    for count in 1..=8 {
        let most = (1 << count) - 1;
        all.extend([0, 1, most, most + 1, u64::MAX].map(|mask| (count, mask)));
        all.extend([256, 257, 1 << 32, 1 << 63].map(|mask| (count, mask)));
    }
    let counts = [
        0,
        9,
        10,
        64,
        65,
        128,
        255,
        256,
        259,
        1 << 32,
        (1 << 32) + 3,
        1 << 63,
    ];
    for count in counts.into_iter().chain([u64::MAX]) {
        all.extend([0, 1, 7, 256].map(|mask| (count, mask)));
    }
    all
}

/// Fresh records, each with a setting of links and a call after it.
fn fresh() -> Vec<Story> {
    let each = |(count, mask)| {
        let mut story = Story::fresh(count, mask);
        story.call(3, 0, &Draft::discovery().bytes());
        story.links(1);
        story.call(4, 0, &Draft::flood().bytes());
        story
    };
    counts_and_masks().into_iter().map(each).collect()
}

/// Those of one byte each in records that are put, with settings of links that are good and bad
/// beside them.
fn put() -> Story {
    let mut story = Story::fresh(3, 7);
    let narrow = |&(count, mask): &(u64, u64)| count <= 255 && mask <= 255;
    for (count, mask) in counts_and_masks().into_iter().filter(narrow) {
        story.ops.push(Op::Record(Record {
            address: ADDRESS,
            port: 1,
            ttl: 2,
            count,
            mask,
            clock: 77,
            tally: 5,
        }));
        story.call(77, 0, &Draft::discovery().count(1).bytes());
        story.links(1);
        story.links(256);
    }
    story
}

/// Tallies up to 2^63 and above, with relays of many copies.
fn tallies() -> Story {
    let mut story = Story::fresh(8, 255);
    let most = 1 << 63;
    let tallies = [
        0,
        most - 8,
        most - 7,
        most - 1,
        most,
        most + 1,
        most + 7,
        u64::MAX,
    ];
    for (session, tally) in tallies.into_iter().enumerate() {
        let record = |mask, clock| Record {
            address: ADDRESS,
            port: 7_017,
            ttl: 60_000,
            count: 8,
            mask,
            clock,
            tally,
        };
        for (turn, mask) in [255, 0x81].into_iter().enumerate() {
            story.ops.push(Op::Record(record(mask, 9)));
            for more in 0..3 {
                let number = 10 * session + 3 * turn + more;
                let draft = Draft::discovery().session(number as u32);
                story.call(9, 7, &draft.bytes());
                story.links(mask);
                story.links(256);
            }
            story.call(9, 7, b"\x81\x00");
        }
    }
    story
}

/// Answers with every width of session, ttl and port, and both lengths of initiators.
fn answers() -> Story {
    let edges = [0, 23, 24, 255, 256, 65_535, 65_536, u32::MAX];
    let mut story = Story::fresh(3, 7);
    for (turn, edge) in edges.into_iter().enumerate() {
        story.ops.push(Op::Record(Record {
            address: [turn as u8; 16],
            port: edge as u16,
            ttl: edges[edges.len() - 1 - turn],
            count: 8,
            mask: 255,
            clock: 0,
            tally: 1,
        }));
        for draft in &Draft::four()[..2] {
            let message = draft.clone().session(edge).bytes();
            story.named(u64::from(edge), turn as u64, EX1, &message);
        }
    }
    story
}
