//! Bytes at the edges (rules 12), as stories.

use super::super::edges::AT_THE_EDGES;
use super::super::encode::AROUND;
use super::super::message::levels::nest;
use super::super::message::parts::*;
use super::super::message::sizes::of_length;
use super::super::message::term::Term;
use super::super::unhex;
use super::draft::Draft;
use super::story::{Story, EX1, NO_NAMES};

pub fn stories() -> Vec<Story> {
    [
        repeats(),
        vec![counts(), answers(), messages(), levels(), sizes()],
        full_tables(),
    ]
    .concat()
}

/// The Discovery and the Flood, again at once, and just before and when their rows die.
fn repeats() -> Vec<Story> {
    let mut stories = Vec::new();
    for start in [0, 1, 1_000_000] {
        for (draft, life) in [(Draft::discovery(), 60_000), (Draft::flood(), 120_000)] {
            let mut story = Story::fresh(3, 7);
            for after in [0, 0, life - 1, life, life, 2 * life - 1, 2 * life] {
                story.call(start + after, 0, &draft.bytes());
            }
            stories.push(story);
        }
    }
    stories
}

/// Loop counts where the head shrinks or a relay ends.
fn counts() -> Story {
    let mut story = Story::fresh(3, 7);
    for (session, count) in [0, 1, 2, 3, 23, 24, 25, 26, 254, 255]
        .into_iter()
        .enumerate()
    {
        for draft in Draft::four() {
            story.call(0, 0, &draft.session(session as u32).count(count).bytes());
        }
    }
    story
}

/// The Discovery of a name that is ours: on each interface, repeated, with any count.
fn answers() -> Story {
    let mut story = Story::fresh(3, 7);
    for interface in [0, 1, 2, 0] {
        for count in [2, 0, 255] {
            let draft = Draft::discovery().count(count);
            story.named(5, interface, EX1, &draft.bytes());
        }
    }
    story.call(5, 0, &Draft::discovery().bytes());
    story.named(5, 0, EX1, &Draft::discovery().bytes());
    story.links(1);
    story.named(5, 0, EX1, &Draft::discovery().session(8).bytes());
    story.named(5, 0, EX1, &Draft::flood().bytes());
    story
}

/// Every byte string written there, without and with own names.
fn messages() -> Story {
    let mut story = Story::fresh(3, 7);
    for (names, clock) in [(NO_NAMES, 0), (EX1, 60_000)] {
        for encoded in AT_THE_EDGES {
            story.named(clock, 0, names, &unhex(encoded));
        }
    }
    story
}

/// Level 8 accepted and level 9 refused in each sort of message.
fn levels() -> Story {
    let mut story = Story::fresh(3, 7);
    let arrays = |depth| nest(depth, "80", &AROUND[..1]);
    for (depth, holder) in [
        (5, discovery as Holder),
        (4, |objective| flood([pair(objective, nowhere())])),
    ] {
        story.call(0, 0, &holder(valued(arrays(depth + 1))).encoded());
        story.call(0, 0, &holder(valued(arrays(depth))).encoded());
    }
    for depth in [7, 6] {
        story.call(0, 0, &invalid([arrays(depth)]).encoded());
    }
    story
}

/// Messages of 2,048 bytes and of 2,049, with counts that keep their length or shrink.
fn sizes() -> Story {
    let holders: [fn(usize) -> Term; 5] = [
        |length| discovery(filled(length)),
        |length| discovery(filled(length).with(&[2], number(24))),
        |length| flood([pair(filled(length), v4())]),
        |length| flood([pair(ex1(), nowhere()), pair(filled(length), nowhere())]),
        |length| invalid([bytes(length)]),
    ];
    let mut story = Story::fresh(3, 7);
    for (place, holder) in holders.into_iter().enumerate() {
        let clock = 120_000 * place as u64;
        for total in [2_049, 2_048] {
            story.call(clock, 1, &of_length(total, holder));
        }
    }
    story.call(600_000, 1, &discovery(filled(4_000)).encoded());
    story
}

/// An objective with a value that holds so many bytes.
fn filled(length: usize) -> Term {
    valued(bytes(length))
}

/// 64 live rows give DUPLICATE and NOROW, and one dying gives RELAY.
fn full_tables() -> Vec<Story> {
    let mut stories = Vec::new();
    for (first, second, life) in [
        (Draft::discovery(), Draft::flood(), 60_000),
        (Draft::flood(), Draft::discovery(), 120_000),
    ] {
        let mut story = Story::fresh(4, 15);
        let row = |place| first.clone().session(place).bytes();
        for place in 0..64 {
            story.call(u64::from(place / 2), u64::from(place % 4), &row(place));
        }
        for place in 0..64 {
            story.call(31, 3, &row(place));
        }
        let more = |session| second.clone().session(session).bytes();
        for (clock, session) in [
            (31, 100),
            (life - 1, 100),
            (life, 100),
            (life, 101),
            (life, 102),
            (life, 100),
            (life + 1, 103),
            (life + 31, 104),
        ] {
            story.call(clock, 3, &more(session));
        }
        story.call(life + 31, 0, &row(63));
        stories.push(story);
    }
    stories
}
