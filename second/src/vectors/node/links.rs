//! Interfaces and links: where a relay goes, and what is refused.

use super::draft::Draft;
use super::story::Story;

/// Numbers of interfaces that are not there, some with the low bits of one that is.
const NO_INTERFACES: &[u64] = &[
    8,
    9,
    63,
    64,
    255,
    256,
    257,
    65_536,
    1 << 32,
    (1 << 32) + 1,
    1 << 63,
    u64::MAX,
];

pub fn stories() -> Vec<Story> {
    [
        arrivals(),
        vec![masks(), absent(3), absent(8), changes()],
        settings(),
    ]
    .concat()
}

/// A relay from each interface of nodes with 1 to 8, and one interface too far.
fn arrivals() -> Vec<Story> {
    let each = |count: u64| {
        let mut story = Story::fresh(count, (1 << count) - 1);
        for interface in 0..=count {
            for draft in Draft::both() {
                let message = draft.session(interface as u32).bytes();
                story.call(interface, interface, &message);
            }
        }
        story
    };
    (1..=8).map(each).collect()
}

/// Many masks of eight links, and each arriving interface.
fn masks() -> Story {
    let mut story = Story::fresh(8, 0);
    let masks = [
        0, 1, 128, 129, 0x18, 0x55, 0xAA, 0x0F, 0xF0, 0xFE, 0x7F, 0xFF,
    ];
    for (round, mask) in masks.into_iter().enumerate() {
        story.links(mask);
        for interface in 0..8 {
            let draft = Draft::discovery().session(interface as u32);
            story.call(60_000 * round as u64, interface, &draft.bytes());
        }
    }
    story
}

/// Interfaces that are not there, of nodes with this count.
fn absent(count: u64) -> Story {
    let mut story = Story::fresh(count, (1 << count) - 1);
    for &interface in [count, count + 1].iter().chain(NO_INTERFACES) {
        story.call(0, interface, &Draft::discovery().bytes());
    }
    story.call(0, count - 1, &Draft::discovery().bytes());
    story
}

/// Links that go down and up between relays.
fn changes() -> Story {
    let mut story = Story::fresh(4, 15);
    for (round, mask) in [15, 14, 3, 1, 0, 8, 12, 15, 15].into_iter().enumerate() {
        story.links(mask);
        for draft in Draft::both() {
            let fresh = draft.clone().session(100 + round as u32);
            for (interface, draft) in [(0, &draft), (3, &draft), (3, &fresh), (0, &fresh)] {
                story.call(20_000 * round as u64, interface, &draft.bytes());
            }
        }
    }
    story
}

/// New masks for each count, good and bad, and a call after each.
fn settings() -> Vec<Story> {
    let each = |count: u64| {
        let mut story = Story::fresh(count, 1);
        let all = (1 << count) - 1;
        let bad = [
            all + 1,
            all + 2,
            256,
            257,
            1 << 32,
            (1 << 32) + 1,
            1 << 63,
            u64::MAX,
        ];
        for (round, mask) in [all, 0, 1].into_iter().chain(bad).enumerate() {
            story.links(mask);
            story.call(60_000 * round as u64, 0, &Draft::discovery().bytes());
        }
        story
    };
    (1..=8).map(each).collect()
}
