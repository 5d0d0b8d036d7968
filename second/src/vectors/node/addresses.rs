//! What tells relays apart: kind, session and initiator with its length; and our own address.

use super::draft::Draft;
use super::story::{Story, ADDRESS, EX1};

pub fn stories() -> Vec<Story> {
    vec![
        initiators(),
        equal_numbers(),
        sessions(),
        own(ADDRESS),
        own([0; 16]),
        own([0xFF; 16]),
    ]
}

/// Initiators that differ in one byte, each twice.
fn initiators() -> Story {
    let mut story = Story::fresh(3, 7);
    for start in Draft::four() {
        let mut drafts = vec![start.clone()];
        for place in 0..start.initiator.len() {
            let mut draft = start.clone();
            draft.initiator[place] ^= if place % 2 == 0 { 0x80 } else { 0x01 };
            drafts.push(draft);
        }
        for draft in drafts.iter().chain(&drafts) {
            story.call(9, 2, &draft.bytes());
        }
    }
    story
}

/// Initiators of 4 bytes and of 16 that say the same number.
fn equal_numbers() -> Story {
    let mut story = Story::fresh(3, 7);
    let mut initiators = vec![];
    for short in [[0; 4], [0xFF; 4], [192, 0, 2, 1], [0, 0, 0, 1]] {
        initiators.push(short.to_vec());
        for place in [0, 4, 12] {
            let mut long = vec![0; 16];
            long[place..place + 4].copy_from_slice(&short);
            initiators.push(long);
        }
    }
    for clock in [0, 59_999, 60_000, 119_999] {
        for draft in Draft::both() {
            for initiator in &initiators {
                story.call(clock, 1, &draft.clone().from(initiator).bytes());
            }
        }
    }
    story
}

/// Sessions at every head width, in which bits of the tag must not be lost or found.
fn sessions() -> Story {
    let mut story = Story::fresh(3, 7);
    let sessions = [0, 1, 23, 24, 255, 256, 65_535, 65_536, 1 << 31, u32::MAX];
    for _ in 0..2 {
        for session in sessions {
            for draft in Draft::four() {
                story.call(3, 0, &draft.session(session).bytes());
            }
        }
    }
    story
}

/// Our own address, addresses that differ from it in one bit, and parts of it.
fn own(address: [u8; 16]) -> Story {
    let mut story = Story::at(address, 1, 1, 2, 3);
    let near = (0..16).map(|place| {
        let mut near = address;
        near[place] ^= 1 << (place % 8);
        near.to_vec()
    });
    let parts = [
        address.to_vec(),
        address[..4].to_vec(),
        address[12..].to_vec(),
    ];
    for initiator in near.chain(parts) {
        for draft in Draft::both() {
            story.call(0, 1, &draft.from(&initiator).bytes());
        }
    }
    for count in [0, 1, 255] {
        for draft in Draft::both() {
            let draft = draft.from(&address).count(count);
            story.named(0, 1, EX1, &draft.bytes());
        }
    }
    story
}
