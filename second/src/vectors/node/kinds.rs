//! Messages of every kind, and messages that are refused.

use std::collections::BTreeMap;

use super::super::message::cases;
use super::super::message::parts::samples;
use super::draft::Draft;
use super::story::{Story, EX1, NO_NAMES};
use crate::message::read;

/// Cases of `message_vectors`: up to this length, so many of each refusal, and one in so many of
/// those that are accepted.
const SHORT: usize = 120;
const OF_EACH: usize = 10;
const ONE_IN: usize = 9;

pub fn stories() -> Vec<Story> {
    vec![all_kinds(), accepted(), refused(), floods()]
}

/// Every kind and option, twice and with own names.
fn all_kinds() -> Story {
    let mut story = Story::fresh(3, 7);
    for (clock, names) in [(1, NO_NAMES), (2, NO_NAMES), (120_001, EX1)] {
        for sample in samples() {
            story.named(clock, clock % 3, names, &sample.encoded());
        }
    }
    story
}

/// Accepted messages of `message_vectors`, as time goes on.
fn accepted() -> Story {
    let mut story = Story::fresh(3, 7);
    let short = cases().into_iter().filter(|case| case.len() <= SHORT);
    let accepted = short.filter(|case| read(case).is_ok());
    let some = accepted
        .enumerate()
        .filter(|(place, _)| place % ONE_IN == 0);
    for (place, message) in some {
        let place = (place / ONE_IN) as u64;
        story.call(2_000 * place, place % 3, &message);
    }
    story
}

/// Messages of each refusal, which free no dead row and take no clock.
fn refused() -> Story {
    let mut taken: BTreeMap<u8, usize> = BTreeMap::new();
    let mut story = Story::fresh(3, 7);
    story.call(5, 0, &Draft::discovery().bytes());
    story.call(6, 1, &Draft::flood().bytes());
    for message in cases() {
        let Err(number) = read(&message) else {
            continue;
        };
        let count = taken.entry(number).or_default();
        if *count < OF_EACH && (message.len() <= SHORT || number == 1 && *count < 3) {
            *count += 1;
            story.named(130_000, 2, EX1, &message);
        }
    }
    story.call(7, 0, &Draft::discovery().bytes());
    story.call(130_000, 0, b"\x81\x00");
    story
}

/// Floods of several objectives: the first count is the one that matters.
fn floods() -> Story {
    let mut story = Story::fresh(3, 7);
    let all = [vec![0], vec![1, 2], vec![255, 0, 24], vec![0; 25]];
    for (round, others) in all.into_iter().enumerate() {
        for (session, count) in [0, 1, 2, 24, 255].into_iter().enumerate() {
            let mut draft = Draft::flood().session(session as u32).count(count);
            draft.others = others.clone();
            story.call(120_000 * round as u64, 1, &draft.bytes());
        }
    }
    story
}
