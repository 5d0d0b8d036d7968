//! Loop counts made one lower.

use super::super::message::parts::*;
use super::super::message::term::Term;
use super::super::LONGEST;
use super::{Case, MOST_OUTPUT};
use crate::message::{read, Message, Objective, Span, MOST_BYTES};
use crate::random::Random;

/// Loop counts where the head shrinks (rules 9.7) or the verdict changes (rules 9.2), and others.
const COUNTS: [u8; 8] = [0, 1, 2, 23, 24, 25, 26, 255];

/// Where the count that matters is said: a Flood's is its first objective's.
fn count_head(message: &[u8]) -> Span {
    let objective: Option<Objective> = match read(message) {
        Ok(Message::Discovery { objective, .. })
        | Ok(Message::RequestNegotiation { objective, .. })
        | Ok(Message::RequestSynchronization { objective, .. })
        | Ok(Message::Negotiate { objective, .. })
        | Ok(Message::Synch { objective, .. }) => Some(objective),
        Ok(Message::Response { objective, .. }) => objective,
        Ok(Message::Flood { pairs, .. }) => pairs.first().map(|pair| pair.objective),
        _ => None,
    };
    objective.expect("an objective").count_head
}

/// The count in its place made one lower, with outputs that just hold it, are longer or are not
/// long enough.
fn in_place(message: &Term, count: u8) -> Vec<Case> {
    let message = message.encoded();
    let Span { at, length } = count_head(&message);
    let width = if count < 25 { 1 } else { 2 };
    let copy = message.len() - length + width;
    [copy, copy + 3, copy - 1, 0]
        .map(|out_len| lower(&message, at, at + length, count, out_len))
        .to_vec()
}

fn lower(message: &[u8], at: usize, end: usize, count: u8, out_len: usize) -> Case {
    Case::Lower {
        message: message.to_vec(),
        at: at as u16,
        end: end as u16,
        count,
        out_len,
    }
}

/// Every count in every place of an objective, without and with a value.
pub fn counts() -> Vec<Case> {
    let mut cases = Vec::new();
    for holder in &AROUND_OBJECTIVE[..9] {
        for objective in [ex1(), valued(text("v"))] {
            for count in COUNTS {
                let message = holder(objective.with(&[2], number(u64::from(count))));
                cases.extend(in_place(&message, count));
            }
        }
    }
    cases
}

/// The first of several objectives, whatever the counts of the others.
pub fn floods() -> Vec<Case> {
    let mut cases = Vec::new();
    for count in COUNTS {
        for others in [0, 1, 24, 255] {
            let about = |count| valued(number(7)).with(&[2], number(count));
            let first = pair(about(u64::from(count)), v6());
            let rest = [
                pair(about(others), nowhere()),
                pair(about(others), uri("a:b")),
            ];
            cases.extend(in_place(&flood([&[first], &rest[..]].concat()), count));
        }
    }
    cases
}

/// Every two places of a short message, and some past its end.
pub fn odd_places() -> Vec<Case> {
    let message = discovery(ex1()).encoded();
    let length = message.len();
    let mut cases = vec![
        lower(&[], 0, 0, 1, 1),
        lower(&[], 0, 0, 25, 2),
        lower(&[], 0, 0, 25, 1),
    ];
    cases.extend(
        [(0, 0, 0), (0, 1, 1), (1, 1, 1)].map(|(at, end, count)| lower(&[], at, end, count, 4)),
    );
    for at in 0..=length + 2 {
        for end in 0..=length + 2 {
            let count = [2, 25, 255][(at + end) % 3];
            cases.push(lower(&message, at, end, count, length + 4));
        }
    }
    cases
}

/// Places so far off that their low bits alone would be good ones.
pub fn far_places() -> Vec<Case> {
    let message = discovery(ex1()).encoded();
    let length = message.len();
    let mut cases = Vec::new();
    for far in [256, 4_096, 32_768, 65_280, 65_520] {
        for (at, end) in [(length - 1, far + length), (far + length - 1, far + length)] {
            cases.push(lower(&message, at, end, 2, length));
            cases.push(lower(&message, at, end, 0, 0));
        }
        cases.push(lower(&message, far, 0, 2, length));
    }
    cases.push(lower(&message, 65_535, 65_535, 2, length));
    cases
}

/// Copies of 2,047, 2,048 and 2,049 bytes, and longer messages that a copy leaves parts of out.
pub fn sizes() -> Vec<Case> {
    let filled = |length: usize| {
        let content = (0..length).map(|place| place as u8);
        content.collect::<Vec<_>>()
    };
    let mut cases = Vec::new();
    for (length, at, end, count) in [
        (MOST_BYTES, 10, 11, 24),
        (MOST_BYTES, 10, 12, 24),
        (MOST_BYTES, 10, 11, 25),
        (MOST_BYTES, 2_046, 2_048, 255),
        (MOST_BYTES - 1, 0, 0, 24),
        (MOST_BYTES - 1, 2_047, 2_047, 25),
        (MOST_BYTES + 1, 1_000, 1_002, 24),
        (LONGEST, 100, 2_149, 24),
        (LONGEST, 100, 2_149, 25),
        (LONGEST, 0, 4_096, 255),
    ] {
        let message = filled(length);
        let copy = length - (end - at) + if count < 25 { 1 } else { 2 };
        cases.push(lower(&message, at, end, count, copy.min(MOST_OUTPUT)));
        if count == 24 && copy >= MOST_BYTES {
            cases.push(lower(&message, at, end, count, MOST_BYTES - 1));
        }
    }
    cases
}

/// Random bytes, places and counts.
pub fn random_places() -> Vec<Case> {
    let mut random = Random::new(24);
    (0..300)
        .map(|_| {
            let length = random.below(40);
            let message = random.bytes(length);
            let end = random.below(length + 2);
            let at = random.below(end + 2);
            let count = random.byte();
            let out_len = random.below(length + 5);
            lower(&message, at, end, count, out_len)
        })
        .collect()
}
