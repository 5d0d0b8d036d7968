//! Messages that are read and written again.

use std::collections::BTreeMap;

use super::super::message::cases;
use super::{Case, MOST_OUTPUT};
use crate::message::read;

/// Up to this length every accepted message is written again.
const SHORT: usize = 300;

/// Every so many long messages, and messages of each refusal's number.
const ONE_IN: usize = 8;
const OF_EACH: usize = 12;

fn rewrite(message: &[u8], out_len: usize) -> Case {
    Case::Rewrite {
        message: message.to_vec(),
        out_len: out_len.min(MOST_OUTPUT),
    }
}

/// The short messages of `message_vectors` that are accepted, some with too short an output.
pub fn accepted() -> Vec<Case> {
    let mut cases_here = Vec::new();
    let short = cases().into_iter().filter(|case| case.len() <= SHORT);
    let accepted = short.filter(|case| read(case).is_ok());
    for (place, message) in accepted.enumerate() {
        let length = message.len();
        cases_here.push(rewrite(&message, length + place % 3));
        match place % 24 {
            0 => cases_here.push(rewrite(&message, length - 1)),
            12 => cases_here.push(rewrite(&message, place % length)),
            _ => {}
        }
    }
    cases_here
}

/// Some of the long ones.
pub fn long() -> Vec<Case> {
    let long = cases().into_iter().filter(|case| case.len() > SHORT);
    let accepted = long.filter(|case| read(case).is_ok());
    let some = accepted
        .enumerate()
        .filter(|(place, _)| place % ONE_IN == 0);
    some.flat_map(|(place, message)| {
        let length = message.len();
        let short = [length - 1, 0][place % 2];
        [length + place % 5, short].map(|out_len| rewrite(&message, out_len))
    })
    .collect()
}

/// Some messages of each refusal's number, with long and short outputs.
pub fn refused() -> Vec<Case> {
    let mut taken = BTreeMap::new();
    let mut cases_here = Vec::new();
    for message in cases() {
        let Err(number) = read(&message) else {
            continue;
        };
        let count: &mut usize = taken.entry(number).or_default();
        let most = if number == 1 { 3 } else { OF_EACH };
        if *count < most && (message.len() <= SHORT || number == 1) {
            *count += 1;
            let lengths = [message.len() + 1, 0];
            cases_here.extend(lengths.map(|out_len| rewrite(&message, out_len)));
        }
    }
    cases_here
}
