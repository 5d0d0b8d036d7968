//! Random messages, mostly good, and random arrays that are nearly messages.

use super::super::arbitrary::{character, tree};
use super::super::damage::plain_and_damaged;
use super::parts::*;
use super::term::Term;
use crate::random::Random;

/// The most locators or pairs of a random message.
const FEW: usize = 3;

/// How rarely a field is not as it should be.
const SELDOM: usize = 150;

/// Random messages of every kind, plain and damaged.
pub fn messages() -> Vec<Vec<u8>> {
    let mut random = Random::new(12);
    let mut cases = Vec::new();
    for _ in 0..440 {
        let message = message(&mut random, FEW);
        cases.extend(plain_and_damaged(&mut random, &message));
    }
    cases
}

/// A message of any kind with up to so many locators or pairs; a field is seldom wrong.
pub fn message(random: &mut Random, most: usize) -> Vec<u8> {
    let kind = *random.pick(&[0, 1, 1, 2, 2, 2, 2, 3, 4, 5, 6, 6, 7, 8, 9, 9, 9, 9, 99]);
    let mut items = vec![number(kind)];
    if kind > 0 {
        items.push(limited(random, u64::from(u32::MAX)));
    }
    if matches!(kind, 1 | 2 | 9) {
        items.push(address(random, &[4, 16]));
    }
    if matches!(kind, 2 | 7 | 9) {
        items.push(limited(random, u64::from(u32::MAX)));
    }
    items.extend(options(random, kind, most));
    if random.once_in(SELDOM) {
        items.push(any(random));
    }
    array(items).encoded()
}

/// What follows the numbers and the initiator.
fn options(random: &mut Random, kind: u64, most: usize) -> Vec<Term> {
    match kind {
        1 | 3 | 4 | 5 | 8 => vec![objective(random)],
        2 => {
            let some = some_locators(random, most);
            let mut options = if random.once_in(2) {
                vec![divert(some)]
            } else {
                some
            };
            if random.once_in(2) {
                options.push(objective(random));
            }
            options
        }
        6 => match random.below(3) {
            0 => vec![accept()],
            1 => vec![decline()],
            _ => vec![array([number(102), words(random, 30)])],
        },
        9 => (0..1 + random.below(most))
            .map(|_| random_pair(random))
            .collect(),
        99 if random.once_in(2) => vec![any(random)],
        _ => vec![],
    }
}

fn some_locators(random: &mut Random, most: usize) -> Vec<Term> {
    (0..1 + random.below(most))
        .map(|_| locator(random))
        .collect()
}

fn random_pair(random: &mut Random) -> Term {
    let locator = match random.below(3) {
        0 => nowhere(),
        _ => locator(random),
    };
    pair(objective(random), locator)
}

fn objective(random: &mut Random) -> Term {
    let most = if random.once_in(8) { 66 } else { 12 };
    let mut items = vec![
        words(random, most),
        limited(random, 15),
        limited(random, 255),
    ];
    if random.once_in(2) {
        items.push(any(random));
    }
    array(items)
}

fn locator(random: &mut Random) -> Term {
    let option = 103 + random.below(4) as u64;
    let place = match option {
        103 => address(random, &[16]),
        104 => address(random, &[4]),
        _ => words(random, 20),
    };
    let mut protocol = number(*random.pick(&[6, 17]));
    let mut port = limited(random, 65_535);
    if option == 106 && random.once_in(2) || random.once_in(SELDOM) {
        protocol = null();
    }
    if option == 106 && random.once_in(2) || random.once_in(SELDOM) {
        port = null();
    }
    array([number(option), place, protocol, port])
}

/// A number up to this one, often the last, seldom any.
fn limited(random: &mut Random, most: u64) -> Term {
    match random.below(SELDOM) {
        0 => number(random.number()),
        1 => number(most + 1),
        2..=10 => number(most),
        _ => {
            let any = random.number();
            number(any % (most + 1))
        }
    }
}

/// A byte string of one of these lengths, seldom of another.
fn address(random: &mut Random, lengths: &[usize]) -> Term {
    let length = if random.once_in(SELDOM) {
        random.below(20)
    } else {
        *random.pick(lengths)
    };
    Term::Bytes(random.bytes(length))
}

/// A text of up to so many bytes, seldom not UTF-8.
fn words(random: &mut Random, most: usize) -> Term {
    let length = random.below(most + 1);
    if random.once_in(SELDOM) {
        return Term::Text(random.bytes(length));
    }
    let mut words = String::new();
    while words.len() < length {
        words.push(if random.once_in(4) {
            character(random)
        } else {
            'w'
        });
    }
    text(words)
}

/// An item of any sort, mostly flat.
fn any(random: &mut Random) -> Term {
    let depth = if random.once_in(10) { 8 } else { 3 };
    let depth = random.below(depth);
    Term::Raw(tree(random, depth))
}

/// A message with one part of up to 4,000 bytes, within the limits or over them.
pub fn long_message(random: &mut Random) -> Vec<u8> {
    let length = random.below(4_000);
    let mut options = vec![random_pair(random)];
    let long = match random.below(5) {
        0 => invalid([bytes(length)]),
        1 => response([locator(random), uri(vec![b'u'; length])]),
        2 => response([divert([domain(vec![b'd'; length]), locator(random)])]),
        3 => {
            options.push(pair(named(vec![b'n'; length]), locator(random)));
            flood(options)
        }
        _ => {
            options.push(pair(valued(bytes(length)), locator(random)));
            flood(options)
        }
    };
    long.encoded()
}

/// Random arrays led by a kind, of small items and options that may be right or not.
pub fn near_messages() -> Vec<Vec<u8>> {
    let mut random = Random::new(13);
    (0..800).map(|_| near_message(&mut random)).collect()
}

/// An array led by a kind, of up to five parts that may be right or not.
pub fn near_message(random: &mut Random) -> Vec<u8> {
    let kind = *random.pick(&[0, 1, 2, 3, 4, 5, 6, 7, 8, 9, 10, 99]);
    let mut items = vec![number(kind)];
    for _ in 0..random.below(6) {
        items.push(near_part(random));
    }
    array(items).encoded()
}

fn near_part(random: &mut Random) -> Term {
    match random.below(9) {
        0..=2 => number(random.below(300) as u64),
        3 => bytes(*random.pick(&[4, 16])),
        4 => objective(random),
        5 => locator(random),
        6 => {
            let option = number(100 + random.below(7) as u64);
            let rest = (0..random.below(3)).map(|_| near_part(random)).collect();
            array([vec![option], rest].concat())
        }
        7 => random_pair(random),
        _ => any(random),
    }
}
