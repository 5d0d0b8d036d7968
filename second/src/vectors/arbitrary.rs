//! Random items and characters.

use super::encode::{head_forms, shortest_head};
use crate::random::Random;

/// A random item of at least this depth.
pub fn tree(random: &mut Random, depth: usize) -> Vec<u8> {
    if depth == 0 {
        return leaf(random);
    }
    let (major, argument, children) = match random.below(5) {
        0 => (6, random.number(), 1),
        1 | 2 => {
            let pairs = 1 + usize::from(random.once_in(4));
            (5, pairs as u64, 2 * pairs)
        }
        _ => {
            let items = 1 + random.below(3);
            (4, items as u64, items)
        }
    };
    let deepest = random.below(children);
    let mut bytes = mostly_shortest(random, major, argument);
    for child in 0..children {
        let below = if child == deepest {
            depth - 1
        } else {
            random.below(depth.min(2))
        };
        bytes.extend(tree(random, below));
    }
    bytes
}

/// A random number, string, simple value, float, empty array or empty map.
fn leaf(random: &mut Random) -> Vec<u8> {
    match random.below(12) {
        0..=2 => {
            let (major, argument) = (random.below(2) as u8, random.number());
            mostly_shortest(random, major, argument)
        }
        3..=6 => {
            let (major, length) = (2 + random.below(2) as u8, string_length(random));
            let head = mostly_shortest(random, major, length as u64);
            [head, random.bytes(length)].concat()
        }
        7 => vec![0xE0 + random.below(24) as u8],
        8 => vec![0xF8, 32 + random.below(224) as u8],
        9 | 10 => {
            let width = random.below(3);
            [vec![0xF9 + width as u8], random.bytes(2 << width)].concat()
        }
        _ => {
            let major = 4 + random.below(2) as u8;
            mostly_shortest(random, major, 0)
        }
    }
}

/// Mostly short, at times past the first two head widths.
fn string_length(random: &mut Random) -> usize {
    match random.below(300) {
        0 => 254 + random.below(4),
        1..=10 => 22 + random.below(4),
        _ => random.below(6),
    }
}

/// The shortest head, once in a hundred times one of any width.
fn mostly_shortest(random: &mut Random, major: u8, argument: u64) -> Vec<u8> {
    if random.once_in(100) {
        random.pick(&head_forms(major, argument)).clone()
    } else {
        shortest_head(major, argument)
    }
}

/// A random character, of each encoded length about equally often.
pub fn character(random: &mut Random) -> char {
    let bits = *random.pick(&[7, 11, 16, 21]);
    loop {
        let code = (random.bits() as u32) & ((1 << bits) - 1);
        if let Some(character) = char::from_u32(code) {
            return character;
        }
    }
}
