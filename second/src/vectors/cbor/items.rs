//! Whole items: levels, claimed lengths, random trees and long ones.

use std::collections::BTreeSet;

use super::super::arbitrary::tree;
use super::super::damage::plain_and_damaged;
use super::super::encode::{held, shortest_head, AROUND};
use super::super::unhex;
use super::{item_and_head, Case};
use crate::random::Random;

/// Open levels to stand under.
const LEVELS: [u8; 12] = [0, 1, 2, 3, 4, 5, 6, 7, 8, 9, 10, 255];

/// Good items to stand innermost.
const INNERMOST: &[&str] = &[
    "00", "38 18", "40", "42 FFFF", "61 61", "80", "A0", "81 00", "C0 00", "F6", "F8 20", "F9 0000",
];

/// Faulty items to stand innermost, most of which may also be a level too deep.
const FAULTY: &[&str] = &[
    "", "1C", "1F", "18", "18 17", "41", "58 17", "5F", "78", "98", "98 00", "9C", "9F", "9B 00",
    "B8", "B9 0000", "BD", "BF", "D8", "D8 17", "DE", "DF", "F8", "F8 1F", "F9 00", "FC", "FF",
];

/// An item `depth` levels down, held by each sort of container alone and by all in turn.
fn nested(depth: usize, inside: &[u8]) -> BTreeSet<Vec<u8>> {
    let alone = AROUND.iter().map(std::slice::from_ref);
    alone
        .chain([AROUND])
        .map(|sorts| held(depth, inside, sorts))
        .collect()
}

/// 0 to 9 levels deep under every number of open levels.
pub fn nesting() -> Vec<Case> {
    let mut cases = Vec::new();
    for levels in LEVELS {
        for depth in 0..=9 {
            let forms = nested(depth, &[0x00]).into_iter();
            cases.extend(forms.map(|bytes| Case::Item { levels, bytes }));
        }
    }
    cases
}

/// Every sort of item, good and faulty, where an array would be at level 8 and at level 9.
pub fn innermost() -> Vec<Case> {
    let mut cases = Vec::new();
    for levels in [0, 2, 5, 7, 8, 9, 255] {
        for above in [7, 8] {
            for inside in INNERMOST.iter().chain(FAULTY) {
                let depth = u8::saturating_sub(above, levels);
                let bytes = held(usize::from(depth), &unhex(inside), AROUND);
                cases.push(Case::Item { levels, bytes });
            }
        }
    }
    for inside in INNERMOST {
        for depth in [7, 8] {
            let forms = nested(depth, &unhex(inside)).into_iter();
            cases.extend(forms.map(|bytes| Case::Item { levels: 0, bytes }));
        }
    }
    cases
}

/// Good items before faulty ones: bytes after the item are not looked at.
pub fn followed() -> Vec<Case> {
    let mut cases = Vec::new();
    for inside in INNERMOST {
        for rest in FAULTY {
            let bytes = [unhex(inside), unhex(rest)].concat();
            cases.push(Case::Item { levels: 0, bytes });
        }
    }
    cases
}

/// Containers of items of different depths, good and faulty: a level that is left is given back.
pub fn siblings() -> Vec<Case> {
    let mut parts: Vec<Vec<u8>> = [0, 1, 6, 7, 8]
        .map(|depth| held(depth, &[0x00], AROUND))
        .to_vec();
    parts.extend(["80", "42 0102", "18 17", "1C", "98"].map(unhex));
    let mut cases = Vec::new();
    for first in &parts {
        for second in &parts {
            let pair = [&[0x82], &first[..], second].concat();
            let entry = [&[0xA1], &first[..], second].concat();
            let three = [&[0x83], &first[..], second, &[0x00]].concat();
            for bytes in [pair, entry, three] {
                cases.push(Case::Item { levels: 0, bytes });
            }
        }
    }
    cases
}

/// Strings, arrays and maps that claim up to 2^64 - 1, before nothing, good items and faults.
pub fn claimed_lengths() -> Vec<Case> {
    let claims = [
        1,
        24,
        0x100,
        0x1_0000,
        1 << 31,
        u64::from(u32::MAX),
        1 << 32,
        i64::MAX as u64,
        1 << 63,
        (1 << 63) + 1,
        u64::MAX - 1,
        u64::MAX,
    ];
    let following = [
        "", "00", "1C", "FF", "18 00", "00 1C", "81", "60 60 9F", "42 00",
    ];
    let mut cases = Vec::new();
    for major in 2..=5 {
        for claim in claims {
            for rest in following {
                let bytes = [shortest_head(major, claim), unhex(rest)].concat();
                let inside = [unhex("82 00"), bytes.clone()].concat();
                cases.extend([bytes, inside].map(|bytes| Case::Item { levels: 0, bytes }));
            }
        }
    }
    cases
}

/// Random items, plain and damaged, most of them outermost.
pub fn trees() -> Vec<Case> {
    let mut random = Random::new(1);
    let mut cases = Vec::new();
    for _ in 0..800 {
        let depth = random.below(11);
        let bytes = tree(&mut random, depth);
        let levels = if random.once_in(4) {
            random.below(11) as u8
        } else {
            0
        };
        let forms = plain_and_damaged(&mut random, &bytes);
        cases.extend(forms.map(|bytes| Case::Item { levels, bytes }));
    }
    cases
}

/// Random bytes, any and such as begin short heads.
pub fn random_bytes() -> Vec<Case> {
    let mut random = Random::new(2);
    let heads =
        unhex("00 17 18 20 38 40 41 58 60 61 80 81 82 83 98 99 A0 A1 A2 B8 C0 D8 E0 F6 F8 F9 FA");
    let mut cases = Vec::new();
    for _ in 0..400 {
        let length = random.below(24);
        let any = random.bytes(length);
        let likely: Vec<u8> = (0..length).map(|_| *random.pick(&heads)).collect();
        let levels = random.below(9) as u8;
        cases.extend(item_and_head(&any));
        cases.extend([0, levels].map(|levels| Case::Item {
            levels,
            bytes: likely.clone(),
        }));
    }
    cases
}

/// Strings of up to 4,000 bytes: whole, a byte short and followed by one.
pub fn long_strings() -> Vec<Case> {
    let mut random = Random::new(3);
    let mut cases = Vec::new();
    for major in [2, 3] {
        for length in [22, 23, 24, 25, 255, 256, 257, 2_048, 4_000] {
            let mut bytes = shortest_head(major, length as u64);
            bytes.extend(random.bytes(length));
            let short = bytes[..bytes.len() - 1].to_vec();
            let more = [&bytes[..], &[0xFF]].concat();
            cases.extend([bytes, short, more].map(|bytes| Case::Item { levels: 0, bytes }));
        }
    }
    cases
}

/// Arrays and maps of many items: whole, one short, one more, and with an empty array last.
pub fn long_containers() -> Vec<Case> {
    let mut cases = Vec::new();
    for (major, items) in [
        (4, 23),
        (4, 24),
        (4, 256),
        (4, 2_000),
        (5, 48),
        (5, 512),
        (5, 2_000),
    ] {
        let argument = if major == 5 { items / 2 } else { items };
        let head = shortest_head(major, argument as u64);
        for items in [items, items - 1, items + 1] {
            let bytes = [head.clone(), vec![0x20; items]].concat();
            cases.push(Case::Item { levels: 7, bytes });
        }
        let bytes = [head, vec![0x20; items - 1], vec![0x80]].concat();
        cases.extend([7, 8].map(|levels| Case::Item {
            levels,
            bytes: bytes.clone(),
        }));
    }
    cases
}
