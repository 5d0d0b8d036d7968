//! Texts that are UTF-8 and bytes that are not (RFC 3629).

use std::collections::BTreeSet;

use super::super::arbitrary::character;
use super::super::damage::plain_and_damaged;
use super::Case;
use crate::random::Random;

/// Bytes on both sides of every range in RFC 3629, section 4.
const BYTE_EDGES: [u8; 26] = [
    0x00, 0x41, 0x7F, 0x80, 0x8F, 0x90, 0x9F, 0xA0, 0xBF, 0xC0, 0xC1, 0xC2, 0xDF, 0xE0, 0xE1, 0xEC,
    0xED, 0xEE, 0xEF, 0xF0, 0xF1, 0xF3, 0xF4, 0xF5, 0xF8, 0xFF,
];

/// Numbers on both sides of every range of characters, and of what each length can say.
const CODE_EDGES: [u32; 33] = [
    0x0, 0x41, 0x7F, 0x80, 0x7FF, 0x800, 0xFFF, 0x1000, 0xCFFF, 0xD000, 0xD7FF, 0xD800, 0xDBFF,
    0xDC00, 0xDFFF, 0xE000, 0xFEFF, 0xFFFE, 0xFFFF, 0x10000, 0x3FFFF, 0x40000, 0xFFFFF, 0x100000,
    0x10FFFF, 0x110000, 0x13FFFF, 0x140000, 0x1FFFFF, 0x200000, 0x3FFFFFF, 0x4000000, 0x7FFFFFFF,
];

fn texts(all: impl IntoIterator<Item = Vec<u8>>) -> Vec<Case> {
    all.into_iter().map(|bytes| Case::Text { bytes }).collect()
}

/// A number spread over `length` bytes by the scheme of UTF-8, also where RFC 3629 forbids it.
fn spread(code: u32, length: usize) -> Option<Vec<u8>> {
    let (mark, bits) = match length {
        1 => (0x00, 7),
        2 => (0xC0, 11),
        3 => (0xE0, 16),
        4 => (0xF0, 21),
        5 => (0xF8, 26),
        _ => (0xFC, 31),
    };
    if code >> bits != 0 {
        return None;
    }
    let mut bytes: Vec<u8> = (0..length)
        .rev()
        .map(|place| 0x80 | (code >> (6 * place)) as u8 & 0x3F)
        .collect();
    bytes[0] = mark | (code >> (6 * (length - 1))) as u8;
    Some(bytes)
}

/// No byte, every single byte, and every two bytes at the edges of ranges.
pub fn short_strings() -> Vec<Case> {
    let mut all = vec![vec![]];
    all.extend((0..=0xFF).map(|byte| vec![byte]));
    for first in BYTE_EDGES {
        all.extend(BYTE_EDGES.map(|second| vec![first, second]));
    }
    texts(all)
}

/// Every edge number at every length that can say it, overlong too: alone, between others and cut.
pub fn code_points() -> Vec<Case> {
    let mut all = BTreeSet::new();
    for code in CODE_EDGES {
        for form in (1..=6).filter_map(|length| spread(code, length)) {
            all.insert([b"a", &form[..], b"b"].concat());
            all.insert([&form[..], &form].concat());
            for length in 1..=form.len() {
                all.insert(form[..length].to_vec());
                all.insert([&form[..length], b"c"].concat());
            }
        }
    }
    texts(all)
}

/// How many tail bytes the scheme of UTF-8 puts after this byte.
fn tails(lead: u8) -> usize {
    (lead.leading_ones() as usize).saturating_sub(1).min(5)
}

/// Every byte from 80 to FF before tails: enough, one fewer, one more and one of them wrong.
pub fn leads_and_tails() -> Vec<Case> {
    let mut all = BTreeSet::new();
    for lead in 0x80..=0xFF {
        let enough = tails(lead);
        for tail in [0x80, 0x9F, 0xBF] {
            for count in [enough.saturating_sub(1), enough, enough + 1] {
                all.insert([vec![lead], vec![tail; count]].concat());
            }
        }
        for place in 1..=enough {
            for (tail, wrong) in [(0x80, 0x7F), (0x80, 0xC0), (0xA0, 0x7F), (0xA0, 0xC0)] {
                let mut bytes = [vec![lead], vec![tail; enough]].concat();
                bytes[place] = wrong;
                all.insert(bytes);
            }
        }
    }
    texts(all)
}

/// Leads of two to four bytes with second bytes at the edges of the ranges that some leads narrow.
pub fn second_bytes() -> Vec<Case> {
    let mut all = Vec::new();
    for lead in 0xC0..=0xF7 {
        for second in [0x7F, 0x80, 0x8F, 0x90, 0x9F, 0xA0, 0xBF, 0xC0] {
            all.push([vec![lead, second], vec![0xBF; tails(lead) - 1]].concat());
        }
    }
    texts(all)
}

/// Random texts, plain and damaged.
pub fn random_texts() -> Vec<Case> {
    let mut random = Random::new(4);
    let mut all = Vec::new();
    for _ in 0..200 {
        let length = random.below(12);
        let text: String = (0..length).map(|_| character(&mut random)).collect();
        all.extend(plain_and_damaged(&mut random, text.as_bytes()));
    }
    texts(all)
}

/// Names of up to 70 ASCII bytes, and of 64 with a two-byte character or a lone tail at each place.
pub fn names() -> Vec<Case> {
    let ascii: Vec<u8> = (b'0'..=b'z').cycle().take(70).collect();
    let mut all: Vec<Vec<u8>> = (0..=70).map(|length| ascii[..length].to_vec()).collect();
    for place in 0..63 {
        let mut good = ascii[..64].to_vec();
        good[place..place + 2].copy_from_slice("é".as_bytes());
        all.push(good);
    }
    for place in 0..64 {
        let mut bad = ascii[..64].to_vec();
        bad[place] = 0xA9;
        all.push(bad);
    }
    texts(all)
}

/// Texts of about 4,000 bytes, whole and with the last byte cut off.
pub fn long_texts() -> Vec<Case> {
    let mut all = Vec::new();
    for character in ["a", "é", "水", "𐅑"] {
        let text = character.repeat(4_000 / character.len()).into_bytes();
        all.push(text[..text.len() - 1].to_vec());
        all.push(text);
    }
    texts(all)
}
