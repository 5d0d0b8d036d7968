use super::*;
use crate::message::{locator_at, pair_at, read};

/// The Discovery of rules 12.2 and the Flood of rules 12.6.
const DISCOVERY: &[u8] = b"\x84\x01\x07\x44\xC0\x00\x02\x01\x83\x63EX1\x01\x02";
const FLOOD: &[u8] = b"\x85\x09\x07\x44\xC0\x00\x02\x01\x19\x03\xE8\x82\x83\x63EX1\x04\x02\x80";

fn block(bytes: &[u8]) -> [u64; FIELDS] {
    of_message(bytes, &read(bytes).expect("a message"))
}

#[test]
fn blocks_are_as_the_header_says() {
    let mut discovery = [0; FIELDS];
    discovery[..13].copy_from_slice(&[1, 7, 4, 4, 0, 1, 10, 3, 1, 2, 14, 15, 0]);
    assert_eq!(block(DISCOVERY), discovery);
    let mut flood = [0; FIELDS];
    flood[..9].copy_from_slice(&[9, 7, 4, 4, 1_000, 1, 14, 3, 4]);
    flood[9..16].copy_from_slice(&[2, 18, 19, 0, 3, 11, 1]);
    assert_eq!(block(FLOOD), flood);
    let mut decline = [0; FIELDS];
    decline[..2].copy_from_slice(&[6, 7]);
    decline[16..].copy_from_slice(&[3, 7, 1]);
    assert_eq!(block(b"\x83\x06\x07\x82\x18\x66\x61a"), decline);
    let mut invalid = [0; FIELDS];
    invalid[..2].copy_from_slice(&[99, 7]);
    invalid[17] = 4;
    assert_eq!(block(b"\x82\x18\x63\x07"), invalid);
}

#[test]
fn elements_are_as_the_header_says() {
    let mut fields = [0; PAIR_FIELDS];
    fields[..7].copy_from_slice(&[14, 3, 4, 2, 18, 19, 0]);
    let pair = pair_at(FLOOD, 11).map(|(pair, after)| (of_pair(&pair), after));
    assert_eq!(pair, Some((fields, 20)));
    let bare = b"\x00\x84\x18\x6A\x61\xFF\xF6\xF6";
    let locator = locator_at(bare, 1).map(|(locator, after)| (of_locator(&locator), after));
    assert_eq!(locator, Some(([106, 5, 1, 0, 65_536], 8)));
}
