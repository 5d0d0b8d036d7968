use super::*;

const DISCOVERY: &[u8] = b"\x84\x01\x07\x44\xC0\x00\x02\x01\x83\x63EX1\x01\x02";
const FLOOD: &[u8] = b"\x85\x09\x07\x44\xC0\x00\x02\x01\x19\x03\xE8\x82\x83\x63EX1\x04\x02\x80";
const ANSWER: &[u8] = b"\x85\x02\x07\x44\xC0\x00\x02\x01\x19\xEA\x60\x84\x18\x67\x50\
    \x20\x01\x0D\xB8\x00\x00\x00\x00\x00\x00\x00\x00\x00\x00\x00\x01\x06\x19\x1B\x69";

fn span(at: usize, length: usize) -> Span {
    Span { at, length }
}

/// The objective that a Discovery of "EX1" ends in.
fn ex1(flags: u8, count: u8, name_at: usize, count_length: usize) -> Objective {
    Objective {
        name: span(name_at, 3),
        flags,
        count,
        count_head: span(name_at + 4, count_length),
        value: None,
    }
}

/// An Invalid whose item holds `depth` arrays of which the last is empty.
fn nested(depth: usize) -> Vec<u8> {
    let arrays = vec![0x81; depth - 1];
    [b"\x83\x18\x63\x07", &arrays[..], b"\x80"].concat()
}

/// An Invalid of this length, from 263 on.
fn long(length: usize) -> Vec<u8> {
    let content = vec![0xFF; length - 7];
    let size = (content.len() as u16).to_be_bytes();
    [b"\x83\x18\x63\x07\x59", &size[..], &content].concat()
}

#[test]
fn refusals_at_the_edges() {
    assert_eq!(read(b""), Err(SIZE));
    assert_eq!(read(b"\x81"), Err(cbor::ENDED));
    assert_eq!(read(b"\x81\x1C"), Err(cbor::RESERVED));
    assert_eq!(read(b"\x9F\x00\xFF"), Err(cbor::INDEFINITE));
    assert_eq!(read(b"\x81\x18\x00"), Err(cbor::LONG));
    assert_eq!(read(b"\x81\x00\x00"), Err(AFTER));
    assert_eq!(read(b"\x81\x00\x1C"), Err(AFTER));
    assert_eq!(read(b"\x81\x18\xC8"), Err(KIND));
    assert_eq!(read(b"\x80"), Err(SHAPE));
    assert_eq!(read(b"\x82\x00\x07"), Err(SHAPE));
}

#[test]
fn small_messages_at_the_edges() {
    assert_eq!(read(b"\x81\x00"), Ok(Message::Noop));
    let end = Message::End {
        session: 7,
        outcome: Outcome::Accept,
    };
    assert_eq!(read(b"\x83\x06\x07\x81\x18\x65"), Ok(end));
    let wait = Message::Wait {
        session: 7,
        time: 1_000,
    };
    assert_eq!(read(b"\x83\x07\x07\x19\x03\xE8"), Ok(wait));
}

#[test]
fn discovery_at_the_edges() {
    let discovery = |count, count_length| Message::Discovery {
        session: 7,
        initiator: span(4, 4),
        objective: ex1(1, count, 10, count_length),
    };
    let ending = |last: &[u8]| [&DISCOVERY[..14], last].concat();
    assert_eq!(read(DISCOVERY), Ok(discovery(2, 1)));
    assert_eq!(read(&ending(b"\x18\x18")), Ok(discovery(24, 2)));
    assert_eq!(read(&ending(b"\x17")), Ok(discovery(23, 1)));
    assert_eq!(read(&ending(b"\x19\x01\x00")), Err(SHAPE));
}

#[test]
fn answer_and_flood_at_the_edges() {
    let answer = Message::Response {
        session: 7,
        initiator: span(4, 4),
        ttl: 60_000,
        target: Target::Locators(vec![Locator::V6 {
            at: 15,
            protocol: 6,
            port: 7_017,
        }]),
        objective: None,
    };
    assert_eq!(ANSWER.len(), 35);
    assert_eq!(read(ANSWER), Ok(answer));
    let flood = Message::Flood {
        session: 7,
        initiator: span(4, 4),
        ttl: 1_000,
        pairs: vec![Pair {
            objective: ex1(4, 2, 14, 1),
            locator: None,
        }],
    };
    assert_eq!(read(FLOOD), Ok(flood));
}

#[test]
fn levels_and_sizes_at_the_edges() {
    let invalid = |at, length| Message::Invalid {
        session: 7,
        item: Some(span(at, length)),
    };
    assert_eq!(read(&nested(7)), Ok(invalid(4, 7)));
    assert_eq!(read(&nested(8)), Err(cbor::DEEP));
    assert_eq!(long(2_048).len(), 2_048);
    assert_eq!(read(&long(2_048)), Ok(invalid(4, 2_044)));
    assert_eq!(read(&long(2_049)), Err(SIZE));
}

/// A Flood with one pair: this name, and a URI locator with this text.
fn flood(name: &[u8], uri: &[u8]) -> Vec<u8> {
    let head = |text: &[u8]| [0x78, text.len() as u8];
    [
        b"\x85\x09\x07\x44\xC0\x00\x02\x01\x00\x82\x83",
        &head(name)[..],
        name,
        b"\x00\x00\x84\x18\x6A",
        &head(uri),
        uri,
        b"\xF6\xF6",
    ]
    .concat()
}

#[test]
fn texts_come_before_names() {
    let good = b"http://[2001:db8::1]/a/path";
    let bad = b"http://[2001:db8::1]/a/\xC3/h";
    assert!(read(&flood(&[b'a'; 64], good)).is_ok());
    assert_eq!(read(&flood(&[b'a'; 65], good)), Err(LONG_NAME));
    assert_eq!(read(&flood(&[b'a'; 64], bad)), Err(NOT_UTF8));
    assert_eq!(read(&flood(&[b'a'; 65], bad)), Err(NOT_UTF8));
    assert_eq!(read(&flood(&[0x80; 65], good)), Err(NOT_UTF8));
}

#[test]
fn responses_are_in_order() {
    let divert = [b"\x82\x18\x64", &ANSWER[11..]].concat();
    let locator = ANSWER[11..].to_vec();
    let objective = DISCOVERY[8..].to_vec();
    let response = |options: &[&[u8]]| {
        let head = [0x84 + options.len() as u8];
        read(&[&head, &ANSWER[1..11], &options.concat()].concat())
    };
    assert!(response(&[&locator, &locator, &objective]).is_ok());
    assert!(response(&[&divert, &objective]).is_ok());
    assert!(response(&[&divert]).is_ok());
    for wrong in [
        &[][..],
        &[&objective],
        &[&objective, &locator],
        &[&divert, &divert],
        &[&divert, &locator],
        &[&locator, &divert],
        &[&locator, &objective, &objective],
        &[&locator, &objective, &locator],
    ] {
        let wrong: Vec<&[u8]> = wrong.iter().map(|option| &option[..]).collect();
        assert_eq!(response(&wrong), Err(SHAPE));
    }
}

#[test]
fn elements_are_found() {
    let places = |bytes| elements(bytes, &read(bytes).expect("a message"));
    assert_eq!(places(FLOOD), [span(11, 9)]);
    assert_eq!(places(ANSWER), [span(11, 24)]);
    assert_eq!(places(DISCOVERY), []);
    let divert = [b"\x85", &ANSWER[1..11], b"\x82\x18\x64", &ANSWER[11..]].concat();
    assert_eq!(places(&divert), [span(14, 24)]);
}

#[test]
fn locators_at_places() {
    let v6 = Locator::V6 {
        at: 15,
        protocol: 6,
        port: 7_017,
    };
    assert_eq!(locator_at(ANSWER, 11), Some((v6, 35)));
    for at in [0, 10, 12, 34, 35, 36, usize::MAX] {
        assert_eq!(locator_at(ANSWER, at), None);
    }
    // Only the shape counts.
    let bare = Locator::Uri {
        text: span(4, 1),
        protocol: None,
        port: None,
    };
    assert_eq!(
        locator_at(b"\x84\x18\x6A\x61\xFF\xF6\xF6", 0),
        Some((bare, 7))
    );
}

#[test]
fn pairs_at_places() {
    let pair = Pair {
        objective: ex1(4, 2, 14, 1),
        locator: None,
    };
    assert_eq!(pair_at(FLOOD, 11), Some((pair, 20)));
    for at in [0, 10, 12, 19, 20, 21, usize::MAX] {
        assert_eq!(pair_at(FLOOD, at), None);
    }
    // The levels are counted as in a Flood: three are open around the value.
    let deep = |levels| {
        [
            b"\x82\x84\x60\x00\x00",
            &vec![0x81; levels][..],
            b"\x00\x80",
        ]
        .concat()
    };
    assert_eq!(pair_at(&deep(5), 0).map(|(_, after)| after), Some(12));
    assert_eq!(pair_at(&deep(6), 0), None);
}
