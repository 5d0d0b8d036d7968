//! Names, domain names, URIs and reasons: their lengths and their UTF-8.

use super::parts::*;
use super::term::{encoded, Term};

/// Bytes that are not UTF-8 (RFC 3629): lone tails, cut, overlong, surrogates, too large.
pub const BAD: &[&[u8]] = &[
    b"\x80",
    b"a\xBFb",
    b"\xC3",
    b"\xC3a",
    b"\xC0\x80",
    b"\xE0\x9F\xBF",
    b"\xE2\x82",
    b"\xED\xA0\x80",
    b"\xF0\x8F\xBF\xBF",
    b"\xF4\x90\x80\x80",
    b"\xFF",
    b"abcdefghijklmnopqrstuvwx\xFE",
];

/// Texts that are UTF-8, at the edges of its ranges too.
pub const GOOD: &[&[u8]] = &[
    b"",
    b"\x00",
    b"\x7F",
    b"a\x00b \r\n",
    b"\xEF\xBB\xBFa",
    b"\xC2\x80\xDF\xBF",
    b"\xE0\xA0\x80\xED\x9F\xBF",
    b"\xEE\x80\x80\xEF\xBF\xBF",
    b"\xF0\x90\x80\x80\xF4\x8F\xBF\xBF",
];

/// So many bytes of text that end in this character.
fn padded(length: usize, last: &str) -> Vec<u8> {
    [&vec![b'n'; length - last.len()], last.as_bytes()].concat()
}

/// Names of up to 300 bytes, in characters of one to four, in every place of an objective.
pub fn names() -> Vec<Vec<u8>> {
    let mut names: Vec<Vec<u8>> = [0, 24, 63, 64, 65, 256, 300]
        .map(|length| vec![b'n'; length])
        .to_vec();
    for (character, most) in [("é", 32), ("水", 21), ("𐅑", 16)] {
        names.extend([most, most + 1].map(|count| character.repeat(count).into_bytes()));
        names.extend([64, 65].map(|length| padded(length, character)));
    }
    let mut cases = Vec::new();
    for holder in AROUND_OBJECTIVE {
        cases.extend(names.iter().map(|name| holder(named(name))));
    }
    // The limit is for names alone.
    for length in [65, 300] {
        cases.extend(with_text(&vec![b't'; length]));
    }
    encoded(cases)
}

/// UTF-8 in every place.
pub fn good_texts() -> Vec<Vec<u8>> {
    encoded(GOOD.iter().flat_map(|text| with_text(text)))
}

/// What is not UTF-8 in every named place, cut by the end of the text too.
pub fn bad_texts() -> Vec<Vec<u8>> {
    let cut = &padded(64, "é")[..63];
    encoded(BAD.iter().copied().chain([cut]).flat_map(with_text))
}

/// What is not UTF-8 where text is not named: in values, in Invalid's item, in byte strings.
pub fn unnamed_texts() -> Vec<Vec<u8>> {
    let mut values = vec![
        named([b'n'; 65]),
        declined("\u{FFFD}"),
        bare_uri(b"\xFF"),
        array([number(107)]),
    ];
    for bad in [b"\xFF", b"\xC3"] {
        let key = [&[0xA1], &text(bad).encoded()[..], b"\x00"].concat();
        values.extend([text(bad), Term::Bytes(bad.to_vec()), Term::Raw(key)]);
        values.push(array([text(bad)]));
    }
    encoded(values.iter().flat_map(with_value))
}

/// Names too long, texts that are not UTF-8 and shapes that are wrong, in one message.
pub fn long_names_and_bad_texts() -> Vec<Vec<u8>> {
    let long = || named([b'n'; 65]);
    let mut cases = Vec::new();
    for bad in [domain(b"\x80"), uri(b"\xC3"), bare_uri(b"\xFF")] {
        cases.push(flood([pair(long(), bad.clone())]));
        cases.push(flood([pair(long(), v4()), pair(ex1(), bad.clone())]));
        cases.push(flood([pair(ex1(), bad.clone()), pair(long(), v4())]));
        cases.push(response([bad.clone(), long()]));
        cases.push(response([v4(), bad.clone(), long()]));
        cases.push(response([divert([v4(), bad.clone()]), long()]));
        cases.push(flood([pair(long(), bad.clone()), pair(ex1(), number(0))]));
        cases.push(flood([pair(ex1(), bad.clone()), pair(ex1(), v4()), v4()]));
        cases.push(response([bad, long(), v4()]));
    }
    for name in [&b"\x80"[..], &[0xC3; 65], &padded(66, "é")[..65]] {
        for holder in AROUND_OBJECTIVE {
            cases.push(holder(named(name)));
            cases.push(holder(named(name).with(&[1], number(16))));
        }
        cases.push(flood([pair(long(), v4()), pair(named(name), v4())]));
        cases.push(flood([pair(named(name), v4()), pair(long(), v4())]));
    }
    for holder in AROUND_OBJECTIVE {
        cases.push(holder(long().with(&[1], number(16))));
        cases.push(holder(long().with(&[2], number(256))));
    }
    encoded(cases)
}
