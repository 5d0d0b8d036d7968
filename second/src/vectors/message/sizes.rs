//! Messages of up to 2,048 bytes and longer ones, and arrays of many items.

use super::parts::*;
use super::term::{encoded, Term};

/// The message of this length that the content's length makes.
pub fn of_length(total: usize, holder: fn(usize) -> Term) -> Vec<u8> {
    (0..=total)
        .rev()
        .map(|length| holder(length).encoded())
        .find(|message| message.len() == total)
        .expect("a message of this length")
}

fn long_text(length: usize) -> Term {
    text(vec![b'l'; length])
}

/// Every sort of message at 2,048 and 2,049 bytes, filled by each part that may be long.
pub fn filled() -> Vec<Vec<u8>> {
    let holders: &[fn(usize) -> Term] = &[
        |length| discovery(valued(bytes(length))),
        |length| discovery(named(vec![b'n'; length])),
        |length| response([v6(), valued(bytes(length))]),
        |length| response([v4(), uri(vec![b'u'; length])]),
        |length| response([divert([domain(vec![b'd'; length])])]),
        |length| talk(3, valued(bytes(length))),
        |length| talk(8, valued(array(vec![number(0); length]))),
        |length| end(declined(vec![b'r'; length])),
        |length| flood([pair(valued(bytes(length)), nowhere())]),
        |length| {
            flood([
                pair(ex1(), nowhere()),
                pair(valued(long_text(length)), v4()),
            ])
        },
        |length| flood([pair(ex1(), bare_uri(vec![b'u'; length]))]),
        |length| invalid([bytes(length)]),
    ];
    let mut cases = Vec::new();
    for &holder in holders {
        cases.extend([2_048, 2_049].map(|total| of_length(total, holder)));
    }
    let most = of_length(2_048, |length| invalid([bytes(length)]));
    let less = of_length(2_047, |length| invalid([bytes(length)]));
    for rest in [&[0x00][..], &[0x1C], &[0xFF; 2_048]] {
        cases.push([&most[..], rest].concat());
        cases.push([&less[..], &rest[..1]].concat());
    }
    cases.extend([2_047, 2_048, 2_049].map(|length| vec![0x00; length]));
    cases.extend([2_047, 2_048, 2_049].map(|length| vec![0x81; length]));
    cases.push(of_length(4_096, |length| invalid([bytes(length)])));
    cases
}

/// Arrays of about 24 items and of as many as 2,048 bytes hold, with a fault last and first.
pub fn many() -> Vec<Vec<u8>> {
    let least = || pair(named("").with(&[1], number(0)), nowhere());
    let tiny = || bare_uri("");
    let mut cases = Vec::new();
    for count in [18, 19, 20, 21, 22, 23, 24, 25, 251, 252, 253, 337] {
        cases.push(flood(vec![least(); count]));
        cases.push(response(vec![tiny(); count]));
        cases.push(response([vec![tiny(); count], vec![ex1()]].concat()));
        cases.push(response([divert(vec![tiny(); count])]));
    }
    let pairs = [pair(ex1(), number(0)), pair(named([b'n'; 65]), nowhere())];
    for odd in pairs.into_iter().chain([pair(ex1(), uri(b"\xFF"))]) {
        cases.push(flood([vec![least(); 300], vec![odd.clone()]].concat()));
        cases.push(flood([vec![odd], vec![least(); 30]].concat()));
    }
    let options = [divert([v4()]), number(0), uri(b"\xFF"), ex1(), bare_uri("")];
    for odd in options {
        cases.push(response([vec![tiny(); 180], vec![odd.clone()]].concat()));
        cases.push(response([vec![odd.clone()], vec![tiny(); 30]].concat()));
        cases.push(response([divert([vec![tiny(); 180], vec![odd]].concat())]));
    }
    encoded(cases)
}
