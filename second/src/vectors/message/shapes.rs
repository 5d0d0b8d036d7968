//! The shapes of messages and options, and departures from them.

use std::slice;

use super::super::encode::{head_forms, shortest_head};
use super::super::unhex;
use super::parts::*;
use super::term::{encoded, Term};

/// Numbers that are no kind.
const NO_KINDS: &[u64] = &[
    10,
    23,
    24,
    98,
    100,
    101,
    102,
    103,
    106,
    255,
    256,
    257,
    256 + 9,
    256 + 99,
    65_536,
    1 << 32,
    (1 << 32) + 1,
    u64::MAX,
];

/// The eleven kinds.
const KINDS: &[u64] = &[0, 1, 2, 3, 4, 5, 6, 7, 8, 9, 99];

/// Items of every sort to stand where another is due.
const OTHERS: &[&str] = &[
    "06",
    "44 C0000201",
    "64 61626364",
    "80",
    "A0",
    "C1 06",
    "F6",
    "F9 0006",
];

/// Every kind and option as it is, at its least and with its fields at their most.
pub fn kinds_and_options() -> Vec<Vec<u8>> {
    [samples(), smallest(), largest()]
        .into_iter()
        .flat_map(encoded)
        .collect()
}

fn smallest() -> Vec<Term> {
    let name = array([text(""), number(0), number(0)]);
    let start = |kind| vec![number(kind), number(0), Term::Bytes(vec![0; 4]), number(0)];
    let mut all = vec![
        array([number(1), number(0), Term::Bytes(vec![0; 4]), name.clone()]),
        array([start(9), vec![pair(name.clone(), nowhere())]].concat()),
        array([number(6), number(0), declined("")]),
        array([number(7), number(0), number(0)]),
        array([number(99), number(0)]),
    ];
    for kind in [3, 4, 5, 8] {
        all.push(array([number(kind), number(0), name.clone()]));
    }
    for locator in [
        array([number(103), Term::Bytes(vec![0; 16]), number(6), number(0)]),
        array([number(104), Term::Bytes(vec![0; 4]), number(6), number(0)]),
        array([number(105), text(""), number(6), number(0)]),
        array([number(106), text(""), number(6), number(0)]),
        bare_uri(""),
    ] {
        all.push(array([start(2), vec![locator.clone()]].concat()));
        all.push(array([start(2), vec![divert([locator.clone()])]].concat()));
        all.push(array(
            [start(9), vec![pair(name.clone(), locator)]].concat(),
        ));
    }
    all
}

/// Numbers, names and addresses at their most; whole messages at their longest are in `sizes`.
fn largest() -> Vec<Term> {
    let most = || number(u64::from(u32::MAX));
    let name = text([b'z'; 64]);
    let objective = array([name, number(15), number(255), bytes(40)]);
    let start = |kind| vec![number(kind), most(), bytes(16), most()];
    let ports = |locator: Term| locator.with(&[2], number(17)).with(&[3], number(65_535));
    let all = || locators().map(ports).to_vec();
    let last = || vec![objective.clone()];
    let pairs = all()
        .into_iter()
        .map(|locator| pair(objective.clone(), locator));
    let mut messages = vec![
        array([number(1), most(), bytes(16), objective.clone()]),
        array([start(2), all(), last()].concat()),
        array([start(2), vec![divert(all())], last()].concat()),
        array([start(9), pairs.collect()].concat()),
        array([number(6), most(), declined([b'n'; 100])]),
        array([number(7), most(), most()]),
        array([number(99), most(), array(vec![most(); 30])]),
    ];
    messages.extend([3, 4, 5, 8].map(|kind| array([number(kind), most(), objective.clone()])));
    messages
}

/// Every first number up to 255 and some above: alone, and before what a kind may hold.
pub fn kinds() -> Vec<Vec<u8>> {
    let mut cases = Vec::new();
    for kind in (0..=255).chain(NO_KINDS.iter().copied()) {
        cases.push(array([number(kind)]));
    }
    for &kind in KINDS.iter().chain(NO_KINDS) {
        cases.push(array([number(kind), number(7)]));
        cases.push(array([number(kind), number(7), number(7)]));
        cases.push(array([number(kind), number(7), ex1()]));
        cases.push(array([number(kind), number(7), accept()]));
        cases.push(array([number(kind), raw("F6")]));
    }
    encoded(cases)
}

/// What follows one kind after each other number.
pub fn tails_of_other_kinds() -> Vec<Vec<u8>> {
    let mut cases = Vec::new();
    for sample in samples() {
        for &kind in KINDS.iter().chain(&[10, 98, 256]) {
            cases.push(sample.with(&[0], number(kind)));
        }
    }
    encoded(cases)
}

/// Every item of every sample in the place of which another stands.
pub fn replaced_items() -> Vec<Vec<u8>> {
    let mut cases = Vec::new();
    for sample in samples() {
        for place in sample.places().into_iter().skip(1) {
            for other in OTHERS {
                cases.push(sample.with(&place, raw(other)));
            }
        }
    }
    encoded(cases)
}

/// Every item of every sample in a tag, the whole too.
pub fn tagged_items() -> Vec<Vec<u8>> {
    let mut cases = Vec::new();
    for sample in samples() {
        for place in sample.places() {
            let tagged = [unhex("D9 D9F7"), sample.at(&place).encoded()].concat();
            cases.push(sample.with(&place, Term::Raw(tagged)));
        }
    }
    encoded(cases)
}

/// Every array of every sample with an item less, twice, one more, or two in the wrong order.
pub fn wrong_counts() -> Vec<Vec<u8>> {
    let mut cases = Vec::new();
    for sample in samples() {
        for place in sample.places() {
            let Term::Array(items) = sample.at(&place) else {
                continue;
            };
            let mut forms = Vec::new();
            for position in 0..items.len() {
                let (before, rest) = items.split_at(position);
                forms.push([before, &rest[1..]].concat());
                forms.push([before, &rest[..1], rest].concat());
                if let [this, next, after @ ..] = rest {
                    forms.push([before, &[next.clone(), this.clone()], after].concat());
                }
            }
            for more in ["00", "80"] {
                forms.push([&items[..], &[raw(more)]].concat());
            }
            cases.extend(
                forms
                    .into_iter()
                    .map(|form| sample.with(&place, array(form))),
            );
        }
    }
    encoded(cases)
}

/// Every array of every sample with a head that claims another number of items.
pub fn false_claims() -> Vec<Vec<u8>> {
    let mut cases = Vec::new();
    for sample in samples() {
        for place in sample.places() {
            let Term::Array(items) = sample.at(&place) else {
                continue;
            };
            let (content, count) = (sample.at(&place).content(), items.len() as u64);
            for claim in [count.saturating_sub(1), count + 1, u64::MAX] {
                let claimed = Term::Raw([shortest_head(4, claim), content.clone()].concat());
                cases.push(sample.with(&place, claimed));
            }
        }
    }
    encoded(cases)
}

/// Every array of every sample as a map of the same items, or of twice as many.
pub fn maps_for_arrays() -> Vec<Vec<u8>> {
    let mut cases = Vec::new();
    for sample in samples() {
        for place in sample.places() {
            let item = sample.at(&place);
            let count = item.items().len() as u64;
            if count > 0 && count.is_multiple_of(2) {
                let map = [shortest_head(5, count / 2), item.content()].concat();
                cases.push(sample.with(&place, Term::Raw(map)));
            }
            if count > 0 {
                let content = [item.content(), vec![0x00; item.items().len()]].concat();
                let map = [shortest_head(5, count), content].concat();
                cases.push(sample.with(&place, Term::Raw(map)));
            }
        }
    }
    encoded(cases)
}

/// Every head of every sample in the next longer form and in the longest.
pub fn long_heads() -> Vec<Vec<u8>> {
    let mut cases = Vec::new();
    for sample in samples() {
        for place in sample.places() {
            let forms = sample.at(&place).long_forms();
            for form in forms.first().into_iter().chain(forms.last()) {
                cases.push(sample.with(&place, Term::Raw(form.clone())));
            }
        }
    }
    encoded(cases)
}

/// Every sample cut after each byte.
pub fn cut_messages() -> Vec<Vec<u8>> {
    let mut cases = Vec::new();
    for bytes in encoded(samples()) {
        cases.extend((1..bytes.len()).map(|length| bytes[..length].to_vec()));
    }
    cases
}

/// Up to four options after a Response's ttl and a Flood's, in every order.
pub fn sequences() -> Vec<Vec<u8>> {
    let options = [v4(), divert([v4()]), ex1()];
    let others = [pair(ex1(), nowhere()), accept(), nowhere(), number(103)];
    let mut cases = Vec::new();
    for length in 0..=4 {
        let from = if length < 3 {
            [&options[..], &others].concat()
        } else {
            options.to_vec()
        };
        cases.extend(all_of_length(&from, length).into_iter().map(response));
    }
    let places = [
        pair(ex1(), nowhere()),
        pair(ex1(), v4()),
        ex1(),
        v4(),
        nowhere(),
    ];
    for length in 0..=3 {
        cases.extend(all_of_length(&places, length).into_iter().map(flood));
    }
    encoded(cases)
}

/// All sequences of so many of these.
fn all_of_length(from: &[Term], length: usize) -> Vec<Vec<Term>> {
    let mut all = vec![vec![]];
    for _ in 0..length {
        all = all
            .iter()
            .flat_map(|before| {
                from.iter()
                    .map(|last| [&before[..], slice::from_ref(last)].concat())
            })
            .collect();
    }
    all
}

/// What may stand in a Flood's pair, in the first pair and a later one.
pub fn pairs() -> Vec<Vec<u8>> {
    let mut parts = vec![ex1(), v6(), bare_uri("a"), nowhere(), text("EX1")];
    parts.extend([divert([v4()]), array([nowhere()])]);
    parts.extend(["F6", "A0", "00", "C0 80"].map(raw));
    let mut cases = Vec::new();
    for length in 0..=2 {
        for items in all_of_length(&parts, length) {
            cases.push(flood([array(items.clone())]));
            if length == 2 {
                cases.push(flood([pair(ex1(), nowhere()), array(items)]));
            }
        }
    }
    for second in ["40", "60", "F7", "C0 80", "81 80", "A1 00 00"] {
        cases.push(flood([pair(ex1(), raw(second))]));
    }
    for last in parts {
        cases.push(flood([array([ex1(), nowhere(), last])]));
    }
    encoded(cases)
}

/// Options and other items where an End has accept or decline, and the same elsewhere.
pub fn ends() -> Vec<Vec<u8>> {
    let mut options = vec![ex1(), divert([v4()]), divert([]), nowhere()];
    options.extend(locators());
    options.extend([number(101), number(102), text("101"), null()]);
    options.extend((99..=107).map(|option| array([number(option)])));
    let mut cases = Vec::new();
    for option in &options {
        cases.push(discovery(option.clone()));
        cases.push(talk(5, option.clone()));
        cases.push(wait_for(option.clone()));
        cases.push(end(option.clone()));
    }
    for option in 99..=107 {
        for reason in [
            "00", "40", "41 61", "60", "61 61", "61 80", "80", "F6", "C0 60",
        ] {
            cases.push(end(array([number(option), raw(reason)])));
        }
        cases.push(end(array([number(option), text("a"), text("b")])));
    }
    cases.extend([256 + 101, 256 + 102].map(|option| end(array([number(option)]))));
    encoded(cases)
}

/// A Wait with an item in the place of its time.
fn wait_for(item: Term) -> Term {
    wait(0).with(&[2], item)
}

/// Maps, tags and arrays in arrays that are led by kinds and by other numbers.
const LED_BY_NUMBERS: &[&str] = &[
    "A1 00 00",
    "A1 01 07",
    "A1 0A 00",
    "A2 0A 07 00 00",
    "C0 0A",
    "C0 18 C8",
    "C0 81 0A",
    "81 81 00",
    "81 81 0A",
    "82 81 00 81 00",
    "81 C0 00",
    "81 C0 0A",
    "81 2A",
    "81 38 C7",
    "81 F8 C8",
    "81 4A 00000000000000000000",
];

/// Items that are no message's array.
pub fn no_messages() -> Vec<Vec<u8>> {
    let mut cases: Vec<Vec<u8>> = OTHERS.iter().map(|other| unhex(other)).collect();
    for first in OTHERS {
        cases.push(array([raw(first)]).encoded());
        cases.push(array([raw(first), number(7)]).encoded());
    }
    let bytes = discovery(ex1()).encoded();
    for tag in [0, 24, 55_799, u64::MAX] {
        for head in head_forms(6, tag) {
            cases.push([&head[..], &[0x81, 0x00]].concat());
            cases.push([head, bytes.clone()].concat());
        }
    }
    cases.extend(LED_BY_NUMBERS.iter().map(|item| unhex(item)));
    cases
}
