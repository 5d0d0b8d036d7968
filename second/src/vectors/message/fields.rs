//! Numbers, addresses and locators at their limits.

use super::super::encode::shortest_head;
use super::parts::*;
use super::term::{encoded, Term};

/// Numbers at the limits of fields; protocols and ports have cases of their own below.
const NUMBERS: &[u64] = &[0, 15, 16, 255, 256, 65_536, 0xFFFF_FFFF, 1 << 32, u64::MAX];

/// Every number of every sample at every limit.
pub fn numbers() -> Vec<Vec<u8>> {
    let mut cases = Vec::new();
    for sample in samples() {
        for place in sample.places() {
            if let Term::Number(_) = sample.at(&place) {
                for &edge in NUMBERS {
                    cases.push(sample.with(&place, number(edge)));
                }
            }
        }
    }
    encoded(cases)
}

/// Every number of every sample nearly said: a negative number or simple value with the same
/// argument, and a number with the same low bits.
pub fn near_numbers() -> Vec<Vec<u8>> {
    let mut cases = Vec::new();
    for sample in samples() {
        for place in sample.places() {
            let Term::Number(said) = *sample.at(&place) else {
                continue;
            };
            cases.push(sample.with(&place, Term::Raw(shortest_head(1, said))));
            cases.extend([1 << 8, 1 << 32].map(|more| sample.with(&place, number(said + more))));
            if said < 24 || (32..256).contains(&said) {
                cases.push(sample.with(&place, Term::Raw(shortest_head(7, said))));
            }
        }
    }
    encoded(cases)
}

/// Loop counts and flags at their limits, without and with a value, in every place.
pub fn counts_and_flags() -> Vec<Vec<u8>> {
    let mut cases = Vec::new();
    for holder in AROUND_OBJECTIVE {
        for objective in [ex1(), valued(text("v"))] {
            for count in [0, 1, 23, 24, 255, 256] {
                cases.push(holder(objective.with(&[2], number(count))));
            }
            cases.extend([0, 15, 16].map(|flags| holder(objective.with(&[1], number(flags)))));
        }
    }
    encoded(cases)
}

/// Every nested array of every sample led by each number near those of the options.
pub fn option_numbers() -> Vec<Vec<u8>> {
    let mut cases = Vec::new();
    for sample in samples() {
        for place in sample.places().into_iter().skip(1) {
            if sample.at(&place).items().is_empty() {
                continue;
            }
            let first = [place, vec![0]].concat();
            for option in 99..=107 {
                cases.push(sample.with(&first, number(option)));
            }
        }
    }
    encoded(cases)
}

/// Initiators and locators' addresses of every length near 4 and 16, as bytes and as text.
pub fn addresses() -> Vec<Vec<u8>> {
    let lengths = [0, 3, 4, 5, 8, 15, 16, 17, 20, 260, 272];
    let mut cases = Vec::new();
    for length in lengths {
        for address in [bytes(length), text(vec![b'4'; length])] {
            for sample in [
                discovery(ex1()),
                response([v4()]),
                flood([pair(ex1(), v4())]),
            ] {
                cases.push(sample.with(&[2], address.clone()));
            }
            for option in 103..=106 {
                let locator = array([number(option), address.clone(), number(6), number(80)]);
                cases.push(response([locator.clone()]));
                cases.push(response([divert([v6(), locator.clone()])]));
                cases.push(flood([pair(ex1(), locator)]));
            }
        }
    }
    encoded(cases)
}

/// Protocols and ports at their limits, null and what is nearly null, for every kind of locator.
pub fn protocols_and_ports() -> Vec<Vec<u8>> {
    let protocols = [
        "05", "06", "07", "10", "11", "12", "18 FF", "19 0106", "19 0111",
    ];
    let ports = [
        "00",
        "18 FF",
        "19 FFFF",
        "1A 00010000",
        "1B 0000000100000000",
    ];
    let neither = [
        "F6", "F7", "F4", "F5", "F9 0016", "F8 F6", "25", "30", "40", "60", "80", "A0",
    ];
    let mut cases = Vec::new();
    for locator in locators() {
        for protocol in protocols.iter().chain(&neither) {
            for port in ["00", "F6"] {
                let locator = locator.with(&[2], raw(protocol)).with(&[3], raw(port));
                cases.push(response([locator]));
            }
        }
        for port in ports.iter().chain(&neither) {
            for protocol in ["06", "F6"] {
                let locator = locator.with(&[2], raw(protocol)).with(&[3], raw(port));
                cases.push(flood([pair(ex1(), locator)]));
            }
        }
    }
    encoded(cases)
}

/// Every kind of locator, with and without nulls, and locators nearly right, in every place.
pub fn locators_in_places() -> Vec<Vec<u8>> {
    let mut all = locators().to_vec();
    for locator in locators() {
        all.push(locator.with(&[2], null()));
        all.push(locator.with(&[3], null()));
        all.push(locator.with(&[2], number(7)));
        all.push(locator.with(&[3], number(65_536)));
        all.push(locator.with(&[0], number(107)));
        all.push(array(&locator.items()[..3]));
        all.push(array([locator.items(), &[number(0)]].concat()));
    }
    let mut cases = Vec::new();
    for holder in AROUND_LOCATOR {
        cases.extend(all.iter().cloned().map(holder));
    }
    // Where only an objective, an accept or a decline may stand.
    for locator in locators() {
        cases.extend(
            AROUND_OBJECTIVE
                .iter()
                .map(|holder| holder(locator.clone())),
        );
    }
    encoded(cases)
}
