//! Numbers, addresses and texts at their limits.

use super::super::message::parts::*;
use super::super::message::texts::{BAD, GOOD};
use super::draft::Slot;
use super::{Case, Draft};
use crate::block::layout::*;

/// Sessions, ttls and waiting times at every head width and past the limit.
pub fn numbers() -> Vec<Case> {
    let most = u64::from(u32::MAX);
    let edges = [0, 24, 256, 65_536, most, most + 1];
    let messages = [
        (discovery(ex1()), SESSION),
        (response([v4()]), SESSION),
        (response([v4()]), TTL),
        (talk(3, ex1()), SESSION),
        (talk(4, ex1()), SESSION),
        (talk(5, ex1()), SESSION),
        (talk(8, ex1()), SESSION),
        (end(accept()), SESSION),
        (wait(7), SESSION),
        (wait(7), TTL),
        (flood([pair(ex1(), nowhere())]), SESSION),
        (flood([pair(ex1(), nowhere())]), TTL),
        (invalid([]), SESSION),
    ];
    let mut cases = Vec::new();
    for (message, field) in messages {
        let draft = Draft::said(&message);
        cases.extend(edges.map(|edge| draft.with(Slot::Field(field), edge).roomy()));
    }
    cases
}

/// Flags and loop counts at their limits in every place of an objective.
pub fn flags_and_counts() -> Vec<Case> {
    let mut cases = Vec::new();
    for (draft, first) in objectives() {
        for flags in [15, 16] {
            cases.push(draft.with(first.after(FLAGS), flags).roomy());
        }
        for count in [23, 24, 255, 256] {
            cases.push(draft.with(first.after(COUNT), count).roomy());
        }
    }
    cases
}

/// Messages with an objective, and where it is said.
fn objectives() -> Vec<(Draft, Slot)> {
    let mut all = Vec::new();
    for holder in AROUND_OBJECTIVE {
        let draft = Draft::said(&holder(valued(number(0))));
        let valued = |first: &Slot| draft.get(first.after(VALUE + 1)) > 0;
        let first = draft.objectives().into_iter().find(valued);
        all.push((draft, first.expect("an objective with a value")));
    }
    all
}

/// Protocols and ports, right, null and wrong, for every kind of locator.
pub fn protocols_and_ports() -> Vec<Case> {
    let mut drafts = Vec::new();
    for kind in [v6(), v4(), domain("a"), uri("a:b")] {
        let alone = Draft::said(&response([kind.clone()]));
        let diverted = Draft::said(&response([divert([kind.clone()])]));
        let flooded = Draft::said(&flood([pair(ex1(), kind)]));
        for draft in [&alone, &diverted, &flooded] {
            let locator = draft.locators()[0];
            for protocol in [0, 6, 17, 255] {
                let said = draft.with(locator.after(PROTOCOL), protocol);
                drafts.extend([65_535, 65_536].map(|port| said.with(locator.after(PORT), port)));
            }
            drafts.push(draft.with(locator.after(PORT), 65_537));
        }
        for draft in [&alone, &flooded] {
            let locator = draft.locators()[0];
            let protocols = [1, 256 + 6].map(|other| draft.with(locator.after(PROTOCOL), other));
            let ports = [0, 24, 256, 1 << 32].map(|other| draft.with(locator.after(PORT), other));
            let kinds = [0, 102, 103, 104, 105, 106, 107, 256 + 103];
            drafts.extend([&protocols[..], &ports].concat());
            drafts.extend(kinds.map(|other| draft.with(locator, other)));
        }
    }
    drafts.into_iter().map(Draft::roomy).collect()
}

/// Initiators and addresses of every length near 4 and 16.
pub fn addresses() -> Vec<Case> {
    let mut cases = Vec::new();
    for message in [
        discovery(ex1()),
        response([v6(), v4()]),
        flood([pair(ex1(), v4()), pair(ex1(), v6())]),
    ] {
        let mut draft = Draft::said(&message);
        draft.source.extend([0xC0; 16]);
        for slot in draft.addresses() {
            for length in [0, 3, 4, 5, 15, 16, 17] {
                cases.push(draft.with(slot.after(1), length).roomy());
            }
        }
    }
    cases
}

/// Names of up to 64 bytes and of more: some in every place, and of longer characters in one.
pub fn names() -> Vec<Case> {
    let mut cases = Vec::new();
    for (draft, first) in objectives() {
        let names = [0, 24, 64, 65].map(|length| vec![b'n'; length]);
        cases.extend(names.map(|name| draft.holding(first.after(NAME), &name).roomy()));
    }
    let draft = Draft::said(&talk(4, ex1()));
    let mut names = vec![vec![b'n'; 256], "é".repeat(33).into_bytes()[..65].to_vec()];
    for (character, most) in [("é", 32), ("水", 21), ("𐅑", 16)] {
        names.extend([most, most + 1].map(|count| character.repeat(count).into_bytes()));
    }
    let slot = Slot::Field(OBJECTIVE + NAME);
    cases.extend(names.iter().map(|name| draft.holding(slot, name).roomy()));
    cases
}

/// Texts that are UTF-8 and texts that are not: all in two places, some in every place of one.
pub fn texts() -> Vec<Case> {
    let some: Vec<&[u8]> = vec![b"", GOOD[8], BAD[0], BAD[6], &[b't'; 65]];
    let all = [&some[..], GOOD, BAD].concat();
    let mut cases = Vec::new();
    for (message, texts) in [
        (discovery(ex1()), &all),
        (end(declined("no")), &all),
        (response([uri("a:b"), domain("a"), ex1()]), &some),
        (response([divert([domain("a")])]), &some),
        (
            flood([pair(ex1(), bare_uri("a")), pair(ex1(), domain("a"))]),
            &some,
        ),
    ] {
        let draft = Draft::said(&message);
        for slot in draft.texts() {
            cases.extend(texts.iter().map(|text| draft.holding(slot, text).roomy()));
        }
    }
    cases
}
