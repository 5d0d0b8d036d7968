//! Descriptions of every kind and option, and lists of many lengths.

use super::super::edges::AT_THE_EDGES;
use super::super::message::parts::*;
use super::super::message::shapes;
use super::super::unhex;
use super::{Case, Draft};
use crate::block::layout::*;
use crate::message::read;
use crate::random::Random;

/// A message of every kind and with every option, few enough to change each number of.
pub fn samples() -> Vec<Draft> {
    [
        array([number(0)]),
        array([number(1), number(7), bytes(16), valued(number(0))]),
        response([v4(), domain("a.example")]),
        response([uri("coap://a"), bare_uri("a:b"), ex1()]),
        response([divert([v6()]), valued(null())]),
        talk(3, valued(text("v"))),
        talk(4, ex1()),
        talk(5, valued(number(24))),
        talk(8, ex1()),
        end(accept()),
        end(decline()),
        end(declined("no")),
        wait(34_965),
        flood([pair(ex1(), bare_uri("a:b")), pair(valued(text("v")), v4())]),
        flood([pair(ex1(), nowhere())]),
        invalid([]),
        invalid([number(24)]),
    ]
    .iter()
    .map(Draft::said)
    .collect()
}

/// Bytes at the edges (rules 12): each message, exactly fitting and one byte short.
pub fn bytes_at_the_edges() -> Vec<Case> {
    let mut cases = Vec::new();
    for message in AT_THE_EDGES.iter().map(|encoded| unhex(encoded)) {
        if read(&message).is_ok() {
            let length = message.len();
            let draft = Draft::of(&message);
            cases.extend([length, length - 1].map(|out_len| draft.clone().within(out_len)));
        }
    }
    cases
}

/// Every kind and option, with places into the message and into a scattered source.
pub fn kinds_and_options() -> Vec<Case> {
    let mut random = Random::new(21);
    let mut cases = Vec::new();
    for message in shapes::kinds_and_options() {
        let draft = Draft::of(&message);
        let scattered = draft.scattered(&mut random);
        cases.extend([draft, scattered].map(Draft::roomy));
    }
    cases
}

/// No value and no item, at any place.
pub fn places_of_nothing() -> Vec<Case> {
    let mut cases = Vec::new();
    let holders = AROUND_OBJECTIVE.iter().map(|holder| holder(ex1()));
    for message in holders.chain([invalid([])]) {
        let draft = Draft::said(&message);
        let past = draft.source.len() as u64 + 1;
        for slot in draft.items() {
            cases.extend([0, past, u64::MAX].map(|at| draft.with(slot, at).roomy()));
        }
    }
    cases
}

/// Lists of few locators and pairs, and of those where the head of an array grows.
pub fn lists() -> Vec<Case> {
    let mut cases = Vec::new();
    for count in [1, 2, 3, 18, 19, 20, 21, 22, 23, 24] {
        let mixed: Vec<_> = locators().into_iter().cycle().take(count).collect();
        let pairs = mixed.iter().map(|locator| pair(ex1(), locator.clone()));
        let mut all = vec![response(vec![bare_uri(""); count])];
        all.push(response([divert(vec![bare_uri(""); count])]));
        if count < 4 {
            all.push(response(mixed.clone()));
            all.push(response([mixed.clone(), vec![ex1()]].concat()));
            all.push(response([divert(mixed.clone()), valued(number(0))]));
            all.push(flood(pairs.collect::<Vec<_>>()));
        }
        if count < 4 || (19..21).contains(&count) {
            all.push(flood(vec![pair(named(""), nowhere()); count]));
        }
        cases.extend(all.iter().map(|message| Draft::said(message).roomy()));
    }
    cases
}

/// As many locators and pairs as a message holds, and one more.
pub fn many() -> Vec<Case> {
    let tiny = Draft::said(&response([bare_uri("")]));
    let divert = Draft::said(&response([divert([v6()])]));
    let flooded = Draft::said(&flood([pair(ex1(), v6())]));
    let full = [
        (&tiny, 339),
        (&divert, 83),
        (&divert, 84),
        (&flooded, 63),
        (&flooded, 64),
    ];
    full.map(|(draft, many)| repeated(draft, many).roomy())
        .to_vec()
}

/// The same with its row so many times, all with the same places.
fn repeated(draft: &Draft, many: usize) -> Draft {
    let mut more = draft.clone();
    more.list = draft.list.repeat(many);
    more.fields[LIST_MANY] = many as u64;
    more
}
