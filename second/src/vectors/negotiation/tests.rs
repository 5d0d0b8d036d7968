//! What the stored lists hold, and demand 3 on them and on many more.

use std::collections::BTreeMap;

use super::*;
use crate::history::negotiates_within;
use crate::negotiation::{Side, State};
use crate::random::Random;

#[test]
fn every_answer_is_stored() {
    let Files { stdin, stdout } = files();
    let mut counts: BTreeMap<String, usize> = BTreeMap::new();
    for line in String::from_utf8(stdout).expect("text").lines() {
        let words: Vec<&str> = line.split(' ').take(3).collect();
        let answer = match words[..] {
            ["refused", number, state] => format!("refused {number} {state}"),
            _ => words[..2].join(" "),
        };
        *counts.entry(answer).or_default() += 1;
    }
    let talks = talks();
    println!("{} lists, {} bytes: {counts:?}", talks.len(), stdin.len());
    assert!(counts["taken open"] > 500 && counts["taken closed"] > 50);
    for state in ["fresh", "open", "closed"] {
        for number in (1..=11).chain([20]) {
            assert!(counts.contains_key(&format!("refused {number} {state}")));
        }
    }
    assert!(stdin.len() < 400_000);
}

#[test]
fn stored_lists_meet_demand_3() {
    assert_eq!(faults(), Vec::<String>::new());
}

#[test]
fn generated_lists_meet_demand_3() {
    let mut random = Random::new(0);
    let mut taken = 0;
    for _ in 0..2_000 {
        let steps = generated::generated(&mut random, 40).run().steps;
        let steps = steps.expect("nothing is put");
        assert!(negotiates_within(&steps));
        taken += steps.iter().filter(|step| step.taken).count();
    }
    assert!(taken > 10_000);
}

#[test]
fn operations_are_stored_as_said() {
    let mut talk = Talk::default();
    talk.step(Side::They, b"\x81\x00");
    talk.put(State::Open {
        session: 258,
        count: 9,
        turn: Side::They,
    });
    talk.step(Side::We, b"");
    let stored = b"\x01\x02\x01\0\x02\x81\0\x03\x01\0\0\x01\x02\x09\x01\x02\0\0\0";
    assert_eq!(talk.stored(), stored);
    assert_eq!(
        talk.run().lines,
        b"refused 20 fresh\nrefused 1 open 258 9 1\n"
    );
}
