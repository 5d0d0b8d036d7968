//! What the stored stories hold, and demand 3 on them and on many more.

use std::collections::BTreeMap;

use super::story::{given, ADDRESS};
use super::*;
use crate::message::read;
use crate::node::Record;
use crate::random::Random;

/// How often each first two words of a line are printed.
fn answers(stories: &[Story]) -> BTreeMap<String, usize> {
    let mut counts = BTreeMap::new();
    for story in stories {
        let lines = String::from_utf8(story.run().lines).expect("text");
        for line in lines.lines() {
            let words: Vec<&str> = line.split(' ').collect();
            let answer = match words[0] {
                "done" => String::from("done"),
                _ => words[..2].join(" "),
            };
            *counts.entry(answer).or_default() += 1;
        }
    }
    counts
}

#[test]
fn every_answer_is_stored() {
    let stories = stories();
    let counts = answers(&stories);
    let calls = stories.iter().flat_map(|story| &story.ops);
    let calls = calls.filter(|op| matches!(op, Op::Call(_))).count();
    println!("{} stories, {calls} calls: {counts:?}", stories.len());
    for verdict in 1..=9 {
        assert!(counts[&format!("verdict {verdict}")] > 20);
    }
    for number in 1..=17 {
        assert!(counts[&format!("refused {number}")] > 5);
    }
    let Files { stdin, stdout } = files();
    println!("{} and {} bytes", stdin.len(), stdout.len());
    assert!(stdin.len() < 400_000);
}

#[test]
fn every_kind_is_stored() {
    let mut kinds = BTreeMap::new();
    for op in stories().iter().flat_map(|story| &story.ops) {
        if let Op::Call(given) = op {
            let kind = read(&given.message).ok().map(|message| message.kind());
            *kinds.entry(kind).or_insert(0) += 1;
        }
    }
    println!("{kinds:?}");
    assert_eq!(kinds.len(), 12);
}

#[test]
fn stored_stories_meet_demand_3() {
    assert_eq!(faults(), Vec::<String>::new());
    let spoken = stories()
        .iter()
        .filter_map(|story| story.run().history)
        .count();
    assert!(spoken > 50);
}

#[test]
fn generated_stories_meet_demand_3() {
    let mut random = Random::new(0);
    let mut relays = 0;
    for _ in 0..150 {
        for story in [
            generated::usual(&mut random, 200),
            generated::crowded(&mut random, 250),
        ] {
            let history = story.run().history.expect("nothing is put");
            assert_eq!(history.faults(), []);
            relays += history.tally;
        }
    }
    assert!(relays > 10_000);
}

/// A story with every operation.
fn of_all_operations() -> Story {
    let mut story = Story::at(ADDRESS, 258, 259, 3, 7);
    story.call(5, 1, b"\x81\x00");
    story.links(6);
    story.row(2, [1, 2, 3, 4]);
    story.ops.push(Op::Length(257));
    story.ops.push(Op::Record(Record {
        address: [9; 16],
        port: 1,
        ttl: 2,
        count: 3,
        mask: 4,
        clock: 5,
        tally: 6,
    }));
    story
}

#[test]
fn operations_are_stored_as_said() {
    let number = |number: u8| [0, 0, 0, 0, 0, 0, 0, number];
    let stored = [
        &[1][..],
        &ADDRESS,
        &[1, 2, 0, 0, 1, 3],
        &number(3),
        &number(7),
        &[2],
        &number(5),
        &number(1),
        &[0, 1, 0x80, 0, 2, 0x81, 0, 8, 0],
        &[3],
        &number(6),
        &[5, 2],
        &[number(1), number(2), number(3), number(4)].concat(),
        &[6, 1, 1],
        &[4],
        &[9; 16],
        &[0, 1, 0, 0, 0, 2, 3, 4],
        &[number(5), number(6)].concat(),
    ]
    .concat();
    assert_eq!(of_all_operations().stored(), stored);
}

#[test]
fn operations_are_answered_by_a_line() {
    let mut story = of_all_operations();
    story.ops.push(Op::Call(given(6, 0, b"\x81\x00")));
    let lines = String::from_utf8(story.run().lines).expect("text");
    let lines: Vec<&str> = lines.lines().collect();
    assert_eq!(lines.len(), 4);
    assert!(lines[0].starts_with("done 0 "));
    assert!(lines[1].starts_with("verdict 8 0 0 0 "));
    assert!(lines[1].ends_with(" 0 "));
    assert!(lines[2].starts_with("done 0 "));
    assert!(lines[3].starts_with("refused 13 6 "));
}
