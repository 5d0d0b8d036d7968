//! Own names: good and bad ones, and what is answered.

use super::super::encode::head_forms;
use super::super::encode::AROUND;
use super::super::message::levels::nest;
use super::super::message::parts::{array, text};
use super::super::message::term::Term;
use super::super::message::texts::{BAD, GOOD};
use super::super::unhex;
use super::draft::Draft;
use super::story::Story;

pub fn stories() -> Vec<Story> {
    vec![lists(), texts(), compared()]
}

/// Bytes that are no array of texts, or that refusals 1 to 7 don't let pass (rules 8.4).
const NO_NAMES: &[&str] = &[
    "",
    "81",
    "82 60",
    "81 63 4558",
    "81 1C",
    "81 7C",
    "9F FF",
    "81 7F 60 FF",
    "81 FF",
    "81 78 03 455831",
    "98 01 63 455831",
    "80 00",
    "81 63 455831 00",
    "80 80",
    "00",
    "60",
    "63 455831",
    "43 455831",
    "A0",
    "A1 60 60",
    "C0 80",
    "D9 D9F7 81 63 455831",
    "F6",
    "81 00",
    "81 03",
    "81 23",
    "81 43 455831",
    "81 80",
    "81 81 63 455831",
    "81 A0",
    "81 C0 63 455831",
    "81 F6",
    "81 F8 20",
    "81 F8 1F",
    "82 63 455831 00",
    "82 00 63 455831",
    "9A FFFFFFFF 60",
    "9B FFFFFFFFFFFFFFFF",
    "81 7B FFFFFFFFFFFFFFFF 60",
];

/// A Noop and the Discovery of rules 12.2 with these names.
fn with(story: &mut Story, names: &[u8]) {
    story.named(0, 0, names, b"\x81\x00");
    story.named(0, 0, names, &Draft::discovery().count(1).bytes());
}

/// A list of this name so many times, with that of rules 12.5 last.
fn list(count: usize, name: &[u8]) -> Term {
    let mut names = vec![text(name); count];
    names.extend([text("EX1")]);
    array(names)
}

/// Lists of many lengths and forms.
fn lists() -> Story {
    let mut story = Story::fresh(3, 7);
    for names in NO_NAMES {
        with(&mut story, &unhex(names));
    }
    with(&mut story, &array([]).encoded());
    for count in [0, 1, 14, 15, 16, 22, 23, 24] {
        with(&mut story, &list(count, b"").encoded());
    }
    with(&mut story, &list(15, &[b'n'; 64]).encoded());
    with(&mut story, &list(16, &[b'n'; 64]).encoded());
    for form in head_forms(4, 1) {
        with(&mut story, &[form, unhex("63 455831")].concat());
    }
    for depth in [7, 8] {
        with(
            &mut story,
            &array([nest(depth, "60", &AROUND[..1])]).encoded(),
        );
    }
    // 2,048 bytes and one more, of one long name and of many short ones.
    for length in [2_044, 2_045] {
        story.named(
            0,
            0,
            &array([text(vec![b'n'; length])]).encoded(),
            b"\x81\x00",
        );
    }
    for count in [2_045, 2_046] {
        story.named(0, 0, &array(vec![text(""); count]).encoded(), b"\x81\x00");
    }
    story
}

/// Names of many lengths, that are UTF-8 or not.
fn texts() -> Story {
    let mut story = Story::fresh(3, 7);
    let mut names: Vec<Vec<u8>> = [0, 1, 23, 24, 63, 64, 65, 66, 255, 256]
        .map(|length| vec![b'n'; length])
        .to_vec();
    for (character, most) in [("é", 32), ("水", 21), ("𐅑", 16)] {
        names.extend([most, most + 1].map(|count| character.repeat(count).into_bytes()));
    }
    names.extend(GOOD.iter().chain(BAD).map(|text| text.to_vec()));
    for name in &names {
        with(&mut story, &array([text(name)]).encoded());
        let message = Draft::discovery().count(1).bytes();
        for names in [array([text("EX1"), text(name)]), list(1, name)] {
            story.named(0, 0, &names.encoded(), &message);
        }
    }
    story
}

/// Objectives that are ours and that nearly are.
fn compared() -> Story {
    let mut story = Story::fresh(3, 7);
    let long = |last: u8| [&[b'n'; 63][..], &[last]].concat();
    let names: Vec<Vec<u8>> = [
        &b""[..],
        b"E",
        b"EX",
        b"EX1",
        b"EX12",
        b"ex1",
        b"EX1\0",
        b"\xC3\xA9",
    ]
    .iter()
    .map(|name| name.to_vec())
    .chain([long(b'a'), long(b'b')])
    .collect();
    for own in &names {
        let ours = array([text("first"), text(own)]).encoded();
        for (other, name) in names.iter().enumerate() {
            let draft = Draft::discovery().name(name).count(1);
            story.named(0, 0, &ours, &draft.session(other as u32).bytes());
        }
    }
    let sixteen: Vec<Term> = (0..16).map(|place| text([b'a' + place])).collect();
    let sixteen = array(sixteen).encoded();
    for name in ["a", "h", "p", "q", "A", ""] {
        for draft in Draft::both() {
            let message = draft.name(name).session(name.len() as u32).bytes();
            story.named(0, 2, &sixteen, &message);
        }
    }
    story
}
