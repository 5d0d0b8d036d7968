//! The rows of the table of refusals (rules 3.1), alone and against each other.

use super::super::unhex;
use super::parts::*;
use super::term::{encoded, Term};
use crate::random::Random;

/// A Flood of three pairs that is still good, and what happens to its bytes in the end.
#[derive(Clone)]
struct Draft {
    message: Term,
    after: Vec<u8>,
    cut: usize,
}

/// How a fault is made, in the given one of the three pairs if it can be in any.
type Fault = fn(&mut Draft, usize);

const PAIRS: usize = 3;

/// Every row but 1, most of them in several forms.
const FAULTS: &[Fault] = &[
    |draft, at| draft.put_in_value(at, "59 FFFF"),
    |draft, at| draft.put_in_value(at, "9A FFFFFFFF"),
    |draft, _| draft.cut = 1,
    |draft, _| draft.cut = 3,
    |draft, at| draft.put_in_value(at, "1C"),
    |draft, at| draft.put_in_value(at, "F8 1F"),
    |draft, at| draft.put_in_value(at, "9F"),
    |draft, at| draft.put_in_value(at, "FF"),
    |draft, at| draft.put_in_value(at, "18 17"),
    |draft, at| draft.put_in_value(at, "81 81 81 81 80"),
    |draft, _| draft.after = vec![0x00],
    |draft, _| draft.after = vec![0x1C],
    |draft, _| draft.replace(&[0], number(10)),
    |draft, _| draft.replace(&[1], raw("20")),
    |draft, at| draft.replace(&[4 + at, 0, 1], number(16)),
    |draft, at| draft.replace(&[4 + at, 1, 3], number(65_536)),
    |draft, at| draft.replace(&[4 + at, 0, 0], text(b"\xC3")),
    |draft, at| draft.replace(&[4 + at, 1, 1], text(b"a:\x80")),
    |draft, at| draft.replace(&[4 + at, 0, 0], text([b'n'; 65])),
];

impl Draft {
    fn new() -> Draft {
        let pair = pair(valued(array([number(0)])), uri("a:b"));
        Draft {
            message: flood(vec![pair; PAIRS]),
            after: vec![],
            cut: 0,
        }
    }

    fn replace(&mut self, path: &[usize], other: Term) {
        self.message = self.message.with(path, other);
    }

    /// Adds an item to the array that is the value in this pair.
    fn put_in_value(&mut self, at: usize, item: &str) {
        let path = [4 + at, 0, 3];
        let items = [self.message.at(&path).items(), &[raw(item)]].concat();
        self.replace(&path, array(items));
    }

    fn finished(self) -> Vec<u8> {
        let bytes = self.message.encoded();
        [&bytes[..bytes.len() - self.cut], &self.after].concat()
    }
}

/// A message with these faults, each in its pair.
fn faulty(faults: &[(Fault, usize)]) -> Vec<u8> {
    let mut draft = Draft::new();
    for (fault, at) in faults {
        fault(&mut draft, *at);
    }
    draft.finished()
}

/// Every fault in every pair, and those of heads in the place of every item of every sample.
pub fn alone() -> Vec<Vec<u8>> {
    let mut cases = vec![faulty(&[])];
    for &fault in FAULTS {
        cases.extend((0..PAIRS).map(|at| faulty(&[(fault, at)])));
    }
    let mut terms = Vec::new();
    for sample in samples() {
        for place in sample.places() {
            terms.extend(["1C", "FF"].map(|fault| sample.with(&place, raw(fault))));
        }
    }
    cases.extend(encoded(terms));
    cases
}

/// Every two faults: in one pair, and in two with either of them first.
pub fn in_competition() -> Vec<Vec<u8>> {
    let mut cases = Vec::new();
    for &first in FAULTS {
        for &second in FAULTS {
            cases.push(faulty(&[(first, 0), (second, 0)]));
            cases.push(faulty(&[(first, 0), (second, 2)]));
        }
    }
    cases
}

/// Three to five faults anywhere.
pub fn several() -> Vec<Vec<u8>> {
    let mut random = Random::new(11);
    (0..250)
        .map(|_| {
            let count = 3 + random.below(3);
            let faults: Vec<(Fault, usize)> = (0..count)
                .map(|_| (*random.pick(FAULTS), random.below(PAIRS)))
                .collect();
            faulty(&faults)
        })
        .collect()
}

/// Over 2,048 bytes with each other fault, and with none.
pub fn over_long() -> Vec<Vec<u8>> {
    let mut cases: Vec<Vec<u8>> = ["1C", "FF", "18 00", "80", "81 00", "81 0A", "82 00 07"]
        .iter()
        .map(|start| [unhex(start), vec![0x00; 2_048]].concat())
        .collect();
    for &fault in FAULTS {
        let mut draft = Draft::new();
        draft.replace(&[6, 0, 3], array([bytes(2_040)]));
        fault(&mut draft, 1);
        cases.push(draft.finished());
    }
    cases
}
