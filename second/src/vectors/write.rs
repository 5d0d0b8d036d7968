//! The cases of `write_vectors`: descriptions, counts to lower, answers, and messages to write
//! again.

mod answers;
mod draft;
mod faults;
pub mod generated;
mod items;
mod kinds;
mod limits;
mod lowered;
mod outputs;
mod rewrites;
mod sizes;
mod spans;

use std::collections::BTreeSet;

pub use answers::Asked;
pub use draft::Draft;

use super::{counted, hex, Files};
use crate::writer::{lower, rewrite};

/// One question to the writer.
#[derive(Clone)]
pub enum Case {
    Write(Draft),
    Lower {
        message: Vec<u8>,
        at: u16,
        end: u16,
        count: u8,
        out_len: usize,
    },
    Answer {
        asked: Asked,
        out_len: usize,
    },
    Rewrite {
        message: Vec<u8>,
        out_len: usize,
    },
}

/// What a writing gives: the encoding or the refusal's number.
pub type Outcome = Result<Vec<u8>, u8>;

/// The most numbers in a list, and bytes of an output.
const MOST_LISTED: usize = 2_000;
const MOST_OUTPUT: usize = 2_100;

/// The output's bytes before the call.
const BEFORE: u8 = 0xAA;

/// All cases, one after the other, and the line each gives.
pub(super) fn files() -> Files {
    let cases = cases();
    Files {
        stdin: cases.iter().flat_map(Case::stored).collect(),
        stdout: cases.iter().flat_map(Case::line).collect(),
    }
}

/// Every description of the stored files.
pub fn drafts() -> Vec<Draft> {
    let draft = |case| match case {
        Case::Write(draft) => Some(draft),
        _ => None,
    };
    cases().into_iter().filter_map(draft).collect()
}

/// Every case once, in the order of the stored files.
pub fn cases() -> Vec<Case> {
    let mut seen = BTreeSet::new();
    [descriptions(), others()]
        .into_iter()
        .flatten()
        .flatten()
        .filter(|case| seen.insert(case.stored()))
        .collect()
}

fn descriptions() -> Vec<Vec<Case>> {
    vec![
        kinds::bytes_at_the_edges(),
        kinds::kinds_and_options(),
        kinds::places_of_nothing(),
        kinds::lists(),
        kinds::many(),
        outputs::lengths(),
        outputs::long(),
        faults::unknown_kinds(),
        faults::other_kinds(),
        faults::fields(),
        faults::rows(),
        faults::lists(),
        faults::outcomes(),
        spans::ends(),
        spans::far(),
        spans::empty(),
        spans::shared(),
        limits::numbers(),
        limits::flags_and_counts(),
        limits::protocols_and_ports(),
        limits::addresses(),
        limits::names(),
        limits::texts(),
        items::levels(),
        items::not_one_item(),
        items::balanced(),
        sizes::filled(),
        sizes::over_long(),
        generated::good(),
        generated::damaged(),
    ]
}

fn others() -> Vec<Vec<Case>> {
    vec![
        lowered::counts(),
        lowered::floods(),
        lowered::odd_places(),
        lowered::far_places(),
        lowered::sizes(),
        lowered::random_places(),
        answers::bytes_at_the_edges(),
        answers::numbers(),
        answers::initiators(),
        answers::random_answers(),
        rewrites::accepted(),
        rewrites::long(),
        rewrites::refused(),
    ]
}

impl Case {
    /// The operation and its arguments.
    fn stored(&self) -> Vec<u8> {
        match self {
            Case::Write(draft) => [vec![1], draft.stored()].concat(),
            Case::Lower {
                message,
                at,
                end,
                count,
                out_len,
            } => {
                let places = [at.to_be_bytes(), end.to_be_bytes()].concat();
                let rest = [places, vec![*count], output(*out_len)];
                [vec![2], counted(message), rest.concat()].concat()
            }
            Case::Answer { asked, out_len } => [vec![3], asked.stored(), output(*out_len)].concat(),
            Case::Rewrite { message, out_len } => {
                [vec![4], counted(message), output(*out_len)].concat()
            }
        }
    }

    /// The line that the program must print, with its line feed.
    fn line(&self) -> Vec<u8> {
        let (outcome, out_len) = self.outcome();
        let mut buffer = vec![BEFORE; out_len];
        let answer = match outcome {
            Ok(encoding) => {
                buffer[..encoding.len()].copy_from_slice(&encoding);
                format!("length {}", encoding.len())
            }
            Err(number) => format!("refused {number}"),
        };
        format!("{answer} {}\n", hex(&buffer)).into_bytes()
    }

    /// What must come of it, and the output's length.
    fn outcome(&self) -> (Outcome, usize) {
        match self {
            Case::Write(draft) => (draft.outcome(), draft.out_len),
            Case::Lower {
                message,
                at,
                end,
                count,
                out_len,
            } => {
                let (at, end) = (usize::from(*at), usize::from(*end));
                (lower(message, at, end, *count, *out_len), *out_len)
            }
            Case::Answer { asked, out_len } => (asked.outcome(*out_len), *out_len),
            Case::Rewrite { message, out_len } => (rewrite(message, *out_len), *out_len),
        }
    }
}

/// The output's length in two bytes.
fn output(out_len: usize) -> Vec<u8> {
    assert!(out_len <= MOST_OUTPUT);
    (out_len as u16).to_be_bytes().to_vec()
}

#[cfg(test)]
mod tests;
