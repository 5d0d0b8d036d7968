//! The cases of `cbor_vectors`: heads, items, texts and written heads.

mod examples;
mod heads;
mod items;
mod puts;
mod texts;

use std::collections::BTreeSet;

use super::{counted, hex, Files};
use crate::cbor::{head, is_utf8, item, put_head, Refusal};

/// One question to the CBOR layer.
pub enum Case {
    Item {
        levels: u8,
        bytes: Vec<u8>,
    },
    Head {
        bytes: Vec<u8>,
    },
    Text {
        bytes: Vec<u8>,
    },
    Put {
        major: u8,
        at: u8,
        argument: u64,
        buffer: Vec<u8>,
    },
}

/// All cases, one after the other, and the line each gives.
pub fn files() -> Files {
    let cases = cases();
    Files {
        stdin: cases.iter().flat_map(Case::stored).collect(),
        stdout: cases.iter().flat_map(Case::line).collect(),
    }
}

/// Every case once, in the order of the stored files.
fn cases() -> Vec<Case> {
    let mut seen = BTreeSet::new();
    [
        examples::appendix_a(),
        examples::appendix_f(),
        examples::bytes_at_the_edges(),
        heads::width_edges(),
        heads::first_bytes(),
        heads::simple_values(),
        items::nesting(),
        items::innermost(),
        items::followed(),
        items::siblings(),
        items::claimed_lengths(),
        items::trees(),
        items::random_bytes(),
        items::long_strings(),
        items::long_containers(),
        texts::short_strings(),
        texts::code_points(),
        texts::leads_and_tails(),
        texts::second_bytes(),
        texts::random_texts(),
        texts::names(),
        texts::long_texts(),
        puts::width_edges(),
        puts::random_places(),
    ]
    .into_iter()
    .flatten()
    .filter(|case| seen.insert(case.stored()))
    .collect()
}

impl Case {
    /// Operation, two parameters and the content's length, then the content.
    fn stored(&self) -> Vec<u8> {
        let (operation, first, second, content) = match self {
            Case::Item { levels, bytes } => (1, *levels, 0, bytes.clone()),
            Case::Head { bytes } => (2, 0, 0, bytes.clone()),
            Case::Text { bytes } => (3, 0, 0, bytes.clone()),
            Case::Put {
                major,
                at,
                argument,
                buffer,
            } => {
                let content = [&argument.to_be_bytes()[..], buffer].concat();
                (4, *major, *at, content)
            }
        };
        [vec![operation, first, second], counted(&content)].concat()
    }

    /// The line that the program must print, with its line feed.
    fn line(&self) -> Vec<u8> {
        let line = match self {
            Case::Item { levels, bytes } => match item(usize::from(*levels), bytes) {
                Ok(end) => format!("end {end}"),
                Err(refusal) => refused(refusal),
            },
            Case::Head { bytes } => match head(bytes) {
                Ok(head) => format!("head {} {} {}", head.major, head.argument, head.length),
                Err(refusal) => refused(refusal),
            },
            Case::Text { bytes } if is_utf8(bytes) => String::from("utf8"),
            Case::Text { .. } => String::from("not utf8"),
            Case::Put {
                major,
                at,
                argument,
                buffer,
            } => {
                let mut buffer = buffer.clone();
                let end = put_head(&mut buffer, usize::from(*at), *major, *argument);
                format!("{end} {}", hex(&buffer))
            }
        };
        format!("{line}\n").into_bytes()
    }
}

fn refused(refusal: Refusal) -> String {
    format!("refused {} {}", refusal.number, refusal.place)
}

/// The same bytes read as an outermost item and as a head.
fn item_and_head(bytes: &[u8]) -> [Case; 2] {
    [
        Case::Item {
            levels: 0,
            bytes: bytes.to_vec(),
        },
        Case::Head {
            bytes: bytes.to_vec(),
        },
    ]
}

/// Arguments on both sides of every head width.
const ARGUMENT_EDGES: [u64; 10] = [
    0,
    23,
    24,
    0xFF,
    0x100,
    0xFFFF,
    0x1_0000,
    0xFFFF_FFFF,
    0x1_0000_0000,
    u64::MAX,
];
