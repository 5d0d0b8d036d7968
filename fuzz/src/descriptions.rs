//! Descriptions to write that a fuzzer's bytes say.

use compare::writing::Write;
use second::block::layout::FIELDS;
use second::vectors::write::Draft;
use second::writer::{describe, Description};

use crate::input::Input;
use crate::messages::message;

/// The most numbers of a list that is said number by number.
const MOST_LISTED: usize = 64;

/// The description of a message with up to three numbers changed, or the message if it is refused.
pub fn changed(input: &mut Input) -> Result<Write, Vec<u8>> {
    let changes: Vec<(u8, u64)> = (0..input.below(4))
        .map(|_| (input.byte(), input.number()))
        .collect();
    let room = input.byte();
    let source = match input.byte() {
        0..=127 => message(input),
        _ => input.rest().to_vec(),
    };
    let Ok(Description {
        mut fields,
        mut list,
    }) = describe(&source)
    else {
        return Err(source);
    };
    let slots = FIELDS + list.len();
    for (slot, number) in changes {
        match usize::from(slot) % slots {
            field @ 0..FIELDS => fields[field] = number,
            listed => list[listed - FIELDS] = number,
        }
    }
    Ok(fitted(source, list, fields, room))
}

/// A description said number by number.
pub fn spelled(input: &mut Input) -> Write {
    let fields = std::array::from_fn(|_| input.number());
    let room = input.byte();
    let listed = input.below(MOST_LISTED + 1);
    let list = (0..listed).map(|_| input.number()).collect();
    let source = input.rest().to_vec();
    fitted(source, list, fields, room)
}

/// With an output that just holds the encoding, lacks a byte, has one more, or has this many.
fn fitted(source: Vec<u8>, list: Vec<u64>, fields: [u64; FIELDS], room: u8) -> Write {
    let mut draft = Draft {
        source,
        list,
        fields,
        out_len: 0,
    };
    let length = draft.encoding().map_or(2_048, |encoding| encoding.len());
    draft.out_len = match room {
        0..=127 => length,
        128..=159 => length.saturating_sub(1),
        160..=191 => length + 1,
        _ => usize::from(room - 192),
    };
    Write::of(draft)
}
