//! Messages written from descriptions: a block of numbers with places into a source, and rows of
//! numbers for a Response's locators or a Flood's pairs (include/grasp.h).

mod describe;
mod encode;
pub mod items;

use crate::block::layout::FIELDS;
use crate::message::{self, MOST_BYTES, TCP, V6};
use items::{array, bytes, number};

/// Refusal 18 (rules 5.3): no accepted message has this description.
pub const NO_MESSAGE: u8 = 18;
/// Refusal 19 (rules 5.5): the output is shorter than the encoding.
pub const SHORT_OUTPUT: u8 = 19;

/// The numbers that say a message; `list` holds the rows.
#[derive(Clone, Debug, PartialEq, Eq)]
pub struct Description {
    pub fields: [u64; FIELDS],
    pub list: Vec<u64>,
}

/// The shortest encoding of the message that has this description.
pub fn write(
    source: &[u8],
    list: &[u64],
    fields: &[u64; FIELDS],
    out_len: usize,
) -> Result<Vec<u8>, u8> {
    let encoding = encode::encoding(source, list, fields).ok_or(NO_MESSAGE)?;
    fitting(encoding, out_len)
}

/// The message with the count, whose head stands from `at` to `end`, one lower.
pub fn lower(
    message: &[u8],
    at: usize,
    end: usize,
    count: u8,
    out_len: usize,
) -> Result<Vec<u8>, u8> {
    let lower = count.checked_sub(1).ok_or(NO_MESSAGE)?;
    if at > end || end > message.len() {
        return Err(NO_MESSAGE);
    }
    let copy = [&message[..at], &number(lower), &message[end..]].concat();
    fitting(copy, out_len)
}

/// The Response that an ANSWER sends (rules 9.8); an initiator has 4 or 16 bytes.
pub fn answer(
    session: u32,
    initiator: &[u8],
    ttl: u32,
    address: &[u8; 16],
    port: u16,
    out_len: usize,
) -> Result<Vec<u8>, u8> {
    if !matches!(initiator.len(), 4 | 16) {
        return Err(NO_MESSAGE);
    }
    let locator = array(&[number(V6), bytes(address), number(TCP), number(port)]);
    let start = [number(2_u8), number(session), bytes(initiator), number(ttl)];
    let response = array(&[&start[..], &[locator]].concat());
    fitting(response, out_len)
}

/// The message read, described and written again, or the refusal of one of these.
pub fn rewrite(message: &[u8], out_len: usize) -> Result<Vec<u8>, u8> {
    let description = describe(message)?;
    write(message, &description.list, &description.fields, out_len)
}

/// The description of the message that the bytes are, with places into them.
pub fn describe(message: &[u8]) -> Result<Description, u8> {
    let read = message::read(message)?;
    Ok(describe::description(message, &read))
}

/// The encoding, if a message may be so long and the output holds it.
fn fitting(encoding: Vec<u8>, out_len: usize) -> Result<Vec<u8>, u8> {
    match encoding.len() {
        length if length > MOST_BYTES => Err(NO_MESSAGE),
        length if length > out_len => Err(SHORT_OUTPUT),
        _ => Ok(encoding),
    }
}

#[cfg(test)]
mod tests;
