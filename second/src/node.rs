//! The node (rules 6 to 9): the call on a record and a lent table, and the setting of links.

mod names;
mod record;
mod table;
mod verdict;

use crate::message::{self, Message, MOST_BYTES};
use crate::writer;

pub use record::{Fresh, Record};
pub use table::{Key, Row, Table, DISCOVERY_LIFE, FLOOD_LIFE, NUMBERS, OF_A_ROW, ROWS};
pub use verdict::Verdict;
use verdict::{Passing, Place};

/// Refusal 12 (rules 6.2): a bad record.
pub const BAD_RECORD: u8 = 12;
/// Refusal 13 (rules 8.3, 6.6): an arriving interface that is not there or down, or a new mask with
/// a bit too high.
pub const BAD_LINK: u8 = 13;
/// Refusal 14 (rules 8.3): a clock earlier than the record's.
pub const EARLY: u8 = 14;
/// Refusal 15 (rules 7.7): a table that is not 256 numbers long, or a bad row.
pub const BAD_TABLE: u8 = 15;
/// Refusal 16 (rules 8.4): bad own names.
pub const BAD_NAMES: u8 = 16;
/// Refusal 17 (rules 8.3): an output shorter than 2,048 bytes.
pub const SHORT_OUTPUT: u8 = 17;

/// What a node call is given beside the record and the table.
#[derive(Clone, Debug, PartialEq, Eq)]
pub struct Given {
    pub clock: u64,
    pub interface: u64,
    pub names: Vec<u8>,
    pub message: Vec<u8>,
    pub out_len: usize,
}

/// What a call that is not refused answers; `output` holds the bytes it writes.
#[derive(Clone, Debug, PartialEq, Eq)]
pub struct Answer {
    pub verdict: Verdict,
    pub mask: u64,
    pub handed_up: bool,
    pub output: Vec<u8>,
}

/// Answers the message, or gives the number of the refusal and changes nothing.
pub fn call(record: &mut Record, numbers: &mut [u64], given: &Given) -> Result<Answer, u8> {
    record.judge()?;
    if !record.is_up(given.interface) {
        return Err(BAD_LINK);
    }
    if given.clock < record.clock {
        return Err(EARLY);
    }
    let mut table = Table::read(numbers, given.clock).ok_or(BAD_TABLE)?;
    let names = names::own(&given.names).ok_or(BAD_NAMES)?;
    if given.out_len < MOST_BYTES {
        return Err(SHORT_OUTPUT);
    }
    let message = message::read(&given.message)?;
    table.free_dead(given.clock);
    record.clock = given.clock;
    let answer = answer(record, &mut table, &names, given, &message);
    numbers.copy_from_slice(&table.numbers());
    Ok(answer)
}

/// The first verdict that applies, and what it does.
fn answer(
    record: &mut Record,
    table: &mut Table,
    names: &[&[u8]],
    given: &Given,
    message: &Message,
) -> Answer {
    let place = Place {
        address: &record.address,
        names,
        table,
        onward: record.mask & !(1 << given.interface),
    };
    let passing = Passing::of(message, &given.message);
    let verdict = match &passing {
        Some(passing) => place.verdict(passing),
        None if *message == Message::Noop => Verdict::Noop,
        None => Verdict::Hand,
    };
    let onward = place.onward;
    let (mask, output) = match (verdict, passing) {
        (Verdict::Relay, Some(passing)) => {
            table.fill(passing.key.clone(), given.clock);
            record.tally += u64::from(onward.count_ones());
            (onward, relay(&passing, given))
        }
        (Verdict::Answer, Some(passing)) => (1 << given.interface, respond(record, &passing)),
        _ => (0, vec![]),
    };
    Answer {
        verdict,
        mask,
        handed_up: verdict.is_handed_up(message),
        output,
    }
}

/// The message with the count that matters one lower.
fn relay(passing: &Passing, given: &Given) -> Vec<u8> {
    let (at, end) = (passing.count_head.at, passing.count_head.end());
    writer::lower(&given.message, at, end, passing.count, given.out_len)
        .expect("a relay is no longer than its message")
}

/// The Response with our own locator.
fn respond(record: &Record, passing: &Passing) -> Vec<u8> {
    writer::answer(
        passing.key.session,
        &passing.key.initiator,
        record.ttl,
        &record.address,
        record.port,
        MOST_BYTES,
    )
    .expect("an answer is short")
}

#[cfg(test)]
mod tests;
