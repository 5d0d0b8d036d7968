//! What happens in a history.

use std::fmt::{self, Display, Formatter};

use archive::{ANSWER_FIELDS, NUMBER_FIELDS, TABLE_BYTES};
use second::node::{Fresh, Given, Record};
use second::vectors::node::Op;
use second::vectors::{hex, in_bytes};

use super::host::{MOST_TABLE, ROW_BYTES};
use super::{Host, Node};
use crate::guarded::Guarded;

/// One of the three calls, or something that is done to the memory between them.
#[derive(Clone)]
pub enum Step {
    /// On a fresh table too.
    Fresh(Fresh),
    Links(u64),
    Call(Given),
    /// Another address and other numbers in the record's place.
    Record([u8; 16], [u64; NUMBER_FIELDS]),
    /// Another number in the place of one of the record's.
    Number(usize, u64),
    /// Other bytes in the table.
    Bytes(usize, Vec<u8>),
    /// A byte of the table with these bits changed.
    Flip(usize, u8),
    /// Another length of the lent table, in bytes.
    Length(usize),
}

/// The numbers of a record as C has them.
pub fn numbers_of(record: &Record) -> [u64; NUMBER_FIELDS] {
    [
        u64::from(record.port),
        u64::from(record.ttl),
        record.count,
        record.mask,
        record.clock,
        record.tally,
    ]
}

impl Step {
    /// The same as the step of a story.
    pub fn of(op: &Op) -> Step {
        match op {
            Op::Fresh(fresh) => Step::Fresh(*fresh),
            Op::Call(given) => Step::Call(given.clone()),
            Op::Links(mask) => Step::Links(*mask),
            Op::Record(record) => Step::Record(record.address, numbers_of(record)),
            Op::Row(row, numbers) => Step::row(usize::from(*row), numbers),
            Op::Length(length) => Step::Length(8 * usize::from(*length)),
        }
    }

    /// Other numbers in a row.
    pub fn row(row: usize, numbers: &[u64; 4]) -> Step {
        Step::Bytes(ROW_BYTES * row, in_bytes(numbers))
    }

    /// Does it with the functions of this node.
    pub fn take<N: Node>(&self, host: &mut Host) {
        host.returned = 0;
        match self {
            Step::Fresh(fresh) => {
                host.address = fresh.address;
                host.table.put(&[0; MOST_TABLE]);
                host.length = TABLE_BYTES;
                host.returned = N::fresh(host, fresh);
            }
            Step::Links(links) => host.returned = N::set_links(host, *links),
            Step::Call(given) => {
                host.out = Guarded::bytes(given.out_len);
                host.answer = Guarded::numbers(ANSWER_FIELDS);
                host.returned = N::call(host, given);
            }
            Step::Record(address, numbers) => {
                host.address = *address;
                host.numbers.put(numbers);
            }
            Step::Number(field, number) => host.numbers.content_mut()[*field] = *number,
            Step::Bytes(at, bytes) => {
                host.table.content_mut()[*at..][..bytes.len()].copy_from_slice(bytes);
            }
            Step::Flip(at, bits) => host.table.content_mut()[*at] ^= bits,
            Step::Length(length) => host.length = *length,
        }
    }
}

impl Display for Step {
    fn fmt(&self, out: &mut Formatter) -> fmt::Result {
        match self {
            Step::Fresh(fresh) => {
                write!(out, "grasp_fresh, table of zeros: {}", hex(&fresh.address))?;
                write!(out, " port {:x} ttl {:x}", fresh.port, fresh.ttl)?;
                write!(out, " interfaces {:x}", fresh.count)?;
                write!(out, " links {:x}", fresh.mask)
            }
            Step::Links(links) => write!(out, "grasp_set_links: {links:x}"),
            Step::Call(given) => {
                write!(out, "grasp_node_call: clock {:x}", given.clock)?;
                write!(out, " interface {:x}", given.interface)?;
                write!(out, " names [{}]", hex(&given.names))?;
                write!(out, " message [{}]", hex(&given.message))?;
                write!(out, " output of {:x}", given.out_len)
            }
            Step::Record(address, numbers) => {
                write!(out, "record put: {} {numbers:x?}", hex(address))
            }
            Step::Number(field, number) => write!(out, "record's number {field} put: {number:x}"),
            Step::Bytes(at, bytes) => write!(out, "table put from {at:x} on: {}", hex(bytes)),
            Step::Flip(at, bits) => write!(out, "table's byte {at:x} changed by: {bits:x}"),
            Step::Length(length) => write!(out, "table's length put: {length:x}"),
        }
    }
}
