//! What the second program's node does, said as include/grasp.h says it.

use archive::TABLE_BYTES;
use second::cbor::big_endian;
use second::node::{self, Fresh, Given, Record, BAD_RECORD};
use second::vectors::in_bytes;

use super::step::numbers_of;
use super::{Host, Node};

/// The second program.
pub struct Second;

impl Node for Second {
    fn fresh(host: &mut Host, fresh: &Fresh) -> u8 {
        let (record, number) = Record::fresh(fresh);
        if number == 0 {
            host.numbers.put(&numbers_of(&record));
        }
        number
    }

    fn set_links(host: &mut Host, links: u64) -> u8 {
        let Some(mut record) = record(host) else {
            return BAD_RECORD;
        };
        match record.set_links(links) {
            Ok(()) => {
                host.numbers.put(&numbers_of(&record));
                0
            }
            Err(number) => number,
        }
    }

    fn call(host: &mut Host, given: &Given) -> u8 {
        let Some(mut record) = record(host) else {
            return BAD_RECORD;
        };
        let mut table = table(host);
        match node::call(&mut record, &mut table, given) {
            Ok(answer) => {
                host.numbers.put(&numbers_of(&record));
                host.table.put(&in_bytes(&table));
                host.out.put(&answer.output);
                host.answer.put(&[
                    u64::from(answer.verdict.number()),
                    u64::from(answer.handed_up),
                    answer.mask,
                    answer.output.len() as u64,
                ]);
                0
            }
            Err(number) => number,
        }
    }
}

/// The record that the numbers say; a port or ttl that is too wide is in none.
fn record(host: &Host) -> Option<Record> {
    let &[port, ttl, count, mask, clock, tally] = host.numbers.content() else {
        return None;
    };
    Some(Record {
        address: host.address,
        port: u16::try_from(port).ok()?,
        ttl: u32::try_from(ttl).ok()?,
        count,
        mask,
        clock,
        tally,
    })
}

/// The numbers of the lent table; one of another length has none.
fn table(host: &Host) -> Vec<u64> {
    if host.length != TABLE_BYTES {
        return vec![];
    }
    let bytes = &host.table.content()[..TABLE_BYTES];
    bytes.chunks_exact(8).map(big_endian).collect()
}
