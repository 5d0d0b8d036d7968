//! Node calls, by the proved library and by the second program.

use std::hint::black_box;

use archive::{NUMBER_INTERFACES, TABLE_BYTES};
use second::message::MOST_BYTES;
use second::node::{self, Fresh, Given, Record, Verdict, NUMBERS, OF_A_ROW};
use second::vectors::in_bytes;
use second::vectors::node::ADDRESS;

use crate::foreign::Host;
use crate::measure::{calls, Calls};

/// The numbers of our record.
const PORT: u16 = 7_017;
const TTL: u32 = 60_000;
const INTERFACES: u64 = 3;
const LINKS: u64 = 7;

/// When each call comes, and on which interface; every row was admitted then.
const CLOCK: u64 = 1_000_000;
const ARRIVAL: u64 = 0;

/// Another own name than that of rules 12.5, as one CBOR array.
pub const EX2: &[u8] = b"\x81\x63EX2";

/// A call and what should come of it.
pub struct Case<'a> {
    pub message: &'a [u8],
    pub names: &'a [u8],
    /// How many rows of other messages live.
    pub rows: usize,
    pub verdict: Verdict,
}

impl Case<'_> {
    /// The same call by each of the two. A relay's row is freed again before the next call.
    pub fn programs(&self) -> Vec<Calls<'_>> {
        vec![calls(self.libgrasp()), calls(self.plain())]
    }

    fn libgrasp(&self) -> impl FnMut() -> bool + '_ {
        let mut host = host(&table(self.rows));
        let row = self.rows * OF_A_ROW * 8..(self.rows + 1) * OF_A_ROW * 8;
        if self.verdict == Verdict::Duplicate {
            let relayed = host.call(CLOCK, ARRIVAL, self.names, self.message);
            assert_eq!(relayed, Ok(Verdict::Relay.number()));
        }
        move || {
            if self.verdict == Verdict::Relay {
                host.table[row.clone()].fill(0);
            }
            host.call(CLOCK, ARRIVAL, self.names, self.message) == Ok(self.verdict.number())
        }
    }

    fn plain(&self) -> impl FnMut() -> bool + '_ {
        let mut numbers = table(self.rows);
        let row = self.rows * OF_A_ROW..(self.rows + 1) * OF_A_ROW;
        let mut record = record();
        let given = Given {
            clock: CLOCK,
            interface: ARRIVAL,
            names: self.names.to_vec(),
            message: self.message.to_vec(),
            out_len: MOST_BYTES,
        };
        if self.verdict == Verdict::Duplicate {
            let relayed = node::call(&mut record, &mut numbers, &given);
            assert_eq!(relayed.map(|answer| answer.verdict), Ok(Verdict::Relay));
        }
        move || {
            if self.verdict == Verdict::Relay {
                numbers[row.clone()].fill(0);
            }
            let answer = black_box(node::call(&mut record, &mut numbers, &given));
            answer.is_ok_and(|answer| answer.verdict == self.verdict)
        }
    }
}

/// Calls of the proved library that end early: refusal 12 without and with a table of the right
/// length, refusal 1, and a Noop, which goes all the way.
pub fn stages(rows: usize) -> Vec<Calls<'static>> {
    let stage = |table: bool, interfaces: u64, message: &'static [u8], wanted: Result<u8, u8>| {
        let mut host = host(&self::table(rows));
        host.numbers[NUMBER_INTERFACES] = interfaces;
        if !table {
            host.table.clear();
        }
        calls(move || host.call(CLOCK, ARRIVAL, EX2, message) == wanted)
    };
    vec![
        stage(false, 9, b"", Err(12)),
        stage(true, 9, b"", Err(12)),
        stage(true, INTERFACES, b"", Err(1)),
        stage(true, INTERFACES, b"\x81\x00", Ok(Verdict::Noop.number())),
    ]
}

/// The library's host with this table.
fn host(numbers: &[u64; NUMBERS]) -> Host {
    let table = in_bytes(numbers);
    assert_eq!(table.len(), TABLE_BYTES);
    Host {
        address: ADDRESS,
        numbers: [u64::from(PORT), u64::from(TTL), INTERFACES, LINKS, 0, 0],
        table,
        out: [0; MOST_BYTES],
    }
}

fn record() -> Record {
    let (record, refused) = Record::fresh(&Fresh {
        address: ADDRESS,
        port: PORT,
        ttl: TTL,
        count: INTERFACES,
        mask: LINKS,
    });
    assert_eq!(refused, 0);
    record
}

/// So many rows of Discoveries from 192.0.2.1, with sessions from 1,000 on.
fn table(rows: usize) -> [u64; NUMBERS] {
    let mut numbers = [0; NUMBERS];
    for (session, row) in (1_000..).zip(numbers.chunks_exact_mut(OF_A_ROW).take(rows)) {
        row.copy_from_slice(&[(1 << 32) + session, 0xC000_0201, 0, CLOCK]);
    }
    numbers
}
