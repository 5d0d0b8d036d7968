//! Record and table of a story, and the number that stands for both in a line.

use crate::node::{call, Answer, Given, Record, NUMBERS};

/// The most numbers of a lent table: 80 rows.
pub const MOST_NUMBERS: usize = 320;

/// The digest: the greatest prime below 2^32, and a factor so small that nothing passes 2^64.
const PRIME: u64 = 4_294_967_291;
const FACTOR: u64 = 16_777_619;

/// The table is the first `length` of the numbers.
pub struct State {
    pub record: Record,
    pub length: usize,
    numbers: [u64; MOST_NUMBERS],
}

impl State {
    /// A fresh table and a record of zeros.
    pub fn new() -> State {
        State {
            record: Record::default(),
            length: NUMBERS,
            numbers: [0; MOST_NUMBERS],
        }
    }

    pub fn call(&mut self, given: &Given) -> Result<Answer, u8> {
        call(&mut self.record, &mut self.numbers[..self.length], given)
    }

    pub fn put_row(&mut self, row: usize, numbers: &[u64; 4]) {
        self.numbers[4 * row..][..4].copy_from_slice(numbers);
    }

    /// The address's bytes, then the halves of the record's and the table's numbers, each added
    /// to the factor times what stood before.
    pub fn digest(&self) -> u64 {
        let Record {
            address,
            port,
            ttl,
            count,
            mask,
            clock,
            tally,
        } = &self.record;
        let rest = [u64::from(*port), u64::from(*ttl), *count];
        let table = &self.numbers[..self.length];
        let wide = [&rest[..], &[*mask, *clock, *tally], table].concat();
        let halves = wide.iter().flat_map(|n| [n >> 32, n & 0xFFFF_FFFF]);
        let bytes = address.iter().map(|&byte| u64::from(byte));
        bytes
            .chain(halves)
            .fold(1, |digest, number| (digest * FACTOR + number) % PRIME)
    }
}
