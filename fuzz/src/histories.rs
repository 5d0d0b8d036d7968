//! Node histories that a fuzzer's bytes say.

use compare::node::{History, Step, MOST_TABLE, ROW_BYTES};
use second::message::MOST_BYTES;
use second::node::{Fresh, Given, ROWS};

use crate::input::Input;
use crate::messages::{message, names, ADDRESS};

/// The most steps of a history.
const MOST_STEPS: usize = 100;

/// The steps said so far, and the clock of the last call.
struct Teller {
    steps: Vec<Step>,
    clock: u64,
}

/// A fresh record, then calls and settings of links, and where it is said other numbers and bytes
/// put in the record and the table.
pub fn history(input: &mut Input, is_tampered: bool) -> History {
    let mut teller = Teller {
        steps: vec![Step::Fresh(fresh(input))],
        clock: 0,
    };
    while !input.is_empty() && teller.steps.len() < MOST_STEPS {
        match input.byte() % 32 {
            0..=15 => teller.call(input),
            16..=19 => teller.again(input),
            20 | 21 => teller.burst(input),
            22 | 23 => teller.steps.push(Step::Links(input.number())),
            sort if is_tampered => teller.tamper(input, sort),
            _ => teller.call(input),
        }
    }
    let steps = teller.steps;
    History { steps }
}

impl Teller {
    fn call(&mut self, input: &mut Input) {
        self.clock = clock(input, self.clock);
        let given = Given {
            clock: self.clock,
            interface: interface(input),
            names: names(input),
            message: message(input),
            out_len: output(input),
        };
        self.steps.push(Step::Call(given));
    }

    /// The last call once more, at another clock and by another interface.
    fn again(&mut self, input: &mut Input) {
        let last = self.steps.iter().rev().find_map(|step| match step {
            Step::Call(given) => Some(given.clone()),
            _ => None,
        });
        if let Some(mut given) = last {
            self.clock = clock(input, self.clock);
            given.clock = self.clock;
            given.interface = interface(input);
            self.steps.push(Step::Call(given));
        }
    }

    /// Up to 65 Discoveries of different sessions, which fill the table.
    fn burst(&mut self, input: &mut Input) {
        self.clock = clock(input, self.clock);
        let interface = interface(input);
        let first = input.byte();
        for many in 0..=input.below(65) as u8 {
            let mut message = b"\x84\x01\x18\x00\x44\xC0\x00\x02\x01\x83\x63EX3\x01\x06".to_vec();
            message[3] = 24 + first.wrapping_add(many) % 232;
            self.steps.push(Step::Call(Given {
                clock: self.clock,
                interface,
                names: vec![0x80],
                message,
                out_len: MOST_BYTES,
            }));
        }
    }

    /// Something put in the record or the table.
    fn tamper(&mut self, input: &mut Input, sort: u8) {
        self.steps.push(match sort {
            24 => Step::Fresh(fresh(input)),
            25 => Step::Record(ADDRESS, std::array::from_fn(|_| input.number())),
            26 => Step::Number(input.below(6), input.number()),
            27 => Step::row(input.below(ROWS), &self.row(input)),
            28 => Step::row(input.below(ROWS), &[0; 4]),
            29 => {
                let bytes = input.bytes();
                let most = MOST_TABLE - bytes.len() + 1;
                Step::Bytes(input.number() as usize % most, bytes.to_vec())
            }
            30 => {
                let row = ROW_BYTES * input.below(ROWS);
                Step::Flip(row + input.below(ROW_BYTES), input.byte())
            }
            _ => Step::Length(input.number() as usize % (MOST_TABLE + 1)),
        });
    }

    /// The numbers of a used row, mostly good ones.
    fn row(&self, input: &mut Input) -> [u64; 4] {
        let tag = u64::from(input.byte() % 6);
        let initiator = [input.number(), input.number()];
        let session = input.number();
        let admission = self.clock.wrapping_sub(input.number());
        let [high, low] = initiator;
        [(tag << 32).wrapping_add(session), high, low, admission]
    }
}

/// Mostly good interfaces and links.
fn fresh(input: &mut Input) -> Fresh {
    let sort = input.byte();
    let count = match sort {
        0..=239 => 1 + u64::from(sort % 8),
        _ => input.number(),
    };
    let mask = match sort {
        0..=119 => (1 << count) - 1,
        _ => input.number(),
    };
    Fresh {
        address: if sort % 16 == 15 { [0xFE; 16] } else { ADDRESS },
        port: input.number() as u16,
        ttl: input.number() as u32,
        count,
        mask,
    }
}

/// A clock that is so much later, or any other.
fn clock(input: &mut Input, before: u64) -> u64 {
    match input.byte() {
        0..=127 => before,
        128..=239 => before.saturating_add(input.number()),
        _ => input.number(),
    }
}

fn interface(input: &mut Input) -> u64 {
    match input.byte() {
        small @ 0..=239 => u64::from(small % 8),
        _ => input.number(),
    }
}

/// The length of an output, mostly a good one.
fn output(input: &mut Input) -> usize {
    match input.byte() {
        0..=239 => MOST_BYTES,
        sort => MOST_BYTES + 16 - 2 * usize::from(sort - 239),
    }
}
