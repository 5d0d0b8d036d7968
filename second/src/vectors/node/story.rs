//! What a story is made of, how it is stored and what comes of it.

use super::super::{counted, hex, in_bytes};
use super::state::{State, MOST_NUMBERS};
use crate::history::{Called, History};
use crate::message::MOST_BYTES;
use crate::node::{Answer, Fresh, Given, Record};

/// The most bytes of an output.
const MOST_OUTPUT: usize = 2_100;

/// The address of rules 12.5.
pub const ADDRESS: [u8; 16] = *b"\x20\x01\x0D\xB8\0\0\0\0\0\0\0\0\0\0\0\x01";

/// No own names, and the one of rules 12.5.
pub const NO_NAMES: &[u8] = b"\x80";
pub const EX1: &[u8] = b"\x81\x63EX1";

/// A step of a story; the last three are no calls and put numbers where they are told.
#[derive(Clone)]
pub enum Op {
    Fresh(Fresh),
    Call(Given),
    Links(u64),
    Record(Record),
    Row(u8, [u64; 4]),
    Length(u16),
}

/// A fresh record and what happens to it and a fresh table.
#[derive(Clone)]
pub struct Story {
    pub ops: Vec<Op>,
}

/// What comes of a story; demand 3 speaks of those with nothing put and the record not refused.
pub struct Ran {
    pub lines: Vec<u8>,
    pub history: Option<History>,
}

/// A call of a node without names.
pub fn given(clock: u64, interface: u64, message: &[u8]) -> Given {
    Given {
        clock,
        interface,
        names: NO_NAMES.to_vec(),
        message: message.to_vec(),
        out_len: MOST_BYTES,
    }
}

impl Story {
    /// With the address, port and ttl of rules 12.5.
    pub fn fresh(count: u64, mask: u64) -> Story {
        Story::at(ADDRESS, 7_017, 60_000, count, mask)
    }

    pub fn at(address: [u8; 16], port: u16, ttl: u32, count: u64, mask: u64) -> Story {
        let fresh = Fresh {
            address,
            port,
            ttl,
            count,
            mask,
        };
        let ops = vec![Op::Fresh(fresh)];
        Story { ops }
    }

    /// A call of the node without names.
    pub fn call(&mut self, clock: u64, interface: u64, message: &[u8]) {
        self.ops.push(Op::Call(given(clock, interface, message)));
    }

    /// The same with own names.
    pub fn named(&mut self, clock: u64, interface: u64, names: &[u8], message: &[u8]) {
        let mut given = given(clock, interface, message);
        given.names = names.to_vec();
        self.ops.push(Op::Call(given));
    }

    pub fn links(&mut self, mask: u64) {
        self.ops.push(Op::Links(mask));
    }

    pub fn row(&mut self, row: usize, numbers: [u64; 4]) {
        self.ops.push(Op::Row(row as u8, numbers));
    }

    pub fn stored(&self) -> Vec<u8> {
        self.ops.iter().flat_map(Op::stored).collect()
    }

    /// What the program must print, and the history for demand 3.
    pub fn run(&self) -> Ran {
        let mut state = State::new();
        let (mut lines, mut calls) = (String::new(), Vec::new());
        for op in &self.ops {
            let (line, called) = op.run(&mut state);
            lines.push_str(&line);
            calls.extend(called);
        }
        let puts = |op: &Op| matches!(op, Op::Record(_) | Op::Row(..) | Op::Length(_));
        let speaks = !self.ops.iter().any(puts) && state.record.count > 0;
        let history = speaks.then_some(History {
            interfaces: state.record.count,
            calls,
            tally: state.record.tally,
        });
        let lines = lines.into_bytes();
        Ran { lines, history }
    }
}

impl Op {
    /// Its number and what it takes.
    fn stored(&self) -> Vec<u8> {
        match self {
            Op::Fresh(fresh) => {
                let rest = [fresh.count, fresh.mask];
                let asked = record(&fresh.address, fresh.port, fresh.ttl, &rest);
                [vec![1], asked].concat()
            }
            Op::Call(given) => {
                let start = in_bytes(&[given.clock, given.interface]);
                let contents = [counted(&given.names), counted(&given.message)];
                assert!(given.out_len <= MOST_OUTPUT);
                let out_len = (given.out_len as u16).to_be_bytes().to_vec();
                [vec![2], start, contents.concat(), out_len].concat()
            }
            Op::Links(mask) => [vec![3], in_bytes(&[*mask])].concat(),
            Op::Record(other) => {
                let start = record(&other.address, other.port, other.ttl, &[]);
                let narrow = vec![byte(other.count), byte(other.mask)];
                let rest = in_bytes(&[other.clock, other.tally]);
                [vec![4], start, narrow, rest].concat()
            }
            Op::Row(row, said) => {
                assert!(4 * usize::from(*row) < MOST_NUMBERS);
                [vec![5, *row], in_bytes(said)].concat()
            }
            Op::Length(length) => {
                assert!(usize::from(*length) <= MOST_NUMBERS);
                [&[6][..], &length.to_be_bytes()].concat()
            }
        }
    }

    /// Its line, if it is a call, and the node call for demand 3.
    fn run(&self, state: &mut State) -> (String, Option<Called>) {
        match self {
            Op::Fresh(fresh) => {
                let (record, number) = Record::fresh(fresh);
                *state = State::new();
                state.record = record;
                let answer = if number == 0 { Ok(()) } else { Err(number) };
                (done(answer, state), None)
            }
            Op::Call(given) => {
                let answer = state.call(given);
                let line = answered(&answer, state);
                let given = given.clone();
                (line, Some(Called { given, answer }))
            }
            Op::Links(mask) => (done(state.record.set_links(*mask), state), None),
            _ => {
                self.put(state);
                (String::new(), None)
            }
        }
    }

    fn put(&self, state: &mut State) {
        match self {
            Op::Record(record) => state.record = record.clone(),
            Op::Row(row, numbers) => state.put_row(usize::from(*row), numbers),
            Op::Length(length) => state.length = usize::from(*length),
            _ => {}
        }
    }
}

/// The line of a fresh record and of a setting of links.
fn done(answer: Result<(), u8>, state: &State) -> String {
    let answer = match answer {
        Ok(()) => String::from("done"),
        Err(number) => format!("refused {number}"),
    };
    format!("{answer} {} {}\n", state.record.tally, state.digest())
}

/// The line of a node call; the last number counts other bytes of the output that have changed.
fn answered(answer: &Result<Answer, u8>, state: &State) -> String {
    let (tally, digest) = (state.record.tally, state.digest());
    match answer {
        Ok(answer) => {
            let (verdict, mask) = (answer.verdict.number(), answer.mask);
            let (up, written) = (u8::from(answer.handed_up), hex(&answer.output));
            format!("verdict {verdict} {mask} {up} {tally} {digest} 0 {written}\n")
        }
        Err(number) => format!("refused {number} {tally} {digest} 0\n"),
    }
}

/// A record's address, port and ttl, then its other numbers.
fn record(address: &[u8; 16], port: u16, ttl: u32, rest: &[u64]) -> Vec<u8> {
    let start = [&address[..], &port.to_be_bytes(), &ttl.to_be_bytes()];
    [start.concat(), in_bytes(rest)].concat()
}

/// The count or the mask of a record that is put: the program's type holds no greater one.
fn byte(number: u64) -> u8 {
    u8::try_from(number).expect("one byte")
}
