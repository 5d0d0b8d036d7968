//! The histories that both are given.

use std::iter::repeat_with;

use archive::{NUMBER_CLOCK, NUMBER_FIELDS, TABLE_BYTES};
use second::node::{Fresh, Given};
use second::random::Random;
use second::vectors::damage::damaged;
use second::vectors::message::generated::{long_message, message};
use second::vectors::node::generated::{crowded, put, usual};
use second::vectors::node::{stories, Story};

use super::host::{MOST_TABLE, ROW_BYTES};
use super::{History, Step};

/// Numbers at the edges of what a record, an interface or a mask may be.
const EDGES: &[u64] = &[
    0,
    1,
    7,
    8,
    9,
    63,
    64,
    255,
    256,
    257,
    263,
    511,
    65_535,
    65_536,
    (1 << 32) - 1,
    1 << 32,
    (1 << 32) + 3,
    (1 << 63) - 7,
    1 << 63,
    (1 << 63) + 1,
    u64::MAX,
];

/// Lengths of lent tables, in bytes.
const LENGTHS: &[usize] = &[
    0,
    1,
    8,
    32,
    256,
    1_024,
    2_016,
    2_040,
    2_047,
    TABLE_BYTES,
    2_049,
    2_056,
    2_080,
    MOST_TABLE,
];

/// The lengths of outputs.
const OUTPUTS: &[usize] = &[0, 35, 2_047, 2_048, 2_049, 2_100, 4_096];

/// The stored stories, then generated histories without end.
pub fn histories(seed: u64) -> impl Iterator<Item = History> {
    let mut random = Random::new(seed);
    let stored = stories().into_iter().map(|story| told(&story));
    stored.chain(repeat_with(move || generated(&mut random)))
}

fn told(story: &Story) -> History {
    let steps = story.ops.iter().map(Step::of).collect();
    History { steps }
}

/// A history of a random sort: two in three have nothing put in the record or the table.
fn generated(random: &mut Random) -> History {
    let sort = random.below(12);
    let story = match sort {
        0..=5 | 8..=10 => usual(random, 70),
        6 | 7 => crowded(random, 220),
        _ => put(random, 70),
    };
    let mut history = told(&story);
    if sort < 8 && random.once_in(4) {
        set_last_clocks(random, &mut history);
    }
    for step in &mut history.steps {
        vary(random, step);
    }
    if sort < 8 {
        history
    } else {
        tampered(random, history)
    }
}

/// Moves all clocks so that the last ones that there are come near the end.
fn set_last_clocks(random: &mut Random, history: &mut History) {
    let clocks = history.steps.iter_mut().filter_map(|step| match step {
        Step::Call(given) => Some(&mut given.clock),
        _ => None,
    });
    let clocks: Vec<&mut u64> = clocks.collect();
    let last = clocks.iter().map(|clock| **clock).max().unwrap_or(0);
    let later = u64::MAX - last + random.below(20_000) as u64 % (last + 1);
    for clock in clocks {
        *clock = clock.saturating_add(later);
    }
}

/// Other arguments, at times.
fn vary(random: &mut Random, step: &mut Step) {
    match step {
        Step::Fresh(fresh) => vary_fresh(random, fresh),
        Step::Links(links) if random.once_in(3) => *links = wide(random, *links),
        Step::Call(given) => vary_call(random, given),
        _ => {}
    }
}

/// Another port and ttl, at times another address, and seldom other interfaces or links.
fn vary_fresh(random: &mut Random, fresh: &mut Fresh) {
    fresh.port = random.number() as u16;
    fresh.ttl = random.number() as u32;
    if random.once_in(6) {
        fresh.address = std::array::from_fn(|_| random.byte());
    }
    if random.once_in(60) {
        fresh.mask = wide(random, fresh.mask);
    }
    if random.once_in(60) {
        fresh.count = wide(random, fresh.count);
    }
}

fn vary_call(random: &mut Random, given: &mut Given) {
    match random.below(60) {
        0 => given.interface = wide(random, given.interface),
        1 => given.out_len = *random.pick(OUTPUTS),
        2 => {
            let length = random.below(12);
            given.names = random.bytes(length);
        }
        3 => given.names = named(random, &given.message),
        4..=8 => given.message = passed_on(random),
        9 => given.message = long_message(random),
        10 => given.message = damaged(random, &given.message),
        _ => {}
    }
}

/// A number of which low bits may be the same, or one at an edge.
fn wide(random: &mut Random, number: u64) -> u64 {
    match random.below(3) {
        0 => number.wrapping_add(1 << random.below(64)),
        1 => number.wrapping_add(256 * random.number()),
        _ => *random.pick(EDGES),
    }
}

/// Up to 17 names, each a piece of the message, so that one may be its objective's.
fn named(random: &mut Random, message: &[u8]) -> Vec<u8> {
    let mut names = vec![0x80 + random.below(18) as u8];
    for _ in 0..names[0] & 31 {
        let at = random.below(message.len() + 1);
        let piece = &message[at..message.len().min(at + random.below(5))];
        names.push(0x60 + piece.len() as u8);
        names.extend(piece);
    }
    names
}

/// A Discovery or Flood with all that it may hold.
fn passed_on(random: &mut Random) -> Vec<u8> {
    loop {
        let message = message(random, 3);
        if matches!(message[..2], [_, 1 | 9]) {
            return message;
        }
    }
}

/// The same with other numbers and bytes put before some calls, mostly mended after them.
fn tampered(random: &mut Random, history: History) -> History {
    let good = good_numbers(&history);
    let mut steps = Vec::new();
    for step in history.steps {
        let Step::Call(given) = step else {
            steps.push(step);
            continue;
        };
        let mut numbers = good;
        numbers[NUMBER_CLOCK] = given.clock.saturating_sub(random.below(2) as u64);
        let (before, after) = match random.below(4) {
            0 => tamper(random, numbers),
            _ => (vec![], vec![]),
        };
        steps.extend(before);
        steps.push(Step::Call(given));
        if !random.once_in(20) {
            steps.extend(after);
        }
    }
    History { steps }
}

/// The numbers of a good record with the history's interfaces.
fn good_numbers(history: &History) -> [u64; NUMBER_FIELDS] {
    let interfaces = match history.steps.first() {
        Some(Step::Fresh(fresh)) => fresh.count.clamp(1, 8),
        _ => 1,
    };
    [7_017, 60_000, interfaces, (1 << interfaces) - 1, 0, 5]
}

/// Something put, and what mends it; these numbers are a good record's.
fn tamper(random: &mut Random, numbers: [u64; NUMBER_FIELDS]) -> (Vec<Step>, Vec<Step>) {
    let address = [0x20; 16];
    let mended = vec![Step::Record(address, numbers)];
    let row = random.below(64);
    let free = vec![Step::row(row, &[0; 4])];
    let at = ROW_BYTES * row + random.below(ROW_BYTES);
    match random.below(8) {
        0 | 1 => {
            let field = random.below(NUMBER_FIELDS);
            let number = wide(random, numbers[field]);
            (vec![Step::Number(field, number)], mended)
        }
        2 => {
            let numbers = numbers.map(|number| match random.below(4) {
                0 => wide(random, number),
                _ => number,
            });
            (vec![Step::Record(address, numbers)], mended)
        }
        3 => (vec![Step::Flip(at, 1 << random.below(8))], free),
        4 => {
            let length = 1 + random.below(8).min(ROW_BYTES * (row + 1) - at - 1);
            (vec![Step::Bytes(at, random.bytes(length))], free)
        }
        5 | 6 => {
            let length = *random.pick(LENGTHS);
            (vec![Step::Length(length)], vec![Step::Length(TABLE_BYTES)])
        }
        _ => (vec![Step::Fresh(odd_fresh(random))], mended),
    }
}

fn odd_fresh(random: &mut Random) -> Fresh {
    let count = 1 + random.below(8) as u64;
    let mut fresh = Fresh {
        address: [0x20; 16],
        port: random.number() as u16,
        ttl: random.number() as u32,
        count,
        mask: random.bits() & ((1 << count) - 1),
    };
    if random.once_in(2) {
        fresh.count = wide(random, count);
    }
    if random.once_in(3) {
        fresh.mask = wide(random, fresh.mask);
    }
    fresh
}
