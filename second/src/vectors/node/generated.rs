//! Random stories with few sessions and initiators, so that repeats and full tables are met.

use super::super::damage;
use super::super::message::generated::{message, near_message};
use super::draft::Draft;
use super::story::{given, Op, Story, ADDRESS, EX1, NO_NAMES};
use crate::node::{Given, Record};
use crate::random::Random;

/// How many stories of each sort are stored.
const USUAL: usize = 16;
const CROWDED: usize = 4;
const PUT: usize = 24;

pub fn stories() -> Vec<Story> {
    let mut random = Random::new(31);
    let mut stories = Vec::new();
    stories.extend((0..USUAL).map(|_| usual(&mut random, 70)));
    stories.extend((0..CROWDED).map(|_| crowded(&mut random, 220)));
    stories.extend((0..PUT).map(|_| put(&mut random, 16)));
    stories
}

/// How a random story goes: numbers of interfaces and of sessions, and how far the clock goes on
/// between calls.
struct Sort {
    counts: &'static [u64],
    sessions: usize,
    steps: &'static [u64],
}

/// Few sessions and long steps: repeats, and rows that die.
const FEW: Sort = Sort {
    counts: &[1, 2, 3, 3, 4, 5, 8],
    sessions: 2,
    steps: &[
        0, 0, 0, 0, 0, 0, 1, 1, 1, 10, 10, 500, 1_000, 9_000, 20_000, 59_999, 60_000, 60_001,
        119_999, 120_000,
    ],
};

/// Many sessions and short steps: full tables.
const MANY: Sort = Sort {
    counts: &[3, 4, 8],
    sessions: 90,
    steps: &[0, 0, 1, 10, 100, 300, 300, 2_000],
};

/// A story as it is made up.
struct Teller<'a> {
    random: &'a mut Random,
    story: Story,
    count: u64,
    mask: u64,
    clock: u64,
    sort: Sort,
}

pub fn usual(random: &mut Random, calls: usize) -> Story {
    told(random, calls, FEW)
}

pub fn crowded(random: &mut Random, calls: usize) -> Story {
    told(random, calls, MANY)
}

fn told(random: &mut Random, calls: usize, sort: Sort) -> Story {
    let mut teller = teller(random, sort);
    for _ in 0..calls {
        teller.tell();
    }
    teller.story
}

/// A story whose record and rows are random too.
pub fn put(random: &mut Random, calls: usize) -> Story {
    let mut teller = teller(random, FEW);
    teller.clock = 300_000;
    for _ in 0..calls {
        match teller.random.below(4) {
            0 => teller.put_record(),
            1 => teller.put_row(),
            _ => teller.tell(),
        }
    }
    teller.story
}

fn teller(random: &mut Random, sort: Sort) -> Teller<'_> {
    let count = *random.pick(sort.counts);
    let all = (1 << count) - 1;
    let mask = if random.once_in(4) {
        random.bits() & all
    } else {
        all
    };
    let clock = *random.pick(&[0, 0, 1, 1_000_000, 1 << 40]);
    Teller {
        story: Story::fresh(count, mask),
        random,
        count,
        mask,
        clock,
        sort,
    }
}

impl Teller<'_> {
    /// A call, or seldom a setting of links.
    fn tell(&mut self) {
        if self.random.once_in(12) {
            self.set_links();
        } else {
            let given = self.given();
            self.story.ops.push(Op::Call(given));
        }
    }

    /// All links, or any, or seldom one too many.
    fn set_links(&mut self) {
        let all = (1 << self.count) - 1;
        let mask = match self.random.below(8) {
            0 => self.random.bits() & all | (all + 1),
            1..=3 => self.random.bits() & all,
            _ => all,
        };
        self.story.links(mask);
        if mask <= all {
            self.mask = mask;
        }
    }

    /// Mostly an interface that is up.
    fn interface(&mut self) -> u64 {
        let up: Vec<u64> = (0..8).filter(|bit| self.mask >> bit & 1 == 1).collect();
        if up.is_empty() || self.random.once_in(15) {
            return self.random.below(self.count as usize + 1) as u64;
        }
        *self.random.pick(&up)
    }

    fn given(&mut self) -> Given {
        self.clock += *self.random.pick(self.sort.steps);
        let back = if self.random.once_in(20) {
            1 + self.random.below(70_000) as u64
        } else {
            0
        };
        let clock = self.clock.saturating_sub(back);
        let interface = self.interface();
        let names = self.names();
        let message = self.message();
        let out_len = if self.random.once_in(40) {
            2_047
        } else {
            2_048
        };
        Given {
            names,
            out_len,
            ..given(clock, interface, &message)
        }
    }

    /// None, that of rules 12.5, another, and seldom damaged ones.
    fn names(&mut self) -> Vec<u8> {
        let names = *self
            .random
            .pick(&[NO_NAMES, NO_NAMES, EX1, b"\x82\x61a\x63EX2"]);
        if self.random.once_in(25) {
            return damage::damaged(self.random, names);
        }
        names.to_vec()
    }

    /// Mostly a Discovery or Flood; others of any kind, and damaged ones.
    fn message(&mut self) -> Vec<u8> {
        let draft = self.draft().bytes();
        match self.random.below(24) {
            0 => message(self.random, 1),
            1 => near_message(self.random),
            2 => damage::damaged(self.random, &draft),
            3 => b"\x81\x00".to_vec(),
            _ => draft,
        }
    }

    fn draft(&mut self) -> Draft {
        let [discovery, flood] = Draft::both();
        let mut draft = if self.random.once_in(2) {
            discovery
        } else {
            flood
        };
        let mut long = [0; 16];
        long[..4].copy_from_slice(&draft.initiator);
        let others: [&[u8]; 3] = [&[192, 0, 2, 2], &long, &ADDRESS];
        draft.initiator = match self.random.below(9) {
            0..=2 => self.random.pick(&others).to_vec(),
            3..=5 => long.to_vec(),
            _ => draft.initiator,
        };
        draft.session = self.random.below(self.sort.sessions) as u32;
        draft.count = *self.random.pick(&[0, 1, 2, 2, 3, 6, 6, 24, 25, 255]);
        draft.name = self
            .random
            .pick(&[&b"EX1"[..], b"EX2", b"EX3", b"EX3"])
            .to_vec();
        if self.random.once_in(6) {
            draft.others = vec![self.random.byte(); 1 + self.random.below(2)];
        }
        draft
    }

    /// A record that is mostly good.
    fn put_record(&mut self) {
        let all = (1 << self.count) - 1;
        let tallies = [0, 5, (1 << 63) - 3, 1 << 63, (1 << 63) + 1];
        let record = Record {
            address: ADDRESS,
            port: self.random.number() as u16,
            ttl: self.random.number() as u32,
            count: self.count + u64::from(self.random.once_in(12)) * 8,
            mask: if self.random.once_in(12) {
                (all + 1).min(255)
            } else {
                all
            },
            clock: self.clock - self.random.below(2) as u64,
            tally: *self.random.pick(&tallies),
        };
        self.story.ops.push(Op::Record(record));
    }

    /// A row that is mostly good.
    fn put_row(&mut self) {
        let row = self.random.below(64);
        let age = *self.random.pick(&[0, 1, 59_999, 60_000, 119_999, 120_000]);
        let mut numbers = self.draft().row(self.clock - age);
        if self.random.once_in(10) {
            numbers[self.random.below(4)] ^= 1 << self.random.below(64);
        }
        self.story.row(row, numbers);
        if self.random.once_in(2) {
            let given = self.given();
            self.story.ops.push(Op::Call(given));
            self.story.row(row, [0; 4]);
        }
    }
}
