//! Descriptions to build cases from.

use super::super::message::term::Term;
use super::super::{counted, in_bytes};
use super::{output, Case, Outcome, MOST_LISTED, MOST_OUTPUT};
use crate::block::layout::*;
use crate::random::Random;
use crate::writer::{describe, write};

/// What the writer is given.
#[derive(Clone)]
pub struct Draft {
    pub source: Vec<u8>,
    pub list: Vec<u64>,
    pub fields: [u64; FIELDS],
    pub out_len: usize,
}

/// Where a number of a description stands; that of a span is its place's.
#[derive(Clone, Copy, PartialEq, Eq)]
pub enum Slot {
    Field(usize),
    Listed(usize),
}

impl Slot {
    /// So many numbers further on.
    pub fn after(self, numbers: usize) -> Slot {
        match self {
            Slot::Field(field) => Slot::Field(field + numbers),
            Slot::Listed(number) => Slot::Listed(number + numbers),
        }
    }
}

impl Draft {
    /// The description of an accepted message, with its bytes as the source.
    pub fn of(message: &[u8]) -> Draft {
        let said = describe(message).expect("a message");
        Draft {
            source: message.to_vec(),
            list: said.list,
            fields: said.fields,
            out_len: 0,
        }
    }

    pub fn said(message: &Term) -> Draft {
        Draft::of(&message.encoded())
    }

    /// What must come of writing it.
    pub fn outcome(&self) -> Outcome {
        write(&self.source, &self.list, &self.fields, self.out_len)
    }

    /// Its encoding, whatever the output.
    pub fn encoding(&self) -> Outcome {
        write(&self.source, &self.list, &self.fields, usize::MAX)
    }

    pub fn get(&self, slot: Slot) -> u64 {
        match slot {
            Slot::Field(field) => self.fields[field],
            Slot::Listed(number) => self.list[number],
        }
    }

    pub fn set(&mut self, slot: Slot, number: u64) {
        match slot {
            Slot::Field(field) => self.fields[field] = number,
            Slot::Listed(place) => self.list[place] = number,
        }
    }

    /// The same with another number.
    pub fn with(&self, slot: Slot, number: u64) -> Draft {
        let mut other = self.clone();
        other.set(slot, number);
        other
    }

    /// The same with another span.
    pub fn spanning(&self, slot: Slot, at: u64, length: u64) -> Draft {
        self.with(slot, at).with(slot.after(1), length)
    }

    /// The same with this content in a span; it stands at the source's end.
    pub fn holding(&self, slot: Slot, content: &[u8]) -> Draft {
        let mut other = self.spanning(slot, self.source.len() as u64, content.len() as u64);
        other.source.extend(content);
        other
    }

    /// The bytes of a span that lies in the source.
    pub fn content(&self, slot: Slot) -> &[u8] {
        let (at, length) = (self.get(slot), self.get(slot.after(1)));
        &self.source[at as usize..][..length as usize]
    }

    /// Every number.
    pub fn slots(&self) -> Vec<Slot> {
        let listed = (0..self.list.len()).map(Slot::Listed);
        (0..FIELDS).map(Slot::Field).chain(listed).collect()
    }

    /// The numbers of a row, or none of a message without rows.
    pub fn width(&self) -> usize {
        match self.fields[LIST] {
            PAIRS => PAIR_FIELDS,
            LOCATORS | DIVERTED => LOCATOR_FIELDS,
            _ => 0,
        }
    }

    /// Where each whole row begins.
    pub fn rows(&self) -> Vec<Slot> {
        let width = self.width();
        let many = self.list.len().checked_div(width).unwrap_or(0);
        (0..many).map(|row| Slot::Listed(row * width)).collect()
    }

    /// Where each locator begins.
    pub fn locators(&self) -> Vec<Slot> {
        let before = match self.fields[LIST] {
            PAIRS => PAIR_LOCATOR,
            _ => 0,
        };
        let all = self.rows().into_iter().map(|row| row.after(before));
        all.filter(|&locator| self.get(locator) != 0).collect()
    }

    /// Where each objective begins.
    pub fn objectives(&self) -> Vec<Slot> {
        match (self.fields[LIST], self.fields[HAS_OBJECTIVE]) {
            (PAIRS, _) => self.rows(),
            (_, 0) => vec![],
            _ => vec![Slot::Field(OBJECTIVE)],
        }
    }

    /// Where Invalid's item or an objective's value may be said.
    pub fn items(&self) -> Vec<Slot> {
        let values = self.objectives().into_iter().map(|slot| slot.after(VALUE));
        let invalid = (self.fields[KIND] == 99).then_some(Slot::Field(ITEM));
        values.chain(invalid).collect()
    }

    /// Where texts are said.
    pub fn texts(&self) -> Vec<Slot> {
        let names = self.objectives().into_iter().map(|slot| slot.after(NAME));
        let located = self.locators().into_iter();
        let located = located.filter(|&locator| self.get(locator) > 104);
        let located = located.map(|locator| locator.after(LOCATOR_SPAN));
        let reason = (self.fields[OUTCOME] == DECLINED_WITH_REASON).then_some(Slot::Field(ITEM));
        names.chain(located).chain(reason).collect()
    }

    /// Where addresses are said, the initiator's too.
    pub fn addresses(&self) -> Vec<Slot> {
        let initiator = (self.fields[INITIATOR + 1] != 0).then_some(Slot::Field(INITIATOR));
        let located = self.locators().into_iter();
        let located = located.filter(|&locator| self.get(locator) < 105);
        let located = located.map(|locator| locator.after(LOCATOR_SPAN));
        initiator.into_iter().chain(located).collect()
    }

    /// All spans.
    pub fn spans(&self) -> Vec<Slot> {
        [self.addresses(), self.texts(), self.items()].concat()
    }

    /// The same with the contents at other places, in a source with gaps.
    pub fn scattered(&self, random: &mut Random) -> Draft {
        let mut other = self.clone();
        let mut spans = self.spans();
        let gap = random.below(4);
        other.source = random.bytes(gap);
        while !spans.is_empty() {
            let slot = spans.swap_remove(random.below(spans.len()));
            let content = self.content(slot);
            let mut at = random.below(other.source.len() + 1);
            if !content.is_empty() {
                at = other.source.len();
                other.source.extend(content);
                let gap = random.below(3);
                other.source.extend(random.bytes(gap));
            }
            other.set(slot, at as u64);
        }
        other
    }

    /// A case whose output has room for the encoding, or for more than the source.
    pub fn roomy(mut self) -> Case {
        self.out_len = match self.encoding() {
            Ok(encoding) => encoding.len() + encoding.len() % 3,
            Err(_) => self.source.len() + 9,
        };
        self.out_len = self.out_len.min(MOST_OUTPUT);
        Case::Write(self)
    }

    /// A case whose output has this length.
    pub fn within(mut self, out_len: usize) -> Case {
        self.out_len = out_len;
        Case::Write(self)
    }

    /// Two cases: with room, and with an output that is too short for any message.
    pub fn roomy_and_short(self) -> [Case; 2] {
        let short = self.source.len() % 2;
        [self.clone().roomy(), self.within(short)]
    }

    /// The fields, the list, the source and the output's length.
    pub(super) fn stored(&self) -> Vec<u8> {
        assert!(self.list.len() <= MOST_LISTED);
        let fields = in_bytes(&self.fields);
        let many = (self.list.len() as u16).to_be_bytes().to_vec();
        let source = counted(&self.source);
        [
            fields,
            many,
            in_bytes(&self.list),
            source,
            output(self.out_len),
        ]
        .concat()
    }
}
