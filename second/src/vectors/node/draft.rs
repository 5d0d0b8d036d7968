//! Discoveries, Floods and rows to build stories from.

use super::super::message::parts::{array, nowhere, number, pair, text};
use super::super::message::term::Term;
use crate::node::{Key, Row};

/// A Discovery or Flood; `others` are the counts of a Flood's further objectives.
#[derive(Clone)]
pub struct Draft {
    pub is_flood: bool,
    pub session: u32,
    pub initiator: Vec<u8>,
    pub name: Vec<u8>,
    pub count: u8,
    pub others: Vec<u8>,
}

impl Draft {
    /// The Discovery of rules 12.2.
    pub fn discovery() -> Draft {
        Draft {
            is_flood: false,
            session: 7,
            initiator: vec![192, 0, 2, 1],
            name: b"EX1".to_vec(),
            count: 2,
            others: vec![],
        }
    }

    /// The Flood of rules 12.6.
    pub fn flood() -> Draft {
        Draft {
            is_flood: true,
            ..Draft::discovery()
        }
    }

    /// Both.
    pub fn both() -> [Draft; 2] {
        [Draft::discovery(), Draft::flood()]
    }

    /// Discovery and Flood with an initiator of 4 bytes and of 16, in the order of their tags.
    pub fn four() -> [Draft; 4] {
        let long = |draft: Draft| draft.from(&[0xC0; 16]);
        let [discovery, flood] = Draft::both();
        [
            discovery.clone(),
            long(discovery),
            flood.clone(),
            long(flood),
        ]
    }

    pub fn session(mut self, session: u32) -> Draft {
        self.session = session;
        self
    }

    pub fn from(mut self, initiator: &[u8]) -> Draft {
        self.initiator = initiator.to_vec();
        self
    }

    pub fn name(mut self, name: impl AsRef<[u8]>) -> Draft {
        self.name = name.as_ref().to_vec();
        self
    }

    pub fn count(mut self, count: u8) -> Draft {
        self.count = count;
        self
    }

    pub fn term(&self) -> Term {
        let counted = |count: u8| {
            let flags = if self.is_flood { 4 } else { 1 };
            array([text(&self.name), number(flags), number(u64::from(count))])
        };
        let (session, initiator) = (number(u64::from(self.session)), self.initiator.clone());
        let start = [session, Term::Bytes(initiator)];
        if !self.is_flood {
            return array([&[number(1)], &start[..], &[counted(self.count)]].concat());
        }
        let counts = [&[self.count][..], &self.others].concat();
        let pairs = counts
            .into_iter()
            .map(|count| pair(counted(count), nowhere()));
        let pairs: Vec<Term> = pairs.collect();
        array([&[number(9)], &start[..], &[number(1_000)], &pairs].concat())
    }

    pub fn bytes(&self) -> Vec<u8> {
        self.term().encoded()
    }

    /// The row that its relay makes.
    pub fn row(&self, admitted: u64) -> [u64; 4] {
        let key = Key {
            is_flood: self.is_flood,
            session: self.session,
            initiator: self.initiator.clone(),
        };
        Row { key, admitted }.numbers()
    }
}
