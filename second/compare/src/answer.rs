//! The answers of the three functions, as numbers.

use std::fmt::{self, Display, Formatter};

use second::block::layout::{FIELDS, LOCATOR_FIELDS, PAIR_FIELDS};

/// What a call returned, and its block, with a word on either side of it.
#[derive(Clone, Copy, PartialEq, Eq)]
pub struct Answer<const WORDS: usize> {
    pub number: usize,
    pub words: [u64; WORDS],
}

pub type ReadAnswer = Answer<{ FIELDS + 2 }>;
pub type LocatorAnswer = Answer<{ LOCATOR_FIELDS + 2 }>;
pub type PairAnswer = Answer<{ PAIR_FIELDS + 2 }>;

/// All that is said of a message: its block, and those of its list's elements.
#[derive(PartialEq, Eq)]
pub struct Description {
    pub read: ReadAnswer,
    pub locators: Vec<LocatorAnswer>,
    pub pairs: Vec<PairAnswer>,
}

/// The words before a call: no field ever has one of these values.
pub fn untouched<const WORDS: usize>() -> [u64; WORDS] {
    std::array::from_fn(|word| 0xA5C3_F00D_5A3C_9600 + word as u64)
}

impl<const WORDS: usize> Answer<WORDS> {
    /// An answer that leaves the block as it was.
    pub fn refused(number: usize) -> Self {
        let words = untouched();
        Answer { number, words }
    }

    /// An answer that fills the block.
    pub fn filled(number: usize, fields: &[u64]) -> Self {
        let mut answer = Answer::refused(number);
        answer.words[1..WORDS - 1].copy_from_slice(fields);
        answer
    }

    pub fn field(&self, field: usize) -> u64 {
        self.words[1 + field]
    }
}

impl<const WORDS: usize> Display for Answer<WORDS> {
    fn fmt(&self, out: &mut Formatter) -> fmt::Result {
        write!(out, "{}", self.number)?;
        let before = untouched::<WORDS>();
        if self.words == before {
            return write!(out, ", block as it was");
        }
        for (word, (now, before)) in self.words.iter().zip(before).enumerate() {
            let outside = word == 0 || word == WORDS - 1;
            match (outside, *now == before) {
                (true, true) => {}
                (true, false) => write!(out, " [outside the block: {now:x}]")?,
                (false, true) => write!(out, " {}:unwritten", word - 1)?,
                (false, false) => write!(out, " {}:{now}", word - 1)?,
            }
        }
        Ok(())
    }
}

impl Display for Description {
    fn fmt(&self, out: &mut Formatter) -> fmt::Result {
        write!(out, "{}", self.read)?;
        for locator in &self.locators {
            write!(out, "\n    then {locator}")?;
        }
        for pair in &self.pairs {
            write!(out, "\n    then {pair}")?;
        }
        Ok(())
    }
}
