//! The node's record (rules 6).

use super::{BAD_LINK, BAD_RECORD};

/// The most interfaces, and the most of a tally that is taken.
const MOST_INTERFACES: u64 = 8;
const MOST_TALLY: u64 = 1 << 63;

/// Count and mask are numbers of any size, so that a bad one is judged and never cut.
#[derive(Clone, Debug, Default, PartialEq, Eq)]
pub struct Record {
    pub address: [u8; 16],
    pub port: u16,
    pub ttl: u32,
    pub count: u64,
    pub mask: u64,
    pub clock: u64,
    pub tally: u64,
}

/// What a fresh record is asked for with.
#[derive(Clone, Copy, Debug)]
pub struct Fresh {
    pub address: [u8; 16],
    pub port: u16,
    pub ttl: u32,
    pub count: u64,
    pub mask: u64,
}

impl Record {
    /// A fresh record with 0, or the record of zeros with 12.
    pub fn fresh(asked: &Fresh) -> (Record, u8) {
        let record = Record {
            address: asked.address,
            port: asked.port,
            ttl: asked.ttl,
            count: asked.count,
            mask: asked.mask,
            clock: 0,
            tally: 0,
        };
        match record.judge() {
            Ok(()) => (record, 0),
            Err(number) => (Record::default(), number),
        }
    }

    /// Puts the new mask in the old one's place; a bad record cannot be mended so.
    pub fn set_links(&mut self, mask: u64) -> Result<(), u8> {
        self.judge()?;
        if !self.holds(mask) {
            return Err(BAD_LINK);
        }
        self.mask = mask;
        Ok(())
    }

    /// 12, or nothing.
    pub(super) fn judge(&self) -> Result<(), u8> {
        let counted = (1..=MOST_INTERFACES).contains(&self.count);
        if counted && self.holds(self.mask) && self.tally <= MOST_TALLY {
            Ok(())
        } else {
            Err(BAD_RECORD)
        }
    }

    /// Whether a good record's interface of this number is there and its link up.
    pub(super) fn is_up(&self, interface: u64) -> bool {
        interface < self.count && self.mask >> interface & 1 == 1
    }

    /// Whether a mask has no bit at or above the count, which is at most 8.
    fn holds(&self, mask: u64) -> bool {
        mask >> self.count == 0
    }
}
