//! Where each number of a block or a row stands (include/grasp.h). A span is a place and, after it,
//! a length.

/// The block of a message.
pub const KIND: usize = 0;
pub const SESSION: usize = 1;
pub const INITIATOR: usize = 2;
pub const TTL: usize = 4;
pub const HAS_OBJECTIVE: usize = 5;
pub const OBJECTIVE: usize = 6;
pub const LIST: usize = OBJECTIVE + OBJECTIVE_FIELDS;
pub const LIST_AT: usize = 14;
pub const LIST_MANY: usize = 15;
pub const OUTCOME: usize = 16;
pub const ITEM: usize = 17;
pub const FIELDS: usize = 19;

/// An objective, in the block from `OBJECTIVE` on and first in that of a pair; the place of its
/// count is said by a reader only.
pub const NAME: usize = 0;
pub const FLAGS: usize = 2;
pub const COUNT: usize = 3;
pub const COUNT_AT: usize = 4;
pub const VALUE: usize = 5;
pub const OBJECTIVE_FIELDS: usize = 7;

/// A locator, alone and in a pair.
pub const LOCATOR_KIND: usize = 0;
pub const LOCATOR_SPAN: usize = 1;
pub const PROTOCOL: usize = 3;
pub const PORT: usize = 4;
pub const LOCATOR_FIELDS: usize = 5;

/// A pair: an objective, then a locator or zeros.
pub const PAIR_LOCATOR: usize = OBJECTIVE_FIELDS;
pub const PAIR_FIELDS: usize = PAIR_LOCATOR + LOCATOR_FIELDS;

/// What `LIST` says.
pub const LOCATORS: u64 = 1;
pub const DIVERTED: u64 = 2;
pub const PAIRS: u64 = 3;

/// What `OUTCOME` says.
pub const ACCEPTED: u64 = 1;
pub const DECLINED: u64 = 2;
pub const DECLINED_WITH_REASON: u64 = 3;

/// The protocol and the port that stand for null.
pub const NULL_PROTOCOL: u64 = 0;
pub const NULL_PORT: u64 = 65_536;
