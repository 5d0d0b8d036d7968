//! From a message to its description.

use super::Description;
use crate::block::layout::*;
use crate::block::{of_locator, of_message, of_pair};
use crate::message::{Message, Pair};

/// The description of the message that was read from the bytes, with places into them: its blocks
/// with 0 for what only a reader gives.
pub fn description(bytes: &[u8], message: &Message) -> Description {
    let mut fields = of_message(bytes, message);
    fields[LIST_AT] = 0;
    fields[OBJECTIVE + COUNT_AT] = 0;
    let list = match message {
        Message::Response { target, .. } => {
            let locators = target.locators().iter();
            locators.flat_map(of_locator).collect()
        }
        Message::Flood { pairs, .. } => {
            fields[HAS_OBJECTIVE] = 0;
            fields[OBJECTIVE..][..OBJECTIVE_FIELDS].fill(0);
            pairs.iter().flat_map(row).collect()
        }
        _ => vec![],
    };
    Description { fields, list }
}

/// A pair's row.
fn row(pair: &Pair) -> [u64; PAIR_FIELDS] {
    let mut row = of_pair(pair);
    row[COUNT_AT] = 0;
    row
}
