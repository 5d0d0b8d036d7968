//! A node's own names: a CBOR array of texts (refusal 16, rules 8.4).

use crate::cbor::is_utf8;
use crate::message::{one_item, MOST_OF_A_NAME};

/// The most own names.
const MOST_NAMES: usize = 16;

/// The names that the bytes say, if they are good.
pub fn own(bytes: &[u8]) -> Option<Vec<&[u8]>> {
    let root = one_item(bytes).ok()?;
    let items = root.array()?;
    if items.len() > MOST_NAMES {
        return None;
    }
    let name = |name: &&[u8]| name.len() <= MOST_OF_A_NAME && is_utf8(name);
    items
        .iter()
        .map(|item| item.text().map(|text| text.of(bytes)).filter(name))
        .collect()
}
