//! Items in their shortest encoding.

use crate::cbor::put_head;

pub fn number(number: impl Into<u64>) -> Vec<u8> {
    head(0, number.into())
}

pub fn bytes(content: &[u8]) -> Vec<u8> {
    [&head(2, content.len() as u64), content].concat()
}

pub fn text(content: &[u8]) -> Vec<u8> {
    [&head(3, content.len() as u64), content].concat()
}

/// The array of these encoded items.
pub fn array(items: &[Vec<u8>]) -> Vec<u8> {
    [head(4, items.len() as u64), items.concat()].concat()
}

pub fn null() -> Vec<u8> {
    vec![0xF6]
}

/// The head of major types 0 to 6.
pub fn head(major: u8, argument: u64) -> Vec<u8> {
    let mut buffer = [0; 9];
    let end = put_head(&mut buffer, 0, major, argument);
    buffer[..end].to_vec()
}
