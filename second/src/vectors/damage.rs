//! Ways to damage good bytes.

use crate::random::Random;

/// The bytes as they are, followed by more, cut, and with a byte changed, inserted and removed.
pub fn plain_and_damaged(random: &mut Random, bytes: &[u8]) -> [Vec<u8>; 6] {
    [
        bytes.to_vec(),
        followed(random, bytes),
        cut(random, bytes),
        changed(random, bytes),
        inserted(random, bytes),
        removed(random, bytes),
    ]
}

/// The bytes damaged in one of these ways.
pub fn damaged(random: &mut Random, bytes: &[u8]) -> Vec<u8> {
    random.pick(&[followed, cut, changed, inserted, removed])(random, bytes)
}

/// Followed by 1 to 4 more bytes.
fn followed(random: &mut Random, bytes: &[u8]) -> Vec<u8> {
    let length = 1 + random.below(4);
    [bytes.to_vec(), random.bytes(length)].concat()
}

/// Cut before its end.
fn cut(random: &mut Random, bytes: &[u8]) -> Vec<u8> {
    bytes[..random.below(bytes.len().max(1))].to_vec()
}

/// With one byte changed.
fn changed(random: &mut Random, bytes: &[u8]) -> Vec<u8> {
    let mut damaged = bytes.to_vec();
    if !bytes.is_empty() {
        damaged[random.below(bytes.len())] ^= 1 + random.below(255) as u8;
    }
    damaged
}

/// With one byte more.
fn inserted(random: &mut Random, bytes: &[u8]) -> Vec<u8> {
    let mut damaged = bytes.to_vec();
    damaged.insert(random.below(bytes.len() + 1), random.byte());
    damaged
}

/// With one byte less.
fn removed(random: &mut Random, bytes: &[u8]) -> Vec<u8> {
    let mut damaged = bytes.to_vec();
    if !bytes.is_empty() {
        damaged.remove(random.below(bytes.len()));
    }
    damaged
}
