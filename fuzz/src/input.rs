//! What a fuzzer's bytes say, taken from the left; where none are left, zeros.

use second::cbor::big_endian;

/// Numbers near the limits and the ranges of fields (rules 2.10, 1.3).
const LIMITS: [u64; 9] = [
    59_999,
    60_000,
    119_999,
    120_000,
    65_535,
    65_536,
    u32::MAX as u64,
    1 << 32,
    u64::MAX,
];

pub struct Input<'a> {
    bytes: &'a [u8],
}

impl<'a> Input<'a> {
    pub fn new(bytes: &'a [u8]) -> Input<'a> {
        Input { bytes }
    }

    pub fn is_empty(&self) -> bool {
        self.bytes.is_empty()
    }

    pub fn byte(&mut self) -> u8 {
        self.some(1).first().copied().unwrap_or(0)
    }

    /// A number below `bound`, which is not 0.
    pub fn below(&mut self, bound: usize) -> usize {
        usize::from(self.byte()) % bound
    }

    /// A small number in one byte, or a greater one by what that byte says.
    pub fn number(&mut self) -> u64 {
        match self.byte() {
            small @ 0..=239 => u64::from(small),
            240 => self.wide(2),
            241 => self.wide(4),
            242 => self.wide(8),
            243 => !u64::from(self.byte()),
            244 => 1 << self.below(64),
            245 => (1 << self.below(64)) - 1,
            246 => (1 << self.below(64)) + 1,
            limit => LIMITS[usize::from(limit - 247)],
        }
    }

    /// At most 255 bytes; their number comes first.
    pub fn bytes(&mut self) -> &'a [u8] {
        let length = self.byte();
        self.some(usize::from(length))
    }

    /// All that is left.
    pub fn rest(&mut self) -> &'a [u8] {
        self.some(self.bytes.len())
    }

    fn wide(&mut self, width: usize) -> u64 {
        big_endian(self.some(width))
    }

    /// So many bytes, or all that are left.
    fn some(&mut self, length: usize) -> &'a [u8] {
        let (some, rest) = self.bytes.split_at(length.min(self.bytes.len()));
        self.bytes = rest;
        some
    }
}
