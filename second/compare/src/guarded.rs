//! Memory that a call is lent, with a margin on either side that no call may touch.

use std::fmt::LowerHex;

use crate::difference::Difference;

/// How many bytes or numbers a margin has.
const MARGIN: usize = 16;

/// How many bytes or numbers of a difference are said.
const SAID: usize = 48;

#[derive(Clone, PartialEq, Eq)]
pub struct Guarded<T> {
    memory: Vec<T>,
}

impl Guarded<u8> {
    /// So many bytes of a pattern.
    pub fn bytes(length: usize) -> Guarded<u8> {
        let byte = |place: usize| (place as u8).wrapping_mul(167).wrapping_add(90);
        let memory = (0..length + 2 * MARGIN).map(byte).collect();
        Guarded { memory }
    }
}

impl Guarded<u64> {
    /// So many numbers that no call gives.
    pub fn numbers(length: usize) -> Guarded<u64> {
        let number = |place: usize| 0xA5C3_F00D_5A3C_9600 + place as u64;
        let memory = (0..length + 2 * MARGIN).map(number).collect();
        Guarded { memory }
    }
}

impl<T: Copy + Eq + LowerHex> Guarded<T> {
    /// What lies between the margins.
    pub fn content(&self) -> &[T] {
        &self.memory[MARGIN..self.memory.len() - MARGIN]
    }

    pub fn content_mut(&mut self) -> &mut [T] {
        let end = self.memory.len() - MARGIN;
        &mut self.memory[MARGIN..end]
    }

    /// Puts these in the place of the first ones.
    pub fn put(&mut self, first: &[T]) {
        self.content_mut()[..first.len()].copy_from_slice(first);
    }

    /// The first place, which the margin before has below 0, from where on two memories differ.
    pub fn difference(&self, other: &Guarded<T>, name: &str) -> Option<Difference> {
        if self.memory == other.memory {
            return None;
        }
        let both = self.memory.iter().zip(&other.memory);
        let from = both.take_while(|(one, other)| one == other).count();
        Some(Difference {
            call: format!("{name} from {} on", from as isize - MARGIN as isize),
            library: self.said(from),
            second: other.said(from),
        })
    }

    fn said(&self, from: usize) -> String {
        let some = self.memory[from..].iter().take(SAID);
        let said: Vec<String> = some.map(|each| format!("{each:02x}")).collect();
        said.join(" ")
    }
}

#[cfg(test)]
mod tests {
    use super::*;

    #[test]
    fn margins_are_compared() {
        let before = Guarded::bytes(4);
        assert!(before.difference(&before.clone(), "it").is_none());
        for place in [0, MARGIN - 1, MARGIN, MARGIN + 4, 2 * MARGIN + 3] {
            let mut after = before.clone();
            after.memory[place] ^= 1;
            let found = after.difference(&before, "it").map(|found| found.call);
            let place = place as isize - MARGIN as isize;
            assert_eq!(found, Some(format!("it from {place} on")));
        }
    }
}
