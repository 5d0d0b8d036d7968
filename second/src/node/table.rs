//! The relay table (rules 7): 64 rows of four numbers.

use crate::cbor::big_endian;

/// The rows, and the numbers of a row and of the table.
pub const ROWS: usize = 64;
pub const OF_A_ROW: usize = 4;
pub const NUMBERS: usize = OF_A_ROW * ROWS;

/// For how many ms a row lives.
pub const DISCOVERY_LIFE: u64 = 60_000;
pub const FLOOD_LIFE: u64 = 120_000;

/// What a relay is known by; an initiator of 4 bytes is never one of 16.
#[derive(Clone, Debug, PartialEq, Eq)]
pub struct Key {
    pub is_flood: bool,
    pub session: u32,
    pub initiator: Vec<u8>,
}

/// A used row.
#[derive(Clone, Debug, PartialEq, Eq)]
pub struct Row {
    pub key: Key,
    pub admitted: u64,
}

/// Every row, or nothing where one is free.
#[derive(Clone, Debug, PartialEq, Eq)]
pub struct Table {
    rows: Vec<Option<Row>>,
}

impl Table {
    /// The table that the numbers say at this clock; none if they are not 256 or a row is bad.
    pub fn read(numbers: &[u64], clock: u64) -> Option<Table> {
        if numbers.len() != NUMBERS {
            return None;
        }
        let mut rows = Vec::new();
        for numbers in numbers.chunks_exact(OF_A_ROW) {
            rows.push(match numbers {
                [0, 0, 0, 0] => None,
                _ => Some(Row::read(numbers, clock)?),
            });
        }
        Some(Table { rows })
    }

    pub fn numbers(&self) -> Vec<u64> {
        let numbers = |row: &Option<Row>| row.as_ref().map_or([0; OF_A_ROW], Row::numbers);
        self.rows.iter().flat_map(numbers).collect()
    }

    pub fn free_dead(&mut self, clock: u64) {
        for row in &mut self.rows {
            if row.as_ref().is_some_and(|row| !row.lives(clock)) {
                *row = None;
            }
        }
    }

    /// Whether a row has this key; dead ones were freed.
    pub fn has(&self, key: &Key) -> bool {
        self.rows.iter().flatten().any(|row| row.key == *key)
    }

    pub fn has_room(&self) -> bool {
        self.rows.contains(&None)
    }

    /// Fills the lowest free row.
    pub fn fill(&mut self, key: Key, admitted: u64) {
        if let Some(free) = self.rows.iter_mut().find(|row| row.is_none()) {
            *free = Some(Row { key, admitted });
        }
    }
}

impl Row {
    /// The used row that four numbers say, if it is good at this clock.
    fn read(numbers: &[u64], clock: u64) -> Option<Row> {
        let &[first, second, third, admitted] = numbers else {
            return None;
        };
        let (tag, session) = (first >> 32, first as u32);
        let initiator = match tag {
            1 | 3 if third == 0 => u32::try_from(second).ok()?.to_be_bytes().to_vec(),
            2 | 4 => [second.to_be_bytes(), third.to_be_bytes()].concat(),
            _ => return None,
        };
        let key = Key {
            is_flood: tag >= 3,
            session,
            initiator,
        };
        (admitted <= clock).then_some(Row { key, admitted })
    }

    pub fn numbers(&self) -> [u64; OF_A_ROW] {
        let Key {
            is_flood,
            session,
            initiator,
        } = &self.key;
        let is_long = initiator.len() == 16;
        let tag = 1 + 2 * u64::from(*is_flood) + u64::from(is_long);
        let (second, third) = initiator.split_at(initiator.len().min(8));
        [
            u64::from(*session) + (tag << 32),
            big_endian(second),
            big_endian(third),
            self.admitted,
        ]
    }

    /// Whether the row lives at a clock that is not before its admission.
    fn lives(&self, clock: u64) -> bool {
        let life = if self.key.is_flood {
            FLOOD_LIFE
        } else {
            DISCOVERY_LIFE
        };
        clock - self.admitted < life
    }
}
