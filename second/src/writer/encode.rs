//! From a description to its encoding. Nothing comes of a description that no message has, but
//! the encoding's length is not judged here.

use std::mem;

use super::items::{array, bytes, null, number, text};
use crate::block::layout::*;
use crate::cbor::{is_utf8, item};
use crate::message::{ACCEPT, DECLINE, DIVERT, DOMAIN, MOST_OF_A_NAME, TCP, UDP, URI, V4, V6};

/// The most of a session, a ttl and a waiting time, and of the smaller numbers.
const MOST: u64 = u32::MAX as u64;
const MOST_FLAGS: u64 = 15;
const MOST_COUNT: u64 = 255;
const MOST_PORT: u64 = 65_535;

/// How many levels are open where Invalid's item, an objective's value and a Flood's value stand.
const AROUND_ITEM: usize = 1;
const AROUND_VALUE: usize = 2;
const AROUND_FLOOD_VALUE: usize = 3;

pub fn encoding(source: &[u8], list: &[u64], fields: &[u64; FIELDS]) -> Option<Vec<u8>> {
    let mut block = Block::new(source, fields);
    let kind = block.take(KIND);
    let mut items = vec![number(kind)];
    if kind != 0 {
        items.push(block.up_to(SESSION, MOST)?);
    }
    if matches!(kind, 1 | 2 | 9) {
        items.push(block.initiator()?);
    }
    if matches!(kind, 2 | 7 | 9) {
        items.push(block.up_to(TTL, MOST)?);
    }
    items.extend(block.options(kind, list)?);
    block.is_spent().then(|| array(&items))
}

/// Numbers that are taken one by one: what a message does not have is never taken and must be 0.
struct Block<'a> {
    source: &'a [u8],
    numbers: Vec<u64>,
}

impl<'a> Block<'a> {
    fn new(source: &'a [u8], numbers: &[u64]) -> Block<'a> {
        let numbers = numbers.to_vec();
        Block { source, numbers }
    }

    fn take(&mut self, field: usize) -> u64 {
        mem::take(&mut self.numbers[field])
    }

    fn is_spent(&self) -> bool {
        self.numbers.iter().all(|&number| number == 0)
    }

    /// The number in this field, if it is not too large.
    fn up_to(&mut self, field: usize, most: u64) -> Option<Vec<u8>> {
        let said = self.take(field);
        (said <= most).then(|| number(said))
    }

    /// The bytes of the span in this field, if they lie in the source; no bytes lie anywhere.
    fn content(&mut self, field: usize) -> Option<&'a [u8]> {
        let (at, length) = (self.take(field), self.take(field + 1));
        if length == 0 {
            return Some(&[]);
        }
        let (at, length) = (usize::try_from(at).ok()?, usize::try_from(length).ok()?);
        self.source.get(at..)?.get(..length)
    }

    /// The text in this field.
    fn text(&mut self, field: usize) -> Option<Vec<u8>> {
        self.content(field).filter(|text| is_utf8(text)).map(text)
    }

    /// Nothing, or the one item in this field that stands under so many open levels.
    fn item(&mut self, field: usize, levels: usize) -> Option<Option<Vec<u8>>> {
        if self.numbers[field + 1] == 0 {
            self.take(field);
            return Some(None);
        }
        let given = self.content(field)?;
        let whole = item(levels, given) == Ok(given.len());
        whole.then(|| Some(given.to_vec()))
    }

    fn initiator(&mut self) -> Option<Vec<u8>> {
        let address = self.content(INITIATOR)?;
        matches!(address.len(), 4 | 16).then(|| bytes(address))
    }

    /// What follows the numbers and the initiator.
    fn options(&mut self, kind: u64, list: &[u64]) -> Option<Vec<Vec<u8>>> {
        match kind {
            2 => return self.response(list),
            9 => return self.flood(list),
            _ if !list.is_empty() => return None,
            _ => {}
        }
        match kind {
            0 | 7 => Some(vec![]),
            1 | 3 | 4 | 5 | 8 if self.take(HAS_OBJECTIVE) == 1 => {
                Some(vec![self.objective(OBJECTIVE, AROUND_VALUE)?])
            }
            6 => Some(vec![self.outcome()?]),
            99 => Some(self.item(ITEM, AROUND_ITEM)?.into_iter().collect()),
            _ => None,
        }
    }

    /// A Response's locators or divert, and its objective if there is one.
    fn response(&mut self, list: &[u64]) -> Option<Vec<Vec<u8>>> {
        let locators = self.rows(list, LOCATOR_FIELDS, |row| row.locator(0))?;
        let mut options = match self.take(LIST) {
            LOCATORS => locators,
            DIVERTED => vec![array(&[vec![number(DIVERT)], locators].concat())],
            _ => return None,
        };
        match self.take(HAS_OBJECTIVE) {
            0 => {}
            1 => options.push(self.objective(OBJECTIVE, AROUND_VALUE)?),
            _ => return None,
        }
        Some(options)
    }

    /// A Flood's pairs.
    fn flood(&mut self, list: &[u64]) -> Option<Vec<Vec<u8>>> {
        let pairs = self.rows(list, PAIR_FIELDS, Block::pair)?;
        (self.take(LIST) == PAIRS).then_some(pairs)
    }

    /// What each row says: one or more whole rows, as many as the block says.
    fn rows<F>(&mut self, list: &[u64], width: usize, said: F) -> Option<Vec<Vec<u8>>>
    where
        F: Fn(&mut Block<'a>) -> Option<Vec<u8>>,
    {
        let rows = list.chunks_exact(width);
        let whole = !list.is_empty() && rows.remainder().is_empty();
        if !whole || self.take(LIST_MANY) != rows.len() as u64 {
            return None;
        }
        let each = |numbers: &[u64]| {
            let mut row = Block::new(self.source, numbers);
            let item = said(&mut row)?;
            row.is_spent().then_some(item)
        };
        rows.map(each).collect()
    }

    /// A pair's row; one whose locator's kind is 0 has an empty array.
    fn pair(&mut self) -> Option<Vec<u8>> {
        let objective = self.objective(0, AROUND_FLOOD_VALUE)?;
        let locator = match self.numbers[PAIR_LOCATOR + LOCATOR_KIND] {
            0 => array(&[]),
            _ => self.locator(PAIR_LOCATOR)?,
        };
        Some(array(&[objective, locator]))
    }

    /// The objective whose numbers begin at this field, with a value under so many open levels.
    fn objective(&mut self, first: usize, levels: usize) -> Option<Vec<u8>> {
        if self.numbers[first + NAME + 1] > MOST_OF_A_NAME as u64 {
            return None;
        }
        let mut items = vec![
            self.text(first + NAME)?,
            self.up_to(first + FLAGS, MOST_FLAGS)?,
            self.up_to(first + COUNT, MOST_COUNT)?,
        ];
        items.extend(self.item(first + VALUE, levels)?);
        Some(array(&items))
    }

    /// The locator whose numbers begin at this field.
    fn locator(&mut self, first: usize) -> Option<Vec<u8>> {
        let kind = u8::try_from(self.take(first + LOCATOR_KIND)).ok()?;
        let place = match kind {
            V6 => self.address(first + LOCATOR_SPAN, 16)?,
            V4 => self.address(first + LOCATOR_SPAN, 4)?,
            DOMAIN | URI => self.text(first + LOCATOR_SPAN)?,
            _ => return None,
        };
        let protocol = match self.take(first + PROTOCOL) {
            NULL_PROTOCOL if kind == URI => null(),
            said if said == u64::from(TCP) || said == u64::from(UDP) => number(said),
            _ => return None,
        };
        let port = match self.take(first + PORT) {
            NULL_PORT if kind == URI => null(),
            said if said <= MOST_PORT => number(said),
            _ => return None,
        };
        Some(array(&[number(kind), place, protocol, port]))
    }

    /// The address of this length in this field.
    fn address(&mut self, field: usize, length: usize) -> Option<Vec<u8>> {
        self.content(field)
            .filter(|address| address.len() == length)
            .map(bytes)
    }

    /// Accept, or decline and a reason, which may be empty.
    fn outcome(&mut self) -> Option<Vec<u8>> {
        match self.take(OUTCOME) {
            ACCEPTED => Some(array(&[number(ACCEPT)])),
            DECLINED => Some(array(&[number(DECLINE)])),
            DECLINED_WITH_REASON => Some(array(&[number(DECLINE), self.text(ITEM)?])),
            _ => None,
        }
    }
}
