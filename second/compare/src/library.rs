//! What the proved library answers, through the archive for C. All unsafe code is here.

use archive::*;
use second::block::layout::{LIST, LIST_AT, LIST_MANY, PAIRS};
use second::node::{Fresh, Given, BAD_RECORD};
use second::vectors::write::Draft;

use crate::answer::{untouched, Answer, Description, LocatorAnswer, PairAnswer, ReadAnswer};
use crate::guarded::Guarded;
use crate::node::{Host, Node};
use crate::writing::Written;

/// What grasp_read answers.
fn read(bytes: &[u8]) -> ReadAnswer {
    let mut words = untouched();
    // SAFETY: the slice is as long as said, and the block and a word after it follow the first word.
    let number = unsafe { grasp_read(bytes.as_ptr(), bytes.len(), words[1..].as_mut_ptr()) };
    Answer {
        number: usize::from(number),
        words,
    }
}

/// What grasp_locator answers.
pub fn locator(bytes: &[u8], at: usize) -> LocatorAnswer {
    let mut words = untouched();
    // SAFETY: as above.
    let number = unsafe { grasp_locator(bytes.as_ptr(), bytes.len(), at, words[1..].as_mut_ptr()) };
    Answer { number, words }
}

/// What grasp_pair answers.
pub fn pair(bytes: &[u8], at: usize) -> PairAnswer {
    let mut words = untouched();
    // SAFETY: as above.
    let number = unsafe { grasp_pair(bytes.as_ptr(), bytes.len(), at, words[1..].as_mut_ptr()) };
    Answer { number, words }
}

/// What the library says of the message, and of each element of its list.
pub fn description(bytes: &[u8]) -> Description {
    let read = read(bytes);
    let (mut locators, mut pairs) = (vec![], vec![]);
    if read.number == 0 {
        let mut at = read.field(LIST_AT) as usize;
        // An element takes more than a byte, so a false number of them is still seen.
        for _ in 0..read.field(LIST_MANY).min(bytes.len() as u64) {
            if read.field(LIST) == PAIRS {
                pairs.push(pair(bytes, at));
                at = pairs[pairs.len() - 1].number;
            } else {
                locators.push(locator(bytes, at));
                at = locators[locators.len() - 1].number;
            }
        }
    }
    Description {
        read,
        locators,
        pairs,
    }
}

/// The library's node with the record as its address and six numbers.
pub struct OverNumbers;

impl Node for OverNumbers {
    fn fresh(host: &mut Host, fresh: &Fresh) -> u8 {
        let numbers = host.numbers.content_mut().as_mut_ptr();
        // SAFETY: the address has 16 bytes and the record six numbers.
        unsafe {
            grasp_fresh(
                host.address.as_ptr(),
                fresh.port,
                fresh.ttl,
                fresh.count,
                fresh.mask,
                numbers,
            )
        }
    }

    fn set_links(host: &mut Host, links: u64) -> u8 {
        let numbers = host.numbers.content_mut().as_mut_ptr();
        // SAFETY: as above.
        unsafe { grasp_set_links(host.address.as_ptr(), numbers, links) }
    }

    fn call(host: &mut Host, given: &Given) -> u8 {
        let address = host.address;
        lend(host, given, |lent| {
            // SAFETY: as above; every slice is as long as said, the answer has four numbers, and
            // all are memory of their own.
            unsafe {
                grasp_node_call(
                    address.as_ptr(),
                    lent.numbers.as_mut_ptr(),
                    lent.table.as_mut_ptr(),
                    lent.table.len(),
                    given.clock,
                    given.interface,
                    lent.names.as_ptr(),
                    lent.names.len(),
                    lent.message.as_ptr(),
                    lent.message.len(),
                    lent.out.as_mut_ptr(),
                    lent.out.len(),
                    lent.answer.as_mut_ptr(),
                )
            }
        })
    }
}

/// The memory that a node call is lent.
struct Lent<'a> {
    numbers: &'a mut [u64],
    table: &'a mut [u8],
    names: &'a [u8],
    message: &'a [u8],
    out: &'a mut [u8],
    answer: &'a mut [u64],
}

fn lend(host: &mut Host, given: &Given, call: impl FnOnce(Lent) -> u8) -> u8 {
    // The message follows the names in memory, so that names that are cut have more behind them.
    let memory = [&given.names[..], &given.message].concat();
    let (names, message) = memory.split_at(given.names.len());
    call(Lent {
        numbers: host.numbers.content_mut(),
        table: &mut host.table.content_mut()[..host.length],
        names,
        message,
        out: host.out.content_mut(),
        answer: host.answer.content_mut(),
    })
}

/// The host's record as C has it; numbers that are too wide are in none.
fn record_of(host: &Host) -> Option<Record> {
    let &[port, ttl, interfaces, links, clock, tally] = host.numbers.content() else {
        return None;
    };
    Some(Record {
        address: host.address,
        port: u16::try_from(port).ok()?,
        ttl: u32::try_from(ttl).ok()?,
        interfaces: u8::try_from(interfaces).ok()?,
        links: u8::try_from(links).ok()?,
        clock,
        tally,
    })
}

/// Gives the host what a call has made of the record that was.
fn keep(host: &mut Host, was: Record, node: Record) {
    if node == was {
        return;
    }
    host.address = node.address;
    host.numbers.put(&[
        u64::from(node.port),
        u64::from(node.ttl),
        u64::from(node.interfaces),
        u64::from(node.links),
        node.clock,
        node.tally,
    ]);
}

/// The library's node with the record changed in place.
pub struct InPlace;

impl Node for InPlace {
    fn fresh(host: &mut Host, fresh: &Fresh) -> u8 {
        // A record with another address, so that the new one is seen.
        let was = Record {
            address: fresh.address.map(|byte| !byte),
            ..record_of(host).unwrap_or_default()
        };
        let mut node = was;
        // SAFETY: the record is as C has it, and the address has 16 bytes.
        let number = unsafe {
            grasp_record_fresh(
                &mut node,
                fresh.address.as_ptr(),
                fresh.port,
                fresh.ttl,
                fresh.count,
                fresh.mask,
            )
        };
        keep(host, was, node);
        number
    }

    fn set_links(host: &mut Host, links: u64) -> u8 {
        let Some(was) = record_of(host) else {
            return BAD_RECORD;
        };
        let mut node = was;
        // SAFETY: as above.
        let number = unsafe { grasp_record_set_links(&mut node, links) };
        keep(host, was, node);
        number
    }

    fn call(host: &mut Host, given: &Given) -> u8 {
        let Some(was) = record_of(host) else {
            return BAD_RECORD;
        };
        let mut node = was;
        let number = lend(host, given, |lent| {
            // SAFETY: as above, and as for the record of numbers.
            unsafe {
                grasp_record_call(
                    &mut node,
                    lent.table.as_mut_ptr(),
                    lent.table.len(),
                    given.clock,
                    given.interface,
                    lent.names.as_ptr(),
                    lent.names.len(),
                    lent.message.as_ptr(),
                    lent.message.len(),
                    lent.out.as_mut_ptr(),
                    lent.out.len(),
                    lent.answer.as_mut_ptr(),
                )
            }
        });
        keep(host, was, node);
        number
    }
}

/// What grasp_step returns; it changes the state's four numbers.
pub fn step(state: &mut Guarded<u64>, message: &[u8], side: u64) -> u8 {
    let state = state.content_mut().as_mut_ptr();
    // SAFETY: the slice is as long as said, and the state has four numbers.
    unsafe { grasp_step(state, message.as_ptr(), message.len(), side) }
}

/// What grasp_write returns and leaves.
pub fn write(draft: &Draft) -> Written {
    let mut written = Written::new(draft.out_len);
    let out = written.out.content_mut();
    // SAFETY: every slice is as long as said, the block has 19 numbers, and the length is one.
    written.returned = unsafe {
        grasp_write(
            draft.source.as_ptr(),
            draft.source.len(),
            draft.list.as_ptr(),
            draft.list.len(),
            draft.fields.as_ptr(),
            out.as_mut_ptr(),
            out.len(),
            written.length.content_mut().as_mut_ptr(),
        )
    };
    written
}
