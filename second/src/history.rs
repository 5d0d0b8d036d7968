//! Demand 3 by brute force: what must hold of a whole list of calls, whatever made it.

use std::fmt;

use crate::message::{read, Message};
use crate::negotiation::Side;
use crate::node::{Answer, Given, Verdict};

/// The most relays in less than 60,000 ms.
const MOST_RELAYS: usize = 64;

/// For how many ms relays of one key, and relays of any keys, are counted together.
const OF_DISCOVERIES: u64 = 60_000;
const OF_FLOODS: u64 = 120_000;
const OF_ALL: u64 = 60_000;

/// A node call: what it was given and answered.
#[derive(Clone, Debug)]
pub struct Called {
    pub given: Given,
    pub answer: Result<Answer, u8>,
}

/// The node calls from a fresh record with so many interfaces, and the tally after them; settings
/// of links say nothing that demand 3 asks for.
#[derive(Clone, Debug)]
pub struct History {
    pub interfaces: u64,
    pub calls: Vec<Called>,
    pub tally: u64,
}

/// A sentence of demand 3 that does not hold; calls are said by their place in the list.
#[derive(Clone, Debug, PartialEq, Eq)]
pub enum Fault {
    /// RELAY was answered to what is neither a Discovery nor a Flood.
    NoRelay { call: usize },
    /// Two relays of one kind, session and initiator are too close.
    Close { first: usize, second: usize },
    /// A relay goes out on the arriving interface, or on one that is not there.
    Astray { call: usize },
    /// The count that a relay sends is not positive and one lower.
    Count { call: usize },
    /// Too many relays in less than 60,000 ms from this one on.
    Relays { from: usize },
    /// Too many copies in less than 60,000 ms from this one on.
    Copies { from: usize },
    /// The tally is not the number of all copies.
    Tally { copies: u64 },
}

impl fmt::Display for Fault {
    fn fmt(&self, formatter: &mut fmt::Formatter) -> fmt::Result {
        write!(formatter, "demand 3: {self:?}")
    }
}

/// A relay as demand 3 sees it.
struct Relay {
    call: usize,
    clock: u64,
    interface: u64,
    mask: u64,
    given: Told,
    sent: Option<Told>,
}

/// What is read from a relay's message or output.
struct Told {
    is_flood: bool,
    session: u32,
    initiator: Vec<u8>,
    count: u8,
}

impl Told {
    fn by(bytes: &[u8]) -> Option<Told> {
        let (is_flood, session, initiator, count) = match read(bytes).ok()? {
            Message::Discovery {
                session,
                initiator,
                objective,
            } => (false, session, initiator, objective.count),
            Message::Flood {
                session,
                initiator,
                pairs,
                ..
            } => (true, session, initiator, pairs.first()?.objective.count),
            _ => return None,
        };
        Some(Told {
            is_flood,
            session,
            initiator: initiator.of(bytes).to_vec(),
            count,
        })
    }

    fn key(&self) -> (bool, u32, &[u8]) {
        (self.is_flood, self.session, &self.initiator)
    }
}

impl Relay {
    /// The relay that a call is, or the fault that it cannot be one.
    fn of(call: usize, called: &Called) -> Option<Result<Relay, Fault>> {
        let answer = called.answer.as_ref().ok()?;
        if answer.verdict != Verdict::Relay {
            return None;
        }
        let Some(given) = Told::by(&called.given.message) else {
            return Some(Err(Fault::NoRelay { call }));
        };
        Some(Ok(Relay {
            call,
            clock: called.given.clock,
            interface: called.given.interface,
            mask: answer.mask,
            given,
            sent: Told::by(&answer.output),
        }))
    }

    fn copies(&self) -> u64 {
        u64::from(self.mask.count_ones())
    }

    /// Whether every copy goes to an interface that is there and is not the arriving one; a mask
    /// has each interface at most once.
    fn goes_onward(&self, interfaces: u64) -> bool {
        let out: Vec<u64> = (0..64).filter(|bit| self.mask >> bit & 1 == 1).collect();
        out.iter()
            .all(|&bit| bit < interfaces && bit != self.interface)
    }

    fn lowers(&self) -> bool {
        let Some(sent) = &self.sent else {
            return false;
        };
        sent.is_flood == self.given.is_flood
            && sent.count > 0
            && u16::from(sent.count) + 1 == u16::from(self.given.count)
    }
}

impl History {
    /// Every fault; none if demand 3 holds of the list.
    pub fn faults(&self) -> Vec<Fault> {
        let called = self.calls.iter().enumerate();
        let relays: Result<Vec<Relay>, Fault> = called
            .filter_map(|(call, called)| Relay::of(call, called))
            .collect();
        let relays = match relays {
            Ok(relays) => relays,
            Err(fault) => return vec![fault],
        };
        [
            close(&relays),
            self.each(&relays),
            self.windows(&relays),
            self.untrue_tally(&relays),
        ]
        .concat()
    }

    /// What is wrong with a relay alone.
    fn each(&self, relays: &[Relay]) -> Vec<Fault> {
        let mut faults = Vec::new();
        for relay in relays {
            let call = relay.call;
            if !relay.goes_onward(self.interfaces) {
                faults.push(Fault::Astray { call });
            }
            if !relay.lowers() {
                faults.push(Fault::Count { call });
            }
        }
        faults
    }

    /// Relays of which every two are less than 60,000 ms apart lie in one such window, so the
    /// windows that begin with a relay are enough.
    fn windows(&self, relays: &[Relay]) -> Vec<Fault> {
        let most_copies = MOST_RELAYS as u64 * self.interfaces.saturating_sub(1);
        let mut faults = Vec::new();
        for first in relays {
            let within =
                |relay: &&Relay| relay.clock >= first.clock && relay.clock - first.clock < OF_ALL;
            let together: Vec<&Relay> = relays.iter().filter(within).collect();
            let from = first.call;
            if together.len() > MOST_RELAYS {
                faults.push(Fault::Relays { from });
            }
            let copies: u64 = together.iter().map(|relay| relay.copies()).sum();
            if copies > most_copies {
                faults.push(Fault::Copies { from });
            }
        }
        faults
    }

    fn untrue_tally(&self, relays: &[Relay]) -> Vec<Fault> {
        let copies = relays.iter().map(Relay::copies).sum();
        if copies == self.tally {
            vec![]
        } else {
            vec![Fault::Tally { copies }]
        }
    }
}

/// Every two relays of one key that are too close.
fn close(relays: &[Relay]) -> Vec<Fault> {
    let mut faults = Vec::new();
    for (place, second) in relays.iter().enumerate() {
        for first in &relays[..place] {
            let apart = if second.given.is_flood {
                OF_FLOODS
            } else {
                OF_DISCOVERIES
            };
            let is_one = first.given.key() == second.given.key();
            if is_one && first.clock.abs_diff(second.clock) < apart {
                let (first, second) = (first.call, second.call);
                faults.push(Fault::Close { first, second });
            }
        }
    }
    faults
}

/// A step on a negotiation's state: what it was given, and whether it was taken.
#[derive(Clone, Debug)]
pub struct Stepped {
    pub message: Vec<u8>,
    pub sender: Side,
    pub taken: bool,
}

/// Whether at most c - 1 Negotiates were taken once a Request had opened the state at count c;
/// `steps` are all those of one state, fresh at first.
pub fn negotiates_within(steps: &[Stepped]) -> bool {
    let taken: Vec<Message> = steps
        .iter()
        .filter(|step| step.taken)
        .filter_map(|step| read(&step.message).ok())
        .collect();
    taken.iter().enumerate().all(|(place, message)| {
        let Message::RequestNegotiation { objective, .. } = message else {
            return true;
        };
        let after = taken[place..].iter();
        let negotiates = after.filter(|message| matches!(message, Message::Negotiate { .. }));
        negotiates.count() < usize::from(objective.count)
    })
}

#[cfg(test)]
mod tests;
