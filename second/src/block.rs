//! A message as numbers (include/grasp.h): the block that a reader fills, and the blocks of the
//! locators and pairs of its list.

pub mod layout;

use crate::message::{elements, Locator, Message, Objective, Outcome, Pair, Span, Target};
use crate::message::{DOMAIN, URI, V4, V6};
use layout::*;

/// The block of the message that was read from the bytes.
pub fn of_message(bytes: &[u8], message: &Message) -> [u64; FIELDS] {
    let mut block = Block {
        fields: [0; FIELDS],
    };
    block.fields[KIND] = u64::from(message.kind());
    match message {
        Message::Noop => {}
        Message::Discovery {
            session,
            initiator,
            objective,
        } => {
            block.start(*session, Some(initiator), 0);
            block.put_objective(objective);
        }
        Message::RequestNegotiation { session, objective }
        | Message::RequestSynchronization { session, objective }
        | Message::Negotiate { session, objective }
        | Message::Synch { session, objective } => {
            block.start(*session, None, 0);
            block.put_objective(objective);
        }
        Message::Wait { session, time } => block.start(*session, None, *time),
        Message::Response { .. } | Message::Flood { .. } => block.put_listing(bytes, message),
        Message::End { .. } | Message::Invalid { .. } => block.put_closing(bytes, message),
    }
    block.fields
}

/// The block of a locator.
pub fn of_locator(locator: &Locator) -> [u64; LOCATOR_FIELDS] {
    let address = |at, length| [at as u64, length];
    let (kind, [at, length], protocol, port) = match locator {
        Locator::V6 { at, protocol, port } => (V6, address(*at, 16), Some(*protocol), Some(*port)),
        Locator::V4 { at, protocol, port } => (V4, address(*at, 4), Some(*protocol), Some(*port)),
        Locator::Domain {
            text,
            protocol,
            port,
        } => (DOMAIN, span(text), Some(*protocol), Some(*port)),
        Locator::Uri {
            text,
            protocol,
            port,
        } => (URI, span(text), *protocol, *port),
    };
    let protocol = protocol.map_or(NULL_PROTOCOL, u64::from);
    let port = port.map_or(NULL_PORT, u64::from);
    [u64::from(kind), at, length, protocol, port]
}

/// The block of a pair; an empty array is five zeros.
pub fn of_pair(pair: &Pair) -> [u64; PAIR_FIELDS] {
    let mut block = [0; PAIR_FIELDS];
    let (about, place) = block.split_at_mut(OBJECTIVE_FIELDS);
    about.copy_from_slice(&of_objective(&pair.objective));
    if let Some(locator) = &pair.locator {
        place.copy_from_slice(&of_locator(locator));
    }
    block
}

/// An objective's numbers; without a value its place is the end of the count's head.
fn of_objective(objective: &Objective) -> [u64; OBJECTIVE_FIELDS] {
    let none = [objective.count_head.end() as u64, 0];
    let [name_at, name_length] = span(&objective.name);
    let [value_at, value_length] = objective.value.as_ref().map_or(none, span);
    [
        name_at,
        name_length,
        u64::from(objective.flags),
        u64::from(objective.count),
        objective.count_head.at as u64,
        value_at,
        value_length,
    ]
}

fn span(span: &Span) -> [u64; 2] {
    [span.at as u64, span.length as u64]
}

/// A message's block as it is filled.
struct Block {
    fields: [u64; FIELDS],
}

impl Block {
    /// Puts numbers from a field on.
    fn put(&mut self, field: usize, numbers: &[u64]) {
        self.fields[field..field + numbers.len()].copy_from_slice(numbers);
    }

    fn start(&mut self, session: u32, initiator: Option<&Span>, ttl: u32) {
        self.fields[SESSION] = u64::from(session);
        self.fields[TTL] = u64::from(ttl);
        self.put(INITIATOR, &initiator.map_or([0; 2], span));
    }

    fn put_objective(&mut self, objective: &Objective) {
        self.fields[HAS_OBJECTIVE] = 1;
        self.put(OBJECTIVE, &of_objective(objective));
    }

    /// What a Response or Flood says; a Flood's objective is its first pair's.
    fn put_listing(&mut self, bytes: &[u8], message: &Message) {
        let objective = match message {
            Message::Response {
                session,
                initiator,
                ttl,
                target,
                objective,
            } => {
                self.start(*session, Some(initiator), *ttl);
                self.fields[LIST] = match target {
                    Target::Locators(_) => LOCATORS,
                    Target::Divert(_) => DIVERTED,
                };
                objective.as_ref()
            }
            Message::Flood {
                session,
                initiator,
                ttl,
                pairs,
            } => {
                self.start(*session, Some(initiator), *ttl);
                self.fields[LIST] = PAIRS;
                pairs.first().map(|pair| &pair.objective)
            }
            _ => None,
        };
        objective.into_iter().for_each(|it| self.put_objective(it));
        let places = elements(bytes, message);
        self.fields[LIST_AT] = places.first().map_or(0, |first| first.at as u64);
        self.fields[LIST_MANY] = places.len() as u64;
    }

    /// What an End or Invalid says; an Invalid without an item has an empty one at its end.
    fn put_closing(&mut self, bytes: &[u8], message: &Message) {
        let (session, outcome, item) = match message {
            Message::End { session, outcome } => match outcome {
                Outcome::Accept => (session, ACCEPTED, [0; 2]),
                Outcome::Decline(None) => (session, DECLINED, [0; 2]),
                Outcome::Decline(Some(reason)) => (session, DECLINED_WITH_REASON, span(reason)),
            },
            Message::Invalid { session, item } => {
                let none = [bytes.len() as u64, 0];
                (session, 0, item.as_ref().map_or(none, span))
            }
            _ => return,
        };
        self.start(*session, None, 0);
        self.fields[OUTCOME] = outcome;
        self.put(ITEM, &item);
    }
}

#[cfg(test)]
mod tests;
