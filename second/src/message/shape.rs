//! The shapes of messages and options (RFC 8990, section 4; rules 1).

use super::item::Item;
use super::{Locator, Message, Objective, Outcome, Pair, Span, Target};

/// The numbers of the options.
pub const DIVERT: u8 = 100;
pub const ACCEPT: u8 = 101;
pub const DECLINE: u8 = 102;
pub const V6: u8 = 103;
pub const V4: u8 = 104;
pub const DOMAIN: u8 = 105;
pub const URI: u8 = 106;

/// The transport protocols that a locator may name.
pub const TCP: u8 = 6;
pub const UDP: u8 = 17;

/// The message that the outermost item has the shape of.
pub fn message(root: &Item) -> Option<Message> {
    let (kind, rest) = root.array()?.split_first()?;
    match (kind.unsigned::<u8>()?, rest) {
        (0, []) => Some(Message::Noop),
        (1, [session, initiator, objective_item]) => Some(Message::Discovery {
            session: session.unsigned()?,
            initiator: address(initiator)?,
            objective: objective(objective_item)?,
        }),
        (2, rest) => response(rest),
        (kind @ (3 | 4 | 5 | 8), [session, objective]) => talk(kind, session, objective),
        (6, [session, option]) => Some(Message::End {
            session: session.unsigned()?,
            outcome: outcome(option)?,
        }),
        (7, [session, time]) => Some(Message::Wait {
            session: session.unsigned()?,
            time: time.unsigned()?,
        }),
        (9, rest) => flood(rest),
        (99, [session, item @ ..]) if item.len() < 2 => Some(Message::Invalid {
            session: session.unsigned()?,
            item: item.first().map(|item| item.span),
        }),
        _ => None,
    }
}

/// The kinds that hold a session and an objective.
fn talk(kind: u8, session: &Item, objective_item: &Item) -> Option<Message> {
    let session = session.unsigned()?;
    let objective = objective(objective_item)?;
    Some(match kind {
        3 => Message::RequestNegotiation { session, objective },
        4 => Message::RequestSynchronization { session, objective },
        5 => Message::Negotiate { session, objective },
        _ => Message::Synch { session, objective },
    })
}

/// A Response's items after the kind.
fn response(items: &[Item]) -> Option<Message> {
    let [session, initiator, ttl, options @ ..] = items else {
        return None;
    };
    // No other option has the shape of an objective, so if the last one does it is the objective.
    let objective = options.last().and_then(objective);
    let targets = match objective {
        Some(_) => &options[..options.len() - 1],
        None => options,
    };
    Some(Message::Response {
        session: session.unsigned()?,
        initiator: address(initiator)?,
        ttl: ttl.unsigned()?,
        target: target(targets)?,
        objective,
    })
}

/// One or more locators, or else one divert.
fn target(items: &[Item]) -> Option<Target> {
    match items {
        [option] if leads(option, DIVERT) => Some(Target::Divert(locators(&option.array()?[1..])?)),
        _ => Some(Target::Locators(locators(items)?)),
    }
}

/// A Flood's items after the kind.
fn flood(items: &[Item]) -> Option<Message> {
    let [session, initiator, ttl, pairs @ ..] = items else {
        return None;
    };
    if pairs.is_empty() {
        return None;
    }
    Some(Message::Flood {
        session: session.unsigned()?,
        initiator: address(initiator)?,
        ttl: ttl.unsigned()?,
        pairs: pairs.iter().map(pair).collect::<Option<_>>()?,
    })
}

/// An objective with a locator or an empty array.
pub fn pair(item: &Item) -> Option<Pair> {
    let [about, place] = item.array()? else {
        return None;
    };
    let locator = match place.array()? {
        [] => None,
        _ => Some(locator(place)?),
    };
    Some(Pair {
        objective: objective(about)?,
        locator,
    })
}

fn objective(item: &Item) -> Option<Objective> {
    let [name, flags, count, value @ ..] = item.array()? else {
        return None;
    };
    if value.len() > 1 {
        return None;
    }
    Some(Objective {
        name: name.text()?,
        flags: flags.unsigned().filter(|flags| *flags <= 15)?,
        count: count.unsigned()?,
        count_head: count.span,
        value: value.first().map(|value| value.span),
    })
}

/// Accept alone, or decline and an optional reason.
fn outcome(item: &Item) -> Option<Outcome> {
    match item.array()? {
        [number] if number.unsigned() == Some(ACCEPT) => Some(Outcome::Accept),
        [number, reason @ ..] if number.unsigned() == Some(DECLINE) => match reason {
            [] => Some(Outcome::Decline(None)),
            [text] => Some(Outcome::Decline(Some(text.text()?))),
            _ => None,
        },
        _ => None,
    }
}

/// One or more locators.
fn locators(items: &[Item]) -> Option<Vec<Locator>> {
    match items {
        [] => None,
        _ => items.iter().map(locator).collect(),
    }
}

pub fn locator(item: &Item) -> Option<Locator> {
    let [number, place, transport, door] = item.array()? else {
        return None;
    };
    let number: u8 = number.unsigned()?;
    if number == URI {
        return Some(Locator::Uri {
            text: place.text()?,
            protocol: null_or(transport, protocol)?,
            port: null_or(door, Item::unsigned)?,
        });
    }
    let protocol = protocol(transport)?;
    let port = door.unsigned()?;
    let address = |length| place.bytes().filter(|address| address.length == length);
    match number {
        V6 => address(16).map(|Span { at, .. }| Locator::V6 { at, protocol, port }),
        V4 => address(4).map(|Span { at, .. }| Locator::V4 { at, protocol, port }),
        DOMAIN => place.text().map(|text| Locator::Domain {
            text,
            protocol,
            port,
        }),
        _ => None,
    }
}

/// TCP or UDP.
fn protocol(item: &Item) -> Option<u8> {
    item.unsigned()
        .filter(|number| matches!(*number, TCP | UDP))
}

/// Null, or what `read` makes of the item.
fn null_or<T>(item: &Item, read: impl Fn(&Item) -> Option<T>) -> Option<Option<T>> {
    if item.is_null() {
        Some(None)
    } else {
        read(item).map(Some)
    }
}

/// An initiator: an address of 4 or 16 bytes.
fn address(item: &Item) -> Option<Span> {
    item.bytes().filter(|bytes| matches!(bytes.length, 4 | 16))
}

/// Whether the item is an array that begins with this number.
fn leads(item: &Item, number: u8) -> bool {
    let first = item.array().and_then(<[Item]>::first);
    first.and_then(Item::unsigned) == Some(number)
}
