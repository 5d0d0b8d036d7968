//! GRASP messages (RFC 8990, section 4) as rules 4 reads them: what one says, and where.

mod item;
mod shape;

use crate::cbor;
pub use item::Item;
pub use shape::{ACCEPT, DECLINE, DIVERT, DOMAIN, TCP, UDP, URI, V4, V6};

/// Refusal 1 (rules 2.1): a message of 0 bytes or over 2,048.
pub const SIZE: u8 = 1;
/// Refusal 7 (rules 4.5): bytes after the item.
pub const AFTER: u8 = 7;
/// Refusal 8 (rules 4.6): the message's array begins with an unsigned number that is no kind.
pub const KIND: u8 = 8;
/// Refusal 9 (rules 4.7): any other departure from the message shapes.
pub const SHAPE: u8 = 9;
/// Refusal 10 (rules 2.2): a name over 64 bytes.
pub const LONG_NAME: u8 = 10;
/// Refusal 11 (rules 2.8): named text that is not UTF-8.
pub const NOT_UTF8: u8 = 11;

/// The most bytes of a message, and of an objective's name (rules 2.1, 2.2).
pub const MOST_BYTES: usize = 2048;
pub const MOST_OF_A_NAME: usize = 64;

/// The eleven kinds of message.
const KINDS: [u64; 11] = [0, 1, 2, 3, 4, 5, 6, 7, 8, 9, 99];

/// Some of the message's bytes.
#[derive(Clone, Copy, Debug, PartialEq, Eq)]
pub struct Span {
    pub at: usize,
    pub length: usize,
}

/// A message; every string and item in it is said by where it stands.
#[derive(Clone, Debug, PartialEq, Eq)]
pub enum Message {
    Noop,
    Discovery {
        session: u32,
        initiator: Span,
        objective: Objective,
    },
    Response {
        session: u32,
        initiator: Span,
        ttl: u32,
        target: Target,
        objective: Option<Objective>,
    },
    RequestNegotiation {
        session: u32,
        objective: Objective,
    },
    RequestSynchronization {
        session: u32,
        objective: Objective,
    },
    Negotiate {
        session: u32,
        objective: Objective,
    },
    End {
        session: u32,
        outcome: Outcome,
    },
    Wait {
        session: u32,
        time: u32,
    },
    Synch {
        session: u32,
        objective: Objective,
    },
    Flood {
        session: u32,
        initiator: Span,
        ttl: u32,
        pairs: Vec<Pair>,
    },
    Invalid {
        session: u32,
        item: Option<Span>,
    },
}

/// An objective (RFC 8990, section 2.10.1); `count_head` is where the loop count is said.
#[derive(Clone, Copy, Debug, PartialEq, Eq)]
pub struct Objective {
    pub name: Span,
    pub flags: u8,
    pub count: u8,
    pub count_head: Span,
    pub value: Option<Span>,
}

/// A locator (RFC 8990, section 2.9.5); `at` is where the address stands.
#[derive(Clone, Copy, Debug, PartialEq, Eq)]
pub enum Locator {
    V6 {
        at: usize,
        protocol: u8,
        port: u16,
    },
    V4 {
        at: usize,
        protocol: u8,
        port: u16,
    },
    Domain {
        text: Span,
        protocol: u8,
        port: u16,
    },
    Uri {
        text: Span,
        protocol: Option<u8>,
        port: Option<u16>,
    },
}

/// What a Response points to.
#[derive(Clone, Debug, PartialEq, Eq)]
pub enum Target {
    Locators(Vec<Locator>),
    Divert(Vec<Locator>),
}

/// How an End ends; a decline may have a reason.
#[derive(Clone, Copy, Debug, PartialEq, Eq)]
pub enum Outcome {
    Accept,
    Decline(Option<Span>),
}

/// A Flood's objective with its locator, if not an empty array.
#[derive(Clone, Copy, Debug, PartialEq, Eq)]
pub struct Pair {
    pub objective: Objective,
    pub locator: Option<Locator>,
}

/// The message that the bytes are, or the number of its refusal.
pub fn read(bytes: &[u8]) -> Result<Message, u8> {
    let root = one_item(bytes)?;
    let first = root.array().and_then(<[Item]>::first);
    if let Some(kind) = first.and_then(Item::unsigned::<u64>) {
        if !KINDS.contains(&kind) {
            return Err(KIND);
        }
    }
    let message = shape::message(&root).ok_or(SHAPE)?;
    let texts = message.texts();
    if !texts.iter().all(|text| cbor::is_utf8(text.of(bytes))) {
        return Err(NOT_UTF8);
    }
    if message.names().any(|name| name.length > MOST_OF_A_NAME) {
        return Err(LONG_NAME);
    }
    Ok(message)
}

/// The one item that 1 to 2,048 bytes are (refusals 1 to 7, rules 4.2 to 4.5).
pub fn one_item(bytes: &[u8]) -> Result<Item, u8> {
    if bytes.is_empty() || bytes.len() > MOST_BYTES {
        return Err(SIZE);
    }
    let end = cbor::item(0, bytes).map_err(|refusal| refusal.number)?;
    if end < bytes.len() {
        return Err(AFTER);
    }
    Item::at(bytes, 0).map_err(|refusal| refusal.number)
}

/// Where each locator or pair of a message's list stands, if it has a list.
pub fn elements(bytes: &[u8], message: &Message) -> Vec<Span> {
    let root = Item::at(bytes, 0).ok();
    let options = root
        .as_ref()
        .and_then(Item::array)
        .and_then(|all| all.get(4..));
    let listed = match (message, options.unwrap_or_default()) {
        (Message::Flood { pairs, .. }, options) => options.get(..pairs.len()),
        (Message::Response { target, .. }, options) => match target {
            Target::Locators(locators) => options.get(..locators.len()),
            Target::Divert(locators) => options
                .first()
                .and_then(Item::array)
                .and_then(|divert| divert.get(1..1 + locators.len())),
        },
        _ => None,
    };
    let listed = listed.unwrap_or_default();
    listed.iter().map(|item| item.span).collect()
}

/// The locator that stands at this place, by its shape alone, and the place after it.
pub fn locator_at(bytes: &[u8], at: usize) -> Option<(Locator, usize)> {
    let item = Item::at(bytes, at).ok()?;
    Some((shape::locator(&item)?, item.span.end()))
}

/// The same for a Flood's pair, which has as many levels as a message leaves it.
pub fn pair_at(bytes: &[u8], at: usize) -> Option<(Pair, usize)> {
    cbor::item(1, bytes.get(at..)?).ok()?;
    let item = Item::at(bytes, at).ok()?;
    Some((shape::pair(&item)?, item.span.end()))
}

impl Message {
    /// The number that stands first in the message.
    pub fn kind(&self) -> u8 {
        match self {
            Message::Noop => 0,
            Message::Discovery { .. } => 1,
            Message::Response { .. } => 2,
            Message::RequestNegotiation { .. } => 3,
            Message::RequestSynchronization { .. } => 4,
            Message::Negotiate { .. } => 5,
            Message::End { .. } => 6,
            Message::Wait { .. } => 7,
            Message::Synch { .. } => 8,
            Message::Flood { .. } => 9,
            Message::Invalid { .. } => 99,
        }
    }

    /// All named texts (rules 2.8): names, those of locators and the reason of a decline.
    fn texts(&self) -> Vec<Span> {
        let reason = match self {
            Message::End {
                outcome: Outcome::Decline(reason),
                ..
            } => *reason,
            _ => None,
        };
        let locators = self.locators();
        let located = locators.iter().filter_map(Locator::text);
        self.names().chain(located).chain(reason).collect()
    }

    fn names(&self) -> impl Iterator<Item = Span> {
        self.objectives()
            .into_iter()
            .map(|objective| objective.name)
    }

    fn objectives(&self) -> Vec<Objective> {
        match self {
            Message::Discovery { objective, .. }
            | Message::RequestNegotiation { objective, .. }
            | Message::RequestSynchronization { objective, .. }
            | Message::Negotiate { objective, .. }
            | Message::Synch { objective, .. } => vec![*objective],
            Message::Response { objective, .. } => objective.iter().copied().collect(),
            Message::Flood { pairs, .. } => pairs.iter().map(|pair| pair.objective).collect(),
            _ => vec![],
        }
    }

    fn locators(&self) -> Vec<Locator> {
        match self {
            Message::Response { target, .. } => target.locators().to_vec(),
            Message::Flood { pairs, .. } => pairs.iter().filter_map(|pair| pair.locator).collect(),
            _ => vec![],
        }
    }
}

impl Target {
    pub fn locators(&self) -> &[Locator] {
        match self {
            Target::Locators(locators) | Target::Divert(locators) => locators,
        }
    }
}

impl Locator {
    /// Its domain name or URI.
    fn text(&self) -> Option<Span> {
        match *self {
            Locator::Domain { text, .. } | Locator::Uri { text, .. } => Some(text),
            _ => None,
        }
    }
}

#[cfg(test)]
mod tests;
