//! Which verdict a message gets (rules 9).

use super::{Key, Table};
use crate::message::{Message, Span};

#[derive(Clone, Copy, Debug, PartialEq, Eq, PartialOrd, Ord)]
pub enum Verdict {
    Own,
    Answer,
    Duplicate,
    Last,
    Nowhere,
    NoRow,
    Relay,
    Noop,
    Hand,
}

impl Verdict {
    /// Its number in the stored files: its place in rules 9.2 from 1, then NOOP and HAND.
    pub fn number(self) -> u8 {
        self as u8 + 1
    }

    /// Whether a message with this verdict is handed up; a Discovery and a Noop never are.
    pub(super) fn is_handed_up(self, message: &Message) -> bool {
        match message {
            Message::Noop | Message::Discovery { .. } => false,
            Message::Flood { .. } => !matches!(self, Verdict::Own | Verdict::Duplicate),
            _ => true,
        }
    }
}

/// A Discovery or Flood as its verdict sees it; only a Discovery has a name to answer.
pub struct Passing<'a> {
    pub key: Key,
    pub name: Option<&'a [u8]>,
    pub count: u8,
    pub count_head: Span,
}

impl<'a> Passing<'a> {
    /// The message, if it is one that may be relayed; a Flood's count is its first objective's.
    pub fn of(message: &Message, bytes: &'a [u8]) -> Option<Passing<'a>> {
        let (is_flood, session, initiator, objective) = match message {
            Message::Discovery {
                session,
                initiator,
                objective,
            } => (false, session, initiator, objective),
            Message::Flood {
                session,
                initiator,
                pairs,
                ..
            } => (true, session, initiator, &pairs.first()?.objective),
            _ => return None,
        };
        let key = Key {
            is_flood,
            session: *session,
            initiator: initiator.of(bytes).to_vec(),
        };
        Some(Passing {
            key,
            name: (!is_flood).then(|| objective.name.of(bytes)),
            count: objective.count,
            count_head: objective.count_head,
        })
    }
}

/// What the verdict rests on beside the message; `onward` has the other links that are up.
pub struct Place<'a> {
    pub address: &'a [u8; 16],
    pub names: &'a [&'a [u8]],
    pub table: &'a Table,
    pub onward: u64,
}

impl Place<'_> {
    /// The first verdict that applies.
    pub fn verdict(&self, passing: &Passing) -> Verdict {
        let is_ours = |name| self.names.contains(&name);
        let tests = [
            (Verdict::Own, passing.key.initiator == self.address),
            (Verdict::Answer, passing.name.is_some_and(is_ours)),
            (Verdict::Duplicate, self.table.has(&passing.key)),
            (Verdict::Last, passing.count <= 1),
            (Verdict::Nowhere, self.onward == 0),
            (Verdict::NoRow, !self.table.has_room()),
        ];
        let first = tests.into_iter().find(|(_, applies)| *applies);
        first.map_or(Verdict::Relay, |(verdict, _)| verdict)
    }
}
