//! One negotiation (rules 10).

use crate::message::{self, Message};

/// Refusal 20 (rules 10.3): a step that is not allowed.
pub const NOT_ALLOWED: u8 = 20;

/// A negotiation's state; a closed one remembers nothing.
#[derive(Clone, Copy, Debug, PartialEq, Eq)]
pub enum State {
    Fresh,
    Open { session: u32, count: u8, turn: Side },
    Closed,
}

/// Who sent a message or has the turn.
#[derive(Clone, Copy, Debug, PartialEq, Eq)]
pub enum Side {
    We,
    They,
}

impl Side {
    fn other(self) -> Side {
        match self {
            Side::We => Side::They,
            Side::They => Side::We,
        }
    }
}

/// The state after the message, or the number of the refusal.
pub fn step(state: State, bytes: &[u8], sender: Side) -> Result<State, u8> {
    let message = message::read(bytes)?;
    let after = match state {
        State::Fresh => opened(&message, sender),
        State::Open {
            session,
            count,
            turn,
        } if count > 0 && turn == sender => moved(session, count, turn, &message),
        _ => None,
    };
    after.ok_or(NOT_ALLOWED)
}

/// A Request opens a fresh state, and the other side has the turn.
fn opened(message: &Message, sender: Side) -> Option<State> {
    match message {
        Message::RequestNegotiation { session, objective } if objective.count > 0 => {
            Some(State::Open {
                session: *session,
                count: objective.count,
                turn: sender.other(),
            })
        }
        _ => None,
    }
}

/// What the side with the turn makes of an open state.
fn moved(open: u32, count: u8, turn: Side, message: &Message) -> Option<State> {
    match message {
        Message::Negotiate { session, objective }
            if *session == open && objective.count > 0 && objective.count == count - 1 =>
        {
            Some(State::Open {
                session: open,
                count: count - 1,
                turn: turn.other(),
            })
        }
        Message::Wait { session, .. } if *session == open => Some(State::Open {
            session: open,
            count,
            turn,
        }),
        Message::End { session, .. } if *session == open => Some(State::Closed),
        _ => None,
    }
}

#[cfg(test)]
mod tests;
