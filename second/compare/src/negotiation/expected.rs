//! What the second program's step does, said as include/grasp.h says it.

use archive::STATE_FIELDS;
use second::message;
use second::negotiation::{self, State, NOT_ALLOWED};

use super::{side_number, side_of};
use crate::guarded::Guarded;

/// Puts the state after the message and gives 0, or gives the number of the refusal.
pub fn step(state: &mut Guarded<u64>, bytes: &[u8], side: u64) -> u8 {
    let outcome = match (state_of(state.content()), side_of(side)) {
        (Some(before), Some(sender)) => negotiation::step(before, bytes, sender),
        _ => Err(message::read(bytes).err().unwrap_or(NOT_ALLOWED)),
    };
    match outcome {
        Ok(after) => {
            state.put(&numbers_of(after));
            0
        }
        Err(number) => number,
    }
}

/// The state that the numbers say; one with a number that is none of ours is none.
fn state_of(numbers: &[u64]) -> Option<State> {
    let &[phase, session, count, turn] = numbers else {
        return None;
    };
    let session = u32::try_from(session).ok()?;
    let count = u8::try_from(count).ok()?;
    let turn = side_of(turn)?;
    match phase {
        0 => Some(State::Fresh),
        1 => Some(State::Open {
            session,
            count,
            turn,
        }),
        2 => Some(State::Closed),
        _ => None,
    }
}

pub fn numbers_of(state: State) -> [u64; STATE_FIELDS] {
    match state {
        State::Fresh => [0; STATE_FIELDS],
        State::Open {
            session,
            count,
            turn,
        } => [1, u64::from(session), u64::from(count), side_number(turn)],
        State::Closed => [2, 0, 0, 0],
    }
}
