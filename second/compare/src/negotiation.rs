//! Negotiation steps through the library for C, one by one beside the second program.

mod expected;
mod generated;

use std::fmt::{self, Display, Formatter};

use archive::STATE_FIELDS;
use second::history::{negotiates_within, Stepped};
use second::negotiation::Side;
use second::vectors::hex;
use second::vectors::negotiation::Op;

use crate::difference::Difference;
use crate::guarded::Guarded;
use crate::library;
use crate::list::{List, Listed};

pub use generated::talks;

/// A step by a side's number, or other numbers in the state's place.
#[derive(Clone)]
pub enum Move {
    Step(Vec<u8>, u64),
    Put([u64; STATE_FIELDS]),
}

/// Moves from a fresh state on.
pub type Talk = List<Move>;

impl Listed for Move {
    fn is_call(&self) -> bool {
        matches!(self, Move::Step(..))
    }

    fn difference(moves: &[Move]) -> Option<(usize, Difference)> {
        let mut state = Guarded::numbers(STATE_FIELDS);
        state.put(&[0; STATE_FIELDS]);
        let mut steps = Vec::new();
        for (place, each) in moves.iter().enumerate() {
            match each {
                Move::Put(numbers) => state.put(numbers),
                Move::Step(message, side) => {
                    let mut second = state.clone();
                    let returned = library::step(&mut state, message, *side);
                    let wanted = expected::step(&mut second, message, *side);
                    let found = Difference::of_returned(returned, wanted)
                        .or_else(|| state.difference(&second, "the state"));
                    if let Some(difference) = found {
                        return Some((place, difference));
                    }
                    steps.extend(stepped(message, *side, returned));
                }
            }
        }
        let is_list = moves.iter().all(Move::is_call);
        let fault = || Difference::of_demand(String::from("too many Negotiates"));
        (is_list && !negotiates_within(&steps)).then(|| (moves.len() - 1, fault()))
    }
}

/// A step as demand 3 sees it; one by a side that is none was refused.
fn stepped(message: &[u8], side: u64, returned: u8) -> Option<Stepped> {
    Some(Stepped {
        message: message.to_vec(),
        sender: side_of(side)?,
        taken: returned == 0,
    })
}

/// The side that a number says.
fn side_of(number: u64) -> Option<Side> {
    match number {
        0 => Some(Side::We),
        1 => Some(Side::They),
        _ => None,
    }
}

fn side_number(side: Side) -> u64 {
    match side {
        Side::We => 0,
        Side::They => 1,
    }
}

impl Move {
    /// The same as the step of a stored list.
    fn of(op: &Op) -> Move {
        match op {
            Op::Step { message, sender } => Move::Step(message.clone(), side_number(*sender)),
            Op::Put(state) => Move::Put(expected::numbers_of(*state)),
        }
    }
}

impl Display for Move {
    fn fmt(&self, out: &mut Formatter) -> fmt::Result {
        match self {
            Move::Step(message, side) => {
                write!(out, "grasp_step: side {side:x} message [{}]", hex(message))
            }
            Move::Put(numbers) => write!(out, "state put: {numbers:x?}"),
        }
    }
}

#[cfg(test)]
mod tests;
