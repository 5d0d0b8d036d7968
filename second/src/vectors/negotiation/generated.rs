//! Random lists of steps, mostly near what is allowed.

use super::super::damage;
use super::super::message::generated::message;
use super::super::message::parts::{accept, declined, end, wait};
use super::steps::{about, of_session};
use super::talk::Talk;
use crate::negotiation::{step, Side, State};
use crate::random::Random;

/// How many lists are stored, and the steps of each.
const LISTS: usize = 120;
const STEPS: usize = 24;

pub fn talks() -> Vec<Talk> {
    let mut random = Random::new(32);
    (0..LISTS).map(|_| generated(&mut random, STEPS)).collect()
}

/// Steps on one state; what it may be now guides what comes next.
pub fn generated(random: &mut Random, steps: usize) -> Talk {
    let mut talk = Talk::default();
    let mut state = State::Fresh;
    for _ in 0..steps {
        let (message, sender) = next(random, state);
        if let Ok(after) = step(state, &message, sender) {
            state = after;
        }
        talk.step(sender, &message);
    }
    talk
}

/// A message that the state mostly allows, by the side that mostly has the turn.
fn next(random: &mut Random, state: State) -> (Vec<u8>, Side) {
    let (session, count, turn) = match state {
        State::Open {
            session,
            count,
            turn,
        } => (session, count, turn),
        _ => (7, 5, Side::We),
    };
    let session = if random.once_in(12) { 8 } else { session };
    let sides = [turn, turn, turn, turn, turn, Side::We, Side::They];
    let sender = *random.pick(&sides);
    let lower = count.saturating_sub(1);
    let count = *random.pick(&[lower, lower, lower, lower, lower, count, 0, 1, 2, 255]);
    let message = match (state, random.below(24)) {
        (_, 0) => message(random, 1),
        (_, 1) => damage::damaged(random, &about(5, session, count)),
        (_, 2) => of_session(end(accept()), session),
        (_, 3) => of_session(end(declined("no")), random.below(9) as u32),
        (_, 4..=6) => of_session(wait(random.below(5) as u64), session),
        (_, 7) => about(*random.pick(&[3, 4, 8]), session, count),
        (State::Fresh, _) => {
            let count = *random.pick(&[1, 2, 3, 4, 10, 24, 255, 0]);
            about(3, random.below(3) as u32, count)
        }
        _ => about(5, session, count),
    };
    (message, sender)
}
