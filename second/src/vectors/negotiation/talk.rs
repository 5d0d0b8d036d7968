//! What a list of steps is made of, how it is stored and what comes of it.

use super::super::counted;
use crate::history::Stepped;
use crate::negotiation::{step, Side, State};

/// A step, or a state that is put in the place of the one that is there.
#[derive(Clone)]
pub enum Op {
    Step { message: Vec<u8>, sender: Side },
    Put(State),
}

/// What happens to a state, fresh at first.
#[derive(Clone, Default)]
pub struct Talk {
    pub ops: Vec<Op>,
}

/// What comes of a list; demand 3 speaks of those with nothing put.
pub struct Ran {
    pub lines: Vec<u8>,
    pub steps: Option<Vec<Stepped>>,
}

impl Talk {
    pub fn step(&mut self, sender: Side, message: &[u8]) {
        let message = message.to_vec();
        self.ops.push(Op::Step { message, sender });
    }

    /// The message from one side, then from the other.
    pub fn by_both(&mut self, message: &[u8]) {
        self.step(Side::We, message);
        self.step(Side::They, message);
    }

    pub fn put(&mut self, state: State) {
        self.ops.push(Op::Put(state));
    }

    /// 1 for the fresh state, then each step.
    pub fn stored(&self) -> Vec<u8> {
        let ops = self.ops.iter().flat_map(Op::stored);
        [1].into_iter().chain(ops).collect()
    }

    /// What the program must print, and the steps for demand 3.
    pub fn run(&self) -> Ran {
        let mut state = State::Fresh;
        let (mut lines, mut steps) = (String::new(), Some(Vec::new()));
        for op in &self.ops {
            match op {
                Op::Put(other) => {
                    state = *other;
                    steps = None;
                }
                Op::Step { message, sender } => {
                    let outcome = step(state, message, *sender);
                    state = outcome.unwrap_or(state);
                    lines.push_str(&line(outcome, state));
                    if let Some(steps) = &mut steps {
                        steps.push(Stepped {
                            message: message.clone(),
                            sender: *sender,
                            taken: outcome.is_ok(),
                        });
                    }
                }
            }
        }
        let lines = lines.into_bytes();
        Ran { lines, steps }
    }
}

impl Op {
    /// Its number and what it takes; only an open state has a session, a count and a turn.
    fn stored(&self) -> Vec<u8> {
        match self {
            Op::Step { message, sender } => [vec![2, side(*sender)], counted(message)].concat(),
            Op::Put(state) => {
                let (phase, session, count, turn) = match state {
                    State::Fresh => (0, 0, 0, 0),
                    State::Open {
                        session,
                        count,
                        turn,
                    } => (1, *session, *count, side(*turn)),
                    State::Closed => (2, 0, 0, 0),
                };
                [&[3, phase][..], &session.to_be_bytes(), &[count, turn]].concat()
            }
        }
    }
}

fn side(side: Side) -> u8 {
    match side {
        Side::We => 0,
        Side::They => 1,
    }
}

/// The line of a step: whether it was taken, and the state after it.
fn line(outcome: Result<State, u8>, state: State) -> String {
    let answer = match outcome {
        Ok(_) => String::from("taken"),
        Err(number) => format!("refused {number}"),
    };
    match state {
        State::Fresh => format!("{answer} fresh\n"),
        State::Closed => format!("{answer} closed\n"),
        State::Open {
            session,
            count,
            turn,
        } => format!("{answer} open {session} {count} {}\n", side(turn)),
    }
}
