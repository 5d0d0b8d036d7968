//! Every step on every state, and whole negotiations.

use std::collections::BTreeMap;

use super::super::message::cases;
use super::super::message::parts::*;
use super::super::message::sizes::of_length;
use super::super::message::term::Term;
use super::talk::Talk;
use crate::message::read;
use crate::negotiation::{Side, State};

const SIDES: [Side; 2] = [Side::We, Side::They];

/// Refused cases of `message_vectors`: up to this length, and so many of each number.
const SHORT: usize = 60;
const OF_EACH: usize = 4;

pub fn talks() -> Vec<Talk> {
    [
        whole(),
        vec![every_step(), repeated(), requests(), sessions()],
        vec![kinds(), refused(), long_messages(), appendix_a()],
    ]
    .concat()
}

/// A Request, Negotiate or other message about an objective, of this session and count.
pub fn about(kind: u64, session: u32, count: u8) -> Vec<u8> {
    let objective = ex1().with(&[2], number(u64::from(count)));
    of_session(talk(kind, objective), session)
}

/// The same message with another session.
pub fn of_session(message: Term, session: u32) -> Vec<u8> {
    message.with(&[1], number(u64::from(session))).encoded()
}

fn open(session: u32, count: u8, turn: Side) -> State {
    State::Open {
        session,
        count,
        turn,
    }
}

/// The moves that an open state may allow.
fn moves(session: u32, counts: &[u8]) -> Vec<Vec<u8>> {
    let mut all: Vec<Vec<u8>> = counts
        .iter()
        .map(|&count| about(5, session, count))
        .collect();
    all.push(of_session(wait(1_000), session));
    all.push(of_session(end(accept()), session));
    all
}

/// Negotiations from a Request of each side down to count 1, and what is refused after it.
fn whole() -> Vec<Talk> {
    let mut talks = Vec::new();
    for first in SIDES {
        for count in [1, 2, 3, 24, 255] {
            let mut talk = Talk::default();
            let mut sender = first;
            talk.step(sender, &about(3, 9, count));
            for lower in (0..count).rev() {
                sender = SIDES[usize::from(sender == Side::We)];
                if lower % 5 == 1 {
                    talk.step(sender, &of_session(wait(0), 9));
                }
                talk.step(sender, &about(5, 9, lower));
            }
            for ended in [end(accept()), end(declined("no")), wait(1)] {
                talk.step(sender, &of_session(ended, 9));
            }
            for message in [about(3, 9, count), about(3, 8, 5), about(5, 9, 1)] {
                talk.by_both(&message);
            }
            talks.push(talk);
        }
    }
    talks
}

/// Every state that matters, and every message by each side on it.
fn every_step() -> Talk {
    let mut talk = Talk::default();
    let mut states = vec![State::Fresh, State::Closed];
    for count in [0, 1, 2, 3, 24, 254, 255] {
        states.extend(SIDES.map(|turn| open(7, count, turn)));
    }
    for state in states {
        let count = match state {
            State::Open { count, .. } => count,
            _ => 2,
        };
        let counts = [
            0,
            1,
            count.wrapping_sub(2),
            count.wrapping_sub(1),
            count,
            255,
        ];
        let mut messages = moves(7, &counts);
        messages.extend(moves(8, &[count.wrapping_sub(1)]));
        messages.extend([0, 1, 2, 255].map(|count| about(3, 7, count)));
        messages.extend([about(4, 7, 2), about(8, 7, count.wrapping_sub(1)), vec![]]);
        messages.extend([end(decline()), end(declined(""))].map(|end| end.encoded()));
        for message in messages {
            for sender in SIDES {
                talk.put(state);
                talk.step(sender, &message);
            }
        }
    }
    talk
}

/// A Request again and again, before and after moves, and after the end.
fn repeated() -> Talk {
    let mut talk = Talk::default();
    let again = |talk: &mut Talk| {
        for message in [about(3, 7, 4), about(3, 7, 5), about(3, 6, 255)] {
            talk.by_both(&message);
        }
    };
    talk.step(Side::They, &about(3, 7, 4));
    again(&mut talk);
    for (sender, count) in [(Side::We, 3), (Side::They, 2), (Side::We, 1)] {
        talk.step(sender, &about(5, 7, count));
        talk.step(sender, &about(5, 7, count));
        again(&mut talk);
    }
    talk.step(Side::They, &of_session(end(decline()), 7));
    again(&mut talk);
    talk
}

/// Requests of every count on fresh states.
fn requests() -> Talk {
    let mut talk = Talk::default();
    for count in [0, 1, 2, 23, 24, 127, 128, 254, 255] {
        for sender in SIDES {
            for kind in [3, 4, 5, 8] {
                talk.put(State::Fresh);
                talk.step(sender, &about(kind, 7, count));
            }
        }
    }
    talk
}

/// Sessions at every head width, and moves of other sessions.
fn sessions() -> Talk {
    let mut talk = Talk::default();
    let sessions = [0, 1, 23, 24, 255, 256, 65_535, 65_536, 1 << 31, u32::MAX];
    for session in sessions {
        for other in sessions {
            for message in moves(other, &[4]) {
                talk.put(State::Fresh);
                talk.step(Side::We, &about(3, session, 5));
                talk.step(Side::They, &message);
            }
        }
    }
    talk
}

/// Every kind and option on a fresh, an open and a closed state.
fn kinds() -> Talk {
    let mut talk = Talk::default();
    for state in [State::Fresh, open(7, 3, Side::They), State::Closed] {
        for sample in samples() {
            talk.put(state);
            talk.step(Side::They, &sample.encoded());
        }
    }
    talk
}

/// Refused messages on every sort of state, where 20 would come after.
fn refused() -> Talk {
    let mut taken: BTreeMap<u8, usize> = BTreeMap::new();
    let mut talk = Talk::default();
    for message in cases() {
        let Err(number) = read(&message) else {
            continue;
        };
        let count = taken.entry(number).or_default();
        if *count < OF_EACH && (message.len() <= SHORT || number == 10) {
            *count += 1;
            for state in [
                State::Fresh,
                open(7, 3, Side::We),
                open(7, 0, Side::We),
                State::Closed,
            ] {
                talk.put(state);
                talk.step(Side::We, &message);
            }
        }
    }
    talk
}

/// Moves of 2,048 bytes and of 2,049.
fn long_messages() -> Talk {
    let holders: [fn(usize) -> Term; 3] = [
        |length| talk(3, valued(bytes(length))),
        |length| talk(5, valued(bytes(length)).with(&[2], number(1))),
        |length| end(declined(vec![b'r'; length])),
    ];
    let mut steps = Talk::default();
    for total in [2_049, 2_048] {
        for (holder, sender) in holders.into_iter().zip([Side::We, Side::They, Side::We]) {
            steps.step(sender, &of_length(total, holder));
        }
    }
    steps
}

/// RFC 8990, appendix A.5: its first Negotiate repeats the Request's count: 20 (rules 10.7).
fn appendix_a() -> Talk {
    let mut talk = Talk::default();
    for (sender, kind, count) in [
        (Side::We, 3, 6),
        (Side::They, 5, 6),
        (Side::They, 5, 5),
        (Side::We, 5, 5),
        (Side::We, 5, 4),
        (Side::They, 5, 3),
    ] {
        talk.step(sender, &about(kind, 13_767_778, count));
    }
    talk.step(
        Side::We,
        &of_session(end(declined("Insufficient funds")), 13_767_778),
    );
    talk
}
