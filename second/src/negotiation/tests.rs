use super::*;
use crate::message::SIZE;
use Side::{They, We};

/// A Request or Negotiate of session 7 with this count, below 24.
fn about(kind: u8, count: u8) -> Vec<u8> {
    [&[0x83, kind, 7, 0x83][..], b"\x63EX1\x01", &[count]].concat()
}

fn open(count: u8, turn: Side) -> State {
    State::Open {
        session: 7,
        count,
        turn,
    }
}

const WAIT: &[u8] = b"\x83\x07\x07\x19\x03\xE8";
const END: &[u8] = b"\x83\x06\x07\x81\x18\x65";

#[test]
fn a_negotiation_runs() {
    let mut state = State::Fresh;
    for (message, sender, after) in [
        (about(3, 3), They, open(3, We)),
        (WAIT.to_vec(), We, open(3, We)),
        (about(5, 2), We, open(2, They)),
        (about(5, 1), They, open(1, We)),
        (WAIT.to_vec(), We, open(1, We)),
        (END.to_vec(), We, State::Closed),
    ] {
        state = step(state, &message, sender).expect("a step");
        assert_eq!(state, after);
    }
    for message in [&about(3, 3), &about(5, 1), WAIT, END] {
        assert_eq!(step(state, message, We), Err(NOT_ALLOWED));
    }
}

#[test]
fn steps_are_refused() {
    let refused = |state, message: &[u8], sender| {
        assert_eq!(step(state, message, sender), Err(NOT_ALLOWED));
    };
    for message in [&about(3, 0), &about(4, 3), &about(5, 3), WAIT, END] {
        refused(State::Fresh, message, We);
    }
    for count in [0, 1, 3, 4] {
        refused(open(3, They), &about(5, count), They);
    }
    refused(open(1, They), &about(5, 0), They);
    for message in [&about(5, 2), WAIT, END] {
        refused(open(3, They), message, We);
        let mut other = message.to_vec();
        other[2] = 8;
        refused(open(3, They), &other, They);
        refused(open(0, They), message, They);
    }
    refused(open(0, They), &about(5, 23), They);
    refused(open(3, They), &about(3, 3), They);
    refused(open(3, We), &about(4, 2), We);
    for state in [State::Fresh, open(0, We), open(1, They), State::Closed] {
        assert_eq!(step(state, b"", We), Err(SIZE));
    }
}
