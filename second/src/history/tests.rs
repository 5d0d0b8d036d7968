use super::*;

const DISCOVERY: &[u8] = b"\x84\x01\x07\x44\xC0\x00\x02\x01\x83\x63EX1\x01\x02";
const FLOOD: &[u8] = b"\x85\x09\x07\x44\xC0\x00\x02\x01\x19\x03\xE8\x82\x83\x63EX1\x04\x02\x80";

/// A Discovery or Flood of this session, below 24, and initiator.
fn of(message: &[u8], session: u8, initiator: &[u8]) -> Vec<u8> {
    let start = [
        message[0],
        message[1],
        session,
        0x40 + initiator.len() as u8,
    ];
    [&start, initiator, &message[8..]].concat()
}

/// A relay that comes in on 0 and goes out on 1 and 2.
fn relay(clock: u64, message: &[u8]) -> Called {
    let mut output = message.to_vec();
    let back = if message[1] == 9 { 2 } else { 1 };
    let length = output.len();
    output[length - back] -= 1;
    Called {
        given: Given {
            clock,
            interface: 0,
            names: vec![0x80],
            message: message.to_vec(),
            out_len: 2_048,
        },
        answer: Ok(Answer {
            verdict: Verdict::Relay,
            mask: 6,
            handed_up: message[1] == 9,
            output,
        }),
    }
}

/// The same with another answer.
fn answered(mut called: Called, change: fn(&mut Answer)) -> Called {
    change(called.answer.as_mut().expect("a relay"));
    called
}

/// A history of a node with three interfaces and a true tally.
fn history(calls: Vec<Called>) -> History {
    let copies = |called: &Called| match &called.answer {
        Ok(answer) if answer.verdict == Verdict::Relay => u64::from(answer.mask.count_ones()),
        _ => 0,
    };
    History {
        interfaces: 3,
        tally: calls.iter().map(copies).sum(),
        calls,
    }
}

fn faults(calls: Vec<Called>) -> Vec<Fault> {
    history(calls).faults()
}

#[test]
fn close_relays_are_found() {
    let twice =
        |message: &[u8], apart: u64| faults(vec![relay(9, message), relay(9 + apart, message)]);
    let close = [Fault::Close {
        first: 0,
        second: 1,
    }];
    for apart in [0, 1, 59_999] {
        assert_eq!(twice(DISCOVERY, apart), close);
    }
    assert_eq!(twice(DISCOVERY, 60_000), []);
    assert_eq!(twice(FLOOD, 119_999), close);
    assert_eq!(twice(FLOOD, 120_000), []);
    // Calls that are not relays lie between them, and the clocks need not be in order.
    let mut duplicate = relay(9, DISCOVERY);
    duplicate.answer = Err(14);
    let calls = vec![
        relay(80_000, DISCOVERY),
        duplicate,
        relay(30_000, DISCOVERY),
    ];
    let first_and_last = Fault::Close {
        first: 0,
        second: 2,
    };
    assert_eq!(faults(calls), [first_and_last]);
}

#[test]
fn other_keys_may_be_close() {
    let initiators: [&[u8]; 3] = [&[0; 4], &[0; 16], &[1, 0, 0, 0]];
    let mut calls = Vec::new();
    for message in [DISCOVERY, FLOOD] {
        for session in [7, 8] {
            for initiator in initiators {
                calls.push(relay(5, &of(message, session, initiator)));
            }
        }
    }
    assert_eq!(faults(calls), []);
}

#[test]
fn stray_copies_are_found() {
    let astray = [Fault::Astray { call: 0 }];
    let back = answered(relay(0, DISCOVERY), |answer| answer.mask = 7);
    assert!(faults(vec![back]).contains(&astray[0]));
    let absent = answered(relay(0, DISCOVERY), |answer| answer.mask = 8);
    assert_eq!(faults(vec![absent]), astray);
    let far = answered(relay(0, DISCOVERY), |answer| answer.mask = 1 << 63);
    assert_eq!(faults(vec![far]), astray);
    let mut arriving = relay(0, DISCOVERY);
    arriving.given.interface = 2;
    assert_eq!(faults(vec![arriving]), astray);
}

#[test]
fn wrong_counts_are_found() {
    let count = [Fault::Count { call: 0 }];
    let changes: [fn(&mut Answer); 4] = [
        |answer| answer.output[14] = 2,
        |answer| answer.output[14] = 0,
        |answer| answer.output.clear(),
        |answer| answer.output[1] = 0,
    ];
    for change in changes {
        assert_eq!(faults(vec![answered(relay(0, DISCOVERY), change)]), count);
    }
    let mut last = relay(0, DISCOVERY);
    last.given.message[14] = 1;
    let last = answered(last, |answer| answer.output[14] = 0);
    assert_eq!(faults(vec![last]), count);
    let other = answered(relay(0, DISCOVERY), |answer| {
        answer.output = FLOOD.to_vec();
        answer.output[18] = 1;
    });
    assert_eq!(faults(vec![other]), count);
}

#[test]
fn crowds_are_found() {
    let many = |count: u8, clock: fn(u8) -> u64| {
        let each = |place| relay(clock(place), &of(DISCOVERY, 7, &[place, 0, 0, 0]));
        (0..count).map(each).collect::<Vec<_>>()
    };
    assert_eq!(faults(many(64, |_| 0)), []);
    let crowd = [Fault::Relays { from: 0 }, Fault::Copies { from: 0 }];
    assert_eq!(faults(many(65, u64::from))[..2], crowd);
    assert_eq!(
        faults(many(65, |place| 59_999 * u64::from(place / 64)))[..2],
        crowd
    );
    assert_eq!(faults(many(65, |place| 60_000 * u64::from(place / 64))), []);
    // A bound of copies for fewer interfaces, at which every mask is astray too.
    let mut narrow = history(many(64, |_| 0));
    narrow.interfaces = 2;
    assert!(narrow.faults().contains(&Fault::Copies { from: 0 }));
    assert!(!narrow.faults().contains(&Fault::Relays { from: 0 }));
}

#[test]
fn untrue_tallies_are_found() {
    let mut two = history(vec![relay(0, DISCOVERY), relay(0, FLOOD)]);
    assert_eq!(two.faults(), []);
    for tally in [0, 2, 3, 5] {
        two.tally = tally;
        assert_eq!(two.faults(), [Fault::Tally { copies: 4 }]);
    }
    let answer = answered(relay(0, DISCOVERY), |answer| {
        answer.verdict = Verdict::Answer;
    });
    assert_eq!(faults(vec![answer]), []);
}

#[test]
fn relays_of_other_kinds_are_found() {
    for message in [&b"\x81\x00"[..], b"", b"\x83\x06\x07\x81\x18\x65"] {
        let mut odd = relay(0, DISCOVERY);
        odd.given.message = message.to_vec();
        assert_eq!(faults(vec![odd]), [Fault::NoRelay { call: 0 }]);
    }
}

#[test]
fn too_many_negotiates_are_found() {
    let step = |kind, count, taken| Stepped {
        message: [&[0x83, kind, 7, 0x83][..], b"\x63EX1\x01", &[count]].concat(),
        sender: Side::We,
        taken,
    };
    let mut steps = vec![step(5, 3, false), step(3, 3, true), step(3, 1, false)];
    assert!(negotiates_within(&[]));
    for count in [2, 1] {
        steps.push(step(5, count, true));
        assert!(negotiates_within(&steps));
    }
    steps.push(step(5, 1, false));
    assert!(negotiates_within(&steps));
    steps.push(step(5, 1, true));
    assert!(!negotiates_within(&steps));
    assert!(!negotiates_within(&[step(3, 0, true)]));
    assert!(!negotiates_within(&[step(3, 1, true), step(5, 0, true)]));
}
