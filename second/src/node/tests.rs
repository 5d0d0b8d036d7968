use super::*;

const DISCOVERY: &[u8] = b"\x84\x01\x07\x44\xC0\x00\x02\x01\x83\x63EX1\x01\x02";
const FLOOD: &[u8] = b"\x85\x09\x07\x44\xC0\x00\x02\x01\x19\x03\xE8\x82\x83\x63EX1\x04\x02\x80";
const ANSWER: &[u8] = b"\x85\x02\x07\x44\xC0\x00\x02\x01\x19\xEA\x60\x84\x18\x67\x50\
    \x20\x01\x0D\xB8\x00\x00\x00\x00\x00\x00\x00\x00\x00\x00\x00\x01\x06\x19\x1B\x69";
const ADDRESS: [u8; 16] = *b"\x20\x01\x0D\xB8\0\0\0\0\0\0\0\0\0\0\0\x01";

/// The record of rules 12.5, with another count and mask.
fn asked(count: u64, mask: u64) -> Fresh {
    Fresh {
        address: ADDRESS,
        port: 7_017,
        ttl: 60_000,
        count,
        mask,
    }
}

/// A node with its table.
#[derive(Clone, Debug, PartialEq, Eq)]
struct Node {
    record: Record,
    table: Vec<u64>,
}

impl Node {
    /// The node of rules 12.3: 3 interfaces, all up.
    fn fresh() -> Node {
        let (record, number) = Record::fresh(&asked(3, 7));
        assert_eq!(number, 0);
        let table = vec![0; NUMBERS];
        Node { record, table }
    }

    fn call(&mut self, given: &Given) -> Result<Answer, u8> {
        call(&mut self.record, &mut self.table, given)
    }

    /// The verdict on a message that arrives on 0.
    fn verdict(&mut self, clock: u64, message: &[u8]) -> Verdict {
        let answer = self.call(&given(clock, message)).expect("a verdict");
        answer.verdict
    }

    /// Whether a call is refused so, with nothing changed.
    fn refuses(&mut self, number: u8, given: &Given) {
        let before = self.clone();
        assert_eq!(self.call(given), Err(number));
        assert_eq!(*self, before);
    }
}

/// A call on interface 0 of a node without names.
fn given(clock: u64, message: &[u8]) -> Given {
    Given {
        clock,
        interface: 0,
        names: b"\x80".to_vec(),
        message: message.to_vec(),
        out_len: MOST_BYTES,
    }
}

fn ending(message: &[u8], last: &[u8]) -> Vec<u8> {
    [&message[..message.len() - 1], last].concat()
}

/// A Discovery or Flood of another session, below 24.
fn session(message: &[u8], session: u8) -> Vec<u8> {
    let mut other = message.to_vec();
    other[2] = session;
    other
}

#[test]
fn discovery_at_the_edges() {
    let mut node = Node::fresh();
    let relay = Answer {
        verdict: Verdict::Relay,
        mask: 6,
        handed_up: false,
        output: ending(DISCOVERY, b"\x01"),
    };
    assert_eq!(node.call(&given(5, DISCOVERY)), Ok(relay.clone()));
    assert_eq!((node.record.tally, node.record.clock), (2, 5));
    assert_eq!(node.table[..4], [(1 << 32) + 7, 0xC000_0201, 0, 5]);
    assert!(node.table[4..].iter().all(|&number| number == 0));
    assert_eq!(node.verdict(5, DISCOVERY), Verdict::Duplicate);
    assert_eq!(node.verdict(5 + 59_999, DISCOVERY), Verdict::Duplicate);
    assert_eq!(node.record.tally, 2);
    assert_eq!(node.call(&given(5 + 60_000, DISCOVERY)), Ok(relay));
    assert_eq!(node.record.tally, 4);
    assert_eq!(node.table[..4], [(1 << 32) + 7, 0xC000_0201, 0, 60_005]);
}

#[test]
fn counts_at_the_edges() {
    let long = ending(DISCOVERY, b"\x18\x18");
    assert_eq!(long.len(), 16);
    let answer = Node::fresh().call(&given(0, &long)).expect("a verdict");
    assert_eq!(answer.verdict, Verdict::Relay);
    assert_eq!(answer.output, ending(DISCOVERY, b"\x17"));
    assert_eq!(answer.output.len(), 15);
    for count in [b"\x00", b"\x01"] {
        let mut node = Node::fresh();
        let answer = node.call(&given(9, &ending(DISCOVERY, count)));
        let last = Answer {
            verdict: Verdict::Last,
            mask: 0,
            handed_up: false,
            output: vec![],
        };
        assert_eq!(answer, Ok(last));
        assert_eq!(node.table, Node::fresh().table);
        assert_eq!((node.record.clock, node.record.tally), (9, 0));
    }
}

#[test]
fn answer_at_the_edges() {
    let mut node = Node::fresh();
    let mut asked = given(1, DISCOVERY);
    asked.interface = 2;
    asked.names = b"\x82\x60\x63EX1".to_vec();
    let answer = Answer {
        verdict: Verdict::Answer,
        mask: 4,
        handed_up: false,
        output: ANSWER.to_vec(),
    };
    assert_eq!(ANSWER.len(), 35);
    for _ in 0..2 {
        assert_eq!(node.call(&asked), Ok(answer.clone()));
        assert_eq!(node.table, Node::fresh().table);
        assert_eq!(node.record.tally, 0);
    }
}

#[test]
fn flood_at_the_edges() {
    let mut node = Node::fresh();
    let mut relayed = FLOOD.to_vec();
    relayed[18] = 1;
    let relay = Answer {
        verdict: Verdict::Relay,
        mask: 6,
        handed_up: true,
        output: relayed,
    };
    assert_eq!(node.call(&given(0, FLOOD)), Ok(relay.clone()));
    assert_eq!(node.table[..4], [(3 << 32) + 7, 0xC000_0201, 0, 0]);
    let again = node.call(&given(119_999, FLOOD)).expect("a verdict");
    assert_eq!(again.verdict, Verdict::Duplicate);
    assert!(!again.handed_up);
    assert_eq!(node.call(&given(120_000, FLOOD)), Ok(relay));
}

#[test]
fn a_flood_is_judged_by_its_first_count() {
    let pair = |count| [b"\x82\x83\x63EX1\x04", &[count][..], b"\x80"].concat();
    let flood = |first, second| {
        let start = [b"\x86", &FLOOD[1..11]].concat();
        [start, pair(first), pair(second)].concat()
    };
    assert_eq!(Node::fresh().verdict(0, &flood(1, 9)), Verdict::Last);
    let answer = Node::fresh().call(&given(0, &flood(9, 0)));
    assert_eq!(answer.expect("a verdict").output, flood(8, 0));
}

#[test]
fn full_tables_at_the_edges() {
    let mut node = Node::fresh();
    for clock in 0..64 {
        let mut message = DISCOVERY.to_vec();
        message[5] = 1 + clock as u8;
        assert_eq!(node.verdict(clock, &message), Verdict::Relay);
    }
    assert_eq!(node.record.tally, 128);
    assert_eq!(node.verdict(63, DISCOVERY), Verdict::NoRow);
    assert_eq!(node.verdict(59_999, FLOOD), Verdict::NoRow);
    assert_eq!(node.verdict(60_000, FLOOD), Verdict::Relay);
    assert_eq!(node.table[0], (3 << 32) + 7);
    assert_eq!(node.verdict(60_000, DISCOVERY), Verdict::NoRow);
}

#[test]
fn initiators_of_two_lengths_are_two_keys() {
    let long = |message: &[u8]| {
        let initiator = [&[0x50], &[0; 12][..], &message[4..8]].concat();
        [&message[..3], &initiator, &message[8..]].concat()
    };
    let mut node = Node::fresh();
    let messages = [
        DISCOVERY.to_vec(),
        long(DISCOVERY),
        FLOOD.to_vec(),
        long(FLOOD),
    ];
    for message in &messages {
        assert_eq!(node.verdict(0, message), Verdict::Relay);
    }
    let tags: Vec<u64> = node.table.chunks(4).map(|row| row[0] >> 32).collect();
    assert_eq!(tags[..5], [1, 2, 3, 4, 0]);
    assert_eq!(node.table[4..8], [(2 << 32) + 7, 0, 0xC000_0201, 0]);
    for message in &messages {
        assert_eq!(node.verdict(0, message), Verdict::Duplicate);
    }
}

#[test]
fn own_messages_are_known() {
    let long = |message: &[u8]| [&message[..3], b"\x50", &ADDRESS, &message[8..]].concat();
    let mut node = Node::fresh();
    for message in [DISCOVERY, FLOOD] {
        let mut asked = given(0, &long(message));
        asked.names = b"\x81\x63EX1".to_vec();
        let answer = node.call(&asked).expect("a verdict");
        assert_eq!((answer.verdict, answer.handed_up), (Verdict::Own, false));
    }
    node.record.address = [0xC0; 16];
    let mut short = DISCOVERY.to_vec();
    short[4..8].copy_from_slice(&[0xC0; 4]);
    assert_eq!(node.verdict(0, &short), Verdict::Relay);
}

#[test]
fn refusals_come_in_order() {
    let mut node = Node::fresh();
    assert_eq!(node.verdict(10, b"\x81\x00"), Verdict::Noop);
    node.record.tally = (1 << 63) + 1;
    node.table[3] = 1;
    let mut wrong = given(9, b"");
    wrong.interface = 3;
    wrong.names = vec![];
    wrong.out_len = MOST_BYTES - 1;
    node.refuses(BAD_RECORD, &wrong);
    node.record.tally = 1 << 63;
    node.refuses(BAD_LINK, &wrong);
    wrong.interface = 2;
    node.refuses(EARLY, &wrong);
    wrong.clock = 10;
    node.refuses(BAD_TABLE, &wrong);
    node.table[3] = 0;
    node.refuses(BAD_NAMES, &wrong);
    wrong.names = vec![0x80];
    node.refuses(SHORT_OUTPUT, &wrong);
    wrong.out_len += 1;
    node.refuses(message::SIZE, &wrong);
    wrong.message = DISCOVERY.to_vec();
    let answer = node.call(&wrong).expect("a verdict");
    assert_eq!((answer.verdict, answer.mask), (Verdict::Relay, 3));
    assert_eq!(node.record.tally, (1 << 63) + 2);
    node.refuses(BAD_RECORD, &wrong);
}

#[test]
fn dead_rows_are_freed_by_every_verdict() {
    let mut node = Node::fresh();
    assert_eq!(node.verdict(0, DISCOVERY), Verdict::Relay);
    assert_eq!(node.verdict(0, &session(FLOOD, 9)), Verdict::Relay);
    node.refuses(message::SIZE, &given(60_000, b""));
    assert_eq!(node.verdict(60_000, b"\x81\x00"), Verdict::Noop);
    assert_eq!(node.table[..4], [0; 4]);
    assert_eq!(node.table[4], (3 << 32) + 9);
    let end = b"\x83\x06\x07\x81\x18\x65";
    assert_eq!(node.verdict(120_000, end), Verdict::Hand);
    assert_eq!(node.table, Node::fresh().table);
}

#[test]
fn bad_rows_are_refused() {
    let good = [(1 << 32) + 7, 0xC000_0201, 0, 100];
    let wide = [(4 << 32) + 7, u64::MAX, u64::MAX, 0];
    for bad in [
        [0, 0, 0, 1],
        [0, 1, 0, 0],
        [7, 0, 0, 0],
        [(5 << 32) + 7, 0, 0, 0],
        [(1 << 40) + (1 << 32) + 7, 0, 0, 0],
        [(1 << 32) + 7, 1 << 32, 0, 0],
        [(3 << 32) + 7, 0, 1, 0],
        [(1 << 32) + 7, 0, 0, 101],
    ] {
        for row in [0, 31, 63] {
            let mut node = Node::fresh();
            node.table[4 * row..][..4].copy_from_slice(&bad);
            node.refuses(BAD_TABLE, &given(100, DISCOVERY));
            for right in [good, wide] {
                node.table[4 * row..][..4].copy_from_slice(&right);
                assert!(node.call(&given(100, DISCOVERY)).is_ok());
            }
        }
    }
    for length in [0, 252, 255, 257, 260] {
        let mut node = Node::fresh();
        node.table = vec![0; length];
        node.refuses(BAD_TABLE, &given(0, DISCOVERY));
    }
}

#[test]
fn records_are_judged() {
    let zeros = (Record::default(), BAD_RECORD);
    for (count, mask) in [(0, 0), (9, 1), (3, 8), (256 + 3, 7), (8, 256), (8, 1 << 32)] {
        assert_eq!(Record::fresh(&asked(count, mask)), zeros);
    }
    let mut node = Node::fresh();
    assert_eq!(node.record.set_links(8), Err(BAD_LINK));
    assert_eq!(node.record.set_links(5), Ok(()));
    let mut down = given(0, DISCOVERY);
    for interface in [1, 3, 64, 256, 1 << 32, u64::MAX] {
        down.interface = interface;
        node.refuses(BAD_LINK, &down);
    }
    assert_eq!(node.record.set_links(1), Ok(()));
    assert_eq!(node.verdict(0, DISCOVERY), Verdict::Nowhere);
    node.record.mask = 9;
    assert_eq!(node.record.set_links(1), Err(BAD_RECORD));
}

#[test]
fn names_are_judged() {
    let mut node = Node::fresh();
    let text = |length: usize| [&[0x78, length as u8][..], &vec![b'n'; length]].concat();
    let of = |count: u8, name: &[u8]| [&[0x80 + count][..], &name.repeat(count.into())].concat();
    for good in [of(0, b""), of(16, b"\x60"), of(1, &text(64))] {
        let mut asked = given(0, DISCOVERY);
        asked.names = good;
        assert!(node.call(&asked).is_ok());
    }
    for bad in [
        vec![],
        of(17, b"\x60"),
        of(1, &text(65)),
        of(1, b"\x61\xC3"),
        of(1, b"\x41a"),
        b"\x60".to_vec(),
        b"\xA0".to_vec(),
        b"\xC0\x80".to_vec(),
        b"\x80\x00".to_vec(),
        b"\x9F\xFF".to_vec(),
        b"\x98\x00".to_vec(),
    ] {
        let mut asked = given(0, b"\x81\x00");
        asked.names = bad;
        node.refuses(BAD_NAMES, &asked);
    }
}
