//! Messages in few bytes of a fuzzer's input, so that lists of calls are short.

use second::writer::items::head;

use crate::input::Input;

/// The address that records are mostly given: an initiator of these bytes is ours.
pub const ADDRESS: [u8; 16] = [0x20; 16];

/// Names of objectives; the second is that of rules 12, the last two are refused.
const NAMES: [&[u8]; 8] = [
    b"",
    b"EX1",
    b"EX2",
    b"EX1",
    b"EX2",
    &[b'x'; 64],
    &[b'x'; 65],
    b"\xC3",
];

/// Own names: none, one, three, and an array that is cut.
const OWN: [&[u8]; 4] = [
    b"\x80",
    b"\x81\x63EX1",
    b"\x83\x60\x61\x00\x63EX2",
    b"\x82\x60",
];

/// A message of a random sort: put together, put together and damaged, long, or raw.
pub fn message(input: &mut Input) -> Vec<u8> {
    let sort = input.byte();
    match sort {
        0..=175 => sketched(input, sort),
        176..=211 => damaged(input, sort),
        212 | 213 => filled(input),
        214 | 215 => crowded(input),
        _ => input.bytes().to_vec(),
    }
}

/// An Invalid of 2,041 to 2,056 bytes.
fn filled(input: &mut Input) -> Vec<u8> {
    let content = vec![input.byte(); 2_034 + input.below(16)];
    let start = [0x83, 0x18, 99, 7];
    [&start[..], &head(2, content.len() as u64), &content].concat()
}

/// A Flood of up to 340 pairs, which may be too long.
fn crowded(input: &mut Input) -> Vec<u8> {
    let pairs = input.number() % 341;
    let initiator = initiator(input);
    let start = [&head(4, 4 + pairs)[..], &[9, 7], &initiator, &[0]].concat();
    let pair = [0x82, 0x83, 0x60, 4, input.byte() % 24, 0x80];
    [start, pair.repeat(pairs as usize)].concat()
}

/// Own names, mostly good ones.
pub fn names(input: &mut Input) -> Vec<u8> {
    match input.byte() {
        sort @ 0..=179 => OWN[usize::from(sort) % 3].to_vec(),
        180..=209 => many_names(input),
        210..=219 => OWN[3].to_vec(),
        _ => input.bytes().to_vec(),
    }
}

/// Up to 17 names of objectives.
fn many_names(input: &mut Input) -> Vec<u8> {
    let many = input.below(18);
    let mut names = vec![0x80 + many as u8];
    for _ in 0..many {
        let name = NAMES[input.below(NAMES.len())];
        names.extend(head(3, name.len() as u64));
        names.extend(name);
    }
    names
}

/// The same with a byte changed, taken away or put.
fn damaged(input: &mut Input, sort: u8) -> Vec<u8> {
    let mut bytes = sketched(input, sort);
    let at = input.below(bytes.len());
    match input.below(3) {
        0 => bytes[at] = input.byte(),
        1 => drop(bytes.remove(at)),
        _ => bytes.insert(at, input.byte()),
    }
    bytes
}

/// A Discovery, a Flood or a message of another kind.
fn sketched(input: &mut Input, sort: u8) -> Vec<u8> {
    let session = head(0, input.number());
    match sort % 11 {
        0..=3 => [
            &[0x84, 1][..],
            &session,
            &initiator(input),
            &objective(input),
        ]
        .concat(),
        4..=6 => flood(input, &session),
        7 => vec![0x81, 0],
        8 => [&[0x83, 3][..], &session, &objective(input)].concat(),
        9 => [&[0x83, 99][..], &session, input.bytes()].concat(),
        _ => response(input, &session),
    }
}

/// A Flood of one to four pairs.
fn flood(input: &mut Input, session: &[u8]) -> Vec<u8> {
    let pairs = 1 + input.below(4);
    let initiator = initiator(input);
    let ttl = head(0, input.number());
    let mut flood = [&[0x84 + pairs as u8, 9][..], session, &initiator, &ttl].concat();
    for _ in 0..pairs {
        flood.push(0x82);
        flood.extend(objective(input));
        match input.below(2) {
            0 => flood.push(0x80),
            _ => flood.extend(locator(input)),
        }
    }
    flood
}

/// A Response with one to four locators or a divert of them, and at times an objective.
fn response(input: &mut Input, session: &[u8]) -> Vec<u8> {
    let sort = input.byte();
    let initiator = initiator(input);
    let ttl = head(0, input.number());
    let many = 1 + sort / 4 % 4;
    let locators: Vec<u8> = (0..many).flat_map(|_| locator(input)).collect();
    let (items, target) = match sort & 1 {
        0 => (0x84 + many, locators),
        _ => (0x85, [&[0x81 + many, 0x18, 100][..], &locators].concat()),
    };
    let objective = match sort & 2 {
        0 => vec![],
        _ => objective(input),
    };
    let items = items + u8::from(!objective.is_empty());
    let start = [&[items, 2][..], session, &initiator, &ttl].concat();
    [start, target, objective].concat()
}

/// The session and count of a negotiation's last Request or Negotiate.
#[derive(Default)]
pub struct Said {
    session: u64,
    count: u64,
}

/// The message of a negotiation: a Request, Negotiate, End or Wait, mostly of the session that was
/// said and, if a Negotiate, with one less than its count.
pub fn negotiating(input: &mut Input, said: &mut Said) -> Vec<u8> {
    let sort = input.byte();
    let count = said.count.wrapping_sub(1);
    if sort < 96 {
        said.session = input.number();
    }
    let session = head(0, said.session);
    match sort % 8 {
        0 | 1 => {
            said.count = input.number();
            [&[0x83, 3][..], &session, &objective_of(input, said.count)].concat()
        }
        2 | 3 if sort < 192 => {
            said.count = count;
            [&[0x83, 5][..], &session, &objective_of(input, count)].concat()
        }
        2..=4 => [&[0x83, 5][..], &session, &objective(input)].concat(),
        5 => [&[0x83, 6][..], &session, &[0x81, 0x18, 101 + sort / 128]].concat(),
        6 => [&[0x83, 7][..], &session, &head(0, input.number())].concat(),
        _ => message(input),
    }
}

/// Four or sixteen bytes, of which some are our address.
fn initiator(input: &mut Input) -> Vec<u8> {
    match input.byte() {
        0 => [&[0x50][..], &ADDRESS].concat(),
        1 => [&[0x44][..], &ADDRESS[..4]].concat(),
        2 => [&[0x50][..], &[0; 16]].concat(),
        byte if byte < 128 => vec![0x44, 0xC0, 0, 2, byte],
        byte => [&[0x50][..], &[byte; 16]].concat(),
    }
}

fn objective(input: &mut Input) -> Vec<u8> {
    let count = input.number();
    objective_of(input, count)
}

/// An objective with this count.
fn objective_of(input: &mut Input, count: u64) -> Vec<u8> {
    let sort = input.byte();
    let name = NAMES[usize::from(sort) % NAMES.len()];
    let flags = head(0, u64::from(sort / 8 % 17));
    let count = head(0, count);
    let value = if sort < 200 { &[] } else { input.bytes() };
    let items = if sort < 200 { 0x83 } else { 0x84 };
    [
        &[items][..],
        &head(3, name.len() as u64),
        name,
        &flags,
        &count,
        value,
    ]
    .concat()
}

/// A locator; the texts of some aren't UTF-8.
fn locator(input: &mut Input) -> Vec<u8> {
    let sort = input.byte();
    let port = head(0, input.number());
    match sort % 5 {
        0 => [&[0x84, 0x18, 103, 0x50][..], &ADDRESS, &[6], &port].concat(),
        1 => [&[0x84, 0x18, 104, 0x44, 192, 0, 2, 1, 17][..], &port].concat(),
        2 => [&[0x84, 0x18, 105, 0x62, sort, 0x80, 6][..], &port].concat(),
        3 => [&[0x84, 0x18, 106, 0x62, 0xC3, sort, 0xF6][..], &port].concat(),
        _ => [&[0x84, 0x18, 106, 0x61, sort, sort % 18][..], &[0xF6]].concat(),
    }
}
