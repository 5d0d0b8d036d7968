//! The messages that are read, written and handed to a node.

use second::vectors::unhex;

/// Session 7, and then an initiator: 192.0.2.1, or our own address, that of rules 12.5.
const THEIRS: &str = "07 44 C0000201";
const OURS: &str = "07 50 20010DB8000000000000000000000001";
const TTL: &str = "19 EA60";

/// Who a Discovery or Flood is from.
#[derive(Clone, Copy)]
pub enum From {
    Them,
    Us,
}

/// One locator of each kind.
const V6: &str = "84 1867 50 20010DB8000000000000000000000001 06 19 1B69";
const V4: &str = "84 1868 44 C0000201 11 1850";
const DOMAIN: &str = "84 1869 69 612E6578616D706C65 06 19 01BB";
const URI: &str = "84 186A 68 636F61703A2F2F61 F6 F6";

/// ["Example 1 value=", 100], of 20 bytes.
const VALUE: &str = "82 70 4578616D706C6520312076616C75653D 1864";

/// An array of three that holds the next level, and so a map and a tag.
const LEVELS: &str = "83 00 63616263";
const IN_A_MAP: &str = "A1 63616263";
const IN_A_TAG: &str = "C1";

/// How many pairs make a Flood of 1,832 bytes, and values a Discovery or Negotiate of about that.
pub const MANY_PAIRS: usize = 35;
const MANY_VALUES: usize = 89;

/// "EX1" with flags 1, count 2 and an array of 89 values, which follow.
const LONG_OBJECTIVE: &str = "84 63455831 01 02 98 59";

fn start(from: From) -> &'static str {
    match from {
        From::Them => THEIRS,
        From::Us => OURS,
    }
}

/// "EX1" with flags 1 and this count, of which there are no more than 23.
fn objective(count: u8) -> String {
    format!("83 63455831 01 {count:02X}")
}

/// That of rules 12.2 has 15 bytes: from them, with a count of 2.
pub fn discovery(from: From, count: u8) -> Vec<u8> {
    unhex(&["84 01", start(from), &objective(count)].concat())
}

/// From them.
pub fn long_discovery() -> Vec<u8> {
    unhex(&["84 01", THEIRS, LONG_OBJECTIVE, &VALUE.repeat(MANY_VALUES)].concat())
}

/// Each kind of locator twice.
pub fn response() -> Vec<u8> {
    let locators = [V6, V4, DOMAIN, URI].concat().repeat(2);
    unhex(&["8C 02", THEIRS, TTL, &locators].concat())
}

/// Pairs of an objective with a value and a locator; the count is the first's.
pub fn flood(from: From, count: u8, pairs: usize) -> Vec<u8> {
    let pair = |count| format!("82 84 63455831 05 {count:02X} {VALUE} {V6}");
    let items = 4 + pairs;
    let head = match items {
        0..=23 => format!("{:02X}", 0x80 + items),
        _ => format!("98 {items:02X}"),
    };
    let pairs = [pair(count), pair(2).repeat(pairs - 1)].concat();
    unhex(&[&head, " 09", start(from), TTL, &pairs].concat())
}

pub fn negotiate() -> Vec<u8> {
    unhex(&["83 05 07", &objective(2)].concat())
}

pub fn long_negotiate() -> Vec<u8> {
    unhex(&["83 05 07", LONG_OBJECTIVE, &VALUE.repeat(MANY_VALUES)].concat())
}

/// A value of six levels in the message's third.
pub fn deep() -> Vec<u8> {
    let value = [LEVELS, IN_A_MAP, IN_A_TAG].concat().repeat(2);
    unhex(&["83 05 07 84 63455831 01 02", &value, "F6"].concat())
}

#[cfg(test)]
mod tests {
    use super::*;
    use second::message::read;

    #[test]
    fn sizes_are_as_said() {
        assert_eq!(discovery(From::Them, 2).len(), 15);
        assert_eq!(flood(From::Them, 2, MANY_PAIRS).len(), 1_832);
        let mut deeper = deep();
        *deeper.last_mut().expect("a value") = 0x80;
        assert_eq!(read(&deeper), Err(6));
    }
}
