//! What the second program reads, said as include/grasp.h says it.

use second::block;
use second::message::{self, Locator, Message, Pair, Span};

use crate::answer::{Answer, Description, LocatorAnswer, PairAnswer};

/// What must be said of the message, and of each element of its list.
pub fn description(bytes: &[u8]) -> Description {
    let (mut locators, mut pairs) = (vec![], vec![]);
    let read = match message::read(bytes) {
        Err(number) => Answer::refused(usize::from(number)),
        Ok(message) => {
            let places = message::elements(bytes, &message);
            let after = places.iter().map(Span::end);
            match &message {
                Message::Response { target, .. } => {
                    let each = after.zip(target.locators());
                    locators = each.map(|(after, each)| located(each, after)).collect();
                }
                Message::Flood { pairs: listed, .. } => {
                    let each = after.zip(listed);
                    pairs = each.map(|(after, each)| paired(each, after)).collect();
                }
                _ => {}
            }
            Answer::filled(0, &block::of_message(bytes, &message))
        }
    };
    Description {
        read,
        locators,
        pairs,
    }
}

/// What must be said of the locator at a place.
pub fn locator(bytes: &[u8], at: usize) -> LocatorAnswer {
    match message::locator_at(bytes, at) {
        Some((locator, after)) => located(&locator, after),
        None => Answer::refused(0),
    }
}

/// The same of a pair.
pub fn pair(bytes: &[u8], at: usize) -> PairAnswer {
    match message::pair_at(bytes, at) {
        Some((pair, after)) => paired(&pair, after),
        None => Answer::refused(0),
    }
}

fn located(locator: &Locator, after: usize) -> LocatorAnswer {
    Answer::filled(after, &block::of_locator(locator))
}

fn paired(pair: &Pair, after: usize) -> PairAnswer {
    Answer::filled(after, &block::of_pair(pair))
}

#[cfg(test)]
mod tests {
    use super::*;

    /// The Flood of rules 12.6.
    const FLOOD: &[u8] = b"\x85\x09\x07\x44\xC0\x00\x02\x01\x19\x03\xE8\x82\x83\x63EX1\x04\x02\x80";

    #[test]
    fn lists_are_gone_through() {
        let said = description(FLOOD);
        assert_eq!(said.read.number, 0);
        assert!(said.pairs == [pair(FLOOD, 11)]);
        assert_eq!(said.pairs[0].number, FLOOD.len());
        assert!(description(b"\x80").read == Answer::refused(9));
    }

    #[test]
    fn nothing_stands_elsewhere() {
        for at in [0, 12, FLOOD.len(), usize::MAX] {
            assert!(locator(FLOOD, at) == Answer::refused(0));
            assert!(pair(FLOOD, at) == Answer::refused(0));
        }
    }
}
