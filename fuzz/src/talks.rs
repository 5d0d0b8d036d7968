//! Lists of negotiation steps that a fuzzer's bytes say.

use compare::negotiation::{Move, Talk};

use crate::input::Input;
use crate::messages::{negotiating, Said};

/// The most moves of a list.
const MOST_MOVES: usize = 300;

/// Steps, and where it is said other numbers put in the state.
pub fn talk(input: &mut Input, is_tampered: bool) -> Talk {
    let (mut steps, mut said) = (Vec::new(), Said::default());
    while !input.is_empty() && steps.len() < MOST_MOVES {
        let sort = input.byte();
        steps.push(match sort {
            224.. if is_tampered => Move::Put(std::array::from_fn(|_| input.number())),
            216..=223 => Move::Step(negotiating(input, &mut said), input.number()),
            _ => Move::Step(negotiating(input, &mut said), u64::from(sort % 2)),
        });
    }
    Talk { steps }
}
