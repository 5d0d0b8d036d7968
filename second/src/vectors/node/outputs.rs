//! Outputs of many lengths.

use super::super::message::parts;
use super::draft::Draft;
use super::story::{given, Op, Story, ADDRESS, EX1};
use crate::node::Given;

/// Too short, just long enough and longer.
const LENGTHS: [usize; 8] = [0, 1, 35, 2_000, 2_047, 2_048, 2_049, 2_100];

/// Every sort of verdict and a refused message with outputs of every length.
pub fn stories() -> Vec<Story> {
    let mut story = Story::fresh(3, 7);
    let messages = [
        b"\x81\x00".to_vec(),
        parts::end(parts::accept()).encoded(),
        Draft::flood().from(&ADDRESS).bytes(),
        Draft::discovery().bytes(),
        Draft::discovery().name("other").bytes(),
        Draft::flood().bytes(),
        Draft::flood().count(0).session(8).bytes(),
        b"\x81".to_vec(),
        vec![],
    ];
    for (round, out_len) in LENGTHS.into_iter().enumerate() {
        for message in &messages {
            story.ops.push(Op::Call(Given {
                names: EX1.to_vec(),
                out_len,
                ..given(120_000 * round as u64, 1, message)
            }));
        }
    }
    vec![story]
}
