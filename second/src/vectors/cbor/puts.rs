//! Heads put into buffers.

use super::super::encode::shortest_head;
use super::{Case, ARGUMENT_EDGES};
use crate::random::Random;

/// Major types that have a shortest head, and others.
const MAJORS: [u8; 10] = [0, 1, 2, 3, 4, 5, 6, 7, 8, 255];

/// Every width edge of every major type: short by one, fitting, with room left, past the end.
pub fn width_edges() -> Vec<Case> {
    let mut random = Random::new(5);
    let mut cases = Vec::new();
    for major in MAJORS {
        for argument in ARGUMENT_EDGES {
            let length = shortest_head(0, argument).len();
            let places = [
                (0, 0),
                (0, length - 1),
                (0, length),
                (0, length + 3),
                (5, 5 + length - 1),
                (5, 5 + length),
                (5, 5 + length + 3),
                (9, 9),
                (10, 9),
                (255, 20),
            ];
            for (at, size) in places {
                let buffer = random.bytes(size);
                cases.push(Case::Put {
                    major,
                    at,
                    argument,
                    buffer,
                });
            }
        }
    }
    cases
}

/// Random heads at random positions of buffers of up to 64 bytes.
pub fn random_places() -> Vec<Case> {
    let mut random = Random::new(6);
    (0..400)
        .map(|_| {
            let size = random.below(65);
            Case::Put {
                major: random.below(8) as u8,
                at: random.below(size + 2) as u8,
                argument: random.number(),
                buffer: random.bytes(size),
            }
        })
        .collect()
}
