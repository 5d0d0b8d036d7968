//! The lists of steps that both are given.

use std::iter::repeat_with;

use archive::STATE_FIELDS;
use second::random::Random;
use second::vectors::damage::damaged;
use second::vectors::negotiation::generated::generated;
use second::vectors::negotiation::{self, Talk as Stored};

use super::{Move, Talk};

/// The steps of a generated list.
const STEPS: usize = 24;

/// Numbers of which some are none of ours.
const NUMBERS: &[u64] = &[
    0,
    1,
    2,
    3,
    7,
    255,
    256,
    257,
    (1 << 32) - 1,
    1 << 32,
    (1 << 32) + 1,
    1 << 63,
    u64::MAX,
];

/// The stored lists, then generated ones without end.
pub fn talks(seed: u64) -> impl Iterator<Item = Talk> {
    let mut random = Random::new(seed);
    let stored = negotiation::talks().into_iter().map(|talk| told(&talk));
    stored.chain(repeat_with(move || varied(&mut random)))
}

/// A generated list with other sides and messages, and half of the times other states.
fn varied(random: &mut Random) -> Talk {
    let mut talk = told(&generated(random, STEPS));
    for each in &mut talk.steps {
        vary(random, each);
    }
    if random.once_in(2) {
        tampered(random, talk)
    } else {
        talk
    }
}

fn told(stored: &Stored) -> Talk {
    let steps = stored.ops.iter().map(Move::of).collect();
    Talk { steps }
}

/// Another side or a damaged message, at times.
fn vary(random: &mut Random, each: &mut Move) {
    let Move::Step(message, side) = each else {
        return;
    };
    match random.below(40) {
        0 => *side = wide(random, *side),
        1 => *message = damaged(random, message),
        _ => {}
    }
}

/// A number with a bit more, so that the low bits may be the same, or any of the others.
fn wide(random: &mut Random, number: u64) -> u64 {
    if random.once_in(2) {
        return number.wrapping_add(1 << random.below(64));
    }
    *random.pick(NUMBERS)
}

/// The same with other numbers put before some steps: an open state that the generated messages
/// speak of, or one with numbers that are none of ours.
fn tampered(random: &mut Random, talk: Talk) -> Talk {
    let mut steps = Vec::new();
    for each in talk.steps {
        if random.once_in(3) {
            steps.push(Move::Put(state(random)));
        }
        steps.push(each);
    }
    Talk { steps }
}

fn state(random: &mut Random) -> [u64; STATE_FIELDS] {
    let phase = *random.pick(&[0, 1, 1, 1, 1, 2]);
    let session = *random.pick(&[0, 1, 2, 7, 7]);
    let count = *random.pick(&[0, 1, 2, 3, 5, 6, 255]);
    let mut state = [phase, session, count, random.below(2) as u64];
    for _ in 0..random.below(3) {
        let field = random.below(STATE_FIELDS);
        state[field] = wide(random, state[field]);
    }
    state
}
