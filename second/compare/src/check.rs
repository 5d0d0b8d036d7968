//! One input read by both, with all that is said of it compared.

use second::random::Random;

use crate::difference::Difference;
use crate::{expected, library};

/// Up to this length every place of an input is tried.
const SHORT: usize = 48;

/// The first difference in what is said of the message, or of any of the places.
pub fn difference(bytes: &[u8], places: &[usize]) -> Option<Difference> {
    let whole = || {
        let (library, second) = (library::description(bytes), expected::description(bytes));
        Difference::between(
            "grasp_read, and the steps through its list",
            library,
            second,
        )
    };
    let locator = |at| {
        let (library, second) = (library::locator(bytes, at), expected::locator(bytes, at));
        Difference::between(format_args!("grasp_locator at {at}"), library, second)
    };
    let pair = |at| {
        let (library, second) = (library::pair(bytes, at), expected::pair(bytes, at));
        Difference::between(format_args!("grasp_pair at {at}"), library, second)
    };
    whole().or_else(|| {
        let mut places = places.iter().copied();
        places.find_map(|at| locator(at).or_else(|| pair(at)))
    })
}

/// Every place of bytes of this length and those that lie far off.
pub fn every_place(length: usize) -> Vec<usize> {
    (0..=length + 1).flat_map(near_and_far).collect()
}

/// The same for short bytes; else where a locator or pair may begin, and some more.
pub fn some_places(random: &mut Random, bytes: &[u8]) -> Vec<usize> {
    let far = random.below(bytes.len() + 2);
    let near: Vec<usize> = if bytes.len() <= SHORT {
        (0..=bytes.len() + 1).collect()
    } else {
        let heads = (0..bytes.len()).filter(|&at| matches!(bytes[at], 0x82 | 0x84));
        let others = (0..8).map(|_| random.below(bytes.len() + 2));
        heads.take(SHORT).chain(others).collect()
    };
    near.into_iter().chain(near_and_far(far)).collect()
}

/// A place, and those that it would be taken for if bits or signs were lost.
fn near_and_far(at: usize) -> [usize; 5] {
    [
        at,
        at + (1 << 32),
        at + (1 << 63),
        at.wrapping_neg(),
        usize::MAX - at,
    ]
}
