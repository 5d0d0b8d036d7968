use super::*;

const REQUEST: &[u8] = b"\x83\x03\x07\x83\x63EX1\x03\x02";

/// What a step by a side must return on a state, and the state after it.
fn step(numbers: [u64; 4], side: u64, message: &[u8]) -> (u8, Vec<u64>) {
    let mut state = Guarded::numbers(STATE_FIELDS);
    state.put(&numbers);
    let number = expected::step(&mut state, message, side);
    (number, state.content().to_vec())
}

#[test]
fn a_fresh_state_opens() {
    assert_eq!(step([0; 4], 0, REQUEST), (0, vec![1, 7, 2, 1]));
    assert_eq!(step([0; 4], 1, REQUEST), (0, vec![1, 7, 2, 0]));
    assert_eq!(step([0, 9, 9, 1], 1, REQUEST), (0, vec![1, 7, 2, 0]));
}

#[test]
fn numbers_that_are_none_of_ours_are_20_after_the_message() {
    let wide = 1 << 32;
    for state in [[3, 0, 0, 0], [0, wide, 0, 0], [0, 0, 256, 0], [0, 0, 0, 2]] {
        assert_eq!(step(state, 0, REQUEST), (20, state.to_vec()));
        assert_eq!(step(state, 0, b"\x81\x00\x00"), (7, state.to_vec()));
    }
    assert_eq!(step([0; 4], 2, REQUEST), (20, vec![0; 4]));
    assert_eq!(step([0; 4], wide, b""), (1, vec![0; 4]));
}

#[test]
fn an_end_leaves_zeros() {
    let end = b"\x83\x06\x07\x81\x18\x65";
    assert_eq!(step([1, 7, 2, 1], 1, end), (0, vec![2, 0, 0, 0]));
    assert_eq!(step([2, 7, 2, 1], 1, end), (20, vec![2, 7, 2, 1]));
}
