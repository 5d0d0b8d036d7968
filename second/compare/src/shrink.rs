//! Makes a failing case smaller.

/// Something made of pieces that can be taken away.
pub trait Case {
    /// How many pieces there are.
    fn size(&self) -> usize;

    /// The same without so many pieces from a place on, or up to the end.
    fn without(&self, from: usize, length: usize) -> Self;
}

/// A case that still fails and does not when any single piece is taken away.
pub fn shrink<T: Case>(failing: T, fails: impl Fn(&T) -> bool) -> T {
    let mut best = failing;
    let mut length = best.size();
    while length > 0 {
        match smaller(&best, length, &fails) {
            Some(less) => best = less,
            None => length /= 2,
        }
    }
    best
}

/// The same without so many pieces at some place, if that still fails.
fn smaller<T: Case>(case: &T, length: usize, fails: impl Fn(&T) -> bool) -> Option<T> {
    (0..case.size())
        .step_by(length)
        .map(|from| case.without(from, length))
        .find(|less| fails(less))
}

#[cfg(test)]
mod tests {
    use super::*;
    use crate::inputs::Input;

    #[test]
    fn what_matters_is_kept() {
        let holds = |input: &Input| input.shown().contains(&7) && input.shown().contains(&9);
        let long = Input::new([vec![0; 100], vec![7; 30], vec![1; 50], vec![9]].concat());
        assert_eq!(shrink(long, holds).shown(), [7, 9]);
        assert_eq!(shrink(Input::new(vec![3; 50]), |_| true).shown(), []);
    }
}
