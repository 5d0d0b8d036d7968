//! Lists of steps, which are taken one after the other from one beginning.

use std::fmt::Display;

use crate::difference::Difference;
use crate::shrink::Case;

/// A step of a list.
pub trait Listed: Clone + Display {
    /// Whether it calls the node or steps a negotiation, and nothing else.
    fn is_call(&self) -> bool;

    /// The first difference that the steps make, with the place of its step; demand 3's is at the
    /// last one.
    fn difference(steps: &[Self]) -> Option<(usize, Difference)>;
}

#[derive(Clone)]
pub struct List<T> {
    pub steps: Vec<T>,
}

impl<T: Listed> List<T> {
    /// How many calls it has.
    pub fn calls(&self) -> usize {
        self.steps.iter().filter(|step| step.is_call()).count()
    }

    pub fn difference(&self) -> Option<(usize, Difference)> {
        T::difference(&self.steps)
    }

    /// The steps up to the failing one, if one fails.
    pub fn failing(&self) -> Option<List<T>> {
        let (place, _) = self.difference()?;
        let steps = self.steps[..=place].to_vec();
        Some(List { steps })
    }
}

impl<T: Listed> Case for List<T> {
    fn size(&self) -> usize {
        self.steps.len()
    }

    fn without(&self, from: usize, length: usize) -> List<T> {
        let mut less = self.clone();
        less.steps.drain(from..less.steps.len().min(from + length));
        less
    }
}
