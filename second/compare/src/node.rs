//! Node histories through the library for C, with the record as numbers and as a struct that is
//! changed in place, step by step beside the second program.

mod expected;
mod generated;
mod host;
mod step;

use second::history;

use crate::difference::Difference;
use crate::library::{InPlace, OverNumbers};
use crate::list::{List, Listed};

pub use expected::Second;
pub use generated::histories;
pub use host::{Host, Node, MOST_TABLE, ROW_BYTES};
pub use step::Step;

/// Steps from memory that nobody has filled.
pub type History = List<Step>;

impl Listed for Step {
    fn is_call(&self) -> bool {
        matches!(self, Step::Call(_))
    }

    fn difference(steps: &[Step]) -> Option<(usize, Difference)> {
        let (mut library, mut in_place) = (Host::new(), Host::new());
        let mut second = Host::new();
        let mut calls = Vec::new();
        for (place, step) in steps.iter().enumerate() {
            step.take::<OverNumbers>(&mut library);
            step.take::<InPlace>(&mut in_place);
            step.take::<Second>(&mut second);
            let found = library.difference(&second).or_else(|| {
                let found = in_place.difference(&second)?;
                Some(found.in_place())
            });
            if let Some(difference) = found {
                return Some((place, difference));
            }
            calls.extend(library.called(step));
        }
        let history = history::History {
            interfaces: interfaces(steps)?,
            calls,
            tally: library.tally(),
        };
        let fault = history.faults().first()?.to_string();
        Some((steps.len() - 1, Difference::of_demand(fault)))
    }
}

/// The interfaces of a list that demand 3 speaks of: a fresh record that is not refused, then
/// nothing but calls and settings of links.
fn interfaces(steps: &[Step]) -> Option<u64> {
    let (first, others) = steps.split_first()?;
    let Step::Fresh(fresh) = first else {
        return None;
    };
    let mut host = Host::new();
    first.take::<Second>(&mut host);
    let is_listed = |step: &Step| matches!(step, Step::Call(_) | Step::Links(_));
    let speaks = host.returned == 0 && others.iter().all(is_listed);
    speaks.then_some(fresh.count)
}

#[cfg(test)]
mod tests;
