//! Descriptions written through the library for C and by the second program.

use std::fmt::{self, Display, Formatter};
use std::iter::repeat_with;

use second::random::Random;
use second::vectors::hex;
use second::vectors::write::generated::{damaged_draft, good_draft};
use second::vectors::write::{drafts, Draft, Outcome};

use crate::difference::Difference;
use crate::guarded::Guarded;
use crate::library;

/// A description, and what must come of writing it.
pub struct Write {
    draft: Draft,
    outcome: Outcome,
}

/// What a call returns and leaves in the output and the length.
#[derive(PartialEq, Eq)]
pub struct Written {
    pub returned: u8,
    pub out: Guarded<u8>,
    pub length: Guarded<u64>,
}

/// The stored descriptions, then generated ones without end.
pub fn writes(seed: u64) -> impl Iterator<Item = Write> {
    let mut random = Random::new(seed);
    let generated = repeat_with(move || match random.below(2) {
        0 => good_draft(&mut random),
        _ => damaged_draft(&mut random),
    });
    drafts().into_iter().chain(generated).map(Write::of)
}

impl Written {
    /// Before a call.
    pub fn new(size: usize) -> Written {
        Written {
            returned: 0,
            out: Guarded::bytes(size),
            length: Guarded::numbers(1),
        }
    }
}

impl Write {
    /// A description, with what the second program makes of it.
    pub fn of(draft: Draft) -> Write {
        let outcome = draft.outcome();
        Write { draft, outcome }
    }

    /// How long it is to read.
    pub fn size(&self) -> usize {
        self.draft.source.len() + self.draft.list.len()
    }

    pub fn difference(&self) -> Option<Difference> {
        let (library, second) = (library::write(&self.draft), self.expected());
        let length = || library.length.difference(&second.length, "the length");
        let out = || library.out.difference(&second.out, "the output");
        let returned = Difference::of_returned(library.returned, second.returned);
        returned.or_else(length).or_else(out)
    }

    fn expected(&self) -> Written {
        let mut written = Written::new(self.draft.out_len);
        match &self.outcome {
            Ok(encoding) => {
                written.out.put(encoding);
                written.length.put(&[encoding.len() as u64]);
            }
            Err(number) => written.returned = *number,
        }
        written
    }
}

impl Display for Write {
    fn fmt(&self, out: &mut Formatter) -> fmt::Result {
        let draft = &self.draft;
        write!(out, "grasp_write: fields {:x?}", draft.fields)?;
        write!(out, " list {:x?}", draft.list)?;
        write!(out, " source [{}]", hex(&draft.source))?;
        write!(out, " output of {:x}", draft.out_len)
    }
}

#[cfg(test)]
mod tests {
    use super::*;

    #[test]
    fn generated_descriptions_meet_every_answer() {
        let some = writes(1).skip(drafts().len()).take(2_000);
        let returned: Vec<u8> = some.map(|write| write.expected().returned).collect();
        for number in [0, 18, 19] {
            assert!(returned.contains(&number));
        }
    }
}
