//! Where the answers of both part, and how it is told.

use std::fmt::{self, Display, Formatter};

/// Two answers to one call that are not the same.
pub struct Difference {
    pub call: String,
    pub library: String,
    pub second: String,
}

impl Difference {
    /// That of two answers, if they are not the same.
    pub fn between<T>(call: impl Display, library: T, second: T) -> Option<Difference>
    where
        T: Display + Eq,
    {
        (library != second).then(|| Difference {
            call: call.to_string(),
            library: library.to_string(),
            second: second.to_string(),
        })
    }

    /// That of two numbers that were returned.
    pub fn of_returned(library: u8, second: u8) -> Option<Difference> {
        Difference::between("what is returned", library, second)
    }

    /// The library's answers do not meet demand 3.
    pub fn of_demand(fault: String) -> Difference {
        Difference {
            call: String::from("the whole list"),
            library: fault,
            second: String::from("demand 3 holds"),
        }
    }

    /// The same, of a record that is changed in place.
    pub fn in_place(self) -> Difference {
        let call = format!("record in place: {}", self.call);
        Difference { call, ..self }
    }
}

impl Display for Difference {
    fn fmt(&self, out: &mut Formatter) -> fmt::Result {
        writeln!(out, "call: {}", self.call)?;
        writeln!(out, "libgrasp: {}", self.library)?;
        write!(out, "second: {}", self.second)
    }
}

/// Every step up to the one with the difference, and both answers to it.
pub fn account<T: Display>(steps: &[T], (place, difference): (usize, Difference)) -> String {
    let steps = steps[..=place].iter().enumerate();
    let steps: String = steps
        .map(|(number, step)| format!("{number}: {step}\n"))
        .collect();
    format!("{steps}{difference}")
}
