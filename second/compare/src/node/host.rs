//! What a host keeps and lends to the library.

use archive::{ANSWER_FIELDS, NUMBER_FIELDS, NUMBER_TALLY, TABLE_BYTES};
use second::history::Called;
use second::message::MOST_BYTES;
use second::node::{Answer, Fresh, Given, Verdict, ROWS};
use second::vectors::hex;

use super::Step;
use crate::difference::Difference;
use crate::guarded::Guarded;

/// The bytes of a row, and the most of a table that are lent.
pub const ROW_BYTES: usize = TABLE_BYTES / ROWS;
pub const MOST_TABLE: usize = 2_560;

/// The memory, the length of the lent table, and what the last call returned.
#[derive(Clone, PartialEq, Eq)]
pub struct Host {
    pub returned: u8,
    pub address: [u8; 16],
    pub numbers: Guarded<u64>,
    pub table: Guarded<u8>,
    pub length: usize,
    pub out: Guarded<u8>,
    pub answer: Guarded<u64>,
}

/// The three functions of a node, which return the number of a refusal or 0.
pub trait Node {
    fn fresh(host: &mut Host, fresh: &Fresh) -> u8;
    fn set_links(host: &mut Host, links: u64) -> u8;
    fn call(host: &mut Host, given: &Given) -> u8;
}

const VERDICTS: [Verdict; 9] = [
    Verdict::Own,
    Verdict::Answer,
    Verdict::Duplicate,
    Verdict::Last,
    Verdict::Nowhere,
    Verdict::NoRow,
    Verdict::Relay,
    Verdict::Noop,
    Verdict::Hand,
];

impl Default for Host {
    fn default() -> Host {
        Host {
            returned: 0,
            address: [0; 16],
            numbers: Guarded::numbers(NUMBER_FIELDS),
            table: Guarded::bytes(MOST_TABLE),
            length: TABLE_BYTES,
            out: Guarded::bytes(MOST_BYTES),
            answer: Guarded::numbers(ANSWER_FIELDS),
        }
    }
}

impl Host {
    pub fn new() -> Host {
        Host::default()
    }

    pub fn tally(&self) -> u64 {
        self.numbers.content()[NUMBER_TALLY]
    }

    /// The first difference after the same step.
    pub fn difference(&self, second: &Host) -> Option<Difference> {
        let returned = Difference::of_returned(self.returned, second.returned);
        let address = || {
            (self.address != second.address).then(|| Difference {
                call: String::from("the address"),
                library: hex(&self.address),
                second: hex(&second.address),
            })
        };
        let answer = || self.answer.difference(&second.answer, "the answer");
        let numbers = || self.numbers.difference(&second.numbers, "the record");
        let table = || self.table.difference(&second.table, "the table");
        let out = || self.out.difference(&second.out, "the output");
        let first = returned.or_else(address).or_else(answer);
        first.or_else(numbers).or_else(table).or_else(out)
    }

    /// The node call that a step was, as demand 3 sees it.
    pub fn called(&self, step: &Step) -> Option<Called> {
        let Step::Call(given) = step else {
            return None;
        };
        let answer = match self.returned {
            0 => Ok(self.answered()?),
            number => Err(number),
        };
        let given = given.clone();
        Some(Called { given, answer })
    }

    fn answered(&self) -> Option<Answer> {
        let &[verdict, handed_up, mask, length] = self.answer.content() else {
            return None;
        };
        let is_it = |given: &Verdict| u64::from(given.number()) == verdict;
        let output = self.out.content().get(..usize::try_from(length).ok()?)?;
        Some(Answer {
            verdict: VERDICTS.into_iter().find(is_it)?,
            mask,
            handed_up: handed_up == 1,
            output: output.to_vec(),
        })
    }
}
