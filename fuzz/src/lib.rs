//! A libFuzzer target: the first byte of an input says what both are asked, the others say it. A
//! difference is printed, and the process aborts.

mod descriptions;
mod histories;
mod input;
mod messages;
mod talks;

use std::env;
use std::fmt::Display;
use std::ops::RangeInclusive;
use std::process::abort;
use std::sync::atomic::{AtomicU64, Ordering::Relaxed};
use std::sync::OnceLock;

use compare::check::{difference, every_place};
use compare::difference::{account, Difference};
use compare::node::History;
use compare::writing::Write;
use second::vectors::hex;

use input::Input;
use messages::message;

/// How many inputs were compared, and how many calls they made; see [`Counts::report`].
static COUNTS: Counts = Counts {
    messages: AtomicU64::new(0),
    parts: AtomicU64::new(0),
    descriptions: AtomicU64::new(0),
    histories: AtomicU64::new(0),
    calls: AtomicU64::new(0),
    talks: AtomicU64::new(0),
    steps: AtomicU64::new(0),
};

struct Counts {
    messages: AtomicU64,
    parts: AtomicU64,
    descriptions: AtomicU64,
    histories: AtomicU64,
    calls: AtomicU64,
    talks: AtomicU64,
    steps: AtomicU64,
}

extern "C" {
    fn atexit(report: extern "C" fn()) -> i32;
}

/// The first bytes that say each sort of input, by the name that FUZZ_ONLY has for it.
const SORTS: [(&str, RangeInclusive<u8>); 4] = [
    ("read", 0..=95),
    ("write", 96..=143),
    ("node", 144..=223),
    ("negotiation", 224..=255),
];

/// The first bytes that are compared.
static ONLY: OnceLock<RangeInclusive<u8>> = OnceLock::new();

/// Called once by libFuzzer. The variable FUZZ_ONLY names the only sort of input to compare.
#[no_mangle]
pub extern "C" fn LLVMFuzzerInitialize(_argc: *mut i32, _argv: *mut *mut *mut i8) -> i32 {
    let only = env::var("FUZZ_ONLY").unwrap_or_default();
    let sort = SORTS.into_iter().find(|(name, _)| *name == only);
    ONLY.get_or_init(|| sort.map_or(0..=255, |(_, sort)| sort));
    // SAFETY: the function may be called at any time.
    unsafe { atexit(report_counts) };
    0
}

/// Called by libFuzzer with each input; one of a sort that isn't asked for is taken as one that is.
///
/// # Safety
///
/// The pointer is to so many readable bytes.
#[no_mangle]
pub unsafe extern "C" fn LLVMFuzzerTestOneInput(data: *const u8, size: usize) -> i32 {
    let bytes = match size {
        0 => &[],
        _ => std::slice::from_raw_parts(data, size),
    };
    if let Some((&first, rest)) = bytes.split_first() {
        compare(asked(first), rest);
    }
    0
}

/// A first byte of the sort that is asked for.
fn asked(first: u8) -> u8 {
    match ONLY.get() {
        Some(only) if !only.contains(&first) => {
            only.start() + first % (only.end() - only.start() + 1)
        }
        _ => first,
    }
}

/// Compares what the bytes say as an input of this sort.
pub fn compare(sort: u8, bytes: &[u8]) {
    let mut input = Input::new(bytes);
    match sort {
        0..=47 => read(input.rest()),
        48..=79 => read(&message(&mut input)),
        80..=87 => read_everywhere(input.rest()),
        88..=95 => read_everywhere(&message(&mut input)),
        96..=127 => match descriptions::changed(&mut input) {
            Ok(changed) => write(&changed),
            Err(refused) => read(&refused),
        },
        128..=143 => write(&descriptions::spelled(&mut input)),
        144..=223 => run(&histories::history(&mut input, sort >= 184)),
        224..=255 => talk(&mut input, sort >= 240),
    }
}

/// The message, the elements of its list, and what else may look like one.
fn read(message: &[u8]) {
    COUNTS.messages.fetch_add(1, Relaxed);
    let heads = (0..message.len()).filter(|&at| matches!(message[at], 0x82 | 0x84));
    let places: Vec<usize> = heads.take(8).collect();
    read_at(message, &places);
}

/// The same at every place of at most 32 bytes, near and far.
fn read_everywhere(message: &[u8]) {
    COUNTS.parts.fetch_add(1, Relaxed);
    read_at(message, &every_place(message.len().min(32)));
}

fn read_at(message: &[u8], places: &[usize]) {
    if let Some(found) = difference(message, places) {
        tell(&[hex(message)], Some((0, found)));
    }
}

fn write(write: &Write) {
    COUNTS.descriptions.fetch_add(1, Relaxed);
    tell(&[write], write.difference().map(|it| (0, it)));
}

fn run(history: &History) {
    COUNTS.histories.fetch_add(1, Relaxed);
    COUNTS.calls.fetch_add(history.calls() as u64, Relaxed);
    tell(&history.steps, history.difference());
}

fn talk(input: &mut Input, is_tampered: bool) {
    let talk = talks::talk(input, is_tampered);
    COUNTS.talks.fetch_add(1, Relaxed);
    COUNTS.steps.fetch_add(talk.calls() as u64, Relaxed);
    tell(&talk.steps, talk.difference());
}

/// Prints the steps up to a difference and both answers, and aborts.
fn tell<T: Display>(steps: &[T], found: Option<(usize, Difference)>) {
    if let Some(found) = found {
        eprintln!("{}", account(steps, found));
        abort()
    }
}

extern "C" fn report_counts() {
    COUNTS.report();
}

impl Counts {
    /// Says how many inputs of each sort were answered alike.
    fn report(&self) {
        let said = [
            ("messages", &self.messages),
            ("messages with every place", &self.parts),
            ("descriptions", &self.descriptions),
            ("node histories", &self.histories),
            ("node calls in them", &self.calls),
            ("negotiations", &self.talks),
            ("steps in them", &self.steps),
        ];
        for (name, count) in said {
            eprintln!("alike: {} {name}", count.load(Relaxed));
        }
    }
}
