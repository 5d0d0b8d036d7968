//! Compares the proved library with the second program through the archive for C, on stored and
//! generated inputs: reading, node histories, negotiations and writing.

use std::env;
use std::fmt::Display;
use std::process::ExitCode;

use compare::check::{difference, every_place, some_places};
use compare::difference::{account, Difference};
use compare::inputs::{inputs, Input};
use compare::list::{List, Listed};
use compare::negotiation::talks;
use compare::node::histories;
use compare::options::{Options, USAGE};
use compare::shrink::{shrink, Case};
use compare::writing::{writes, Write};
use second::random::Random;
use second::vectors::hex;

/// How many messages or descriptions, and how many lists, after the first failing one are tried
/// for a smaller one.
const MORE: usize = 100_000;
const MORE_LISTS: usize = 1_000;

fn main() -> ExitCode {
    let words: Vec<String> = env::args().skip(1).collect();
    let Some(options) = Options::of(&words) else {
        eprintln!("{USAGE}");
        return ExitCode::from(2);
    };
    let (histories, talks) = (histories(options.seed), talks(options.seed));
    let alike = [
        read(&options),
        run(histories, options.histories, ["node calls", "histories"]),
        run(talks, options.talks, ["negotiation steps", "lists"]),
        write(&options),
    ];
    if alike.contains(&false) {
        ExitCode::FAILURE
    } else {
        ExitCode::SUCCESS
    }
}

/// The smallest of the first failing case and of those among so many after it.
fn smallest<T>(
    mut cases: impl Iterator<Item = T>,
    mut failing: impl FnMut(T) -> Option<T>,
    more: usize,
    size: impl Fn(&T) -> usize,
) -> Option<T> {
    let first = cases.find_map(&mut failing)?;
    let later = cases.take(more).filter_map(failing);
    later.chain([first]).min_by_key(size)
}

/// Whether all messages are read alike.
fn read(options: &Options) -> bool {
    let mut random = Random::new(!options.seed);
    let failing = |input: Input| {
        let places = some_places(&mut random, input.shown());
        difference(input.shown(), &places).map(|_| input)
    };
    let inputs = inputs(options.seed).take(options.count);
    let Some(input) = smallest(inputs, failing, MORE, Input::size) else {
        println!("{} messages are read alike", options.count);
        return true;
    };
    report_input(input);
    false
}

/// Says the shortest failing input found from this one, and both answers.
fn report_input(input: Input) {
    let found = |input: &Input| difference(input.shown(), &every_place(input.shown().len()));
    let fails = |input: &Input| found(input).is_some();
    let alone = input.alone();
    let least = shrink(if fails(&alone) { alone } else { input }, fails);
    println!("input: {}", hex(least.shown()));
    if !least.hidden().is_empty() {
        println!("followed in memory by: {}", hex(least.hidden()));
    }
    if let Some(difference) = found(&least) {
        println!("{difference}");
    }
}

/// Whether so many lists go alike; both words name what is counted.
fn run<T: Listed>(
    lists: impl Iterator<Item = List<T>>,
    many: usize,
    [calls_word, lists_word]: [&str; 2],
) -> bool {
    let mut calls = 0;
    let lists = lists.take(many).inspect(|list| calls += list.calls());
    let failing = |list: List<T>| list.failing();
    let Some(list) = smallest(lists, failing, MORE_LISTS, List::size) else {
        println!("{calls} {calls_word} in {many} {lists_word} are answered alike");
        return true;
    };
    let least = shrink(list, |list| list.difference().is_some());
    report(&least.steps, least.difference());
    false
}

/// Whether all descriptions are written alike.
fn write(options: &Options) -> bool {
    let writes = writes(options.seed).take(options.writes);
    let failing = |write: Write| write.difference().map(|_| write);
    let Some(write) = smallest(writes, failing, MORE, Write::size) else {
        println!("{} descriptions are written alike", options.writes);
        return true;
    };
    report(&[&write], write.difference().map(|found| (0, found)));
    false
}

fn report<T: Display>(steps: &[T], found: Option<(usize, Difference)>) {
    if let Some(found) = found {
        println!("{}", account(steps, found));
    }
}
