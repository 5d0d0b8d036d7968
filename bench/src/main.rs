//! How long reading, writing and a node call take: the proved library, the second program and, for
//! reading, libcbor.

mod foreign;
mod measure;
mod messages;
mod nodes;

use std::env::args;
use std::hint::black_box;
use std::process::ExitCode;

use measure::{calls, medians, Calls, ROUNDS};
use messages::{From, MANY_PAIRS};
use nodes::{Case, EX2};
use second::message::{self, MOST_BYTES};
use second::node::Verdict;
use second::vectors::node::EX1;
use second::writer;

/// Why there are no numbers: what was measured did something else than it should.
type Fault = String;

fn main() -> ExitCode {
    let words: Vec<usize> = args().filter_map(|word| word.parse().ok()).collect();
    if let [rows, stage, many] = words[..] {
        return repeated(rows, stage, many as u32);
    }
    println!("ns per call (ratio to the first number of the row), median of {ROUNDS} interleaved rounds, warm;");
    println!("no block or other buffer is cleared before a call.");
    let parts = [
        reading,
        writing,
        short_calls,
        long_calls,
        by_length,
        by_rows,
        stages,
    ];
    for part in parts {
        if let Err(fault) = part() {
            eprintln!("{fault}");
            return ExitCode::FAILURE;
        }
    }
    ExitCode::SUCCESS
}

/// One stage of a node call so many times, for a tool that counts instructions.
fn repeated(rows: usize, stage: usize, many: u32) -> ExitCode {
    let mut stages = nodes::stages(rows);
    let did = stages.get_mut(stage).is_some_and(|program| program(many));
    if did {
        ExitCode::SUCCESS
    } else {
        ExitCode::FAILURE
    }
}

/// Prints a table's name and what its columns are.
fn head(title: &str, columns: &[&str]) {
    let columns: String = columns.iter().map(|name| format!(" {name:>17}")).collect();
    println!("\n{title:<31}{:>6}{columns}", "bytes");
}

/// Prints a row: each program's median and its ratio to the first one's.
fn row(name: &str, bytes: usize, programs: Vec<Calls>) -> Result<(), Fault> {
    let times =
        medians(programs).map_err(|place| format!("{name}: program {place} did not do it"))?;
    let cell = |time: &f64| format!(" {:>17}", format!("{time:.1} ({:.2})", time / times[0]));
    let cells: String = times.iter().map(cell).collect();
    println!("{name:<31}{bytes:>6}{cells}");
    Ok(())
}

fn read_by_libgrasp(bytes: &[u8]) -> Calls<'_> {
    calls(|| foreign::read(bytes))
}

fn read_by_second(bytes: &[u8]) -> Calls<'_> {
    calls(|| black_box(message::read(bytes)).is_ok())
}

fn reading() -> Result<(), Fault> {
    head("Reading", &["libgrasp", "with list", "second", "libcbor"]);
    let flood = messages::flood(From::Them, 2, MANY_PAIRS);
    let messages = [
        ("Discovery", messages::discovery(From::Them, 2)),
        ("Response, 8 locators", messages::response()),
        ("Flood, 35 pairs", flood),
        ("Negotiate, 8 levels", messages::deep()),
    ];
    for (name, bytes) in &messages {
        let programs: Vec<Calls> = vec![
            read_by_libgrasp(bytes),
            calls(|| foreign::read_with_list(bytes)),
            read_by_second(bytes),
            calls(|| foreign::libcbor(bytes)),
        ];
        row(name, bytes.len(), programs)?;
    }
    Ok(())
}

/// Writing the message again from its description.
fn written(bytes: &[u8]) -> Result<[Calls<'_>; 2], Fault> {
    let said = writer::describe(bytes).map_err(|number| format!("refusal {number}"))?;
    let again = said.clone();
    let mut out = [0; MOST_BYTES];
    let mut ours = move || foreign::write(bytes, &said.list, &said.fields, &mut out);
    let theirs = move || writer::write(bytes, &again.list, &again.fields, MOST_BYTES);
    Ok([
        calls(move || ours() == Ok(bytes.len())),
        calls(move || black_box(theirs()).is_ok_and(|encoding| encoding.len() == bytes.len())),
    ])
}

fn writing() -> Result<(), Fault> {
    head("Writing", &["libgrasp", "second"]);
    let flood = messages::flood(From::Them, 2, MANY_PAIRS);
    let messages = [
        ("Discovery", messages::discovery(From::Them, 2)),
        ("Response, 8 locators", messages::response()),
        ("Flood, 35 pairs", flood),
    ];
    for (name, bytes) in &messages {
        row(name, bytes.len(), written(bytes)?.into())?;
    }
    Ok(())
}

/// A node call by name: its message, own names, how many other rows live, and the verdict.
type NodeCall<'a> = (&'a str, Vec<u8>, &'a [u8], usize, Verdict);

/// Prints a row for each node call.
fn node_rows(cases: &[NodeCall]) -> Result<(), Fault> {
    for (name, message, names, rows, verdict) in cases {
        let case = Case {
            message,
            names,
            rows: *rows,
            verdict: *verdict,
        };
        row(name, message.len(), case.programs())?;
    }
    Ok(())
}

fn short_calls() -> Result<(), Fault> {
    head("Node call, short message", &["libgrasp", "second"]);
    let once = || messages::discovery(From::Them, 2);
    let (ours, last) = (
        messages::discovery(From::Us, 2),
        messages::discovery(From::Them, 1),
    );
    node_rows(&[
        ("OWN", ours, EX2, 0, Verdict::Own),
        ("ANSWER", once(), EX1, 0, Verdict::Answer),
        ("DUPLICATE", once(), EX2, 0, Verdict::Duplicate),
        ("LAST", last, EX2, 0, Verdict::Last),
        ("RELAY, no other row", once(), EX2, 0, Verdict::Relay),
        ("RELAY, 63 other rows", once(), EX2, 63, Verdict::Relay),
        ("HAND", messages::negotiate(), EX2, 0, Verdict::Hand),
    ])
}

fn long_calls() -> Result<(), Fault> {
    head("Node call, long message", &["libgrasp", "second"]);
    let flood = |from, count| messages::flood(from, count, MANY_PAIRS);
    let once = || flood(From::Them, 2);
    let (ours, last) = (flood(From::Us, 2), flood(From::Them, 1));
    node_rows(&[
        ("OWN", ours, EX2, 0, Verdict::Own),
        (
            "ANSWER",
            messages::long_discovery(),
            EX1,
            0,
            Verdict::Answer,
        ),
        ("DUPLICATE", once(), EX2, 0, Verdict::Duplicate),
        ("LAST", last, EX2, 0, Verdict::Last),
        ("RELAY, no other row", once(), EX2, 0, Verdict::Relay),
        ("RELAY, 63 other rows", once(), EX2, 63, Verdict::Relay),
        ("HAND", messages::long_negotiate(), EX2, 0, Verdict::Hand),
    ])
}

/// Floods of more and more pairs, read, written and relayed.
fn by_length() -> Result<(), Fault> {
    let lengths = [1, 2, 4, 9, 18, MANY_PAIRS].map(|pairs| messages::flood(From::Them, 2, pairs));
    for part in ["read", "written", "relayed"] {
        head(&["Flood, ", part].concat(), &["libgrasp", "second"]);
        for bytes in &lengths {
            let case = Case {
                message: bytes,
                names: EX2,
                rows: 0,
                verdict: Verdict::Relay,
            };
            let programs = match part {
                "read" => vec![read_by_libgrasp(bytes), read_by_second(bytes)],
                "written" => written(bytes)?.into(),
                _ => case.programs(),
            };
            row("", bytes.len(), programs)?;
        }
    }
    Ok(())
}

/// The short Discovery relayed beside more and more rows.
fn by_rows() -> Result<(), Fault> {
    head("RELAY, by other rows", &["libgrasp", "second"]);
    for rows in [0, 8, 16, 32, 48, 63] {
        let message = messages::discovery(From::Them, 2);
        node_rows(&[(&format!("{rows}"), message, EX2, rows, Verdict::Relay)])?;
    }
    Ok(())
}

/// How far calls of the library come that end early, and how long they take.
fn stages() -> Result<(), Fault> {
    head(
        "libgrasp, by other rows",
        &["12, no table", "12", "1", "Noop"],
    );
    for rows in [0, 63] {
        row(&format!("{rows}"), 0, nodes::stages(rows))?;
    }
    Ok(())
}
