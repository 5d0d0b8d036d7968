//! The second program: stores and checks the test files, or reads one message.

use std::io::Read;
use std::path::Path;
use std::process::ExitCode;
use std::{env, fs, io};

use second::message;
use second::vectors::{self, Stored};

const USAGE: &str = "usage: second store|check [repository root], or second read < message";

fn main() -> ExitCode {
    let arguments: Vec<String> = env::args().skip(1).collect();
    let words: Vec<&str> = arguments.iter().map(String::as_str).collect();
    match words[..] {
        ["store"] => each_file(store, "."),
        ["store", root] => each_file(store, root),
        ["check"] => check_all("."),
        ["check", root] => check_all(root),
        ["read"] => read(),
        _ => {
            eprintln!("{USAGE}");
            ExitCode::from(2)
        }
    }
}

/// Does the same with every stored file and says what went wrong.
fn each_file(action: fn(&Path, &Stored) -> Result<(), String>, root: &str) -> ExitCode {
    let mut code = ExitCode::SUCCESS;
    for file in vectors::all() {
        if let Err(fault) = action(Path::new(root), &file) {
            eprintln!("{}: {fault}", file.path);
            code = ExitCode::FAILURE;
        }
    }
    code
}

/// Checks every stored file, and demand 3 on the stored histories.
fn check_all(root: &str) -> ExitCode {
    let code = each_file(check, root);
    let faults = vectors::faults();
    for fault in &faults {
        eprintln!("{fault}");
    }
    if faults.is_empty() {
        code
    } else {
        ExitCode::FAILURE
    }
}

/// Prints the one line of the program `read_message` for the message on standard input.
fn read() -> ExitCode {
    let mut bytes = Vec::new();
    if let Err(error) = io::stdin().read_to_end(&mut bytes) {
        eprintln!("{error}");
        return ExitCode::FAILURE;
    }
    match message::read(&bytes) {
        Ok(message) => println!("kind {}", message.kind()),
        Err(number) => println!("refused {number}"),
    }
    ExitCode::SUCCESS
}

/// Writes the file in its place under the root.
fn store(root: &Path, file: &Stored) -> Result<(), String> {
    let path = root.join(&file.path);
    let written = match path.parent() {
        Some(folder) => fs::create_dir_all(folder),
        None => Ok(()),
    };
    written
        .and_then(|()| fs::write(&path, &file.contents))
        .map_err(|error: io::Error| error.to_string())
}

/// Compares the file under the root with what the second program computes.
fn check(root: &Path, file: &Stored) -> Result<(), String> {
    let found = fs::read(root.join(&file.path)).map_err(|error| error.to_string())?;
    match first_difference(&found, &file.contents) {
        None => Ok(()),
        Some((offset, line)) => Err(format!("differs from byte {offset} on (line {line})")),
    }
}

/// The offset, from 0, and the line, from 1, where two contents part.
fn first_difference(found: &[u8], wanted: &[u8]) -> Option<(usize, usize)> {
    if found == wanted {
        return None;
    }
    let same = found.iter().zip(wanted).take_while(|(a, b)| a == b).count();
    let feeds = found[..same].iter().filter(|&&byte| byte == b'\n').count();
    Some((same, feeds + 1))
}

#[cfg(test)]
mod tests {
    use super::first_difference;

    #[test]
    fn differences_are_found() {
        assert_eq!(first_difference(b"a\nb\n", b"a\nb\n"), None);
        assert_eq!(first_difference(b"a\nb\n", b"a\nc\n"), Some((2, 2)));
        assert_eq!(first_difference(b"a\n", b"a\nb\n"), Some((2, 2)));
        assert_eq!(first_difference(b"", b"a"), Some((0, 1)));
    }
}
