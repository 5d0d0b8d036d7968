//! The stored test files: what each proved program is fed and what it must print.

mod arbitrary;
mod cbor;
pub mod damage;
mod edges;
mod encode;
pub mod message;
pub mod negotiation;
pub mod node;
pub mod write;

/// A file of the repository that this program computes.
pub struct Stored {
    /// Relative to the repository root.
    pub path: String,
    pub contents: Vec<u8>,
}

/// A program's name under `crates/`, and what gives its files.
type Program = (&'static str, fn() -> Files);

/// Every program that is fed stored cases.
const PROGRAMS: &[Program] = &[
    ("cbor_vectors", cbor::files),
    ("message_vectors", message::files),
    ("write_vectors", write::files),
    ("node_vectors", node::files),
    ("negotiation_vectors", negotiation::files),
];

/// Every stored file.
pub fn all() -> Vec<Stored> {
    PROGRAMS
        .iter()
        .flat_map(|(name, files)| program(name, files()))
        .collect()
}

/// What demand 3 finds wrong in the stored histories.
pub fn faults() -> Vec<String> {
    [node::faults(), negotiation::faults()].concat()
}

/// The input and the expected output of one program under `crates/`.
pub(crate) struct Files {
    stdin: Vec<u8>,
    stdout: Vec<u8>,
}

/// A program's two files under their paths.
fn program(name: &str, files: Files) -> [Stored; 2] {
    [("stdin", files.stdin), ("stdout", files.stdout)].map(|(file, contents)| Stored {
        path: format!("crates/{name}/{file}"),
        contents,
    })
}

/// The most bytes that a stored case gives at once; every program has room for as many.
pub const LONGEST: usize = 4_096;

/// A length in two bytes, then as many bytes.
fn counted(bytes: &[u8]) -> Vec<u8> {
    assert!(bytes.len() <= LONGEST);
    [&(bytes.len() as u16).to_be_bytes(), bytes].concat()
}

/// Numbers in eight bytes each, the most significant first.
pub fn in_bytes(numbers: &[u64]) -> Vec<u8> {
    numbers.iter().flat_map(|n| n.to_be_bytes()).collect()
}

/// Bytes as lower-case hexadecimal digits.
pub fn hex(bytes: &[u8]) -> String {
    bytes.iter().map(|byte| format!("{byte:02x}")).collect()
}

/// The bytes that hexadecimal digits say; blanks between digits are skipped.
pub fn unhex(text: &str) -> Vec<u8> {
    let digits: Vec<u8> = text
        .chars()
        .filter(|character| *character != ' ')
        .map(|digit| digit.to_digit(16).expect("a hexadecimal digit") as u8)
        .collect();
    assert!(digits.len().is_multiple_of(2), "half a byte in {text}");
    digits
        .chunks(2)
        .map(|pair| pair[0] << 4 | pair[1])
        .collect()
}
