//! Heads and levels as the stored files have them, written without the code under test.

use super::unhex;

/// Every head of this major type and argument, the shortest first.
pub fn head_forms(major: u8, argument: u64) -> Vec<Vec<u8>> {
    let bytes = argument.to_be_bytes();
    let mut forms = Vec::new();
    if argument < 24 {
        forms.push(vec![major << 5 | argument as u8]);
    }
    for (information, width) in [(24, 1), (25, 2), (26, 4), (27, 8)] {
        let (unsaid, said) = bytes.split_at(8 - width);
        if unsaid.iter().all(|&byte| byte == 0) {
            forms.push([&[major << 5 | information], said].concat());
        }
    }
    forms
}

/// The shortest head of this major type and argument.
pub fn shortest_head(major: u8, argument: u64) -> Vec<u8> {
    head_forms(major, argument).swap_remove(0)
}

/// The bytes before and after an item that hold it one level down.
pub const AROUND: &[(&str, &str)] = &[
    ("81", ""),
    ("82 00", ""),
    ("A1", "00"),
    ("A1 00", ""),
    ("C0", ""),
    ("D9 D9F7", ""),
];

/// An item `depth` levels down, held by these sorts of container in turn.
pub fn held(depth: usize, inside: &[u8], sorts: &[(&str, &str)]) -> Vec<u8> {
    let outward = sorts.iter().cycle().take(depth);
    outward.fold(inside.to_vec(), |bytes, (before, after)| {
        [unhex(before), bytes, unhex(after)].concat()
    })
}
