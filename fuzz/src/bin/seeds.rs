//! Writes inputs to begin with to a folder: stored messages that are short, each as one to read and
//! one to write, and the first byte of every other sort.

use std::env;
use std::fs;
use std::io;
use std::path::PathBuf;

use second::vectors::message::cases;

/// The longest message of a seed.
const SHORT: usize = 160;

fn main() -> io::Result<()> {
    let folder = PathBuf::from(env::args().nth(1).expect("usage: seeds FOLDER"));
    fs::create_dir_all(&folder)?;
    let cases = cases().into_iter().filter(|case| case.len() <= SHORT);
    let reads = cases.clone().map(|case| [&[0][..], &case].concat());
    let writes = cases.map(|case| [&[96, 0, 0, 128][..], &case].concat());
    let others = (48..=255).map(|sort| vec![sort, 0]);
    for (number, seed) in reads.chain(writes).chain(others).enumerate() {
        fs::write(folder.join(format!("{number:05}")), seed)?;
    }
    Ok(())
}
