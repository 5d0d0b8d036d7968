//! The stories of `node_vectors`: each takes a fresh record and table, then calls the node, sets
//! links, and may put other numbers in the place of the record's and the table's.

mod addresses;
mod clocks;
mod combined;
mod draft;
mod edges;
pub mod generated;
mod kinds;
mod links;
mod names;
mod outputs;
mod records;
mod state;
mod story;
mod tables;

pub use story::{Op, Story, ADDRESS, EX1};

use super::Files;

/// All stories, one after the other, and the lines they give.
pub(super) fn files() -> Files {
    let stories = stories();
    Files {
        stdin: stories.iter().flat_map(Story::stored).collect(),
        stdout: stories.iter().flat_map(|story| story.run().lines).collect(),
    }
}

/// What demand 3 finds wrong in the stories that it speaks of.
pub(super) fn faults() -> Vec<String> {
    let mut faults = Vec::new();
    for (place, story) in stories().iter().enumerate() {
        let history = story.run().history;
        let found = history.map_or(vec![], |history| history.faults());
        faults.extend(found.iter().map(|fault| format!("story {place}: {fault}")));
    }
    faults
}

/// Every story, in the order of the stored files.
pub fn stories() -> Vec<Story> {
    [
        edges::stories(),
        kinds::stories(),
        combined::stories(),
        clocks::stories(),
        addresses::stories(),
        links::stories(),
        names::stories(),
        tables::stories(),
        records::stories(),
        outputs::stories(),
        generated::stories(),
    ]
    .concat()
}

#[cfg(test)]
mod tests;
