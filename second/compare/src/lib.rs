//! The proved library held against the second program through the archive for C: reading, node
//! histories, negotiations and writing. The program compares stored and generated inputs, `fuzz/`
//! those that a fuzzer finds.

pub mod answer;
pub mod check;
pub mod difference;
pub mod expected;
pub mod guarded;
pub mod inputs;
pub mod library;
pub mod list;
pub mod negotiation;
pub mod node;
pub mod options;
pub mod shrink;
pub mod writing;
