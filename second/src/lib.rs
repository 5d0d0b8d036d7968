//! The rules (docs/RULES.md) written again, and the test cases they give.

pub mod block;
pub mod cbor;
pub mod history;
pub mod message;
pub mod negotiation;
pub mod node;
pub mod random;
pub mod vectors;
pub mod writer;
