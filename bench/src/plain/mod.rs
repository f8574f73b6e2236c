//! The bench in plain Rust: the same types, steps and checks as the proved crates, without their contracts.

pub mod bracket;
pub mod direction;
pub mod kind;
pub mod notes;
pub mod plan;
pub mod project;
pub mod source;
pub mod tile;
pub mod walk;
