//! The independent program: a plain implementation of Biscuit, written from the submission and
//! document 01 only. Everything is in memory, elements are unpacked one to a byte, and a line of
//! code follows a line of an algorithm. "Algorithm" with a number means one of the submission.

pub mod biscuit;
pub mod clips;
pub mod desk;
pub mod envelope;
pub mod expected;
pub mod field;
pub mod forms;
pub mod hashes;
pub mod repetition;
pub mod sampling;
pub mod sets;
pub mod shake;
pub mod tree;
