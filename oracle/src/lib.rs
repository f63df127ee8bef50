//! The second, independent implementation of document 01, written from its text
//! alone. Programs compare it with the first implementation, call by call.
//!
//! It aims to be plain before it is fast: each rule stands here as document 01
//! words it, so that a reader can hold the two side by side.

/// How often each call was given each answer.
pub mod answers;
/// The first implementation, called in a process of its own.
pub mod bridge;
/// The arithmetic of positions, commit counts, slots and tests.
pub mod counts;
/// The edge values that a comparison must not leave to chance.
pub mod edges;
/// Random histories of a ring.
pub mod histories;
/// The bytes of sub-buffers and records.
pub mod layout;
/// Random arguments, the same ones in every run.
pub mod random;
mod refusal;
/// The replay program.
pub mod replay;
/// How a comparison ends, and what it says of the cases it met.
pub mod report;
/// The ring, a machine of atomic steps.
pub mod ring;
/// What steps of the ring met.
pub mod rows;
