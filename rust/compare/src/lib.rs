//! The exported library beside the plain functions: the same texts and rows to both, by the million, and what they answer must be the same
//! and go together.
//!
//! [`cases`] makes them, from texts that must be accepted ([`generate`]) and with one fault ([`damage`]); [`exhaustive`] has all short
//! ones. [`check`] holds one case, and [`run`] many. The memory that a call is lent is looked at ([`memory`]); under valgrind each stretch
//! is a block of its own ([`exact`]). The tests run them, and the program `compare`.
//!
//! A new sign is an entry of [`classes`]; a new rule about what may stand behind what is a state of [`generate`].
pub mod cases;
pub mod check;
pub mod classes;
pub mod damage;
pub mod difference;
pub mod exact;
pub mod exhaustive;
pub mod functions;
pub mod generate;
pub mod memcheck;
pub mod memory;
pub mod mix;
pub mod random;
pub mod run;
pub mod show;
pub mod steps;
pub mod trials;

/// The two numbers of a refusal.
pub type No = (u8, usize);

/// The count of elements that were written, or a refusal.
pub type Answer = Result<usize, No>;
