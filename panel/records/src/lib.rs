//! A readable notation of tables: one record a line, its kind as a word, then its fields.
//!
//! ```text
//! # let a in set {1,...,3} be st a <> 2 in a + 1
//! 0: p-name 0
//! 1: integer 1
//! 2: integer 3
//! 3: range 1 2
//! ```
//!
//! The label `N:` may be left out; where it stands it is checked. `#` starts a comment.
//! Only the form of each record is judged here: what the records mean together is the check's.

mod decode;
mod encode;

pub use decode::{decode, Malformed};
pub use encode::{encode, Mistake};
