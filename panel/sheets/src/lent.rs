//! The four services on buffers that the caller lends, with every answer as it is given.
//!
//! A scratch shorter than [`SCRATCH_SIZE`] is refused with 1 and, in evaluating, a result shorter than
//! [`Value::MAX_SIZE`](crate::Value::MAX_SIZE) with 2; neither changes anything. Otherwise the first `SCRATCH_SIZE`
//! bytes of the scratch end as zeros, whatever the answer. Bytes beyond those that a call needs are untouched.
//!
//! ```
//! use sheets::lent::{self, SCRATCH_SIZE};
//! use sheets::Answer;
//!
//! let table = [5, 0, 1, 0, 1]; // the literal true
//! let mut scratch = vec![0; SCRATCH_SIZE];
//! let mut result = [0; 512];
//! assert_eq!(lent::check(&table, &mut scratch), Answer { number: 0, place: 0, count: 1 });
//! assert_eq!(lent::evaluate(&table, &[], &mut scratch, &mut result), Answer::GRANTED);
//! assert_eq!(result[..5], [5, 0, 1, 0, 1]);
//! ```

use crate::answer::Answer;
use crate::exported;

/// The bytes of scratch that every service needs and leaves as zeros.
pub const SCRATCH_SIZE: usize = 65_536;

/// Checks a table. The count is the number of its records when it is accepted.
#[must_use = "the answer says whether the table is accepted"]
pub fn check(table: &[u8], scratch: &mut [u8]) -> Answer {
    Answer::unpack(exported::check(table, scratch))
}

/// Evaluates a table under a choice list. The first 512 bytes of the result become the value and then zeros, all
/// zeros when the answer is a refusal.
#[must_use = "the answer says whether there is a value"]
pub fn evaluate(table: &[u8], list: &[u8], scratch: &mut [u8], result: &mut [u8]) -> Answer {
    Answer::unpack(exported::evaluate(table, list, scratch, result))
}

/// Overwrites a walk, 64 entries and a length, with the first complete list of the table and then zeros, whatever
/// it held. A refusal leaves the walk.
///
/// ```
/// # use sheets::lent::{self, SCRATCH_SIZE};
/// # use sheets::Answer;
/// let table = [5, 0, 1, 0, 1]; // the literal true: one list, without entries
/// let mut scratch = vec![0; SCRATCH_SIZE];
/// let (mut entries, mut length) = ([7; 64], 9);
/// assert_eq!(lent::first(&table, &mut entries, &mut length, &mut scratch), Answer::GRANTED);
/// assert_eq!((entries, length), ([0; 64], 0));
/// let end = lent::step(&table, &mut entries, &mut length, &mut scratch);
/// assert_eq!(end.number, 35);
/// ```
#[must_use = "the answer says whether the walk was overwritten"]
pub fn first(table: &[u8], entries: &mut [u8], length: &mut usize, scratch: &mut [u8]) -> Answer {
    Answer::unpack(exported::first(table, entries, length, scratch))
}

/// Overwrites a walk with the complete list after the one that it holds and then zeros. A refusal leaves the walk.
#[must_use = "the answer says whether the walk was overwritten"]
pub fn step(table: &[u8], entries: &mut [u8], length: &mut usize, scratch: &mut [u8]) -> Answer {
    Answer::unpack(exported::step(table, entries, length, scratch))
}
