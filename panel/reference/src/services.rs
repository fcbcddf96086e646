//! The four services over lent buffers: what each answers and leaves in every lent byte.

pub use crate::answer::Answer;
use crate::answer::{Refusal, LIST_SIZE, SHORT_RESULT, SHORT_SCRATCH};
use crate::check;
use crate::eval;
use crate::table::Table;
use crate::value::Value;
use crate::walk::{self, MAX_CHOICES};

/// The scratch that every service needs and leaves as zeros.
pub const SCRATCH_SIZE: usize = 65_536;

/// Checks a table.
pub fn check(table: &[u8], scratch: &mut [u8]) -> Answer {
    if let Err(refusal) = clear(scratch) {
        return refusal.into();
    }
    match check::check(table) {
        Ok(records) => Answer::new(0, 0, records),
        Err(refusal) => refusal.into(),
    }
}

/// Evaluates a table under a choice list; the value goes to the result.
pub fn evaluate(table: &[u8], list: &[u8], scratch: &mut [u8], result: &mut [u8]) -> Answer {
    if scratch.len() >= SCRATCH_SIZE && result.len() < Value::MAX_SIZE {
        return Answer::new(SHORT_RESULT, 0, 0);
    }
    if let Err(refusal) = clear(scratch) {
        return refusal.into();
    }
    let end = eval::evaluate(table, list);
    let bytes = end.value.as_ref().map(Value::encode).unwrap_or_default();
    overwrite(&mut result[..Value::MAX_SIZE], &bytes);
    end.answer()
}

/// Overwrites the walk with the first complete list.
pub fn first(table: &[u8], entries: &mut [u8], length: &mut usize, scratch: &mut [u8]) -> Answer {
    match try_first(table, entries, scratch) {
        Ok(list) => grant(&list, entries, length),
        Err(answer) => answer,
    }
}

fn try_first(table: &[u8], entries: &[u8], scratch: &mut [u8]) -> Result<Vec<u8>, Answer> {
    clear(scratch)?;
    let table = accept_with_walk(table, entries)?;
    Ok(walk::first(&table))
}

/// Overwrites the walk with the complete list after the one that it holds.
pub fn step(table: &[u8], entries: &mut [u8], length: &mut usize, scratch: &mut [u8]) -> Answer {
    match try_step(table, entries, *length, scratch) {
        Ok(list) => grant(&list, entries, length),
        Err(answer) => answer,
    }
}

fn try_step(
    table: &[u8],
    entries: &[u8],
    length: usize,
    scratch: &mut [u8],
) -> Result<Vec<u8>, Answer> {
    clear(scratch)?;
    let table = accept_with_walk(table, entries)?;
    if length > MAX_CHOICES {
        return Err(Answer::new(LIST_SIZE, 0, 0));
    }
    walk::step(&table, &entries[..length])
}

/// The table, once it and then the lent entries of a walk are accepted.
fn accept_with_walk(table: &[u8], entries: &[u8]) -> Result<Table, Refusal> {
    let table = check::accept(table)?;
    if entries.len() < MAX_CHOICES {
        return Err(Refusal::new(LIST_SIZE, 0));
    }
    Ok(table)
}

fn grant(list: &[u8], entries: &mut [u8], length: &mut usize) -> Answer {
    overwrite(&mut entries[..MAX_CHOICES], list);
    *length = list.len();
    Answer::GRANTED
}

/// Leaves the first bytes of the scratch as zeros, unless it is too short.
fn clear(scratch: &mut [u8]) -> Result<(), Refusal> {
    let used = scratch
        .get_mut(..SCRATCH_SIZE)
        .ok_or(Refusal::new(SHORT_SCRATCH, 0))?;
    used.fill(0);
    Ok(())
}

/// Overwrites a buffer with bytes and then zeros.
fn overwrite(buffer: &mut [u8], bytes: &[u8]) {
    let (start, rest) = buffer.split_at_mut(bytes.len());
    start.copy_from_slice(bytes);
    rest.fill(0);
}
