//! The walk over the complete choice lists of a table, in dictionary order.

use crate::answer::{Answer, ENTRIES_LEFT, ENTRY_TOO_HIGH, LIST_USED_UP, NO_NEXT_LIST};
use crate::eval::run;
use crate::table::Table;

/// The most choices of a run, and the entries of a walk.
pub const MAX_CHOICES: usize = 64;

/// The first complete list.
pub fn first(table: &Table) -> Vec<u8> {
    completed(table, vec![])
}

/// The complete list after a complete one; 32, 33 or 34 from any other list, and 35 after the last.
pub fn step(table: &Table, list: &[u8]) -> Result<Vec<u8>, Answer> {
    let end = run(table, list);
    if matches!(end.number, LIST_USED_UP | ENTRY_TOO_HIGH | ENTRIES_LEFT) {
        return Err(end.answer());
    }
    let mut list = list.to_vec();
    while let Some(entry) = list.pop() {
        // Without the entry the list is used up where the entry chose, and the bindings are counted.
        let bindings = run(table, &list).count;
        if usize::from(entry) + 1 < bindings {
            list.push(entry + 1);
            return Ok(completed(table, list));
        }
    }
    Err(Answer::new(NO_NEXT_LIST, 0, 0))
}

/// The list with as many zeros as make it complete.
fn completed(table: &Table, mut list: Vec<u8>) -> Vec<u8> {
    while run(table, &list).number == LIST_USED_UP {
        list.push(0);
    }
    list
}
