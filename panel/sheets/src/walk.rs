//! The walk over the complete lists of a sheet.

use std::iter::FusedIterator;

use crate::answer::{number, Refusal};
use crate::list::List;
use crate::sheet::{Outcome, Sheet};

/// A walk over the complete lists of a sheet, in dictionary order: an iterator of each list with what it ends in.
/// It works in the sheet's memory and allocates nothing but the values.
///
/// It can also be led by hand, without evaluating:
///
/// ```
/// # use sheets::Sheet;
/// # let table = [
/// #     5, 0, 32, 0, 0, 8, 0, 2, 0, 1, 0, 0, 0, 8, 0, 2, 0, 2, 0, 0, 0, 6, 0, 11, 0, 1, 2, 5, 0, 1, 0, 1, 5, 0, 3, 0, 0,
/// #     8, 0, 13, 0, 0, 3, 4, 5,
/// # ];
/// // let a in set {1,...,2} be st true in a
/// let mut sheet = Sheet::check(&table)?;
/// let mut walk = sheet.walk();
/// walk.first();
/// assert_eq!(walk.entries(), [0]);
/// assert!(walk.step());
/// assert_eq!(walk.entries(), [1]);
/// assert!(!walk.step());
/// assert_eq!(walk.entries(), [1]);
/// # Ok::<(), sheets::Refusal>(())
/// ```
#[derive(Debug)]
#[must_use = "a walk goes nowhere by itself"]
pub struct Walk<'a> {
    sheet: &'a mut Sheet,
    /// The list at which the walk stands; none before the first.
    list: Option<List>,
}

impl<'a> Walk<'a> {
    /// A walk before the first list.
    pub(crate) fn new(sheet: &'a mut Sheet) -> Walk<'a> {
        Walk { sheet, list: None }
    }

    /// A walk at a complete list; 32, 33 or 34 for another list.
    pub(crate) fn from_list(sheet: &'a mut Sheet, list: &List) -> Result<Walk<'a>, Refusal> {
        match sheet.evaluate(list) {
            Err(refusal) if refusal.number() >= number::USED_UP => Err(refusal),
            _ => Ok(Walk {
                sheet,
                list: Some(*list),
            }),
        }
    }

    /// Goes to the first list.
    pub fn first(&mut self) {
        let mut list = List::EMPTY;
        let granted = self.sheet.first(&mut list);
        granted.expect("an accepted table has a first list");
        self.list = Some(list);
    }

    /// Goes to the next list, from the start to the first; false at the last, where the walk stays.
    #[must_use = "at the last list the walk stays"]
    pub fn step(&mut self) -> bool {
        let Some(list) = &mut self.list else {
            self.first();
            return true;
        };
        match self.sheet.step(list) {
            Ok(()) => true,
            Err(refusal) if refusal.number() == number::NO_NEXT => false,
            Err(refusal) => panic!("a step from a complete list: {refusal}"),
        }
    }

    /// The entries of the list at which the walk stands; none before the first.
    pub fn entries(&self) -> &[u8] {
        self.list.as_ref().map_or(&[], List::entries)
    }

    /// The list at which the walk stands, to be noted; none before the first.
    pub fn list(&self) -> Option<List> {
        self.list
    }
}

impl Iterator for Walk<'_> {
    type Item = (List, Outcome);

    fn next(&mut self) -> Option<(List, Outcome)> {
        if !self.step() {
            return None;
        }
        let list = self.list?;
        Some((list, self.sheet.evaluate(&list)))
    }
}

impl FusedIterator for Walk<'_> {}
