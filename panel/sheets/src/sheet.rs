//! Accepted sheets.

use std::fmt;

use crate::answer::Refusal;
use crate::lent::{self, SCRATCH_SIZE};
use crate::list::List;
use crate::value::Value;
use crate::walk::Walk;

/// What a run ends in.
pub type Outcome = Result<Value, Refusal>;

/// A table that the check accepted, with the memory that its calls work in, allocated once.
///
/// ```
/// use sheets::{List, Sheet, Value};
///
/// // 32 name 0; integer 1; integer 3; range 1,2; name 0; integer 2; <> 4,5; name 0; integer 1; + 7,8;
/// // let-be 0,3,6,9
/// let table = [
///     5, 0, 32, 0, 0, 8, 0, 2, 0, 1, 0, 0, 0, 8, 0, 2, 0, 3, 0, 0, 0, 6, 0, 11, 0, 1, 2, 5, 0, 3, 0, 0, 8, 0, 2, 0,
///     2, 0, 0, 0, 7, 0, 5, 0, 6, 4, 5, 5, 0, 3, 0, 0, 8, 0, 2, 0, 1, 0, 0, 0, 7, 0, 5, 0, 7, 7, 8, 8, 0, 13, 0, 0,
///     3, 6, 9,
/// ];
/// let mut sheet = Sheet::check(&table)?;
/// assert_eq!(sheet.records(), 11);
/// assert_eq!(sheet.evaluate(&List::from([1])), Ok(Value::Integer(4)));
/// assert_eq!(sheet.evaluate(&List::EMPTY).unwrap_err().number(), 32);
///
/// let lines: Vec<String> = sheet
///     .walk()
///     .map(|(list, outcome)| format!("{list} ={}", outcome.unwrap()))
///     .collect();
/// assert_eq!(lines, ["0 =2", "1 =4"]);
/// # Ok::<(), sheets::Refusal>(())
/// ```
#[derive(Clone)]
pub struct Sheet {
    table: Vec<u8>,
    records: usize,
    scratch: Vec<u8>,
    result: Vec<u8>,
}

impl Sheet {
    /// The most bytes of a table, and the most records.
    pub const MAX_SIZE: usize = 2_400;
    pub const MAX_RECORDS: usize = 200;

    /// Checks a table; 3 to 9 where it is refused.
    pub fn check(table: &[u8]) -> Result<Sheet, Refusal> {
        let mut scratch = vec![0; SCRATCH_SIZE];
        let records = lent::check(table, &mut scratch).granted()?;
        Ok(Sheet {
            table: table.to_vec(),
            records: records as usize,
            scratch,
            result: vec![0; Value::MAX_SIZE],
        })
    }

    /// The bytes of the table.
    pub fn table(&self) -> &[u8] {
        &self.table
    }

    /// The number of records.
    pub fn records(&self) -> usize {
        self.records
    }

    /// Evaluates the sheet under a list: a value, or 20 to 34.
    pub fn evaluate(&mut self, list: &List) -> Outcome {
        lent::evaluate(&self.table, list, &mut self.scratch, &mut self.result).granted()?;
        Ok(Value::first(&self.result).expect("the result is a value"))
    }

    /// All complete lists in dictionary order, each with what it ends in.
    pub fn walk(&mut self) -> Walk<'_> {
        Walk::new(self)
    }

    /// A walk that stands at a list noted before and goes on with the one after it; 32, 33 or 34 where the list is
    /// not a complete one of this sheet.
    ///
    /// ```
    /// # use sheets::{List, Sheet};
    /// # let table = [
    /// #     5, 0, 32, 0, 0, 8, 0, 2, 0, 1, 0, 0, 0, 8, 0, 2, 0, 3, 0, 0, 0, 6, 0, 11, 0, 1, 2, 5, 0, 1, 0, 1, 5, 0, 3, 0, 0,
    /// #     8, 0, 13, 0, 0, 3, 4, 5,
    /// # ];
    /// // let a in set {1,...,3} be st true in a
    /// let mut sheet = Sheet::check(&table)?;
    /// let noted = sheet.walk().next().unwrap().0;
    /// let rest: Vec<List> = sheet.walk_from(&noted)?.map(|(list, _)| list).collect();
    /// assert_eq!(rest, [[1].into(), [2].into()]);
    /// assert_eq!(sheet.walk_from(&[3].into()).unwrap_err().number(), 33);
    /// # Ok::<(), sheets::Refusal>(())
    /// ```
    pub fn walk_from(&mut self, list: &List) -> Result<Walk<'_>, Refusal> {
        Walk::from_list(self, list)
    }

    /// Overwrites a list with the first complete one.
    pub(crate) fn first(&mut self, list: &mut List) -> Result<(), Refusal> {
        let List { entries, length } = list;
        let answer = lent::first(&self.table, entries, length, &mut self.scratch);
        answer.granted().map(|_| ())
    }

    /// Overwrites a complete list with the next one.
    pub(crate) fn step(&mut self, list: &mut List) -> Result<(), Refusal> {
        let List { entries, length } = list;
        let answer = lent::step(&self.table, entries, length, &mut self.scratch);
        answer.granted().map(|_| ())
    }
}

impl fmt::Debug for Sheet {
    fn fmt(&self, f: &mut fmt::Formatter) -> fmt::Result {
        let mut shown = f.debug_struct("Sheet");
        shown.field("table", &self.table).finish_non_exhaustive()
    }
}
