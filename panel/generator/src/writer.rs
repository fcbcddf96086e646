//! The state of a sheet in the making: what is bound, and how much more the sheet may hold.

use crate::builder::Builder;
use crate::random::Random;
use crate::shape::Shape;

/// The names of a pattern, with the shapes that they bind.
pub type Names = Vec<(u8, Shape)>;

/// A state to return to.
pub struct Mark {
    records: usize,
    lists: f64,
    choices: usize,
}

/// Writes one random sheet.
pub struct Writer {
    pub random: Random,
    pub out: Builder,
    /// The names bound around the record that is written.
    pub scope: Names,
    /// Records that may still be written before only leaves are.
    pub fuel: isize,
    /// The logarithm of the factor by which choices may still multiply the complete lists.
    pub lists: f64,
    /// How often, at most, the record that is written is evaluated in one run.
    pub times: usize,
    /// Choices that a run may still meet.
    pub choices: usize,
    /// Within a condition no choice is allowed.
    pub in_condition: bool,
    /// A wild sheet now and then has a wrong kind, an extreme number or too large a set.
    pub wild: bool,
}

impl Writer {
    pub fn new(random: Random, fuel: usize, wild: bool) -> Self {
        Writer {
            random,
            out: Builder::new(),
            scope: Names::new(),
            fuel: fuel as isize,
            lists: 300f64.ln(),
            times: 1,
            choices: 40,
            in_condition: false,
            wild,
        }
    }

    /// Now and then, in a wild sheet.
    pub fn wildly(&mut self, once_in: usize) -> bool {
        self.wild && self.random.once_in(once_in)
    }

    /// Whether a choice among so many bindings may stand here; if so it is counted.
    pub fn afford_choice(&mut self, bindings: usize) -> bool {
        let cost = self.times as f64 * (bindings.max(1) as f64).ln();
        if self.in_condition || cost > self.lists || self.times > self.choices {
            return false;
        }
        self.lists -= cost;
        self.choices -= self.times;
        true
    }

    /// Where the sheet stands, to return to.
    pub fn mark(&self) -> Mark {
        Mark {
            records: self.out.records.len(),
            lists: self.lists,
            choices: self.choices,
        }
    }

    /// Takes back all that was written since.
    pub fn return_to(&mut self, mark: Mark) {
        self.out.records.truncate(mark.records);
        self.lists = mark.lists;
        self.choices = mark.choices;
    }

    /// A name that is not bound here and not among those given.
    pub fn fresh_name(&mut self, taken: &Names) -> Option<u8> {
        let free = |name: &u8| !self.scope.iter().chain(taken).any(|(used, _)| used == name);
        let names: Vec<u8> = (0..16).filter(free).collect();
        if names.is_empty() {
            return None;
        }
        Some(self.random.pick(&names))
    }

    /// Writes something with more names bound.
    pub fn within<T>(&mut self, names: &Names, write: impl FnOnce(&mut Self) -> T) -> T {
        let outer = self.scope.len();
        self.scope.extend(names.iter().cloned());
        let result = write(self);
        self.scope.truncate(outer);
        result
    }

    /// Writes something that is evaluated once for each of so many bindings.
    pub fn repeated<T>(&mut self, bindings: usize, write: impl FnOnce(&mut Self) -> T) -> T {
        let outer = self.times;
        self.times = outer.saturating_mul(bindings.max(1));
        let result = write(self);
        self.times = outer;
        result
    }
}
