//! Evaluation of a sheet under a choice list.

use std::collections::{BTreeMap, BTreeSet};

use crate::answer::{
    Answer, ENTRIES_LEFT, ENTRY_TOO_HIGH, LIST_SIZE, LIST_USED_UP, MANY_CHOICES, NOT_UNIQUE,
    NO_BINDING, NO_MATCH,
};
use crate::check::accept;
use crate::matching::{bindings, Binding};
use crate::operators::{self, Tried};
use crate::table::{is_loose_pattern, Binary, Bind, Quantifier, Record, Table};
use crate::value::Value;
use crate::walk::MAX_CHOICES;

/// What a run ends in: a value with number, place and count 0, or a refusal without a value.
#[derive(Clone, Debug, PartialEq, Eq)]
pub struct Evaluation {
    pub number: u32,
    pub place: usize,
    pub count: usize,
    pub value: Option<Value>,
}

impl Evaluation {
    pub fn answer(&self) -> Answer {
        Answer::new(self.number, self.place, self.count)
    }

    fn granted(value: Value) -> Evaluation {
        Evaluation {
            number: 0,
            place: 0,
            count: 0,
            value: Some(value),
        }
    }

    fn refused(answer: Answer) -> Evaluation {
        Evaluation {
            number: answer.number,
            place: answer.place,
            count: answer.count,
            value: None,
        }
    }
}

/// Checks a table and evaluates it under a list.
pub fn evaluate(table: &[u8], list: &[u8]) -> Evaluation {
    match accept(table) {
        Err(refusal) => Evaluation::refused(refusal.into()),
        Ok(_) if list.len() > MAX_CHOICES => Evaluation::refused(Answer::new(LIST_SIZE, 0, 0)),
        Ok(table) => run(&table, list),
    }
}

/// Evaluates an accepted table under a list of up to 64 entries.
pub fn run(table: &Table, list: &[u8]) -> Evaluation {
    let mut run = Run {
        table,
        list,
        taken: 0,
    };
    let result = run.value(table.last(), &Binding::new());
    let has_entries_left = run.taken < list.len();
    match result {
        Ok(_) if has_entries_left => {
            Evaluation::refused(Answer::new(ENTRIES_LEFT, table.last(), 0))
        }
        Ok(value) => Evaluation::granted(value),
        Err(end) if has_entries_left && end.number <= MANY_CHOICES => {
            Evaluation::refused(Answer::new(ENTRIES_LEFT, end.place, 0))
        }
        Err(end) => Evaluation::refused(end),
    }
}

/// A run: the table, the list and how many of its entries have been taken.
struct Run<'a> {
    table: &'a Table,
    list: &'a [u8],
    taken: usize,
}

impl Run<'_> {
    /// The value of a record, with a value for each name bound around it.
    fn value(&mut self, place: usize, state: &Binding) -> Result<Value, Answer> {
        match self.table.record(place) {
            Record::Literal(value) => Ok(value.clone()),
            Record::Name(name) => Ok(state[name].clone()),
            Record::Unary(operator, operand) => self.built(&[*operand], state, place, |values| {
                operators::unary(*operator, &values[0])
            }),
            Record::Binary(operator, left, right) if operators::is_conditional(*operator) => {
                self.conditional(*operator, *left, *right, state, place)
            }
            Record::Binary(operator, left, right) => {
                self.built(&[*left, *right], state, place, |values| {
                    operators::binary(*operator, &values[0], &values[1])
                })
            }
            Record::If {
                test,
                then,
                otherwise,
            } => {
                let truth = self.truth(*test, state, place)?;
                self.value(if truth { *then } else { *otherwise }, state)
            }
            Record::SetEnumeration(operands) => {
                self.built(operands, state, place, operators::set_enumeration)
            }
            Record::SequenceEnumeration(operands) => {
                self.built(operands, state, place, operators::sequence_enumeration)
            }
            Record::MapEnumeration(operands) => {
                self.built(operands, state, place, operators::map_enumeration)
            }
            Record::Tuple(operands) => self.built(operands, state, place, operators::tuple),
            Record::SetRange(from, to) => self.built(&[*from, *to], state, place, |values| {
                operators::set_range(&values[0], &values[1])
            }),
            Record::Apply(function, argument) => {
                self.built(&[*function, *argument], state, place, |values| {
                    operators::apply(&values[0], &values[1])
                })
            }
            _ => self.binder(place, state),
        }
    }

    /// The value of a binder.
    fn binder(&mut self, place: usize, state: &Binding) -> Result<Value, Answer> {
        match self.table.record(place) {
            Record::Let {
                pattern,
                value,
                body,
            } => {
                let binding = self.let_binding(*pattern, *value, state, place)?;
                self.value(*body, &extended(state, &binding))
            }
            Record::LetBe { bind, body } => {
                let binding = self.let_be_binding(bind, state, place)?;
                self.value(*body, &extended(state, &binding))
            }
            Record::Quantified(quantifier, bind) => {
                self.quantified(*quantifier, bind, state, place)
            }
            Record::SetComprehension { bind, element } => {
                self.set_comprehension(bind, *element, state, place)
            }
            Record::SequenceComprehension { bind, element } => {
                self.sequence_comprehension(bind, *element, state, place)
            }
            Record::MapComprehension { bind, key, value } => {
                self.map_comprehension(bind, *key, *value, state, place)
            }
            other => unreachable!("{other:?} is no binder"),
        }
    }

    /// And, or and =>, which evaluate the right operand only if the left does not settle the result.
    fn conditional(
        &mut self,
        operator: Binary,
        left: usize,
        right: usize,
        state: &Binding,
        place: usize,
    ) -> Result<Value, Answer> {
        let truth = self.truth(left, state, place)?;
        match operators::settled(operator, truth) {
            Some(settled) => Ok(Value::Boolean(settled)),
            None => Ok(Value::Boolean(self.truth(right, state, place)?)),
        }
    }

    /// The binding of a let: a choice if its pattern is loose.
    fn let_binding(
        &mut self,
        pattern: usize,
        value: usize,
        state: &Binding,
        place: usize,
    ) -> Result<Binding, Answer> {
        let value = self.value(value, state)?;
        let mut bindings = bindings(self.table, pattern, [&value]).map_err(refusal_at(place))?;
        if bindings.is_empty() {
            return Err(Answer::new(NO_MATCH, place, 0));
        }
        let is_choice = is_loose_pattern(self.table.records(), pattern);
        let chosen = if is_choice {
            self.choose(bindings.len(), place)?
        } else {
            0
        };
        Ok(bindings.swap_remove(chosen))
    }

    /// The binding of a let-be: a choice among those that make its condition true.
    fn let_be_binding(
        &mut self,
        bind: &Bind,
        state: &Binding,
        place: usize,
    ) -> Result<Binding, Answer> {
        let mut satisfying = self.satisfying(bind, state, place)?;
        if satisfying.is_empty() {
            return Err(Answer::new(NO_BINDING, place, 0));
        }
        let chosen = self.choose(satisfying.len(), place)?;
        Ok(satisfying.swap_remove(chosen))
    }

    fn set_comprehension(
        &mut self,
        bind: &Bind,
        element: usize,
        state: &Binding,
        place: usize,
    ) -> Result<Value, Answer> {
        let mut members = BTreeSet::new();
        for binding in self.bindings(bind, state, place, operators::set)? {
            let state = extended(state, &binding);
            if self.truth(bind.condition, &state, place)? {
                let element = self.value(element, &state)?;
                operators::add_member(&mut members, element).map_err(refusal_at(place))?;
            }
        }
        Ok(Value::Set(members))
    }

    fn sequence_comprehension(
        &mut self,
        bind: &Bind,
        element: usize,
        state: &Binding,
        place: usize,
    ) -> Result<Value, Answer> {
        let mut items = Vec::new();
        for binding in self.bindings(bind, state, place, operators::set_of_integers)? {
            let state = extended(state, &binding);
            if self.truth(bind.condition, &state, place)? {
                let element = self.value(element, &state)?;
                operators::add_item(&mut items, element).map_err(refusal_at(place))?;
            }
        }
        Ok(Value::Sequence(items))
    }

    fn map_comprehension(
        &mut self,
        bind: &Bind,
        key: usize,
        value: usize,
        state: &Binding,
        place: usize,
    ) -> Result<Value, Answer> {
        let mut entries = BTreeMap::new();
        for binding in self.bindings(bind, state, place, operators::set)? {
            let state = extended(state, &binding);
            if self.truth(bind.condition, &state, place)? {
                let key = self.value(key, &state)?;
                let value = self.value(value, &state)?;
                operators::add_entry(&mut entries, key, value).map_err(refusal_at(place))?;
            }
        }
        Ok(Value::Map(entries))
    }

    /// What is built of the values of operands, which are evaluated in written order.
    fn built(
        &mut self,
        operands: &[usize],
        state: &Binding,
        place: usize,
        build: impl Fn(Vec<Value>) -> Tried<Value>,
    ) -> Result<Value, Answer> {
        let values: Result<Vec<Value>, Answer> = operands
            .iter()
            .map(|&operand| self.value(operand, state))
            .collect();
        build(values?).map_err(refusal_at(place))
    }

    /// The truth of a condition, test or operand of the record at a place, which tests the kind.
    fn truth(&mut self, condition: usize, state: &Binding, place: usize) -> Result<bool, Answer> {
        let value = self.value(condition, state)?;
        operators::boolean(&value).map_err(refusal_at(place))
    }

    /// The bindings of a binder over its set, whose members are read by a test of their kinds.
    fn bindings(
        &mut self,
        bind: &Bind,
        state: &Binding,
        place: usize,
        members: fn(&Value) -> Tried<&BTreeSet<Value>>,
    ) -> Result<Vec<Binding>, Answer> {
        let set = self.value(bind.set, state)?;
        members(&set)
            .and_then(|members| bindings(self.table, bind.pattern, members))
            .map_err(refusal_at(place))
    }

    /// The bindings of a binder that make its condition true; all are tested.
    fn satisfying(
        &mut self,
        bind: &Bind,
        state: &Binding,
        place: usize,
    ) -> Result<Vec<Binding>, Answer> {
        let mut satisfying = Vec::new();
        for binding in self.bindings(bind, state, place, operators::set)? {
            if self.truth(bind.condition, &extended(state, &binding), place)? {
                satisfying.push(binding);
            }
        }
        Ok(satisfying)
    }

    fn quantified(
        &mut self,
        quantifier: Quantifier,
        bind: &Bind,
        state: &Binding,
        place: usize,
    ) -> Result<Value, Answer> {
        match quantifier {
            Quantifier::Forall | Quantifier::Exists => {
                let settling = quantifier == Quantifier::Exists;
                for binding in self.bindings(bind, state, place, operators::set)? {
                    if self.truth(bind.condition, &extended(state, &binding), place)? == settling {
                        return Ok(Value::Boolean(settling));
                    }
                }
                Ok(Value::Boolean(!settling))
            }
            Quantifier::Exists1 => {
                let satisfying = self.satisfying(bind, state, place)?;
                Ok(Value::Boolean(satisfying.len() == 1))
            }
            Quantifier::Iota => match self.satisfying(bind, state, place)?.as_slice() {
                [only] => Ok(only.values().next().expect("iota binds a name").clone()),
                _ => Err(Answer::new(NOT_UNIQUE, place, 0)),
            },
        }
    }

    /// Takes the next entry of the list as a choice among some bindings.
    fn choose(&mut self, bindings: usize, place: usize) -> Result<usize, Answer> {
        if self.taken == MAX_CHOICES {
            return Err(Answer::new(MANY_CHOICES, place, 0));
        }
        let Some(&entry) = self.list.get(self.taken) else {
            return Err(Answer::new(LIST_USED_UP, place, bindings));
        };
        let chosen = usize::from(entry);
        if chosen >= bindings {
            return Err(Answer::new(ENTRY_TOO_HIGH, place, bindings));
        }
        self.taken += 1;
        Ok(chosen)
    }
}

/// Makes a number a refusal at a place.
fn refusal_at(place: usize) -> impl Fn(u32) -> Answer {
    move |number| Answer::new(number, place, 0)
}

/// The state within a binder.
fn extended(state: &Binding, binding: &Binding) -> Binding {
    let mut state = state.clone();
    state.extend(binding.iter().map(|(name, value)| (*name, value.clone())));
    state
}
