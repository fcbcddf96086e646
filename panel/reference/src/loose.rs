//! The loose meaning of a sheet: the set of its outcomes, computed without a choice list.

use std::collections::{BTreeMap, BTreeSet};

use crate::answer::{Refusal, NOT_UNIQUE, NO_BINDING, NO_MATCH};
use crate::matching::{bindings, Binding};
use crate::operators::{self, Tried};
use crate::table::{Binary, Bind, Quantifier, Record, Table};
use crate::value::Value;

/// A value, or a refusal 20 to 30 with its place.
pub type Outcome = Result<Value, Refusal>;

/// Every result that a part of the meaning may come to. A refusal is final.
type Loose<T> = BTreeSet<Result<T, Refusal>>;

/// The outcomes of a sheet.
pub fn outcomes(table: &Table) -> BTreeSet<Outcome> {
    Meaning { table }.outcomes(table.last(), &Binding::new())
}

struct Meaning<'a> {
    table: &'a Table,
}

impl Meaning<'_> {
    /// The outcomes of a record in a state, which is a value for each name bound around it.
    fn outcomes(&self, place: usize, state: &Binding) -> Loose<Value> {
        match self.table.record(place) {
            Record::Literal(value) => certain(value.clone()),
            Record::Name(name) => certain(state[name].clone()),
            Record::Unary(operator, operand) => self.built(&[*operand], state, place, |values| {
                operators::unary(*operator, &values[0])
            }),
            Record::Binary(operator, left, right) if operators::is_conditional(*operator) => {
                self.conditional(*operator, *left, *right, state, place)
            }
            Record::Binary(operator, left, right) => {
                self.built(&[*left, *right], state, place, |values| {
                    operators::binary(*operator, &values[0], &values[1])
                })
            }
            Record::If {
                test,
                then: yes,
                otherwise: no,
            } => then(self.truths(*test, state, place), |truth| {
                self.outcomes(if truth { *yes } else { *no }, state)
            }),
            Record::SetEnumeration(operands) => {
                self.built(operands, state, place, operators::set_enumeration)
            }
            Record::SequenceEnumeration(operands) => {
                self.built(operands, state, place, operators::sequence_enumeration)
            }
            Record::MapEnumeration(operands) => {
                self.built(operands, state, place, operators::map_enumeration)
            }
            Record::Tuple(operands) => self.built(operands, state, place, operators::tuple),
            Record::SetRange(from, to) => self.built(&[*from, *to], state, place, |values| {
                operators::set_range(&values[0], &values[1])
            }),
            Record::Apply(function, argument) => {
                self.built(&[*function, *argument], state, place, |values| {
                    operators::apply(&values[0], &values[1])
                })
            }
            _ => self.binder(place, state),
        }
    }

    /// The outcomes of a binder.
    fn binder(&self, place: usize, state: &Binding) -> Loose<Value> {
        match self.table.record(place) {
            Record::Let {
                pattern,
                value,
                body,
            } => then(self.outcomes(*value, state), |value| {
                let matched = tried(bindings(self.table, *pattern, [&value]), place);
                then(matched, |bindings| {
                    self.under_each(&bindings, *body, state, Refusal::new(NO_MATCH, place))
                })
            }),
            Record::LetBe { bind, body } => {
                then(self.satisfying(bind, state, place), |satisfying| {
                    self.under_each(&satisfying, *body, state, Refusal::new(NO_BINDING, place))
                })
            }
            Record::Quantified(quantifier, bind) => {
                self.quantified(*quantifier, bind, state, place)
            }
            Record::SetComprehension { bind, element } => {
                self.set_comprehension(bind, *element, state, place)
            }
            Record::SequenceComprehension { bind, element } => {
                self.sequence_comprehension(bind, *element, state, place)
            }
            Record::MapComprehension { bind, key, value } => {
                self.map_comprehension(bind, *key, *value, state, place)
            }
            other => unreachable!("{other:?} is no binder"),
        }
    }

    /// And, or and =>, which evaluate the right operand only if the left does not settle the result.
    fn conditional(
        &self,
        operator: Binary,
        left: usize,
        right: usize,
        state: &Binding,
        place: usize,
    ) -> Loose<Value> {
        let truths = then(
            self.truths(left, state, place),
            |truth| match operators::settled(operator, truth) {
                Some(settled) => certain(settled),
                None => self.truths(right, state, place),
            },
        );
        then(truths, |truth| certain(Value::Boolean(truth)))
    }

    fn set_comprehension(
        &self,
        bind: &Bind,
        element: usize,
        state: &Binding,
        place: usize,
    ) -> Loose<Value> {
        let add = |members: BTreeSet<Value>, state: &Binding| {
            then(self.outcomes(element, state), |element| {
                let mut members = members.clone();
                let added = operators::add_member(&mut members, element);
                tried(added.map(|()| members), place)
            })
        };
        let sets = self.comprehended(bind, state, place, operators::set, add);
        then(sets, |members| certain(Value::Set(members)))
    }

    fn sequence_comprehension(
        &self,
        bind: &Bind,
        element: usize,
        state: &Binding,
        place: usize,
    ) -> Loose<Value> {
        let add = |items: Vec<Value>, state: &Binding| {
            then(self.outcomes(element, state), |element| {
                let mut items = items.clone();
                let added = operators::add_item(&mut items, element);
                tried(added.map(|()| items), place)
            })
        };
        let sequences = self.comprehended(bind, state, place, operators::set_of_integers, add);
        then(sequences, |items| certain(Value::Sequence(items)))
    }

    fn map_comprehension(
        &self,
        bind: &Bind,
        key: usize,
        value: usize,
        state: &Binding,
        place: usize,
    ) -> Loose<Value> {
        let add = |entries: BTreeMap<Value, Value>, state: &Binding| {
            then(self.values(&[key, value], state), |entry| {
                let mut entries = entries.clone();
                let [key, value] = <[Value; 2]>::try_from(entry).expect("key and value");
                let added = operators::add_entry(&mut entries, key, value);
                tried(added.map(|()| entries), place)
            })
        };
        let maps = self.comprehended(bind, state, place, operators::set, add);
        then(maps, |entries| certain(Value::Map(entries)))
    }

    /// The values of operands, in written order.
    fn values(&self, operands: &[usize], state: &Binding) -> Loose<Vec<Value>> {
        operands.iter().fold(certain(vec![]), |values, &operand| {
            then(values, |values: Vec<Value>| {
                then(self.outcomes(operand, state), |value| {
                    certain([values.as_slice(), &[value]].concat())
                })
            })
        })
    }

    /// What is built of operands.
    fn built(
        &self,
        operands: &[usize],
        state: &Binding,
        place: usize,
        build: impl Fn(Vec<Value>) -> Tried<Value>,
    ) -> Loose<Value> {
        then(self.values(operands, state), |values| {
            tried(build(values), place)
        })
    }

    /// The truth of a condition, test or operand of the record at a place, which tests the kind.
    fn truths(&self, condition: usize, state: &Binding, place: usize) -> Loose<bool> {
        then(self.outcomes(condition, state), |value| {
            tried(operators::boolean(&value), place)
        })
    }

    /// The bindings of a binder over its set, whose members are read by a test of their kinds.
    fn bindings(
        &self,
        bind: &Bind,
        state: &Binding,
        place: usize,
        members: fn(&Value) -> Tried<&BTreeSet<Value>>,
    ) -> Loose<Vec<Binding>> {
        then(self.outcomes(bind.set, state), |set| {
            let found = members(&set).and_then(|m| bindings(self.table, bind.pattern, m));
            tried(found, place)
        })
    }

    /// The bindings of a binder that make its condition true; all are tested.
    fn satisfying(&self, bind: &Bind, state: &Binding, place: usize) -> Loose<Vec<Binding>> {
        then(self.bindings(bind, state, place, operators::set), |all| {
            all.iter().fold(certain(vec![]), |satisfying, binding| {
                let state = extended(state, binding);
                then(satisfying, |satisfying: Vec<Binding>| {
                    then(self.truths(bind.condition, &state, place), |truth| {
                        let mut satisfying = satisfying.clone();
                        satisfying.extend(truth.then(|| binding.clone()));
                        certain(satisfying)
                    })
                })
            })
        })
    }

    /// The outcomes of a body under each of some bindings; a refusal if there are none.
    fn under_each(
        &self,
        bindings: &[Binding],
        body: usize,
        state: &Binding,
        if_none: Refusal,
    ) -> Loose<Value> {
        if bindings.is_empty() {
            return BTreeSet::from([Err(if_none)]);
        }
        bindings
            .iter()
            .flat_map(|binding| self.outcomes(body, &extended(state, binding)))
            .collect()
    }

    fn quantified(
        &self,
        quantifier: Quantifier,
        bind: &Bind,
        state: &Binding,
        place: usize,
    ) -> Loose<Value> {
        match quantifier {
            Quantifier::Forall => self.settled_by(false, bind, state, place),
            Quantifier::Exists => self.settled_by(true, bind, state, place),
            Quantifier::Exists1 => then(self.satisfying(bind, state, place), |satisfying| {
                certain(Value::Boolean(satisfying.len() == 1))
            }),
            Quantifier::Iota => {
                then(
                    self.satisfying(bind, state, place),
                    |satisfying| match satisfying.as_slice() {
                        [only] => certain(only.values().next().expect("iota binds a name").clone()),
                        _ => tried(Err(NOT_UNIQUE), place),
                    },
                )
            }
        }
    }

    /// A quantifier that stops at the first condition with the settling truth.
    fn settled_by(
        &self,
        settling: bool,
        bind: &Bind,
        state: &Binding,
        place: usize,
    ) -> Loose<Value> {
        let conditions = |all: Vec<Binding>| {
            all.iter().fold(certain(false), |is_settled, binding| {
                then(is_settled, |is_settled| {
                    if is_settled {
                        return certain(true);
                    }
                    let truths = self.truths(bind.condition, &extended(state, binding), place);
                    then(truths, |truth| certain(truth == settling))
                })
            })
        };
        let is_settled = then(
            self.bindings(bind, state, place, operators::set),
            conditions,
        );
        then(is_settled, |is_settled| {
            certain(Value::Boolean(is_settled == settling))
        })
    }

    /// What a comprehension comes to, binding by binding: where the condition is true, `add` adds to what
    /// has been built so far.
    fn comprehended<T: Ord + Clone + Default>(
        &self,
        bind: &Bind,
        state: &Binding,
        place: usize,
        members: fn(&Value) -> Tried<&BTreeSet<Value>>,
        add: impl Fn(T, &Binding) -> Loose<T>,
    ) -> Loose<T> {
        then(self.bindings(bind, state, place, members), |all| {
            all.iter().fold(certain(T::default()), |built, binding| {
                let state = extended(state, binding);
                then(built, |built: T| {
                    then(self.truths(bind.condition, &state, place), |truth| {
                        if truth {
                            add(built.clone(), &state)
                        } else {
                            certain(built.clone())
                        }
                    })
                })
            })
        })
    }
}

/// What can only come to one result.
fn certain<T: Ord>(result: T) -> Loose<T> {
    BTreeSet::from([Ok(result)])
}

/// A result, or a refusal at a place.
fn tried<T: Ord>(result: Tried<T>, place: usize) -> Loose<T> {
    BTreeSet::from([result.map_err(|number| Refusal::new(number, place))])
}

/// All that follows from each of some results; refusals stay, and nothing follows them.
fn then<T: Ord, U: Ord>(results: Loose<T>, next: impl Fn(T) -> Loose<U>) -> Loose<U> {
    results
        .into_iter()
        .flat_map(|result| match result {
            Ok(result) => next(result),
            Err(refusal) => BTreeSet::from([Err(refusal)]),
        })
        .collect()
}

/// The state within a binder.
fn extended(state: &Binding, binding: &Binding) -> Binding {
    let mut state = state.clone();
    state.extend(binding.iter().map(|(name, value)| (*name, value.clone())));
    state
}
