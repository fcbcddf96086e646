//! Patterns as trees, and a notation for them and for values.
//!
//! `{a, -} union (b ^ [1])` and `{a |-> 1} munion b` are patterns, with a to p for the names 0 to 15 and - for any
//! value. What has no name, no union, no munion and no ^ also stands for a value. `{1,...,7}` is short for
//! `{1,2,3,4,5,6,7}`; `{|->}` is the map without entries; `<1>` is a quote.

use generator::builder::kind;
use generator::Builder;
use reference::matching::MAX_SPLIT;
use reference::value::Value;

#[derive(Clone, Debug, PartialEq, Eq)]
pub enum Pattern {
    Name(u8),
    Any,
    Boolean(bool),
    Integer(i32),
    Tuple(Vec<Pattern>),
    Set(Vec<Pattern>),
    Union(Box<[Pattern; 2]>),
    Sequence(Vec<Pattern>),
    Concatenation(Box<[Pattern; 2]>),
    /// Key, value, key, value.
    Map(Vec<Pattern>),
    Munion(Box<[Pattern; 2]>),
    Quote(u16),
}

use Pattern::{
    Any, Boolean, Concatenation, Integer, Map, Munion, Name, Quote, Sequence, Set, Tuple, Union,
};

/// The kinds that may match in several ways, so that a let with one of them chooses.
const LOOSE: [u16; 5] = [
    kind::P_SET,
    kind::P_UNION,
    kind::P_CONCATENATION,
    kind::P_MAP,
    kind::P_MUNION,
];

/// Reads a pattern.
pub fn pattern(text: &str) -> Pattern {
    let mut reader = Reader { rest: text };
    let pattern = reader.pattern();
    assert_eq!(reader.rest.trim(), "", "after the pattern in {text}");
    pattern
}

/// Reads a value.
pub fn value(text: &str) -> Value {
    pattern(text).value()
}

impl Pattern {
    pub fn union(left: Pattern, right: Pattern) -> Pattern {
        Union(Box::new([left, right]))
    }

    pub fn concatenation(left: Pattern, right: Pattern) -> Pattern {
        Concatenation(Box::new([left, right]))
    }

    pub fn munion(left: Pattern, right: Pattern) -> Pattern {
        Munion(Box::new([left, right]))
    }

    pub fn kind(&self) -> u16 {
        match self {
            Name(_) => kind::P_NAME,
            Any => kind::P_ANY,
            Boolean(_) => kind::P_BOOLEAN,
            Integer(_) => kind::P_INTEGER,
            Tuple(_) => kind::P_TUPLE,
            Set(_) => kind::P_SET,
            Union(_) => kind::P_UNION,
            Sequence(_) => kind::P_SEQUENCE,
            Concatenation(_) => kind::P_CONCATENATION,
            Map(_) => kind::P_MAP,
            Munion(_) => kind::P_MUNION,
            Quote(_) => kind::P_QUOTE,
        }
    }

    pub fn parts(&self) -> &[Pattern] {
        match self {
            Name(_) | Any | Boolean(_) | Integer(_) | Quote(_) => &[],
            Tuple(parts) | Set(parts) | Sequence(parts) | Map(parts) => parts,
            Union(halves) | Concatenation(halves) | Munion(halves) => &**halves,
        }
    }

    /// The pattern and all within it.
    pub fn all(&self) -> Vec<&Pattern> {
        let within = self.parts().iter().flat_map(Pattern::all);
        std::iter::once(self).chain(within).collect()
    }

    /// The names, each as often as it stands in the pattern.
    pub fn names(&self) -> Vec<u8> {
        let name = |pattern: &&Pattern| match pattern {
            Name(name) => Some(*name),
            _ => None,
        };
        self.all().iter().filter_map(name).collect()
    }

    /// Whether it may match in several ways, so that a let with it chooses.
    pub fn is_loose(&self) -> bool {
        self.all().iter().any(|part| LOOSE.contains(&part.kind()))
    }

    /// Appends the records of the pattern and gives the number of the last.
    pub fn write(&self, out: &mut Builder) -> usize {
        let constants = match self {
            Name(name) => vec![*name],
            Boolean(truth) => vec![u8::from(*truth)],
            Integer(number) => number.to_le_bytes().to_vec(),
            Quote(number) => number.to_le_bytes().to_vec(),
            _ => vec![],
        };
        let parts: Vec<usize> = self.parts().iter().map(|part| part.write(out)).collect();
        out.record(self.kind(), &constants, &parts)
    }

    /// The value that a pattern without names, any, union, munion and ^ stands for.
    fn value(&self) -> Value {
        let parts = self.parts().iter().map(Pattern::value);
        match self {
            Map(parts) => {
                let entries = parts.chunks_exact(2);
                Value::Map(entries.map(|e| (e[0].value(), e[1].value())).collect())
            }
            Boolean(truth) => Value::Boolean(*truth),
            Integer(number) => Value::Integer(*number),
            Quote(number) => Value::Quote(*number),
            Tuple(_) => Value::Tuple(parts.collect()),
            Set(_) => Value::Set(parts.collect()),
            Sequence(_) => Value::Sequence(parts.collect()),
            _ => panic!("{self:?} is no value"),
        }
    }

    /// In how many ways all parts are tried on a value, as far as `most` goes; the proved matching goes
    /// them one by one. There is one where kind or count do not fit.
    pub fn ways(&self, value: &Value, most: usize) -> usize {
        if self.parts().iter().all(|part| part.parts().is_empty()) {
            return self.own_ways(value);
        }
        let mut total = 0;
        for items in self.deals(value) {
            let mut ways = 1;
            for (part, item) in self.parts().iter().zip(&items) {
                ways *= part.ways(item, most / ways);
                if ways > most {
                    return ways;
                }
            }
            total += ways;
            if total > most {
                return total;
            }
        }
        total.max(1)
    }

    /// The ways of a pattern whose parts have one each.
    fn own_ways(&self, value: &Value) -> usize {
        match (self, value) {
            (Set(parts), Value::Set(members)) if parts.len() == members.len() => {
                (1..=members.len()).product()
            }
            (Map(parts), Value::Map(entries)) if parts.len() == 2 * entries.len() => {
                (1..=entries.len()).product()
            }
            (Union(_), Value::Set(members)) => splits(members.len()).count().max(1),
            (Munion(_), Value::Map(entries)) => splits(entries.len()).count().max(1),
            (Concatenation(_), Value::Sequence(items)) => items.len() + 1,
            _ => 1,
        }
    }

    /// Every way to deal out a value among the parts.
    fn deals(&self, value: &Value) -> Vec<Vec<Value>> {
        match (self, value) {
            (Tuple(parts), Value::Tuple(items)) | (Sequence(parts), Value::Sequence(items))
                if parts.len() == items.len() =>
            {
                vec![items.clone()]
            }
            (Set(parts), Value::Set(members)) if parts.len() == members.len() => {
                permutations(&members.iter().cloned().collect::<Vec<_>>())
            }
            (Map(parts), Value::Map(entries)) if parts.len() == 2 * entries.len() => {
                let entries = entries.iter().map(|(k, v)| [k.clone(), v.clone()]);
                let orders = permutations(&entries.collect::<Vec<_>>());
                orders.into_iter().map(|order| order.concat()).collect()
            }
            (Union(_), Value::Set(members)) => {
                halves(members).map(|h| h.map(Value::Set).into()).collect()
            }
            (Munion(_), Value::Map(entries)) => {
                halves(entries).map(|h| h.map(Value::Map).into()).collect()
            }
            (Concatenation(_), Value::Sequence(items)) => {
                let half = |items: &[Value]| Value::Sequence(items.to_vec());
                let cuts = (0..=items.len()).map(|at| items.split_at(at));
                cuts.map(|(left, right)| vec![half(left), half(right)])
                    .collect()
            }
            _ => vec![],
        }
    }
}

/// The splits of so many members or entries, by the bits of those in the left half: neither none of them nor all. Too many
/// are not split.
fn splits(units: usize) -> std::ops::Range<usize> {
    match units {
        0..=MAX_SPLIT => 1..(1 << units) - 1,
        _ => 0..0,
    }
}

/// The halves of a set or map in every split: the members or entries whose bits are set, and the others.
fn halves<T: Clone, C: Clone + IntoIterator<Item = T> + FromIterator<T>>(
    whole: &C,
) -> impl Iterator<Item = [C; 2]> {
    let units: Vec<T> = whole.clone().into_iter().collect();
    splits(units.len()).map(move |bits| {
        let numbered = units.iter().cloned().enumerate();
        let (left, right): (Vec<_>, Vec<_>) = numbered.partition(|(at, _)| bits >> at & 1 == 1);
        [left, right].map(|half| half.into_iter().map(|(_, unit)| unit).collect())
    })
}

fn permutations<T: Clone>(items: &[T]) -> Vec<Vec<T>> {
    let Some((first, rest)) = items.split_first() else {
        return vec![vec![]];
    };
    let mut all = Vec::new();
    for order in permutations(rest) {
        for at in 0..items.len() {
            let mut order = order.clone();
            order.insert(at, first.clone());
            all.push(order);
        }
    }
    all
}

/// Reads the notation.
struct Reader<'t> {
    rest: &'t str,
}

impl Reader<'_> {
    /// Goes past a sign, if it stands here.
    fn skips(&mut self, sign: &str) -> bool {
        let after = self.rest.trim_start().strip_prefix(sign);
        self.rest = after.unwrap_or(self.rest);
        after.is_some()
    }

    fn expect(&mut self, sign: &str) {
        assert!(self.skips(sign), "{sign} is missing before {:?}", self.rest);
    }

    fn pattern(&mut self) -> Pattern {
        let left = self.part();
        if self.skips("union") {
            Pattern::union(left, self.part())
        } else if self.skips("munion") {
            Pattern::munion(left, self.part())
        } else if self.skips("^") {
            Pattern::concatenation(left, self.part())
        } else {
            left
        }
    }

    fn part(&mut self) -> Pattern {
        if self.skips("(") {
            let pattern = self.pattern();
            self.expect(")");
            pattern
        } else if self.skips("mk_(") {
            Tuple(self.list(")"))
        } else if self.skips("{|->}") {
            Map(vec![])
        } else if self.skips("{") {
            self.set_or_map()
        } else if self.skips("[") {
            Sequence(self.list("]"))
        } else if self.skips("<") {
            self.quote()
        } else {
            self.word()
        }
    }

    /// The members of a set, or the entries of a map if the first has a value.
    fn set_or_map(&mut self) -> Pattern {
        let before = self.rest;
        let is_map = !self.skips("}") && {
            self.pattern();
            self.skips("|->")
        };
        self.rest = before;
        match is_map {
            true => Map(self.entries()),
            false => Set(self.list("}")),
        }
    }

    /// Keys and values up to the end of a map.
    fn entries(&mut self) -> Vec<Pattern> {
        let mut parts = Vec::new();
        loop {
            parts.push(self.pattern());
            self.expect("|->");
            parts.push(self.pattern());
            if self.skips("}") {
                return parts;
            }
            self.expect(",");
        }
    }

    /// The patterns up to a closing sign.
    fn list(&mut self, close: &str) -> Vec<Pattern> {
        let mut parts: Vec<Pattern> = Vec::new();
        while !self.skips(close) {
            if !parts.is_empty() {
                self.expect(",");
            }
            if self.skips("...") {
                self.expect(",");
                let (Some(Integer(from)), Integer(to)) = (parts.last(), self.word()) else {
                    panic!("no range before {:?}", self.rest);
                };
                parts.extend((from + 1..=to).map(Integer));
            } else {
                parts.push(self.pattern());
            }
        }
        parts
    }

    /// A quote after its opening sign.
    fn quote(&mut self) -> Pattern {
        let number = self.letters().parse().expect("a quote's number");
        self.expect(">");
        Quote(number)
    }

    /// Letters, digits and minuses, as many as stand here.
    fn letters(&mut self) -> &str {
        let text = self.rest.trim_start();
        let ends = |c: char| !c.is_ascii_alphanumeric() && c != '-';
        let (word, rest) = text.split_at(text.find(ends).unwrap_or(text.len()));
        self.rest = rest;
        word
    }

    /// A name, any, a boolean or an integer.
    fn word(&mut self) -> Pattern {
        let word = self.letters();
        match word.as_bytes() {
            b"-" => Any,
            b"true" => Boolean(true),
            b"false" => Boolean(false),
            [name @ b'a'..=b'p'] => Name(name - b'a'),
            _ => Integer(word.parse().expect("a name or a literal")),
        }
    }
}
