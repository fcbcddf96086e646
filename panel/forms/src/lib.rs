//! The forms of table records: the word, the kind, the operator and the fields of each, stated once for the notation,
//! the second evaluator and the generator.

/// What stands in a record after its kind (and after its operator, where it has one).
#[derive(Clone, Copy, Debug, PartialEq, Eq)]
pub enum Fields {
    /// One byte, 0 or 1, written `false` or `true`.
    Boolean,
    /// Four bytes, two's complement, little-endian.
    Integer,
    /// Two bytes, a number from 0 to 65,535, little-endian.
    Quote,
    /// One byte, 0 to 15.
    Name,
    /// Record numbers, one byte each: at least `least`, at most `most`, rising by `step`.
    Operands {
        least: usize,
        most: usize,
        step: usize,
    },
}

/// One form of record.
#[derive(Clone, Copy, Debug)]
pub struct Form {
    pub word: &'static str,
    pub kind: u16,
    pub operator: Option<u8>,
    pub fields: Fields,
}

/// The number of bytes before a record's fields: its length and its kind.
pub const HEADER: usize = 4;
/// The highest name.
pub const LAST_NAME: u8 = 15;

/// The kinds of table records.
pub mod kind {
    pub const BOOLEAN: u16 = 1;
    pub const INTEGER: u16 = 2;
    pub const NAME: u16 = 3;
    pub const UNARY: u16 = 4;
    pub const BINARY: u16 = 5;
    pub const IF: u16 = 6;
    pub const SET: u16 = 7;
    pub const SEQUENCE: u16 = 8;
    pub const MAP: u16 = 9;
    pub const TUPLE: u16 = 10;
    pub const RANGE: u16 = 11;
    pub const LET: u16 = 12;
    pub const LET_BE: u16 = 13;
    pub const FORALL: u16 = 14;
    pub const EXISTS: u16 = 15;
    pub const EXISTS1: u16 = 16;
    pub const IOTA: u16 = 17;
    pub const SET_COMPREHENSION: u16 = 18;
    pub const SEQUENCE_COMPREHENSION: u16 = 19;
    pub const MAP_COMPREHENSION: u16 = 20;
    pub const APPLY: u16 = 21;
    pub const QUOTE: u16 = 22;
    pub const P_NAME: u16 = 32;
    pub const P_ANY: u16 = 33;
    pub const P_BOOLEAN: u16 = 34;
    pub const P_INTEGER: u16 = 35;
    pub const P_TUPLE: u16 = 36;
    pub const P_SET: u16 = 37;
    pub const P_UNION: u16 = 38;
    pub const P_SEQUENCE: u16 = 39;
    pub const P_CONCATENATION: u16 = 40;
    pub const P_MAP: u16 = 41;
    pub const P_MUNION: u16 = 42;
    pub const P_QUOTE: u16 = 43;
}

/// Operators, one a row: the variant, its number, the name of that number and the word.
macro_rules! operators {
    ($(#[$about:meta])* $kind:ident, $numbers:ident, $form:ident:
        $($operator:ident = $number:literal, $name:ident, $word:literal;)*
    ) => {
        $(#[$about])*
        #[derive(Clone, Copy, Debug, PartialEq, Eq)]
        pub enum $kind { $($operator = $number,)* }

        impl $kind {
            pub fn from_number(number: u8) -> Option<$kind> {
                match number {
                    $($number => Some($kind::$operator),)*
                    _ => None,
                }
            }
        }

        $(#[$about])*
        pub mod $numbers {
            $(pub const $name: u8 = $number;)*
        }

        const $form: &[Form] = &[$(Form { operator: Some($number), ..$numbers($word) },)*];
    };
}

operators! {
    /// The unary operators.
    Unary, unary, UNARY_FORMS:
    Not = 1, NOT, "not";
    Minus = 2, NEGATE, "minus";
    Abs = 3, ABS, "abs";
    Card = 4, CARD, "card";
    DistributedUnion = 5, DUNION, "dunion";
    DistributedInter = 6, DINTER, "dinter";
    Len = 7, LEN, "len";
    Hd = 8, HD, "hd";
    Tl = 9, TL, "tl";
    Elems = 10, ELEMS, "elems";
    Inds = 11, INDS, "inds";
    Conc = 12, CONC, "conc";
    Reverse = 13, REVERSE, "reverse";
    Dom = 14, DOM, "dom";
    Rng = 15, RNG, "rng";
}

operators! {
    /// The binary operators.
    Binary, binary, BINARY_FORMS:
    And = 1, AND, "and";
    Or = 2, OR, "or";
    Implies = 3, IMPLIES, "=>";
    Equivalent = 4, EQUIVALENT, "<=>";
    Equal = 5, EQUAL, "=";
    NotEqual = 6, NOT_EQUAL, "<>";
    Plus = 7, PLUS, "+";
    Minus = 8, MINUS, "-";
    Times = 9, TIMES, "*";
    Div = 10, DIV, "div";
    Rem = 11, REM, "rem";
    Mod = 12, MOD, "mod";
    Less = 13, LESS, "<";
    LessOrEqual = 14, LESS_OR_EQUAL, "<=";
    Greater = 15, GREATER, ">";
    GreaterOrEqual = 16, GREATER_OR_EQUAL, ">=";
    InSet = 17, IN_SET, "in-set";
    NotInSet = 18, NOT_IN_SET, "not-in-set";
    Union = 19, UNION, "union";
    Inter = 20, INTER, "inter";
    Difference = 21, DIFFERENCE, "difference";
    Subset = 22, SUBSET, "subset";
    ProperSubset = 23, PSUBSET, "psubset";
    Concatenate = 24, CONCATENATE, "^";
    MapUnion = 25, MUNION, "munion";
    Override = 26, OVERRIDE, "++";
    DomainRestrict = 27, DOMAIN_RESTRICTION, "<:";
    RangeRestrict = 28, RANGE_RESTRICTION, ":>";
}

impl Form {
    /// Whether a record of this form may have this length.
    pub fn fits(&self, length: usize) -> bool {
        let before = HEADER + usize::from(self.operator.is_some());
        length
            .checked_sub(before)
            .is_some_and(|left| match self.fields {
                Fields::Boolean | Fields::Name => left == 1,
                Fields::Quote => left == 2,
                Fields::Integer => left == 4,
                Fields::Operands { .. } => self.fields.takes(left),
            })
    }
}

impl Fields {
    /// Whether this many operands are allowed.
    pub fn takes(self, count: usize) -> bool {
        match self {
            Fields::Operands { least, most, step } => {
                (least..=most).contains(&count) && (count - least).is_multiple_of(step)
            }
            _ => false,
        }
    }
}

const fn form(word: &'static str, kind: u16, fields: Fields) -> Form {
    Form {
        word,
        kind,
        operator: None,
        fields,
    }
}

const fn operands(word: &'static str, kind: u16, least: usize, most: usize) -> Form {
    let step = 1;
    form(word, kind, Fields::Operands { least, most, step })
}

/// Up to four keys, each with its value after it.
const fn keys_and_values(word: &'static str, kind: u16) -> Form {
    let (least, most, step) = (0, 8, 2);
    form(word, kind, Fields::Operands { least, most, step })
}

const fn exactly(word: &'static str, kind: u16, count: usize) -> Form {
    operands(word, kind, count, count)
}

const fn unary(word: &'static str) -> Form {
    exactly(word, kind::UNARY, 1)
}

const fn binary(word: &'static str) -> Form {
    exactly(word, kind::BINARY, 2)
}

/// The forms of the kinds that have no operator.
const KIND_FORMS: &[Form] = &[
    form("boolean", kind::BOOLEAN, Fields::Boolean),
    form("integer", kind::INTEGER, Fields::Integer),
    form("name", kind::NAME, Fields::Name),
    exactly("if", kind::IF, 3),
    operands("set", kind::SET, 0, 8),
    operands("sequence", kind::SEQUENCE, 0, 8),
    keys_and_values("map", kind::MAP),
    operands("tuple", kind::TUPLE, 2, 4),
    exactly("range", kind::RANGE, 2),
    exactly("let", kind::LET, 3),
    exactly("let-be", kind::LET_BE, 4),
    exactly("forall", kind::FORALL, 3),
    exactly("exists", kind::EXISTS, 3),
    exactly("exists1", kind::EXISTS1, 3),
    exactly("iota", kind::IOTA, 3),
    exactly("set-comprehension", kind::SET_COMPREHENSION, 4),
    exactly("sequence-comprehension", kind::SEQUENCE_COMPREHENSION, 4),
    exactly("map-comprehension", kind::MAP_COMPREHENSION, 5),
    exactly("apply", kind::APPLY, 2),
    form("quote", kind::QUOTE, Fields::Quote),
    form("p-name", kind::P_NAME, Fields::Name),
    exactly("p-any", kind::P_ANY, 0),
    form("p-boolean", kind::P_BOOLEAN, Fields::Boolean),
    form("p-integer", kind::P_INTEGER, Fields::Integer),
    operands("p-tuple", kind::P_TUPLE, 2, 4),
    operands("p-set", kind::P_SET, 0, 4),
    exactly("p-union", kind::P_UNION, 2),
    operands("p-sequence", kind::P_SEQUENCE, 0, 4),
    exactly("p-concatenation", kind::P_CONCATENATION, 2),
    keys_and_values("p-map", kind::P_MAP),
    exactly("p-munion", kind::P_MUNION, 2),
    form("p-quote", kind::P_QUOTE, Fields::Quote),
];

/// Every form of record. No word stands twice.
pub fn all() -> impl Iterator<Item = &'static Form> {
    KIND_FORMS.iter().chain(UNARY_FORMS).chain(BINARY_FORMS)
}

/// The form that this word names.
pub fn by_word(word: &str) -> Option<&'static Form> {
    all().find(|form| form.word == word)
}

/// The form of this kind and, for unary and binary records, operator.
pub fn by_kind(kind: u16, operator: Option<u8>) -> Option<&'static Form> {
    all().find(|form| form.kind == kind && form.operator == operator)
}

/// Whether a record of this kind may have this length. All forms with an operator are as long.
pub fn fits(kind: u16, length: usize) -> bool {
    let forms = match kind {
        kind::UNARY => &UNARY_FORMS[..1],
        kind::BINARY => &BINARY_FORMS[..1],
        _ => KIND_FORMS,
    };
    let mut of_kind = forms.iter().filter(|form| form.kind == kind);
    of_kind.any(|form| form.fits(length))
}

#[cfg(test)]
mod tests {
    use super::*;

    #[test]
    fn every_kind_and_operator_stands_once() {
        let key = |form: &Form| (form.kind, form.operator.unwrap_or(0));
        let mut keys: Vec<_> = all().map(key).collect();
        keys.sort();
        let mut expected: Vec<(u16, u8)> = (1..=22).chain(32..=43).map(|kind| (kind, 0)).collect();
        expected.retain(|&(kind, _)| kind != kind::UNARY && kind != kind::BINARY);
        expected.extend((1..=15).map(|operator| (kind::UNARY, operator)));
        expected.extend((1..=28).map(|operator| (kind::BINARY, operator)));
        expected.sort();
        assert_eq!(keys, expected);
    }

    #[test]
    fn no_word_stands_twice() {
        for form in all() {
            assert_eq!(all().filter(|f| f.word == form.word).count(), 1);
        }
    }

    #[test]
    fn operand_counts() {
        let counts = |word: &str| -> Vec<usize> {
            let fields = by_word(word).unwrap().fields;
            (0..20).filter(|&count| fields.takes(count)).collect()
        };
        assert_eq!(counts("map"), [0, 2, 4, 6, 8]);
        assert_eq!(counts("tuple"), [2, 3, 4]);
        assert_eq!(counts("p-any"), [0]);
        assert_eq!(counts("p-set"), [0, 1, 2, 3, 4]);
        assert_eq!(counts("p-map"), [0, 2, 4, 6, 8]);
        assert_eq!(counts("p-munion"), [2]);
        assert_eq!(counts("set").len(), 9);
        assert_eq!(counts("map-comprehension"), [5]);
    }

    #[test]
    fn lengths() {
        let lengths = |kind| -> Vec<usize> { (0..30).filter(|&l| fits(kind, l)).collect() };
        assert_eq!(lengths(kind::P_ANY), [4]);
        assert_eq!(lengths(kind::NAME), [5]);
        assert_eq!(lengths(kind::UNARY), [6]);
        assert_eq!(lengths(kind::BINARY), [7]);
        assert_eq!(lengths(kind::P_INTEGER), [8]);
        assert_eq!(lengths(kind::MAP_COMPREHENSION), [9]);
        assert_eq!(lengths(kind::MAP), [4, 6, 8, 10, 12]);
        assert_eq!(lengths(kind::P_TUPLE), [6, 7, 8]);
        assert_eq!(lengths(kind::P_MAP), [4, 6, 8, 10, 12]);
        assert_eq!(lengths(kind::P_MUNION), [6]);
        assert_eq!(lengths(kind::QUOTE), [6]);
        assert_eq!(lengths(kind::P_QUOTE), [6]);
        assert_eq!(lengths(23), []);
        assert_eq!(lengths(44), []);
    }
}
