//! What a service answers, and why it refuses.

use std::error::Error;
use std::fmt;

/// The numbers of the refusals: 1 to 10 from the input, in the order in which they are tested, and 20 to 35 from the
/// state of the run.
pub mod number {
    macro_rules! numbers {
        ($($name:ident = $number:literal, $sentence:literal;)*) => {
            $(#[doc = $sentence] pub const $name: u16 = $number;)*

            /// Every number with its name and its sentence.
            pub const ALL: &[(u16, &str, &str)] = &[$(($number, stringify!($name), $sentence),)*];
        };
    }

    numbers! {
        SHORT_SCRATCH = 1, "the scratch is shorter than 65536 bytes";
        SHORT_RESULT = 2, "the result buffer is shorter than 512 bytes";
        BAD_SIZE = 3, "the table is empty or over 2400 bytes";
        RECORD_FORM = 4, "the record is cut off, or its length, kind, operator, name or literal is wrong";
        RECORD_COUNT = 5, "the table has over 200 records";
        OPERANDS = 6, "an operand is not lower, of the wrong sort or named before, or the record is never named, or it is the last and a pattern";
        NAMES = 7, "the name is not bound around the record, or it is bound around the binder of its pattern";
        LOOSE_CONDITION = 8, "a let-be or a loose let stands inside a condition";
        HEIGHT = 9, "the height is over 32";
        LIST_SIZE = 10, "the choice list is longer than 64, or fewer than 64 entries are lent";
        KIND = 20, "a value is of the wrong kind";
        RANGE = 21, "an integer is out of range";
        ZERO = 22, "div, rem or mod by 0";
        NO_MATCH = 23, "the value does not match the pattern of the let";
        NO_BINDING = 24, "no binding of the let-be satisfies its condition";
        NOT_UNIQUE = 25, "not exactly one binding of the iota satisfies its condition";
        ABSENT = 26, "hd or tl of [], dinter of {}, or an absent index or key";
        CLASH = 27, "one key has two values";
        LARGE = 28, "the value is over 512 bytes";
        SPLIT = 29, "a union or munion pattern meets over 7 members or entries";
        BINDINGS = 30, "the binder has over 255 distinct bindings";
        CHOICES = 31, "the run meets a 65th choice";
        USED_UP = 32, "the list is used up before a choice";
        TOO_HIGH = 33, "an entry is not below the number of bindings";
        LEFT_OVER = 34, "entries are left over";
        NO_NEXT = 35, "there is no next list";
    }
}

/// The answer of a service: number 0 with place 0 when granted, otherwise the refusal and its record.
#[derive(Clone, Copy, Debug, PartialEq, Eq)]
pub struct Answer {
    pub number: u16,
    pub place: u16,
    /// The records of an accepted table, the bindings with 32 and 33, and otherwise 0.
    pub count: u32,
}

impl Answer {
    /// Granted, with nothing counted.
    pub const GRANTED: Answer = Answer {
        number: 0,
        place: 0,
        count: 0,
    };

    /// Takes apart number + 65,536 × place + 4,294,967,296 × count.
    pub(crate) const fn unpack(packed: u64) -> Answer {
        Answer {
            number: packed as u16,
            place: (packed >> 16) as u16,
            count: (packed >> 32) as u32,
        }
    }

    /// The count when granted, and otherwise why not.
    pub fn granted(self) -> Result<u32, Refusal> {
        match self.number {
            0 => Ok(self.count),
            _ => Err(Refusal(self)),
        }
    }
}

/// Why a table, a run or a step is refused.
///
/// ```
/// # use sheets::Sheet;
/// // 1 div 0
/// let table = [8, 0, 2, 0, 1, 0, 0, 0, 8, 0, 2, 0, 0, 0, 0, 0, 7, 0, 5, 0, 10, 0, 1];
/// let refusal = Sheet::check(&table)?.evaluate(&[].into()).unwrap_err();
/// assert_eq!((refusal.number(), refusal.place(), refusal.word()), (22, 2, Some("zero")));
/// assert_eq!(refusal.to_string(), "refusal 22 at record 2: div, rem or mod by 0");
/// # Ok::<(), sheets::Refusal>(())
/// ```
#[derive(Clone, Copy, Debug, PartialEq, Eq)]
pub struct Refusal(Answer);

impl Refusal {
    /// The number, one of those in [`number`].
    pub fn number(&self) -> u16 {
        self.0.number
    }

    /// The record at fault, or the one at whose evaluation the run ended.
    pub fn place(&self) -> u16 {
        self.0.place
    }

    /// The number of bindings with 32 and 33, and otherwise 0.
    pub fn count(&self) -> u32 {
        self.0.count
    }

    /// The word of the walk print, which has one for 20 to 31.
    pub fn word(&self) -> Option<&'static str> {
        let index = self.number().checked_sub(number::KIND)?;
        WORDS.get(usize::from(index)).copied()
    }

    /// What is wrong, in one sentence without its place.
    pub fn sentence(&self) -> &'static str {
        let rule = number::ALL
            .iter()
            .find(|(number, _, _)| *number == self.number());
        rule.map_or("unknown number", |(_, _, sentence)| sentence)
    }
}

impl fmt::Display for Refusal {
    fn fmt(&self, f: &mut fmt::Formatter) -> fmt::Result {
        let (number, place) = (self.number(), self.place());
        write!(f, "refusal {number} at record {place}: {}", self.sentence())?;
        match self.count() {
            0 => Ok(()),
            count => write!(f, " ({count} bindings)"),
        }
    }
}

impl Error for Refusal {}

/// The words for the refusals from 20 on.
const WORDS: [&str; 12] = [
    "kind",
    "range",
    "zero",
    "no-match",
    "no-binding",
    "not-unique",
    "absent",
    "clash",
    "large",
    "split",
    "bindings",
    "choices",
];
