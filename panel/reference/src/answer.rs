//! What a call answers, and the refusals by name.

/// The answer of a call: number 0 with place 0 when granted, otherwise the refusal and its record.
#[derive(Clone, Copy, Debug, PartialEq, Eq, PartialOrd, Ord)]
pub struct Answer {
    pub number: u32,
    pub place: usize,
    /// The records of an accepted table, the bindings with 32 and 33, and otherwise 0.
    pub count: usize,
}

impl Answer {
    /// Granted, with nothing counted.
    pub const GRANTED: Answer = Answer::new(0, 0, 0);

    pub const fn new(number: u32, place: usize, count: usize) -> Answer {
        Answer {
            number,
            place,
            count,
        }
    }
}

/// A refusal that counts nothing.
#[derive(Clone, Copy, Debug, PartialEq, Eq, PartialOrd, Ord)]
pub struct Refusal {
    pub number: u32,
    pub place: usize,
}

impl Refusal {
    pub const fn new(number: u32, place: usize) -> Refusal {
        Refusal { number, place }
    }
}

impl From<Refusal> for Answer {
    fn from(refusal: Refusal) -> Answer {
        Answer::new(refusal.number, refusal.place, 0)
    }
}

// From the input, in the order in which they are tested.
pub const SHORT_SCRATCH: u32 = 1;
pub const SHORT_RESULT: u32 = 2;
pub const TABLE_SIZE: u32 = 3;
pub const RECORD_FORM: u32 = 4;
pub const RECORD_COUNT: u32 = 5;
pub const OPERANDS: u32 = 6;
pub const NAMES: u32 = 7;
pub const LOOSE_CONDITION: u32 = 8;
pub const HEIGHT: u32 = 9;
pub const LIST_SIZE: u32 = 10;

// From the state of the run.
pub const WRONG_KIND: u32 = 20;
pub const OUT_OF_RANGE: u32 = 21;
pub const ZERO_DIVISOR: u32 = 22;
pub const NO_MATCH: u32 = 23;
pub const NO_BINDING: u32 = 24;
pub const NOT_UNIQUE: u32 = 25;
pub const ABSENT: u32 = 26;
pub const CLASH: u32 = 27;
pub const TOO_LARGE: u32 = 28;
pub const WIDE_SPLIT: u32 = 29;
pub const MANY_BINDINGS: u32 = 30;
pub const MANY_CHOICES: u32 = 31;
pub const LIST_USED_UP: u32 = 32;
pub const ENTRY_TOO_HIGH: u32 = 33;
pub const ENTRIES_LEFT: u32 = 34;
pub const NO_NEXT_LIST: u32 = 35;
