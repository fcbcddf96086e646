//! Every call made twice, by the linked services and by the reference: the answers and every byte must be the same.
#![allow(dead_code)]

pub mod program;
pub mod values;
pub mod written;

use generator::{Builder, Random};
use sheets::lent::{self, SCRATCH_SIZE};
use sheets::{Answer, List, Sheet, Value};
use std::cell::RefCell;
use std::fs;
use std::path::{Path, PathBuf};

/// The bytes kept before and after what is lent, at least.
const GUARD: usize = 64;
/// The longest scratch, and the longest result or entries, that are lent.
const LONGEST_SCRATCH: usize = 70_000;
const LONGEST: usize = 1_000;

/// The highest sheet that is accepted.
const MOST_HEIGHT: usize = 32;

/// How many bytes are lent, and how far from the start of the memory.
#[derive(Clone, Copy, Debug)]
pub struct Lending {
    pub scratch: usize,
    pub result: usize,
    pub entries: usize,
    pub start: usize,
}

impl Lending {
    /// One byte more than a call needs of each.
    pub const ENOUGH: Lending = Lending {
        scratch: SCRATCH_SIZE + 1,
        result: Value::MAX_SIZE + 1,
        entries: List::MAX_LENGTH + 1,
        start: GUARD,
    };

    fn of<'a>(&self, memory: &'a mut [u8], length: usize) -> &'a mut [u8] {
        &mut memory[self.start..][..length]
    }
}

/// Memory of which parts are lent.
#[derive(Clone, PartialEq)]
struct Memory {
    scratch: Vec<u8>,
    result: Vec<u8>,
    entries: Vec<u8>,
    /// The length of the walk, between numbers that no call writes.
    lengths: [usize; 3],
}

/// The same memory for both, dirty before each call.
pub struct Both {
    ours: Memory,
    expected: Memory,
    dirt: Vec<u8>,
    pub lending: Lending,
    pub calls: usize,
}

impl Both {
    /// Memory without a zero byte, and a walk that no call left.
    pub fn new() -> Both {
        let dirt: Vec<u8> = (0..LONGEST_SCRATCH + 2 * GUARD)
            .map(|i| 1 + (i % 255) as u8)
            .collect();
        let memory = Memory {
            scratch: dirt.clone(),
            result: dirt[..LONGEST + 2 * GUARD].to_vec(),
            entries: dirt[..LONGEST + 2 * GUARD].to_vec(),
            lengths: [usize::MAX; 3],
        };
        Both {
            ours: memory.clone(),
            expected: memory,
            dirt,
            lending: Lending::ENOUGH,
            calls: 0,
        }
    }

    /// Overwrites the entries that are lent, and the length.
    pub fn set_walk(&mut self, entries: &[u8], length: usize) {
        let lending = self.lending;
        for memory in [&mut self.ours, &mut self.expected] {
            lending
                .of(&mut memory.entries, entries.len())
                .copy_from_slice(entries);
            memory.lengths[1] = length;
        }
    }

    /// The list that the walk holds; nothing where its length is over 64.
    pub fn list(&self) -> Vec<u8> {
        let entries = &self.ours.entries[self.lending.start..];
        let held = entries[..List::MAX_LENGTH].get(..self.ours.lengths[1]);
        held.unwrap_or_default().to_vec()
    }

    /// The value or zeros that the last evaluation left.
    pub fn result(&self) -> &[u8] {
        &self.ours.result[self.lending.start..][..Value::MAX_SIZE]
    }

    pub fn check(&mut self, table: &[u8]) -> Answer {
        self.call("check", table, &[], |lending, memory, table, _| {
            let scratch = lending.of(&mut memory.scratch, lending.scratch);
            match table {
                By::Services(table) => lent::check(table, scratch),
                By::Reference(table) => answer(reference::services::check(table, scratch)),
            }
        })
    }

    pub fn evaluate(&mut self, table: &[u8], list: &[u8]) -> Answer {
        self.call("evaluate", table, list, |lending, memory, table, list| {
            let scratch = lending.of(&mut memory.scratch, lending.scratch);
            let result = lending.of(&mut memory.result, lending.result);
            match table {
                By::Services(table) => lent::evaluate(table, list, scratch, result),
                By::Reference(table) => {
                    answer(reference::services::evaluate(table, list, scratch, result))
                }
            }
        })
    }

    pub fn first(&mut self, table: &[u8]) -> Answer {
        self.call("first", table, &[], |lending, memory, table, _| {
            let scratch = lending.of(&mut memory.scratch, lending.scratch);
            let entries = lending.of(&mut memory.entries, lending.entries);
            let length = &mut memory.lengths[1];
            match table {
                By::Services(table) => lent::first(table, entries, length, scratch),
                By::Reference(table) => {
                    answer(reference::services::first(table, entries, length, scratch))
                }
            }
        })
    }

    pub fn step(&mut self, table: &[u8]) -> Answer {
        self.call("step", table, &[], |lending, memory, table, _| {
            let scratch = lending.of(&mut memory.scratch, lending.scratch);
            let entries = lending.of(&mut memory.entries, lending.entries);
            let length = &mut memory.lengths[1];
            match table {
                By::Services(table) => lent::step(table, entries, length, scratch),
                By::Reference(table) => {
                    answer(reference::services::step(table, entries, length, scratch))
                }
            }
        })
    }

    /// Makes a call by both on dirty memory, and compares.
    fn call(
        &mut self,
        name: &str,
        table: &[u8],
        list: &[u8],
        call: impl Fn(&Lending, &mut Memory, By, &[u8]) -> Answer,
    ) -> Answer {
        for memory in [&mut self.ours, &mut self.expected] {
            memory.scratch.copy_from_slice(&self.dirt);
            memory.result.fill(0xA5);
        }
        let before = (self.list(), self.ours.lengths[1]);
        let (lent_table, lent_list) = (table.to_vec(), list.to_vec());
        let lending = &self.lending;
        let ours = call(
            lending,
            &mut self.ours,
            By::Services(&lent_table),
            &lent_list,
        );
        let expected = call(lending, &mut self.expected, By::Reference(table), list);
        let what = || format!("{name} of {table:?} under {list:?}, {before:?}, {lending:?}");
        assert_eq!(ours, expected, "{}", what());
        let (left, due) = (&self.ours, &self.expected);
        assert!(left.scratch == due.scratch, "scratch after {}", what());
        assert!(left.result == due.result, "result after {}", what());
        assert!(left.entries == due.entries, "entries after {}", what());
        assert_eq!(left.lengths, due.lengths, "length after {}", what());
        assert!(lent_table == table && lent_list == list, "{}", what());
        self.calls += 1;
        ours
    }
}

thread_local! {
    static BOTH: RefCell<Both> = RefCell::new(Both::new());
}

/// The record of the value that a table comes to under a list, or the answer, from both.
#[track_caller]
pub fn evaluated(table: &[u8], list: &[u8]) -> Result<Vec<u8>, Answer> {
    BOTH.with_borrow_mut(|both| {
        let answer = both.evaluate(table, list);
        if answer.number != 0 {
            return Err(answer);
        }
        let result = both.result();
        let length = usize::from(u16::from_le_bytes([result[0], result[1]]));
        Ok(result[..length].to_vec())
    })
}

/// By whom a call is made, and of which table.
#[derive(Clone, Copy)]
enum By<'a> {
    Services(&'a [u8]),
    Reference(&'a [u8]),
}

fn answer(by_reference: reference::services::Answer) -> Answer {
    Answer {
        number: by_reference.number as u16,
        place: by_reference.place as u16,
        count: by_reference.count as u32,
    }
}

/// Whether a table can hold the sheet.
pub fn fits(sheet: &Builder) -> bool {
    let heights = sheet.heights().into_iter();
    sheet.records.len() <= Sheet::MAX_RECORDS
        && sheet.table().len() <= Sheet::MAX_SIZE
        && heights.max().is_some_and(|height| height <= MOST_HEIGHT)
}

/// So many random bytes below a bound.
pub fn bytes(random: &mut Random, length: usize, bound: usize) -> Vec<u8> {
    (0..length).map(|_| random.below(bound) as u8).collect()
}

/// The most lists of a print.
const MAX_LISTS: usize = 10_000;

/// The walk print of a table.
pub fn print_by_services(table: &[u8]) -> String {
    let mut sheet = match Sheet::check(table) {
        Ok(sheet) => sheet,
        Err(refusal) => return format!("refused {} {}\n", refusal.number(), refusal.place()),
    };
    let mut print = format!("table {}\n", sheet.records());
    for (count, (list, outcome)) in sheet.walk().enumerate() {
        if count == MAX_LISTS {
            return print + &format!("cut {MAX_LISTS}\n");
        }
        print += &match outcome {
            Ok(value) => format!("{list} ={value}\n"),
            Err(refusal) => {
                let word = refusal.word().expect("a word");
                format!("{list} !{} {word}\n", refusal.number())
            }
        };
    }
    let count = print.lines().count() - 1;
    print + &format!("end {count}\n")
}

/// The sample sheets: name, table and print.
pub fn samples() -> Vec<(String, Vec<u8>, String)> {
    let folder = Path::new(env!("CARGO_MANIFEST_DIR")).join("../../sheets");
    let files = fs::read_dir(folder).expect("the folder of the sheets");
    let sheets: Vec<PathBuf> = files
        .map(|file| file.expect("a file").path())
        .filter(|file| file.extension().is_some_and(|e| e == "sheet"))
        .collect();
    sheets.iter().map(|file| sample(file)).collect()
}

fn sample(file: &Path) -> (String, Vec<u8>, String) {
    let name = file.file_stem().expect("a name").to_string_lossy();
    let text = fs::read_to_string(file).expect("a text");
    let table = records::encode(&text).unwrap_or_else(|error| panic!("{name}: {error}"));
    let print = fs::read_to_string(file.with_extension("print")).expect("a print");
    (name.into_owned(), table, print)
}
