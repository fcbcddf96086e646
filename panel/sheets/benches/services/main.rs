//! The services against the second evaluator, on the same inputs in one run, as a table: the median time of a call or
//! walk, of ours with its quartiles, and how many times the second evaluator's median ours is.
//!
//! A word after `--` picks the rows whose label holds it: `cargo bench -p sheets -- step`.

mod bindings;
mod cases;
mod programs;

use generator::{accepted, damaged};
use sheets::lent::{self, SCRATCH_SIZE};
use sheets::{Answer, List, Value};
use std::hint::black_box;
use std::time::{Duration, Instant};

/// How long each row is measured, and how often, within what bounds.
const BUDGET: Duration = Duration::from_secs(2);
const FEWEST: usize = 11;
const MOST: usize = 301;
/// The least time of one measurement, so that the clock does not matter.
const LEAST: Duration = Duration::from_micros(100);
/// How many of the random patterns are shown, and of the refused tables measured twice.
const SLOWEST: usize = 10;
/// How often each random pattern is run to find these, unless it takes longer than the time in all.
const RUNS: usize = 5;
const LONG: Duration = Duration::from_millis(100);

/// The buffers that are lent.
struct Lent {
    scratch: Vec<u8>,
    result: Vec<u8>,
    entries: [u8; List::MAX_LENGTH],
    length: usize,
}

impl Lent {
    fn new() -> Lent {
        Lent {
            scratch: vec![0; SCRATCH_SIZE],
            result: vec![0; Value::MAX_SIZE],
            entries: [0; List::MAX_LENGTH],
            length: 0,
        }
    }

    fn hold(&mut self, list: &[u8]) {
        self.entries.fill(0);
        self.entries[..list.len()].copy_from_slice(list);
        self.length = list.len();
    }
}

/// The four calls, by one evaluator or the other.
trait Evaluator {
    fn check(lent: &mut Lent, table: &[u8]) -> u32;
    fn evaluate(lent: &mut Lent, table: &[u8]) -> u32;
    fn first(lent: &mut Lent, table: &[u8]) -> u32;
    fn step(lent: &mut Lent, table: &[u8]) -> u32;
    /// Runs the walk program; how many bytes it prints.
    fn print(table: &[u8]) -> u32;

    /// The first list, then steps to the end, each list evaluated; how many there are.
    fn walk(lent: &mut Lent, table: &[u8]) -> u32 {
        let mut lists = 0;
        let mut number = Self::first(lent, table);
        while number == 0 {
            black_box(Self::evaluate(lent, table));
            lists += 1;
            number = Self::step(lent, table);
        }
        lists
    }
}

struct Ours;

impl Evaluator for Ours {
    fn check(lent: &mut Lent, table: &[u8]) -> u32 {
        number(lent::check(table, &mut lent.scratch))
    }

    fn evaluate(lent: &mut Lent, table: &[u8]) -> u32 {
        let list = &lent.entries[..lent.length];
        let answer = lent::evaluate(table, list, &mut lent.scratch, &mut lent.result);
        number(answer)
    }

    fn first(lent: &mut Lent, table: &[u8]) -> u32 {
        let answer = lent::first(
            table,
            &mut lent.entries,
            &mut lent.length,
            &mut lent.scratch,
        );
        number(answer)
    }

    fn step(lent: &mut Lent, table: &[u8]) -> u32 {
        let answer = lent::step(
            table,
            &mut lent.entries,
            &mut lent.length,
            &mut lent.scratch,
        );
        number(answer)
    }

    fn print(table: &[u8]) -> u32 {
        programs::printed(programs::ours().expect("the walk program"), table)
    }
}

fn number(answer: Answer) -> u32 {
    answer.number.into()
}

struct Second;

impl Evaluator for Second {
    fn check(lent: &mut Lent, table: &[u8]) -> u32 {
        reference::services::check(table, &mut lent.scratch).number
    }

    fn evaluate(lent: &mut Lent, table: &[u8]) -> u32 {
        let list = &lent.entries[..lent.length];
        reference::services::evaluate(table, list, &mut lent.scratch, &mut lent.result).number
    }

    fn first(lent: &mut Lent, table: &[u8]) -> u32 {
        let Lent {
            scratch,
            entries,
            length,
            ..
        } = lent;
        reference::services::first(table, entries, length, scratch).number
    }

    fn step(lent: &mut Lent, table: &[u8]) -> u32 {
        let Lent {
            scratch,
            entries,
            length,
            ..
        } = lent;
        reference::services::step(table, entries, length, scratch).number
    }

    fn print(table: &[u8]) -> u32 {
        programs::printed(programs::second(), table)
    }
}

/// What a row measures.
#[derive(Clone, Copy)]
enum Call {
    Check,
    /// Evaluates under the list.
    Evaluate,
    /// Steps from the list, set anew each time.
    Step,
    Walk,
    /// Runs the walk program.
    Print,
}

/// A row of the table.
struct Row {
    label: String,
    call: Call,
    table: Vec<u8>,
    list: Vec<u8>,
}

impl Row {
    fn new(label: &str, call: Call, table: Vec<u8>) -> Row {
        Row {
            label: label.to_string(),
            call,
            table,
            list: Vec::new(),
        }
    }

    fn under(self, list: Vec<u8>) -> Row {
        Row { list, ..self }
    }

    fn run<E: Evaluator>(&self, lent: &mut Lent) -> u32 {
        let table = black_box(&self.table[..]);
        match self.call {
            Call::Check => E::check(lent, table),
            Call::Evaluate => {
                lent.hold(&self.list);
                E::evaluate(lent, table)
            }
            Call::Step => {
                lent.hold(&self.list);
                E::step(lent, table)
            }
            Call::Walk => E::walk(lent, table),
            Call::Print => E::print(table),
        }
    }

    /// Measures both in turn, and prints the row.
    fn print(&self) {
        let mut lent = Lent::new();
        assert_eq!(self.run::<Ours>(&mut lent), self.run::<Second>(&mut lent));
        let [ours, second] = measured([&mut |lent| self.run::<Ours>(lent), &mut |lent| {
            self.run::<Second>(lent)
        }]);
        let ratio = ours.median.as_secs_f64() / second.median.as_secs_f64();
        let second = micros(second.median);
        // A bar within a label would end its column.
        let label = self.label.replace('|', "\\|");
        println!("| {label} | {ours} | {second} | {ratio:.3} |");
    }
}

/// The median and the quartiles of many times.
struct Times {
    lower: Duration,
    median: Duration,
    upper: Duration,
}

impl Times {
    fn of(mut times: Vec<Duration>) -> Times {
        times.sort();
        let at = |quarter: usize| times[(times.len() - 1) * quarter / 4];
        Times {
            lower: at(1),
            median: at(2),
            upper: at(3),
        }
    }
}

impl std::fmt::Display for Times {
    fn fmt(&self, f: &mut std::fmt::Formatter) -> std::fmt::Result {
        let [lower, median, upper] = [self.lower, self.median, self.upper].map(micros);
        write!(f, "{median} ({lower} to {upper})")
    }
}

fn micros(time: Duration) -> String {
    let micros = time.as_secs_f64() * 1e6;
    let decimals = if micros < 10.0 {
        2
    } else {
        usize::from(micros < 1000.0)
    };
    format!("{micros:.decimals$}")
}

type Work<'a> = &'a mut dyn FnMut(&mut Lent) -> u32;

/// Measures works in turn, so that whatever slows the machine slows all of them.
fn measured<const N: usize>(mut works: [Work; N]) -> [Times; N] {
    let mut lent = Lent::new();
    let batches: Vec<u32> = works
        .iter_mut()
        .map(|work| batch(work, &mut lent))
        .collect();
    let mut times = [const { Vec::new() }; N];
    let start = Instant::now();
    while times[0].len() < FEWEST || (start.elapsed() < BUDGET && times[0].len() < MOST) {
        for ((work, &batch), times) in works.iter_mut().zip(&batches).zip(&mut times) {
            times.push(time(work, &mut lent, batch));
        }
    }
    times.map(Times::of)
}

/// The time of one of so many runs.
fn time(work: &mut Work, lent: &mut Lent, runs: u32) -> Duration {
    let start = Instant::now();
    for _ in 0..runs {
        black_box(work(lent));
    }
    start.elapsed() / runs
}

/// How many runs take long enough to be measured.
fn batch(work: &mut Work, lent: &mut Lent) -> u32 {
    let mut runs = 1;
    while runs < 1 << 20 && time(work, lent, runs) * runs < LEAST {
        runs *= 2;
    }
    runs
}

/// The refused table, among many, whose check takes longest.
fn slowest_refused() -> Vec<u8> {
    let mut lent = Lent::new();
    let mut tables = vec![cases::chain(200), [4, 0, 33, 0].repeat(600)];
    tables.push([12, 0, 8, 0, 0, 0, 0, 0, 0, 0, 0, 0].repeat(200));
    tables.extend((0..1_400).map(|seed| damaged(seed).1));
    tables.extend((0..200).map(|seed| {
        // A name that is bound nowhere, after the whole sheet.
        let table = accepted(seed);
        [&table[..], &[5, 0, 3, 0, 9]].concat()
    }));
    let mut slowness = |table: &Vec<u8>| {
        let mut check = |lent: &mut Lent| Ours::check(lent, table);
        let mut work: Work = &mut check;
        (0..9).map(|_| time(&mut work, &mut lent, 20)).min()
    };
    // Once more for the slowest: a table may only seem slow, where the machine stood still.
    tables.sort_by_cached_key(|table| std::cmp::Reverse(slowness(table)));
    tables.truncate(SLOWEST);
    tables.into_iter().max_by_key(slowness).expect("a table")
}

/// Those of random patterns that are slowest against the second evaluator.
struct Slowest {
    what: &'static str,
    rows: Vec<Row>,
    /// The greatest time of ours among all of them, with its label.
    greatest: Option<(Duration, String)>,
    /// How many take ours over half the second evaluator's time.
    over_half: usize,
}

impl Slowest {
    fn of(what: &'static str, tables: impl Iterator<Item = (String, Vec<u8>)>) -> Slowest {
        let mut greatest = None;
        let mut rows: Vec<(f64, Row)> = Vec::new();
        for (label, table) in tables {
            let ours = least(&mut |lent| Ours::evaluate(lent, &table));
            let second = least(&mut |lent| Second::evaluate(lent, &table));
            let ratio = ours.as_secs_f64() / second.as_secs_f64();
            greatest = greatest.max(Some((ours, label.clone())));
            rows.push((ratio, Row::new(&label, Call::Evaluate, table)));
        }
        rows.sort_by(|one, other| other.0.total_cmp(&one.0));
        let over_half = rows.partition_point(|(ratio, _)| *ratio > 0.5);
        let rows = rows.into_iter().map(|(_, row)| row).take(SLOWEST);
        Slowest {
            what,
            rows: rows.collect(),
            greatest,
            over_half,
        }
    }

    fn print(&self) {
        for row in &self.rows {
            row.print();
        }
    }

    /// The greatest time, in milliseconds, and how many are over half the second evaluator's time.
    fn print_greatest(&self) {
        if let Some((time, label)) = &self.greatest {
            let Slowest {
                what, over_half, ..
            } = self;
            let millis = time.as_secs_f64() * 1e3;
            println!("{what}: over half the second evaluator's time: {over_half}; the greatest time of ours: {millis:.3} ms, {label}");
        }
    }
}

/// The least time of a few runs.
fn least(mut work: Work) -> Duration {
    let mut lent = Lent::new();
    let start = Instant::now();
    let mut least = time(&mut work, &mut lent, 1);
    for _ in 1..RUNS {
        if start.elapsed() > LONG {
            break;
        }
        least = least.min(time(&mut work, &mut lent, 1));
    }
    least
}

fn rows() -> Vec<Row> {
    let mut rows = vec![
        Row::new(
            "check, the largest accepted table",
            Call::Check,
            cases::largest(),
        ),
        Row::new(
            "check, the slowest refused table",
            Call::Check,
            slowest_refused(),
        ),
    ];
    rows.extend(walks());
    rows.extend(evaluations());
    rows.extend(unions());
    rows.extend(steps());
    rows.extend(prints());
    rows.extend(
        bindings::tables()
            .into_iter()
            .map(|(label, table)| Row::new(&label, Call::Evaluate, table)),
    );
    rows
}

fn walks() -> [Row; 2] {
    [
        (
            "walk of 975 lists: a let-be of 40 over one of 25",
            cases::nested_choices(),
        ),
        (
            "walk of 126 lists: let a union b = {1,...,7}",
            cases::union_of_seven(),
        ),
    ]
    .map(|(label, table)| Row::new(label, Call::Walk, table))
}

fn evaluations() -> [Row; 8] {
    let deterministic = [
        (
            "evaluate, nested comprehensions of 63 × 63",
            cases::nested_comprehensions(),
        ),
        ("evaluate, quantifiers over 63 × 63", cases::quantifiers()),
        (
            "evaluate, a map comprehension with 31 applications",
            cases::applied_map(),
        ),
        ("evaluate, height 32: minuses", cases::chain(32)),
        (
            "evaluate, height 32: minuses under a forall over 63",
            cases::deep_condition(),
        ),
        (
            "evaluate, height 32: foralls in conditions",
            cases::deepest("foralls in conditions"),
        ),
        (
            "evaluate, height 32: set comprehensions in elements",
            cases::deepest("set comprehensions in elements"),
        ),
    ];
    let [a, b, c, d, e, f, g] =
        deterministic.map(|(label, table)| Row::new(label, Call::Evaluate, table));
    let label = "evaluate, list 975 of a let-be of 40 over one of 25";
    let chosen = Row::new(label, Call::Evaluate, cases::nested_choices()).under(vec![39, 24]);
    [chosen, a, b, c, d, e, f, g]
}

/// Unions of two sets of integers, in one order and another.
fn unions() -> [Row; 3] {
    let progression = |first, step, count| cases::Progression { first, step, count };
    [
        (
            "31 and 31 members, interleaved",
            [progression(2, 2, 31), progression(1, 2, 31)],
        ),
        (
            "31 and 31 members, one after the other",
            [progression(1, 1, 31), progression(32, 1, 31)],
        ),
        (
            "61 members and one",
            [progression(1, 1, 61), progression(62, 1, 1)],
        ),
    ]
    .map(|(sides, progressions)| {
        let label = format!("evaluate, 63 unions of {sides}");
        Row::new(&label, Call::Evaluate, cases::unions(progressions))
    })
}

/// The walk programs; no row where ours is not built.
fn prints() -> Vec<Row> {
    if programs::ours().is_none() {
        eprintln!("crates/walk/out/walk is missing, so it is not measured: run `rt run </dev/null` in crates/walk");
        return Vec::new();
    }
    [
        (
            "walk program, 975 lists: a let-be of 40 over one of 25",
            cases::nested_choices(),
        ),
        (
            "walk program, 126 lists: let a union b = {1,...,7}",
            cases::union_of_seven(),
        ),
        (
            "walk program, nested comprehensions of 63 × 63",
            cases::nested_comprehensions(),
        ),
        (
            "walk program, quantifiers over 63 × 63",
            cases::quantifiers(),
        ),
        (
            "walk program, a map comprehension with 31 applications",
            cases::applied_map(),
        ),
        ("walk program, height 32", cases::chain(32)),
        (
            "walk program, an empty table: starting and ending",
            Vec::new(),
        ),
        (
            "walk program, 10,000 lists: four choices among 10",
            cases::four_choices(10),
        ),
    ]
    .map(|(label, table)| Row::new(label, Call::Print, table))
    .into()
}

fn steps() -> [Row; 3] {
    [
        ("step from list 1 of 14,641", [0, 0, 0, 0]),
        ("step from list 1,000", [0, 8, 2, 9]),
        ("step from list 10,000", [7, 5, 7, 0]),
    ]
    .map(|(label, list)| Row::new(label, Call::Step, cases::four_choices(11)).under(list.to_vec()))
}

fn main() {
    let words = std::env::args().skip(1).filter(|w| !w.starts_with("--"));
    let words: Vec<String> = words.collect();
    if words == [programs::SECOND] {
        return programs::print().expect("a print");
    }
    let is_picked = |label: &str| words.is_empty() || words.iter().any(|w| label.contains(&w[..]));
    println!("| µs | ours | second evaluator | ratio |");
    println!("|---|---|---|---|");
    let [floor] = measured([&mut |lent| {
        lent.scratch.fill(0);
        black_box(&lent.scratch).len() as u32
    }]);
    println!("| the floor: clearing 65,536 bytes | {floor} | | |");
    for row in rows().iter().filter(|row| is_picked(&row.label)) {
        row.print();
    }
    let slowest = [
        ("200 random unions", bindings::unions()),
        ("200 random tuples of two unions", bindings::tuples(false)),
        (
            "200 random tuples of two unions with the same names",
            bindings::tuples(true),
        ),
        ("200 random patterns over maps", bindings::munions()),
    ]
    .map(|(what, tables)| {
        let picked = tables.into_iter().filter(|(label, _)| is_picked(label));
        let slowest = Slowest::of(what, picked);
        slowest.print();
        slowest
    });
    println!();
    for slowest in &slowest {
        slowest.print_greatest();
    }
}
