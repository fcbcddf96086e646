//! The services: every answer and every lent byte.

mod common;
use common::*;
use reference::services::{check, evaluate, first, step, Answer, SCRATCH_SIZE};

const FILL: u8 = 0xA5;

/// Lent buffers, filled so that every write shows.
struct Lent {
    scratch: Vec<u8>,
    result: Vec<u8>,
    entries: Vec<u8>,
    length: usize,
}

impl Lent {
    fn new(scratch: usize, result: usize, entries: usize, length: usize) -> Lent {
        Lent {
            scratch: vec![FILL; scratch],
            result: vec![FILL; result],
            entries: vec![FILL; entries],
            length,
        }
    }

    /// Buffers that are longer than they need to be.
    fn long() -> Lent {
        Lent::new(SCRATCH_SIZE + 10, 520, 70, 99)
    }

    fn check(&mut self, table: &[u8]) -> Answer {
        check(table, &mut self.scratch)
    }

    fn evaluate(&mut self, table: &[u8], list: &[u8]) -> Answer {
        evaluate(table, list, &mut self.scratch, &mut self.result)
    }

    fn first(&mut self, table: &[u8]) -> Answer {
        first(
            table,
            &mut self.entries,
            &mut self.length,
            &mut self.scratch,
        )
    }

    fn step(&mut self, table: &[u8]) -> Answer {
        step(
            table,
            &mut self.entries,
            &mut self.length,
            &mut self.scratch,
        )
    }

    fn scratch_is_cleared(&self) -> bool {
        let (used, beyond) = self.scratch.split_at(SCRATCH_SIZE);
        used.iter().all(|&byte| byte == 0) && beyond.iter().all(|&byte| byte == FILL)
    }

    fn scratch_is_untouched(&self) -> bool {
        self.scratch.iter().all(|&byte| byte == FILL)
    }

    fn result_is(&self, value: &[u8]) -> bool {
        let mut expected = vec![FILL; self.result.len()];
        expected[..512].fill(0);
        expected[..value.len()].copy_from_slice(value);
        self.result == expected
    }

    fn result_is_untouched(&self) -> bool {
        self.result.iter().all(|&byte| byte == FILL)
    }

    fn walk_is(&self, list: &[u8]) -> bool {
        let mut expected = vec![FILL; self.entries.len()];
        expected[..64].fill(0);
        expected[..list.len()].copy_from_slice(list);
        self.entries == expected && self.length == list.len()
    }

    fn walk_is_untouched(&self) -> bool {
        self.entries.iter().all(|&byte| byte == FILL) && self.length == 99
    }
}

/// Two choices, among 2 and 3.
fn two_choices() -> Vec<u8> {
    let choice = |count| let_be(p_name(0), range(1, count), boolean(true), name(0));
    seq(&[choice(2), choice(3)]).table()
}

#[test]
fn check_clears_the_scratch() {
    for (table, answer) in [
        (two_choices(), Answer::new(0, 0, 15)),
        (vec![], Answer::new(3, 0, 0)),
        (name(3).table(), Answer::new(7, 0, 0)),
    ] {
        let mut lent = Lent::long();
        assert_eq!(lent.check(&table), answer);
        assert!(lent.scratch_is_cleared());
    }
}

#[test]
fn number_1_changes_nothing() {
    let table = two_choices();
    for table in [&table[..], &[]] {
        let mut lent = Lent::new(SCRATCH_SIZE - 1, 0, 0, 99);
        let refused = Answer::new(1, 0, 0);
        assert_eq!(lent.check(table), refused);
        assert_eq!(lent.evaluate(table, &[0; 65]), refused);
        assert_eq!(lent.first(table), refused);
        assert_eq!(lent.step(table), refused);
        assert!(lent.scratch_is_untouched() && lent.result_is_untouched());
        assert!(lent.walk_is_untouched());
    }
}

#[test]
fn number_2_changes_nothing() {
    let mut lent = Lent::new(SCRATCH_SIZE, 511, 0, 0);
    assert_eq!(lent.evaluate(&[], &[0; 65]), Answer::new(2, 0, 0));
    assert!(lent.scratch_is_untouched() && lent.result_is_untouched());
}

#[test]
fn evaluating_sets_the_result() {
    let mut lent = Lent::long();
    assert_eq!(lent.evaluate(&two_choices(), &[1, 2]), Answer::new(0, 0, 0));
    let value = [20, 0, 4, 0, 8, 0, 2, 0, 2, 0, 0, 0, 8, 0, 2, 0, 3, 0, 0, 0];
    assert!(lent.result_is(&value) && lent.scratch_is_cleared());
    // Exactly long enough.
    let mut lent = Lent::new(SCRATCH_SIZE, 512, 0, 0);
    assert_eq!(lent.evaluate(&two_choices(), &[1, 2]), Answer::new(0, 0, 0));
    assert!(lent.result_is(&value));
}

#[test]
fn refused_evaluating_clears_the_result() {
    for (table, list, answer) in [
        (vec![], vec![], Answer::new(3, 0, 0)),
        (two_choices(), vec![0; 65], Answer::new(10, 0, 0)),
        (two_choices(), vec![1], Answer::new(32, 13, 3)),
        (two_choices(), vec![2], Answer::new(33, 6, 2)),
        (two_choices(), vec![0, 0, 0], Answer::new(34, 14, 0)),
        (undefined().table(), vec![], Answer::new(22, 2, 0)),
    ] {
        let mut lent = Lent::long();
        assert_eq!(lent.evaluate(&table, &list), answer);
        assert!(lent.result_is(&[]) && lent.scratch_is_cleared());
    }
}

#[test]
fn first_list_and_steps_overwrite_the_walk() {
    let table = two_choices();
    let mut lent = Lent::long();
    assert_eq!(lent.first(&table), Answer::GRANTED);
    assert!(lent.walk_is(&[0, 0]) && lent.scratch_is_cleared());
    for list in [[0, 1], [0, 2], [1, 0], [1, 1], [1, 2]] {
        lent.scratch.fill(FILL);
        // What stands after the list's end does not matter, and ends as zeros.
        lent.entries[2..64].fill(FILL);
        assert_eq!(lent.step(&table), Answer::GRANTED);
        assert!(lent.walk_is(&list) && lent.scratch_is_cleared());
    }
    let before = lent.entries.clone();
    assert_eq!(lent.step(&table), Answer::new(35, 0, 0));
    assert!(lent.entries == before && lent.length == 2 && lent.scratch_is_cleared());
    assert_eq!(lent.first(&table), Answer::GRANTED);
    assert!(lent.walk_is(&[0, 0]));
}

#[test]
fn a_refused_first_list_or_step_leaves_the_walk() {
    let table = two_choices();
    for (table, entries, answer) in [
        (&table[..], 63, Answer::new(10, 0, 0)),
        (&table[..], 0, Answer::new(10, 0, 0)),
        (&[], 0, Answer::new(3, 0, 0)),
    ] {
        let mut lent = Lent::new(SCRATCH_SIZE + 1, 0, entries, 99);
        assert_eq!(lent.first(table), answer);
        assert!(lent.walk_is_untouched() && lent.scratch_is_cleared());
        assert_eq!(lent.step(table), answer);
        assert!(lent.walk_is_untouched() && lent.scratch_is_cleared());
    }
    // A length over 64 is refused by the step, whatever is lent, and no matter to the first list.
    for length in [65, usize::MAX] {
        let mut lent = Lent::new(SCRATCH_SIZE, 0, 100, length);
        assert_eq!(lent.step(&table), Answer::new(10, 0, 0));
        assert!(lent.length == length && lent.entries.iter().all(|&entry| entry == FILL));
        assert_eq!(lent.first(&table), Answer::GRANTED);
        assert!(lent.walk_is(&[0, 0]));
    }
    // Lists that are not complete.
    for (list, answer) in [
        (&[][..], Answer::new(32, 6, 2)),
        (&[1], Answer::new(32, 13, 3)),
        (&[2], Answer::new(33, 6, 2)),
        (&[1, 2, 0], Answer::new(34, 14, 0)),
    ] {
        let mut lent = Lent::new(SCRATCH_SIZE, 0, 64, list.len());
        lent.entries[..list.len()].copy_from_slice(list);
        let before = lent.entries.clone();
        assert_eq!(lent.step(&table), answer);
        assert!(lent.entries == before && lent.length == list.len());
        assert!(lent.scratch_is_cleared());
    }
}
