//! 255 and 256 distinct bindings, and 29 before 30.

use super::*;

/// Sequences of so many items.
fn sequences<const N: usize>(lengths: [usize; N]) -> Value {
    set_of(lengths.map(items))
}

/// A tuple of sequences of so many items, and something else.
fn tuple(lengths: [usize; 2], other: Value) -> Value {
    let [left, right] = lengths.map(items);
    Value::Tuple(vec![left, right, other])
}

/// The set of the integers from one to another.
fn range(from: i32, to: i32) -> Value {
    set_of((from..=to).map(Value::Integer))
}

/// The number of bindings over the members of a set, or the refusal.
fn count_over(text: &str, set: &Value) -> Tried<usize> {
    compare(kind::LET_BE, &pattern(text), set).map(|found| found.len())
}

/// A sequence of n items has n + 1 cuts, and a pair of them (n + 1) × (m + 1).
#[test]
fn cuts_of_two_sequences() {
    let text = "mk_(a ^ b, c ^ d)";
    let two = |left, right| pair(items(left), items(right));
    // 15 × 17, 85 × 3, 16 × 16 and 43 × 6.
    assert_eq!(count(text, &two(14, 16)), Ok(255));
    assert_eq!(count(text, &two(84, 2)), Ok(255));
    assert_eq!(count(text, &two(15, 15)), Err(30));
    assert_eq!(count(text, &two(42, 5)), Err(30));
    // Another member gives 18 bindings, of which 17 are among those of the first.
    let text = "mk_(a ^ -, - ^ b)";
    assert_eq!(count_over(text, &set_of([two(14, 16)])), Ok(255));
    let one_more = set_of([two(14, 16), two(0, 17)]);
    assert_eq!(count_over(text, &one_more), Err(30));
}

/// A sequence of n items has (n + 1) × (n + 2) / 2 cuts into three.
#[test]
fn cuts_into_three() {
    // 231 + 21 + 3 and 253 + 3.
    assert_eq!(count_over("(a ^ b) ^ c", &sequences([20, 5, 1])), Ok(255));
    assert_eq!(count_over("a ^ (b ^ c)", &sequences([21, 1])), Err(30));
    // 253 + 1.
    assert_eq!(count_over("a ^ (b ^ c)", &sequences([21, 0])), Ok(254));
    assert_eq!(count("a ^ (b ^ c)", &items(21)), Ok(253));
    assert_eq!(count("a ^ (b ^ c)", &items(22)), Err(30));
}

/// A set of n members, at least 2, has 2^n − 2 splits, and sets that differ have no split in common.
#[test]
fn splits_of_many_sets() {
    let text = "a union b";
    let with = |others: &[Value]| set_of((0..=7).map(numbers).chain(others.iter().cloned()));
    // 0 + 0 + 2 + 6 + 14 + 30 + 62 + 126.
    assert_eq!(count_over(text, &with(&[])), Ok(240));
    // 14 more, which another set of one member leaves as they are, and then 2 more.
    assert_eq!(count_over(text, &with(&[range(11, 14)])), Ok(254));
    let one = [range(11, 14), range(9, 9)];
    assert_eq!(count_over(text, &with(&one)), Ok(254));
    let two = [range(11, 14), range(8, 9)];
    assert_eq!(count_over(text, &with(&two)), Err(30));
}

/// The splits of two sets, and of a set beside the cuts of a sequence.
#[test]
fn splits_of_two() {
    let text = "mk_(a union b, c union d)";
    for (left, right, bindings) in [
        (7, 0, Ok(0)),
        (7, 1, Ok(0)),
        (1, 7, Ok(0)),
        (3, 5, Ok(6 * 30)),
        (4, 4, Ok(14 * 14)),
        (7, 2, Ok(126 * 2)),
        (2, 7, Ok(2 * 126)),
        // 6 × 62, 14 × 30 and 126 × 6.
        (3, 6, Err(30)),
        (4, 5, Err(30)),
        (7, 3, Err(30)),
        (8, 1, Err(29)),
        (7, 8, Err(29)),
    ] {
        let value = pair(numbers(left), numbers(right));
        assert_eq!(both(text, &value), bindings, "{left} and {right}");
    }
    // n members have n splits whose first half is one of them: 5 × 51 and 4 × 64.
    for text in ["mk_({a} union b, c ^ d)", "mk_(b union {a}, c ^ -)"] {
        assert_eq!(both(text, &pair(numbers(5), items(50))), Ok(255));
        assert_eq!(both(text, &pair(numbers(4), items(63))), Err(30));
    }
}

/// Ways beyond 255 do not count where their bindings are the same.
#[test]
fn ways_beyond_255_with_255_bindings() {
    let text = "mk_(a ^ b, c ^ d, -)";
    let members = |lengths| set_of([1, 2].map(|n| tuple(lengths, Value::Integer(n))));
    // 510 ways, each binding twice.
    assert_eq!(count_over(text, &members([14, 16])), Ok(255));
    // 512 ways.
    assert_eq!(count_over(text, &members([15, 15])), Err(30));
    // 6 × 62 ways, 3 × 62 bindings.
    assert_eq!(
        count("mk_({a,-,-}, b union -)", &pair(numbers(3), numbers(6))),
        Ok(186)
    );
    // Sets of 6 members, each with 62 halves.
    assert_eq!(count_over("- union {a}", &sixes(7, [])), Ok(42));
    assert_eq!(count_over("a union -", &sixes(4, [])), Ok(248));
    assert_eq!(count_over("a union -", &sixes(5, [])), Err(30));
    // Another set adds those of its halves that are new.
    for (other, new) in [
        (range(90, 90), 0),
        (range(90, 91), 2),
        (range(90, 92), 6),
        (range(6, 7), 1),
        (range(5, 7), 3),
        (range(6, 8), 5),
    ] {
        let found = count_over("a union -", &sixes(4, [other]));
        assert_eq!(found, Ok(248 + new));
    }
    // 6 and 1, 6 and 2.
    for (other, bindings) in [(range(6, 7), Ok(255)), (range(93, 94), Err(30))] {
        let sets = sixes(4, [range(90, 92), other]);
        assert_eq!(count_over("a union -", &sets), bindings);
    }
}

/// So many sets of 6 members that have none in common, and others.
fn sixes<const N: usize>(count: i32, others: [Value; N]) -> Value {
    let sets = (0..count).map(|n| range(10 * n + 1, 10 * n + 6));
    set_of(sets.chain(others))
}

/// Every one of 255 bindings.
#[test]
fn all_of_255_bindings() {
    // 62 halves of each of 4 sets, 6 of {90,91,92} and of {6,7} the one that is new.
    let sets = sixes(4, [range(90, 92), range(6, 7)]);
    for kind in [kind::LET_BE, kind::FORALL, kind::EXISTS1] {
        let found = compare(kind, &pattern("a union -"), &sets);
        assert_eq!(found.map(|found| found.len()), Ok(255));
    }
}

/// A set too large is told before too many bindings, wherever it stands among them.
#[test]
fn refusal_29_comes_before_30() {
    let many = [range(1, 7), range(2, 8), range(3, 6)];
    assert_eq!(count_over("a union b", &set_of(many.clone())), Err(30));
    for large in [range(0, 7), range(1, 8), range(3, 10)] {
        let members = many.iter().cloned().chain([large]);
        assert_eq!(count_over("a union b", &set_of(members)), Err(29));
    }
    let text = "mk_(a ^ b, c ^ d, - union -)";
    assert_eq!(count(text, &tuple([15, 15], numbers(2))), Err(30));
    assert_eq!(count(text, &tuple([15, 15], numbers(8))), Err(29));
    assert_eq!(count(text, &tuple([14, 16], numbers(2))), Ok(255));
    assert_eq!(count(text, &tuple([14, 16], numbers(8))), Err(29));
    // Beside a set that has no split there is no binding at all.
    assert_eq!(count(text, &tuple([15, 15], numbers(0))), Ok(0));
    assert_eq!(count(text, &tuple([15, 15], numbers(1))), Ok(0));
    // 128 × 2 and 120 × 2.
    let text = "mk_(a ^ b, c ^ d, e union f)";
    assert_eq!(count(text, &tuple([15, 7], numbers(2))), Err(30));
    assert_eq!(count(text, &tuple([14, 7], numbers(2))), Ok(240));
    let text = "mk_(a ^ b, c ^ d, {0} union -)";
    assert_eq!(count(text, &tuple([15, 15], numbers(7))), Ok(0));
    assert_eq!(count(text, &tuple([15, 15], numbers(8))), Err(29));
}

/// Counts near the limit, from products of cuts.
#[test]
fn every_product_near_the_limit() {
    let cuts = pattern("mk_(a ^ -, b ^ -)");
    let mut seen = 0;
    for left in 1..=24 {
        for right in left..=126 {
            let product = (left + 1) * (right + 1);
            let value = pair(items(left), items(right));
            if !(253..=258).contains(&product) || value.size() > Value::MAX_SIZE {
                continue;
            }
            let expected = if product > 255 { Err(30) } else { Ok(product) };
            let found = compare(kind::LET, &cuts, &value);
            assert_eq!(found.map(|found| found.len()), expected);
            seen += 1;
        }
    }
    assert_eq!(seen, 9);
}
