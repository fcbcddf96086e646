//! Unions of two sets, compared as in `random`. Both sides are dealt out of one set, which is then their union, so
//! that it is chosen how the sides stand to each other and how large the union is.

use super::random::compare;
use super::*;
use generator::builder::binary;
use generator::Random;
use reference::operators;
use reference::table::Binary;
use std::collections::BTreeSet;
use std::ops::RangeInclusive;

/// The longest member that is dealt out, so that there are many.
const LONGEST: usize = 40;
/// The sizes of unions around the limit, and well over it.
const SIZES: [usize; 11] = [508, 509, 510, 511, 512, 513, 514, 515, 516, 600, 700];

/// How the members of a set are dealt out, in their order.
#[derive(Clone, Copy)]
enum Dealing {
    /// To one side and the other in turn.
    Interleaved,
    OneAfterTheOther,
    /// All to both sides.
    Equal,
    /// Some to both sides, the others to one and the same.
    OneInside,
    /// The first to both sides, each other to either.
    FirstShared,
    /// The last to both sides, each other to either.
    LastShared,
    OneEmpty,
    /// Each to either side or to both.
    AtRandom,
}

const DEALINGS: [Dealing; 8] = [
    Dealing::Interleaved,
    Dealing::OneAfterTheOther,
    Dealing::Equal,
    Dealing::OneInside,
    Dealing::FirstShared,
    Dealing::LastShared,
    Dealing::OneEmpty,
    Dealing::AtRandom,
];

impl Dealing {
    /// Whether one side gets all members.
    fn has_all_on_one_side(self) -> bool {
        matches!(
            self,
            Dealing::Equal | Dealing::OneInside | Dealing::OneEmpty
        )
    }

    /// Two sides, either of them the left one, that have the members between them.
    fn deal(self, random: &mut Random, members: &BTreeSet<Value>) -> Vec<Value> {
        const ONE: [bool; 2] = [true, false];
        const OTHER: [bool; 2] = [false, true];
        const BOTH: [bool; 2] = [true, true];
        let last = members.len().saturating_sub(1);
        let cut = random.below(members.len() + 1);
        let mut sides = vec![BTreeSet::new(); 2];
        for (at, member) in members.iter().enumerate() {
            let getting = match self {
                Dealing::Interleaved => [ONE, OTHER][at % 2],
                Dealing::OneAfterTheOther => [ONE, OTHER][usize::from(at >= cut)],
                Dealing::Equal => BOTH,
                Dealing::OneInside => random.pick(&[ONE, BOTH]),
                Dealing::FirstShared if at == 0 => BOTH,
                Dealing::LastShared if at == last => BOTH,
                Dealing::FirstShared | Dealing::LastShared => random.pick(&[ONE, OTHER]),
                Dealing::OneEmpty => ONE,
                Dealing::AtRandom => random.pick(&[ONE, OTHER, BOTH]),
            };
            for (side, gets) in sides.iter_mut().zip(getting) {
                side.extend(gets.then(|| member.clone()));
            }
        }
        if random.once_in(2) {
            sides.reverse();
        }
        sides.into_iter().map(Value::Set).collect()
    }
}

/// The members of a set that has one of the sizes: of all kinds, or most of them integers.
fn members(random: &mut Random, sizes: &RangeInclusive<usize>) -> BTreeSet<Value> {
    let most = random.pick(&[Form::Any, Form::Small, Form::Integer]);
    let mut members = BTreeSet::new();
    let mut size = set([]).size();
    while !sizes.contains(&size) {
        if size < *sizes.start() {
            let form = if random.once_in(4) { Form::Any } else { most };
            let member = random_value(random, form);
            let added = member.size();
            if added <= LONGEST && members.insert(member) {
                size += added;
            }
        } else {
            let at = random.below(members.len());
            let member = members.iter().nth(at).cloned().expect("a member");
            size -= member.size();
            members.remove(&member);
        }
    }
    members
}

fn union(sides: &[&Value]) -> Builder {
    sheet(kind::BINARY, &[binary::UNION], sides)
}

/// Two sides that a table can build, whose union has one of the sizes.
fn sides(random: &mut Random, dealing: Dealing, sizes: RangeInclusive<usize>) -> Vec<Value> {
    loop {
        let members = members(random, &sizes);
        let sides = dealing.deal(random, &members);
        let are_values = sides.iter().all(|side| side.size() <= Value::MAX_SIZE);
        if are_values && fits(&union(&[&sides[0], &sides[1]])) {
            return sides;
        }
    }
}

fn expected_union(sides: &[&Value]) -> Tried<Value> {
    operators::binary(Binary::Union, sides[0], sides[1])
}

#[test]
fn unions_that_fit() {
    let mut random = Random::new(301);
    let mut dealings = DEALINGS.into_iter().cycle();
    let draw = || {
        let dealing = dealings.next().expect("a dealing");
        let bound = random.pick(&[10, 100, Value::MAX_SIZE - LONGEST]);
        let least = set([]).size() + random.below(bound);
        sides(&mut random, dealing, least..=Value::MAX_SIZE)
    };
    let tally = compare("union", draw, union, expected_union);
    assert_eq!(tally.refusals, 0);
}

#[test]
fn unions_around_512_bytes() {
    let mut random = Random::new(302);
    let pairs = DEALINGS
        .iter()
        .flat_map(|one| SIZES.map(|size| (*one, size)));
    let mut cases = pairs
        .filter(|(dealing, size)| *size <= Value::MAX_SIZE || !dealing.has_all_on_one_side())
        .cycle();
    let draw = || {
        let (dealing, size) = cases.next().expect("a case");
        sides(&mut random, dealing, size..=size)
    };
    compare("union", draw, union, expected_union).assert_both("union");
}
