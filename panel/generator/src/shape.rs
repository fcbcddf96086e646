//! Shapes: the kind of the values that an expression is to give, with ceilings on their counts.

use crate::random::Random;

/// A kind of value; the number is the most members, items or entries.
#[derive(Clone, Debug, PartialEq, Eq)]
pub enum Shape {
    Boolean,
    Integer,
    Set(Box<Shape>, usize),
    Sequence(Box<Shape>, usize),
    Map(Box<Shape>, Box<Shape>, usize),
    Tuple(Vec<Shape>),
    Quote,
}

impl Shape {
    pub fn set(member: Shape, most: usize) -> Self {
        Shape::Set(Box::new(member), most)
    }

    pub fn sequence(item: Shape, most: usize) -> Self {
        Shape::Sequence(Box::new(item), most)
    }

    pub fn map(key: Shape, value: Shape, most: usize) -> Self {
        Shape::Map(Box::new(key), Box::new(value), most)
    }

    /// A set or map with at most so many members or entries.
    pub fn of_at_most(&self, most: usize) -> Shape {
        match self {
            Shape::Set(member, _) => Shape::Set(member.clone(), most),
            Shape::Map(key, value, _) => Shape::Map(key.clone(), value.clone(), most),
            other => panic!("{other:?} is no shape of sets or maps"),
        }
    }

    /// Whether literals of this shape are many enough to differ.
    pub fn has_many_literals(&self) -> bool {
        matches!(self, Shape::Integer | Shape::Quote)
    }

    /// Whether every value of this shape is of the wanted shape too.
    pub fn fits(&self, wanted: &Shape) -> bool {
        match (self, wanted) {
            (Shape::Boolean, Shape::Boolean)
            | (Shape::Integer, Shape::Integer)
            | (Shape::Quote, Shape::Quote) => true,
            (Shape::Set(a, m), Shape::Set(b, n)) => m <= n && a.fits(b),
            (Shape::Sequence(a, m), Shape::Sequence(b, n)) => m <= n && a.fits(b),
            (Shape::Map(k, v, m), Shape::Map(l, w, n)) => m <= n && k.fits(l) && v.fits(w),
            (Shape::Tuple(a), Shape::Tuple(b)) => {
                a.len() == b.len() && a.iter().zip(b).all(|(x, y)| x.fits(y))
            }
            _ => false,
        }
    }

    /// A random shape, nested at most `depth` deep.
    pub fn random(random: &mut Random, depth: usize) -> Shape {
        let choices = if depth == 0 { 5 } else { 11 };
        match random.below(choices) {
            0 => Shape::Boolean,
            1..=3 => Shape::Integer,
            4 => Shape::Quote,
            5 | 6 => Shape::set(Shape::random(random, depth - 1), 1 + random.below(4)),
            7 | 8 => Shape::sequence(Shape::random(random, depth - 1), 1 + random.below(4)),
            9 => {
                let key = Shape::random(random, depth - 1);
                Shape::map(key, Shape::random(random, depth - 1), 1 + random.below(4))
            }
            _ => {
                let count = 2 + random.below(3);
                Shape::Tuple(
                    (0..count)
                        .map(|_| Shape::random(random, depth - 1))
                        .collect(),
                )
            }
        }
    }
}

#[cfg(test)]
mod tests {
    use super::*;

    #[test]
    fn fitting() {
        let pair = |n| Shape::Tuple(vec![Shape::Integer, Shape::set(Shape::Boolean, n)]);
        assert!(pair(2).fits(&pair(3)));
        assert!(!pair(3).fits(&pair(2)));
        assert!(!Shape::Integer.fits(&Shape::Boolean));
        assert!(!Shape::Integer.fits(&Shape::Quote));
        assert!(Shape::Quote.fits(&Shape::Quote));
    }
}
