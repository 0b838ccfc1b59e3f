//! Pairs: a value of each of two domains, side by side.

use crate::domain::{Domain, Worked};
use crate::number::{Op, Relation};

#[derive(Clone, Copy, PartialEq, Eq, Debug)]
pub struct Pair<A, B> {
    pub first: A,
    pub second: B,
}

/// The width of a pair of domains of these widths.
const fn joined(first: usize, second: usize) -> usize {
    if first == 0 || second == 0 || first + second > 64 { 0 } else { first + second }
}

impl<A: Domain, B: Domain> Domain for Pair<A, B> {
    const WIDTH: usize = joined(A::WIDTH, B::WIDTH);

    #[inline(always)]
    fn readable(cell: &[u8]) -> bool {
        A::readable(&cell[..A::WIDTH]) && B::readable(&cell[A::WIDTH..])
    }

    #[inline(always)]
    fn load(cell: &[u8]) -> Self {
        Pair { first: A::load(&cell[..A::WIDTH]), second: B::load(&cell[A::WIDTH..]) }
    }

    #[inline(always)]
    fn anything() -> Self {
        Pair { first: A::anything(), second: B::anything() }
    }

    #[inline(always)]
    fn of(lo: i32, hi: i32) -> Self {
        Pair { first: A::of(lo, hi), second: B::of(lo, hi) }
    }

    #[inline(always)]
    fn covers(&self, other: &Self) -> bool {
        self.first.covers(&other.first) && self.second.covers(&other.second)
    }

    #[inline]
    fn work(op: Op, a: &Self, b: &Self) -> Worked<Self> {
        let first = A::work(op, &a.first, &b.first);
        let second = B::work(op, &a.second, &b.second);
        Worked {
            value: Pair { first: first.value, second: second.value },
            zero: first.zero && second.zero,
            range: first.range && second.range,
        }
    }

    #[inline]
    fn narrow(&self, relation: Relation, b: &Self) -> Option<Self> {
        let first = self.first.narrow(relation, &b.first)?;
        let second = self.second.narrow(relation, &b.second)?;
        Some(Pair { first, second })
    }
}

#[cfg(test)]
mod tests {
    use super::*;
    use crate::span::Span;
    use crate::stride::Stride;

    type Both = Pair<Span, Stride>;

    fn both(lo: i32, hi: i32, modulus: u16, remainder: i32) -> Both {
        Pair { first: Span { lo, hi }, second: Stride { modulus, remainder } }
    }

    #[test]
    fn widths() {
        type Two = Pair<Span, Span>;
        type Eight = Pair<Pair<Two, Two>, Pair<Two, Two>>;
        assert_eq!(Both::WIDTH, 14);
        assert_eq!(Eight::WIDTH, 64);
        assert_eq!(Pair::<Eight, Span>::WIDTH, 0);
        assert_eq!(Pair::<Span, Pair<Eight, Span>>::WIDTH, 0);
    }

    #[test]
    fn a_warning_of_one_is_none() {
        let worked = Both::work(Op::Div, &both(6, 9, 1, 0), &both(-1, 1, 2, 1));
        assert_eq!((worked.zero, worked.range), (false, false));
        assert_eq!(worked.value, Both::anything());
        let worked = Both::work(Op::Div, &both(6, 9, 1, 0), &both(-1, 1, 1, 0));
        assert_eq!((worked.zero, worked.range), (true, false));
        let worked = Both::work(Op::Add, &both(0, i32::MAX, 2, 1), &both(0, 4, 4, 3));
        assert_eq!((worked.zero, worked.range), (false, true));
        assert_eq!(worked.value, Pair { first: Span::ANYTHING, second: Stride { modulus: 2, remainder: 0 } });
    }

    #[test]
    fn narrows_to_none_if_either_does() {
        assert_eq!(both(0, 9, 0, 3).narrow(Relation::Equal, &both(0, 9, 0, 4)), None);
        assert_eq!(both(0, 3, 1, 0).narrow(Relation::Equal, &both(4, 9, 1, 0)), None);
        assert_eq!(both(0, 9, 1, 0).narrow(Relation::Equal, &both(4, 19, 2, 1)), Some(both(4, 9, 2, 1)));
    }
}
