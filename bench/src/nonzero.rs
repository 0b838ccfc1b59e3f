//! Nonzero over a domain: a value of it, and a mark that 0 is none of what it describes.

use crate::domain::{Domain, Worked};
use crate::number::{Op, Relation};

#[derive(Clone, Copy, PartialEq, Eq, Debug)]
pub struct Nonzero<D> {
    pub marked: bool,
    pub value: D,
}

impl<D: Domain> Domain for Nonzero<D> {
    const WIDTH: usize = if D::WIDTH == 0 || D::WIDTH == 64 { 0 } else { D::WIDTH + 1 };

    #[inline(always)]
    fn readable(cell: &[u8]) -> bool {
        cell[0] <= 1 && D::readable(&cell[1..])
    }

    #[inline(always)]
    fn load(cell: &[u8]) -> Self {
        Nonzero { marked: cell[0] != 0, value: D::load(&cell[1..]) }
    }

    #[inline(always)]
    fn anything() -> Self {
        Nonzero { marked: false, value: D::anything() }
    }

    #[inline(always)]
    fn of(lo: i32, hi: i32) -> Self {
        let marked = lo <= hi && (0 < lo || hi < 0);
        Nonzero { marked, value: D::of(lo, hi) }
    }

    #[inline(always)]
    fn covers(&self, other: &Self) -> bool {
        (!self.marked || other.marked) && self.value.covers(&other.value)
    }

    #[inline]
    fn work(op: Op, a: &Self, b: &Self) -> Worked<Self> {
        let below = D::work(op, &a.value, &b.value);
        let marked = op == Op::Mul && a.marked && b.marked;
        let zero = below.zero && !(op == Op::Div && b.marked);
        Worked { value: Nonzero { marked, value: below.value }, zero, range: below.range }
    }

    #[inline]
    fn narrow(&self, relation: Relation, b: &Self) -> Option<Self> {
        let value = self.value.narrow(relation, &b.value)?;
        let marked = self.marked
            || match relation {
                Relation::Equal => b.marked,
                Relation::Unequal => b.value.narrow(Relation::Unequal, &D::of(0, 0)).is_none(),
                _ => false,
            };
        Some(Nonzero { marked, value })
    }
}

#[cfg(test)]
mod tests {
    use super::*;
    use crate::span::Span;

    type Marked = Nonzero<Span>;

    fn value(marked: bool, lo: i32, hi: i32) -> Marked {
        Nonzero { marked, value: Span { lo, hi } }
    }

    #[test]
    fn cells_and_values() {
        assert_eq!(Marked::WIDTH, 9);
        assert!(!Marked::readable(&[2, 0, 0, 0, 0, 0, 0, 0, 0]));
        assert!(Marked::readable(&[1, 0, 0, 0, 0, 0, 0, 0, 0]));
        assert_eq!(Marked::of(1, 5), value(true, 1, 5));
        assert_eq!(Marked::of(-5, 0), value(false, -5, 0));
        assert_eq!(Marked::of(5, 1), Marked::anything());
    }

    #[test]
    fn order() {
        assert!(value(false, 0, 9).covers(&value(true, 1, 2)));
        assert!(!value(true, 0, 9).covers(&value(false, 1, 2)));
        assert!(value(true, 0, 9).covers(&value(true, 1, 2)));
    }

    #[test]
    fn working() {
        let worked = Marked::work(Op::Div, &value(false, 1, 6), &value(true, -2, 3));
        assert_eq!(worked, Worked::quiet(Marked::anything()));
        let worked = Marked::work(Op::Mul, &value(true, 1, 6), &value(true, -2, 3));
        assert_eq!(worked, Worked::quiet(value(true, -12, 18)));
        let worked = Marked::work(Op::Add, &value(true, 1, 6), &value(true, 2, 3));
        assert_eq!(worked, Worked::quiet(value(false, 3, 9)));
    }

    #[test]
    fn narrowing() {
        let a = value(false, -3, 3);
        assert_eq!(a.narrow(Relation::Unequal, &value(false, 0, 0)), Some(value(true, -3, 3)));
        assert_eq!(a.narrow(Relation::Unequal, &value(false, 0, 1)), Some(a));
        assert_eq!(a.narrow(Relation::Equal, &value(true, 0, 9)), Some(value(true, 0, 3)));
        assert_eq!(a.narrow(Relation::Less, &value(true, 0, 2)), Some(value(false, -3, 1)));
        assert_eq!(value(true, 0, 0).narrow(Relation::Unequal, &value(false, 0, 0)), None);
    }
}
