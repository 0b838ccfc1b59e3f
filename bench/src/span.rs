//! Spans: the integers from lo to hi.

use crate::domain::{Domain, Worked, integer_at};
use crate::number::{Op, Relation};

#[derive(Clone, Copy, PartialEq, Eq, Debug)]
pub struct Span {
    pub lo: i32,
    pub hi: i32,
}

impl Span {
    pub const ANYTHING: Span = Span { lo: i32::MIN, hi: i32::MAX };

    #[inline(always)]
    fn new(lo: i32, hi: i32) -> Option<Span> {
        (lo <= hi).then_some(Span { lo, hi })
    }

    #[inline(always)]
    pub fn describes(&self, n: i32) -> bool {
        self.lo <= n && n <= self.hi
    }

    #[inline]
    fn quotient(a: &Span, b: &Span) -> Worked<Span> {
        let zero = b.describes(0);
        let range = a.lo == i32::MIN && b.describes(-1);
        if zero || range {
            return Worked { value: Span::ANYTHING, zero, range };
        }
        let (p, q, r, s) = (a.lo / b.lo, a.lo / b.hi, a.hi / b.lo, a.hi / b.hi);
        Worked::quiet(Span { lo: p.min(q).min(r.min(s)), hi: p.max(q).max(r.max(s)) })
    }

    #[inline]
    fn compared(relation: Relation, a: &Span, b: &Span) -> Span {
        let (always, never) = match relation {
            Relation::Less => (a.hi < b.lo, a.lo >= b.hi),
            Relation::AtMost => (a.hi <= b.lo, a.lo > b.hi),
            Relation::Equal => (same(a, b), apart(a, b)),
            Relation::Unequal => (apart(a, b), same(a, b)),
            Relation::Greater => (a.lo > b.hi, a.hi <= b.lo),
            Relation::AtLeast => (a.lo >= b.hi, a.hi < b.lo),
        };
        Span { lo: i32::from(always), hi: i32::from(!never) }
    }
}

/// Both are one and the same integer.
#[inline(always)]
fn same(a: &Span, b: &Span) -> bool {
    a.lo == a.hi && a == b
}

/// No integer is in both.
#[inline(always)]
fn apart(a: &Span, b: &Span) -> bool {
    a.hi < b.lo || b.hi < a.lo
}

/// The span of two unbounded ends, or a range warning.
#[inline(always)]
fn bounded(lo: i64, hi: i64) -> Worked<Span> {
    match (i32::try_from(lo), i32::try_from(hi)) {
        (Ok(lo), Ok(hi)) => Worked::quiet(Span { lo, hi }),
        _ => Worked { value: Span::ANYTHING, zero: false, range: true },
    }
}

impl Domain for Span {
    const WIDTH: usize = 8;

    #[inline(always)]
    fn readable(cell: &[u8]) -> bool {
        integer_at(cell, 0) <= integer_at(cell, 4)
    }

    #[inline(always)]
    fn load(cell: &[u8]) -> Span {
        Span { lo: integer_at(cell, 0), hi: integer_at(cell, 4) }
    }

    #[inline(always)]
    fn anything() -> Span {
        Span::ANYTHING
    }

    #[inline(always)]
    fn of(lo: i32, hi: i32) -> Span {
        Span::new(lo, hi).unwrap_or(Span::ANYTHING)
    }

    #[inline(always)]
    fn covers(&self, other: &Span) -> bool {
        self.lo <= other.lo && other.hi <= self.hi
    }

    #[inline]
    fn work(op: Op, a: &Span, b: &Span) -> Worked<Span> {
        let [al, ah, bl, bh] = [a.lo, a.hi, b.lo, b.hi].map(i64::from);
        match op {
            Op::Add => bounded(al + bl, ah + bh),
            Op::Sub => bounded(al - bh, ah - bl),
            Op::Mul => {
                let (p, q, r, s) = (al * bl, al * bh, ah * bl, ah * bh);
                bounded(p.min(q).min(r.min(s)), p.max(q).max(r.max(s)))
            }
            Op::Div => Span::quotient(a, b),
            Op::Less => Worked::quiet(Span::compared(Relation::Less, a, b)),
            Op::AtMost => Worked::quiet(Span::compared(Relation::AtMost, a, b)),
            Op::Equal => Worked::quiet(Span::compared(Relation::Equal, a, b)),
            Op::Unequal => Worked::quiet(Span::compared(Relation::Unequal, a, b)),
        }
    }

    #[inline]
    fn narrow(&self, relation: Relation, b: &Span) -> Option<Span> {
        let Span { lo, hi } = *self;
        match relation {
            Relation::Less => Span::new(lo, hi.min(b.hi.checked_sub(1)?)),
            Relation::AtMost => Span::new(lo, hi.min(b.hi)),
            Relation::Equal => Span::new(lo.max(b.lo), hi.min(b.hi)),
            Relation::Unequal if b.lo < b.hi => Some(*self),
            Relation::Unequal if lo == hi => (lo != b.lo).then_some(*self),
            Relation::Unequal if lo == b.lo => Some(Span { lo: lo + 1, hi }),
            Relation::Unequal if hi == b.lo => Some(Span { lo, hi: hi - 1 }),
            Relation::Unequal => Some(*self),
            Relation::Greater => Span::new(lo.max(b.lo.checked_add(1)?), hi),
            Relation::AtLeast => Span::new(lo.max(b.lo), hi),
        }
    }

    /// Without an early way out, so that several cells are looked at at a time.
    #[inline]
    fn readable_all(cells: &[u8]) -> bool {
        cells.chunks_exact(Span::WIDTH).fold(true, |all, cell| all & Span::readable(cell))
    }
}

#[cfg(test)]
mod tests {
    use super::*;

    fn span(lo: i32, hi: i32) -> Span {
        Span { lo, hi }
    }

    fn quiet(lo: i32, hi: i32) -> Worked<Span> {
        Worked::quiet(span(lo, hi))
    }

    fn warned(zero: bool, range: bool) -> Worked<Span> {
        Worked { value: Span::ANYTHING, zero, range }
    }

    #[test]
    fn cells() {
        assert!(!Span::readable(&[1, 0, 0, 0, 0, 0, 0, 0]));
        assert!(Span::readable(&[0; 8]));
        assert_eq!(Span::load(&[0xff, 0xff, 0xff, 0xff, 2, 1, 0, 0]), span(-1, 258));
    }

    #[test]
    fn arithmetic() {
        assert_eq!(Span::work(Op::Mul, &span(-3, 2), &span(-4, 5)), quiet(-15, 12));
        assert_eq!(Span::work(Op::Add, &span(-3, 2), &span(-4, 5)), quiet(-7, 7));
        assert_eq!(Span::work(Op::Sub, &span(-3, 2), &span(-4, 5)), quiet(-8, 6));
        assert_eq!(Span::work(Op::Add, &span(0, i32::MAX), &span(0, 1)), warned(false, true));
        assert_eq!(Span::work(Op::Div, &span(-7, 9), &span(2, 4)), quiet(-3, 4));
        assert_eq!(Span::work(Op::Div, &span(-7, 9), &span(-4, -2)), quiet(-4, 3));
        assert_eq!(Span::work(Op::Div, &span(1, 1), &span(0, 4)), warned(true, false));
        assert_eq!(Span::work(Op::Div, &span(i32::MIN, 0), &span(-1, 1)), warned(true, true));
        assert_eq!(Span::work(Op::Div, &span(i32::MIN, 0), &span(-9, -1)), warned(false, true));
        assert_eq!(Span::work(Op::Div, &span(i32::MIN, 0), &span(-9, -2)), quiet(0, 1 << 30));
    }

    #[test]
    fn comparisons() {
        assert_eq!(Span::work(Op::Less, &span(0, 3), &span(4, 5)), quiet(1, 1));
        assert_eq!(Span::work(Op::Less, &span(5, 6), &span(4, 5)), quiet(0, 0));
        assert_eq!(Span::work(Op::AtMost, &span(5, 6), &span(4, 5)), quiet(0, 1));
        assert_eq!(Span::work(Op::Equal, &span(5, 5), &span(5, 5)), quiet(1, 1));
        assert_eq!(Span::work(Op::Equal, &span(5, 6), &span(5, 6)), quiet(0, 1));
        assert_eq!(Span::work(Op::Unequal, &span(5, 6), &span(7, 8)), quiet(1, 1));
    }

    #[test]
    fn narrowing() {
        let a = span(-3, 4);
        assert_eq!(a.narrow(Relation::Less, &span(0, 2)), Some(span(-3, 1)));
        assert_eq!(a.narrow(Relation::Less, &span(-9, -3)), None);
        assert_eq!(a.narrow(Relation::Less, &span(i32::MIN, i32::MIN)), None);
        assert_eq!(a.narrow(Relation::Greater, &span(i32::MAX, i32::MAX)), None);
        assert_eq!(a.narrow(Relation::Greater, &span(0, 2)), Some(span(1, 4)));
        assert_eq!(a.narrow(Relation::AtLeast, &span(4, 9)), Some(span(4, 4)));
        assert_eq!(a.narrow(Relation::Equal, &span(4, 9)), Some(span(4, 4)));
        assert_eq!(a.narrow(Relation::Equal, &span(5, 9)), None);
        assert_eq!(a.narrow(Relation::Unequal, &span(-3, -3)), Some(span(-2, 4)));
        assert_eq!(a.narrow(Relation::Unequal, &span(4, 4)), Some(span(-3, 3)));
        assert_eq!(a.narrow(Relation::Unequal, &span(0, 0)), Some(a));
        assert_eq!(a.narrow(Relation::Unequal, &span(-3, -2)), Some(a));
        assert_eq!(span(7, 7).narrow(Relation::Unequal, &span(7, 7)), None);
    }
}
