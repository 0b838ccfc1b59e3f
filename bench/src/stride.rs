//! Strides: one integer, or the integers of one remainder by a modulus.

use crate::domain::{Domain, Worked, integer_at};
use crate::number::{Op, Relation, Trap};

/// Modulus 0 is the constant `remainder`; else the remainder is from 0 to below the modulus.
#[derive(Clone, Copy, PartialEq, Eq, Debug)]
pub struct Stride {
    pub modulus: u16,
    pub remainder: i32,
}

impl Stride {
    pub const ANYTHING: Stride = Stride { modulus: 1, remainder: 0 };

    #[inline(always)]
    pub fn constant(n: i32) -> Stride {
        Stride { modulus: 0, remainder: n }
    }

    #[inline(always)]
    fn is_constant(&self) -> bool {
        self.modulus == 0
    }

    #[inline]
    pub fn describes(&self, n: i32) -> bool {
        match i32::from(self.modulus) {
            0 => n == self.remainder,
            m => n.rem_euclid(m) == self.remainder,
        }
    }
}

/// The greatest common divisor; that of 0 and m is m.
pub fn gcd(mut a: u32, mut b: u32) -> u32 {
    while b != 0 {
        (a, b) = (b, a % b);
    }
    a
}

fn work_constants(op: Op, x: i32, y: i32) -> Worked<Stride> {
    match op.apply(x, y) {
        Ok(n) => Worked::quiet(Stride::constant(n)),
        Err(trap) => Worked { value: Stride::ANYTHING, zero: trap == Trap::Zero, range: trap == Trap::Range },
    }
}

/// The stride of + − ×, of which one operand at least is no constant: the moduli are not both 0.
#[inline]
fn combined(a: &Stride, b: &Stride, remainder: i64) -> Worked<Stride> {
    let modulus = gcd(u32::from(a.modulus), u32::from(b.modulus));
    let remainder = remainder.rem_euclid(i64::from(modulus));
    let value = Stride { modulus: modulus as u16, remainder: remainder as i32 };
    Worked { value, zero: false, range: true }
}

impl Domain for Stride {
    const WIDTH: usize = 6;

    #[inline(always)]
    fn readable(cell: &[u8]) -> bool {
        let Stride { modulus, remainder } = Stride::load(cell);
        modulus == 0 || (0 <= remainder && remainder < i32::from(modulus))
    }

    #[inline(always)]
    fn load(cell: &[u8]) -> Stride {
        Stride { modulus: u16::from_le_bytes([cell[0], cell[1]]), remainder: integer_at(cell, 2) }
    }

    #[inline(always)]
    fn anything() -> Stride {
        Stride::ANYTHING
    }

    #[inline(always)]
    fn of(lo: i32, hi: i32) -> Stride {
        if lo == hi { Stride::constant(lo) } else { Stride::ANYTHING }
    }

    /// The likely cases first: a modulus of 1 and equal values need no division.
    #[inline]
    fn covers(&self, other: &Stride) -> bool {
        if self.modulus == 1 || self == other {
            return true;
        }
        self.modulus != 0 && other.modulus.is_multiple_of(self.modulus) && self.describes(other.remainder)
    }

    #[inline]
    fn work(op: Op, a: &Stride, b: &Stride) -> Worked<Stride> {
        if a.is_constant() && b.is_constant() {
            return work_constants(op, a.remainder, b.remainder);
        }
        let [r, s] = [a.remainder, b.remainder].map(i64::from);
        match op {
            Op::Add => combined(a, b, r + s),
            Op::Sub => combined(a, b, r - s),
            Op::Mul => combined(a, b, r * s),
            Op::Div => Worked { value: Stride::ANYTHING, zero: s == 0, range: true },
            Op::Less | Op::AtMost | Op::Equal | Op::Unequal => Worked::quiet(Stride::ANYTHING),
        }
    }

    #[inline]
    fn narrow(&self, relation: Relation, b: &Stride) -> Option<Stride> {
        if relation == Relation::Equal && self.covers(b) {
            return Some(*b);
        }
        let constants = self.is_constant() && b.is_constant();
        let fails = constants && !relation.holds(self.remainder, b.remainder);
        (!fails).then_some(*self)
    }
}

#[cfg(test)]
mod tests {
    use super::*;

    fn stride(modulus: u16, remainder: i32) -> Stride {
        Stride { modulus, remainder }
    }

    fn ranged(modulus: u16, remainder: i32) -> Worked<Stride> {
        Worked { value: stride(modulus, remainder), zero: false, range: true }
    }

    #[test]
    fn cells() {
        assert!(Stride::readable(&[0, 0, 0xff, 0xff, 0xff, 0xff]));
        assert!(Stride::readable(&[3, 0, 2, 0, 0, 0]));
        assert!(!Stride::readable(&[3, 0, 3, 0, 0, 0]));
        assert!(!Stride::readable(&[3, 0, 0xff, 0xff, 0xff, 0xff]));
        assert!(Stride::readable(&[0xff, 0xff, 0xfe, 0xff, 0, 0]));
    }

    #[test]
    fn values_of_ends() {
        assert_eq!(Stride::of(7, 7), stride(0, 7));
        assert_eq!(Stride::of(7, 8), Stride::ANYTHING);
        assert_eq!(Stride::of(8, 7), Stride::ANYTHING);
    }

    #[test]
    fn order() {
        assert!(stride(2, 1).covers(&stride(4, 3)));
        assert!(!stride(4, 3).covers(&stride(2, 1)));
        assert!(stride(4, 3).covers(&stride(0, -1)));
        assert!(!stride(4, 3).covers(&stride(0, 1)));
        assert!(!stride(0, 3).covers(&stride(4, 3)));
        assert!(stride(0, 3).covers(&stride(0, 3)));
        assert!(Stride::ANYTHING.covers(&stride(0, i32::MIN)));
        assert!(stride(65_535, 0).covers(&stride(0, 65_535 * -32_768)));
    }

    #[test]
    fn working() {
        assert_eq!(Stride::work(Op::Add, &stride(2, 1), &stride(4, 3)), ranged(2, 0));
        assert_eq!(Stride::work(Op::Sub, &stride(0, -5), &stride(4, 3)), ranged(4, 0));
        assert_eq!(Stride::work(Op::Mul, &stride(6, 5), &stride(4, 3)), ranged(2, 1));
        assert_eq!(Stride::work(Op::Mul, &stride(0, -5), &stride(4, 3)), ranged(4, 1));
        assert_eq!(Stride::work(Op::Add, &stride(0, 2), &stride(0, 3)), Worked::quiet(stride(0, 5)));
        assert_eq!(Stride::work(Op::Add, &stride(0, i32::MAX), &stride(0, 3)), ranged(1, 0));
        assert_eq!(
            Stride::work(Op::Div, &stride(0, 2), &stride(0, 0)),
            Worked { value: Stride::ANYTHING, zero: true, range: false }
        );
        assert_eq!(
            Stride::work(Op::Div, &stride(0, 2), &stride(3, 0)),
            Worked { value: Stride::ANYTHING, zero: true, range: true }
        );
        assert_eq!(Stride::work(Op::Div, &stride(0, 2), &stride(3, 1)), ranged(1, 0));
        assert_eq!(Stride::work(Op::Less, &stride(0, 2), &stride(3, 0)), Worked::quiet(Stride::ANYTHING));
        assert_eq!(Stride::work(Op::Less, &stride(0, 2), &stride(0, 3)), Worked::quiet(stride(0, 1)));
    }

    #[test]
    fn narrowing() {
        assert_eq!(stride(2, 1).narrow(Relation::Equal, &stride(4, 3)), Some(stride(4, 3)));
        assert_eq!(stride(4, 3).narrow(Relation::Equal, &stride(2, 1)), Some(stride(4, 3)));
        assert_eq!(stride(0, 3).narrow(Relation::Equal, &stride(0, 4)), None);
        assert_eq!(stride(0, 3).narrow(Relation::Unequal, &stride(0, 3)), None);
        assert_eq!(stride(0, 3).narrow(Relation::AtMost, &stride(0, 3)), Some(stride(0, 3)));
        assert_eq!(stride(2, 0).narrow(Relation::Equal, &stride(0, 3)), Some(stride(2, 0)));
    }
}
