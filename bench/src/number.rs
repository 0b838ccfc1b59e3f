//! Operations, relations and traps over 32-bit integers.

/// Why an operation has no result.
#[derive(Clone, Copy, PartialEq, Eq, Debug)]
pub enum Trap {
    Zero,
    Range,
}

/// What a work row does with its two operands.
#[derive(Clone, Copy, PartialEq, Eq, Debug)]
#[repr(u8)]
pub enum Op {
    Add,
    Sub,
    Mul,
    Div,
    Less,
    AtMost,
    Equal,
    Unequal,
}

/// What a fork asks of its two operands.
#[derive(Clone, Copy, PartialEq, Eq, Debug)]
#[repr(u8)]
pub enum Relation {
    Less,
    AtMost,
    Equal,
    Unequal,
    Greater,
    AtLeast,
}

impl Op {
    pub const ALL: [Op; 8] =
        [Op::Add, Op::Sub, Op::Mul, Op::Div, Op::Less, Op::AtMost, Op::Equal, Op::Unequal];

    /// The operation of a code from 0 to 7; of a higher one, that of its lowest three bits.
    #[inline(always)]
    pub fn of_code(code: u8) -> Op {
        Op::ALL[usize::from(code & 7)]
    }

    /// The relation that a comparison asks; none for arithmetic.
    #[inline(always)]
    pub fn comparison(self) -> Option<Relation> {
        match self {
            Op::Less => Some(Relation::Less),
            Op::AtMost => Some(Relation::AtMost),
            Op::Equal => Some(Relation::Equal),
            Op::Unequal => Some(Relation::Unequal),
            Op::Add | Op::Sub | Op::Mul | Op::Div => None,
        }
    }

    /// `x op y`.
    #[inline]
    pub fn apply(self, x: i32, y: i32) -> Result<i32, Trap> {
        match self {
            Op::Add => x.checked_add(y).ok_or(Trap::Range),
            Op::Sub => x.checked_sub(y).ok_or(Trap::Range),
            Op::Mul => x.checked_mul(y).ok_or(Trap::Range),
            Op::Div if y == 0 => Err(Trap::Zero),
            Op::Div => x.checked_div(y).ok_or(Trap::Range),
            Op::Less => Ok(i32::from(x < y)),
            Op::AtMost => Ok(i32::from(x <= y)),
            Op::Equal => Ok(i32::from(x == y)),
            Op::Unequal => Ok(i32::from(x != y)),
        }
    }
}

impl Relation {
    pub const ALL: [Relation; 6] = [
        Relation::Less,
        Relation::AtMost,
        Relation::Equal,
        Relation::Unequal,
        Relation::Greater,
        Relation::AtLeast,
    ];

    /// The relation of a code from 0 to 5; ≥ of a higher one.
    #[inline(always)]
    pub fn of_code(code: u8) -> Relation {
        Relation::ALL[usize::from(code.min(5))]
    }

    /// The relation of y to x where this one is that of x to y.
    #[inline(always)]
    pub fn mirrored(self) -> Relation {
        match self {
            Relation::Less => Relation::Greater,
            Relation::AtMost => Relation::AtLeast,
            Relation::Equal => Relation::Equal,
            Relation::Unequal => Relation::Unequal,
            Relation::Greater => Relation::Less,
            Relation::AtLeast => Relation::AtMost,
        }
    }

    /// The relation that holds exactly where this one does not.
    #[inline(always)]
    pub fn opposite(self) -> Relation {
        match self {
            Relation::Less => Relation::AtLeast,
            Relation::AtMost => Relation::Greater,
            Relation::Equal => Relation::Unequal,
            Relation::Unequal => Relation::Equal,
            Relation::Greater => Relation::AtMost,
            Relation::AtLeast => Relation::Less,
        }
    }

    #[inline(always)]
    pub fn holds(self, x: i32, y: i32) -> bool {
        match self {
            Relation::Less => x < y,
            Relation::AtMost => x <= y,
            Relation::Equal => x == y,
            Relation::Unequal => x != y,
            Relation::Greater => x > y,
            Relation::AtLeast => x >= y,
        }
    }
}

#[cfg(test)]
mod tests {
    use super::*;

    #[test]
    fn quotients_drop_their_fraction() {
        assert_eq!(Op::Div.apply(-7, 2), Ok(-3));
        assert_eq!(Op::Div.apply(7, -2), Ok(-3));
        assert_eq!(Op::Div.apply(7, 0), Err(Trap::Zero));
        assert_eq!(Op::Div.apply(i32::MIN, -1), Err(Trap::Range));
        assert_eq!(Op::Div.apply(i32::MIN, 0), Err(Trap::Zero));
    }

    #[test]
    fn results_outside_trap() {
        assert_eq!(Op::Add.apply(i32::MAX, 1), Err(Trap::Range));
        assert_eq!(Op::Sub.apply(i32::MIN, 1), Err(Trap::Range));
        assert_eq!(Op::Mul.apply(65_536, 32_768), Err(Trap::Range));
        assert_eq!(Op::Mul.apply(65_536, -32_768), Ok(i32::MIN));
        assert_eq!(Op::AtMost.apply(3, 3), Ok(1));
        assert_eq!(Op::Less.apply(3, 3), Ok(0));
    }

    #[test]
    fn mirrors_and_opposites() {
        for relation in Relation::ALL {
            for (x, y) in [(0, 0), (0, 1), (1, 0), (i32::MIN, i32::MAX)] {
                assert_eq!(relation.holds(x, y), relation.mirrored().holds(y, x));
                assert_ne!(relation.holds(x, y), relation.opposite().holds(x, y));
            }
        }
    }
}
