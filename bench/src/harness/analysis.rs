//! What the generator needs of a domain beyond the check: what a value describes, its cell, the join of two
//! values, random values and their neighbours.

use second_bay::domain::Domain;
use second_bay::nonzero::Nonzero;
use second_bay::pair::Pair;
use second_bay::span::Span;
use second_bay::stride::{Stride, gcd};

use super::random::Random;

pub trait Analysis: Domain {
    fn describes(&self, n: i32) -> bool;

    /// Writes the value into a cell.
    fn store(&self, cell: &mut [u8]);

    /// A value that covers both.
    fn join(&self, other: &Self) -> Self;

    fn random(random: &mut Random) -> Self;

    /// A value close to this one, mostly another.
    fn nudged(&self, random: &mut Random) -> Self;

    /// An integer that matters to this value, mostly one that it describes.
    fn sample(&self, random: &mut Random) -> i32;

    /// A few values about 0 and the ends of the range.
    fn few() -> Vec<Self>;
}

/// At most so many of the values, spread over them.
pub fn thinned<D: Copy>(values: Vec<D>, most: usize) -> Vec<D> {
    if values.len() <= most {
        return values;
    }
    (0..most).map(|n| values[n * values.len() / most]).collect()
}

/// How many values a layer takes of those that could be made.
const FEW: usize = 40;

/// A random value: 0, anything, of two ends, or of the domain's own making.
pub fn random_value<D: Analysis>(random: &mut Random) -> D {
    match random.below(100) {
        0..12 => D::of(0, 0),
        12..18 => D::anything(),
        18..55 => {
            let (lo, hi) = random.ends();
            D::of(lo, hi)
        }
        _ => D::random(random),
    }
}

/// A value that has something to do with another: the same, close to it, or of integers that matter to it.
pub fn akin<D: Analysis>(random: &mut Random, other: &D) -> D {
    let sample = |random: &mut Random| {
        let beside = random.pick(&[0, 0, 0, -1, 1]);
        other.sample(random).wrapping_add(beside)
    };
    match random.below(7) {
        0 => *other,
        1 => other.nudged(random),
        2 => {
            let n = sample(random);
            D::of(n.min(0), n.max(0))
        }
        3..6 => {
            let n = sample(random);
            D::of(n, n)
        }
        _ => {
            let (x, y) = (sample(random), sample(random));
            D::of(x.min(y), x.max(y))
        }
    }
}

/// Random values for all variables, many with something to do with the one before.
pub fn random_values<D: Analysis>(random: &mut Random, variables: usize) -> Vec<D> {
    let mut values: Vec<D> = Vec::with_capacity(variables);
    for _ in 0..variables {
        let value = match values.last() {
            Some(last) if random.chance(60) => akin(random, last),
            _ => random_value(random),
        };
        values.push(value);
    }
    values
}

impl Analysis for Span {
    fn describes(&self, n: i32) -> bool {
        Span::describes(self, n)
    }

    fn store(&self, cell: &mut [u8]) {
        cell[..4].copy_from_slice(&self.lo.to_le_bytes());
        cell[4..].copy_from_slice(&self.hi.to_le_bytes());
    }

    fn join(&self, other: &Span) -> Span {
        Span { lo: self.lo.min(other.lo), hi: self.hi.max(other.hi) }
    }

    fn random(random: &mut Random) -> Span {
        let (lo, hi) = random.ends();
        Span { lo, hi }
    }

    fn nudged(&self, random: &mut Random) -> Span {
        let Span { lo, hi } = *self;
        let (lo, hi) = match random.below(5) {
            0 => (lo.saturating_add(1), hi),
            1 => (lo.saturating_sub(1), hi),
            2 => (lo, hi.saturating_add(1)),
            3 => (lo, hi.saturating_sub(1)),
            _ => random.ends(),
        };
        Span { lo: lo.min(hi), hi: hi.max(lo) }
    }

    fn sample(&self, random: &mut Random) -> i32 {
        match random.below(5) {
            0 | 1 => self.lo,
            2 | 3 => self.hi,
            _ => random.between(self.lo, self.hi),
        }
    }

    fn few() -> Vec<Span> {
        let ends = [
            (0, 0),
            (-1, 1),
            (1, 1),
            (0, 1),
            (-1, -1),
            (i32::MIN, i32::MAX),
            (-1, 0),
            (i32::MIN, -1),
            (2, i32::MAX),
            (i32::MIN, i32::MIN),
            (i32::MAX, i32::MAX),
        ];
        ends.map(|(lo, hi)| Span { lo, hi }).to_vec()
    }
}

/// The stride of a modulus and any integer that it describes.
fn stride(modulus: u16, n: i32) -> Stride {
    match modulus {
        0 => Stride::constant(n),
        m => Stride { modulus, remainder: n.rem_euclid(i32::from(m)) },
    }
}

impl Analysis for Stride {
    fn describes(&self, n: i32) -> bool {
        Stride::describes(self, n)
    }

    fn store(&self, cell: &mut [u8]) {
        cell[..2].copy_from_slice(&self.modulus.to_le_bytes());
        cell[2..].copy_from_slice(&self.remainder.to_le_bytes());
    }

    fn join(&self, other: &Stride) -> Stride {
        let apart = self.remainder.abs_diff(other.remainder);
        let mut modulus = gcd(gcd(u32::from(self.modulus), u32::from(other.modulus)), apart);
        while modulus > 65_535 {
            modulus = if modulus.is_multiple_of(2) { modulus / 2 } else { 1 };
        }
        stride(modulus as u16, self.remainder)
    }

    fn random(random: &mut Random) -> Stride {
        let modulus = match random.below(4) {
            0 => 0,
            _ if random.tiny => random.pick(&[1, 2, 3, 4]),
            1 => random.pick(&[1, 2, 3, 4, 6, 8, 12, 30, 255, 256, 257, 32_768, 65_534, 65_535]),
            2 => random.below(20) as u16,
            _ => random.next() as u16,
        };
        stride(modulus, random.integer())
    }

    fn nudged(&self, random: &mut Random) -> Stride {
        let Stride { modulus, remainder } = *self;
        match random.below(6) {
            0 => stride(modulus, remainder.wrapping_add(random.pick(&[-1, 1]))),
            1 => stride(modulus.wrapping_mul(random.pick(&[2, 3, 5])), remainder),
            2 => stride(modulus / random.pick(&[2, 3]), remainder),
            3 => stride(modulus.wrapping_mul(2), remainder.wrapping_add(i32::from(modulus))),
            4 => Stride::constant(remainder.wrapping_add(i32::from(modulus))),
            _ => Stride::random(random),
        }
    }

    fn sample(&self, random: &mut Random) -> i32 {
        let steps = random.pick(&[0, 0, 1, -1, 2, -7]);
        self.remainder.wrapping_add(steps * i32::from(self.modulus))
    }

    fn few() -> Vec<Stride> {
        let few = [
            (0, 0),
            (1, 0),
            (0, 1),
            (2, 1),
            (0, -1),
            (2, 0),
            (4, 3),
            (6, 3),
            (0, i32::MIN),
            (0, i32::MAX),
            (65_535, 65_534),
        ];
        few.map(|(modulus, remainder)| Stride { modulus, remainder }).to_vec()
    }
}

impl<A: Analysis, B: Analysis> Analysis for Pair<A, B> {
    fn describes(&self, n: i32) -> bool {
        self.first.describes(n) && self.second.describes(n)
    }

    fn store(&self, cell: &mut [u8]) {
        let (first, second) = cell.split_at_mut(A::WIDTH);
        self.first.store(first);
        self.second.store(second);
    }

    fn join(&self, other: &Self) -> Self {
        Pair { first: self.first.join(&other.first), second: self.second.join(&other.second) }
    }

    fn random(random: &mut Random) -> Self {
        Pair { first: random_value(random), second: random_value(random) }
    }

    fn nudged(&self, random: &mut Random) -> Self {
        if random.chance(50) {
            Pair { first: self.first.nudged(random), ..*self }
        } else {
            Pair { second: self.second.nudged(random), ..*self }
        }
    }

    fn sample(&self, random: &mut Random) -> i32 {
        if random.chance(50) { self.first.sample(random) } else { self.second.sample(random) }
    }

    fn few() -> Vec<Self> {
        let (firsts, seconds) = (A::few(), B::few());
        let beside = |&first: &A| seconds.iter().map(move |&second| Pair { first, second }).collect();
        let all: Vec<Vec<Self>> = firsts.iter().map(beside).collect();
        thinned(all.concat(), FEW)
    }
}

impl<D: Analysis> Analysis for Nonzero<D> {
    fn describes(&self, n: i32) -> bool {
        !(self.marked && n == 0) && self.value.describes(n)
    }

    fn store(&self, cell: &mut [u8]) {
        cell[0] = u8::from(self.marked);
        self.value.store(&mut cell[1..]);
    }

    fn join(&self, other: &Self) -> Self {
        Nonzero { marked: self.marked && other.marked, value: self.value.join(&other.value) }
    }

    fn random(random: &mut Random) -> Self {
        Nonzero { marked: random.chance(50), value: random_value(random) }
    }

    fn nudged(&self, random: &mut Random) -> Self {
        if random.chance(40) {
            Nonzero { marked: !self.marked, ..*self }
        } else {
            Nonzero { value: self.value.nudged(random), ..*self }
        }
    }

    fn sample(&self, random: &mut Random) -> i32 {
        self.value.sample(random)
    }

    fn few() -> Vec<Self> {
        let both = |value| [false, true].map(|marked| Nonzero { marked, value });
        D::few().into_iter().flat_map(both).collect()
    }
}

#[cfg(test)]
mod tests {
    use super::*;
    use second_bay::in_domain;
    use second_bay::number::{Op, Relation};

    /// The laws of a domain, on random values and integers that they describe.
    fn keeps_the_laws<D: Analysis>(random: &mut Random) {
        let values: Vec<D> = random_values(random, 2);
        let (a, b) = (values[0], values[1]);
        let mut cell = vec![0; D::WIDTH];
        a.store(&mut cell);
        assert!(D::readable(&cell) && D::load(&cell).covers(&a) && a.covers(&D::load(&cell)));
        let join = a.join(&b);
        assert!(join.covers(&a) && join.covers(&b) && a.covers(&a) && D::anything().covers(&a));
        let (x, y) = (a.sample(random), b.sample(random));
        assert!(D::anything().describes(x));
        let (lo, hi) = random.ends();
        let inside = random.between(lo, hi);
        assert!(D::of(lo, hi).describes(inside));
        assert!(!a.covers(&b) || !b.describes(y) || a.describes(y));
        if !a.describes(x) || !b.describes(y) {
            return;
        }
        for op in Op::ALL {
            let worked = D::work(op, &a, &b);
            match op.apply(x, y) {
                Ok(n) => assert!(worked.value.describes(n)),
                Err(second_bay::number::Trap::Zero) => assert!(worked.zero),
                Err(second_bay::number::Trap::Range) => assert!(worked.range),
            }
        }
        for relation in Relation::ALL {
            if relation.holds(x, y) {
                assert!(a.narrow(relation, &b).is_some_and(|value| value.describes(x)));
            }
        }
    }

    #[test]
    fn laws() {
        let mut random = Random::of_case(3, 0);
        for domain in 0..10 {
            for _ in 0..20_000 {
                in_domain!(domain, D => keeps_the_laws::<D>(&mut random), else ());
            }
        }
    }

    /// Narrowing of spans, against every integer of small spans.
    #[test]
    fn narrowing_of_spans_is_the_least() {
        let mut random = Random::of_case(4, 0);
        for _ in 0..20_000 {
            let ends = |random: &mut Random| {
                let (x, y) = (random.between(-5, 5), random.between(-5, 5));
                Span { lo: x.min(y), hi: x.max(y) }
            };
            let (a, b) = (ends(&mut random), ends(&mut random));
            for relation in Relation::ALL {
                let related = |x: &i32| (b.lo..=b.hi).any(|y| relation.holds(*x, y));
                let left: Vec<i32> = (a.lo..=a.hi).filter(related).collect();
                let least = left.first().zip(left.last()).map(|(&lo, &hi)| Span { lo, hi });
                assert_eq!(a.narrow(relation, &b), least);
            }
        }
    }
}
