//! The sheets that are timed: all of them taken, their tables worked out.

use second_bay::in_domain;
use second_bay::number::{Op, Relation};
use second_bay::play::verdict_answer;
use second_bay::sheet::{Input, Kind, Row};

use super::draft::Draft;

/// A routine to be timed.
pub struct Routine {
    pub variables: usize,
    pub inputs: Vec<Input>,
    pub rows: Vec<Row>,
}

impl Routine {
    /// Its sheet in a domain, with the closest table that is found; it must be taken.
    pub fn sheet(&self, domain: u32) -> Vec<u8> {
        let (variables, inputs, rows) = (self.variables, self.inputs.clone(), self.rows.clone());
        let bytes = in_domain!(domain, D => {
            let mut draft: Draft<D> = Draft::start(variables, inputs, rows);
            draft.close(64);
            draft.parts(None).bytes()
        }, else Vec::new());
        let answer = verdict_answer(domain, &bytes).number;
        assert_eq!(answer, (self.rows.len() as u64) << 8, "a sheet to be timed is taken");
        bytes
    }
}

fn reading(lo: i32, hi: i32) -> Input {
    Input { kind: Kind::Reading, lo, hi }
}

/// The dawn routine: takes voltage and current, and divides where there is current.
pub fn dawn() -> Routine {
    Routine {
        variables: 4,
        inputs: vec![reading(0, 5000), reading(0, 1500)],
        rows: vec![
            Row::Take { x: 0, input: 0, t: 1 },
            Row::Take { x: 1, input: 1, t: 2 },
            Row::Fork { relation: Relation::Greater, a: 1, b: 3, t: 3, u: 4 },
            Row::Work { x: 2, op: Op::Div, a: 0, b: 1, t: 0 },
            Row::End,
        ],
    }
}

/// Blocks of eight rows of all kinds, over variables that change from block to block; the last variable is 0.
pub fn mixed(places: usize, variables: usize) -> Routine {
    let mut rows = Vec::new();
    let zero = (variables - 1) as u8;
    for block in 0..places / 8 {
        let base = (8 * block) as u8;
        let variable = |n: usize| ((5 * block + n) % (variables - 1)) as u8;
        let [a, b, c, d, e] = [0, 1, 2, 3, 4].map(variable);
        let next = |n: u8| base + n;
        let behind = if 8 * (block + 1) < places { next(7).wrapping_add(1) } else { 0 };
        rows.extend([
            Row::Take { x: a, input: 0, t: next(1) },
            Row::Take { x: b, input: 1, t: next(2) },
            Row::Fork { relation: Relation::Greater, a: b, b: zero, t: next(3), u: next(4) },
            Row::Work { x: c, op: Op::Div, a, b, t: next(4) },
            Row::Work { x: d, op: Op::Mul, a, b, t: next(5) },
            Row::Fork { relation: Relation::AtMost, a: c, b: d, t: next(6), u: next(7) },
            Row::Put { x: e, n: 7 + i32::from(base), t: next(7) },
            Row::Work { x: e, op: Op::Less, a, b: d, t: behind },
        ]);
    }
    Routine { variables, inputs: vec![reading(0, 5000), reading(0, 1500)], rows }
}

/// After four takes nothing but products and quotients.
pub fn worked(places: usize, variables: usize) -> Routine {
    let inputs = vec![reading(-5000, 5000), reading(0, 1500), reading(1, 60), reading(-40, -3)];
    let mut rows: Vec<Row> = (0..4).map(|x| Row::Take { x, input: x, t: x + 1 }).collect();
    let products = [(0, 1), (0, 2), (3, 1), (3, 3)];
    let quotients = [(0, 2), (1, 3), (0, 3), (1, 2)];
    for place in 4..places {
        let (op, (a, b)) = match place % 2 {
            0 => (Op::Mul, products[place / 2 % 4]),
            _ => (Op::Div, quotients[place / 2 % 4]),
        };
        let x = (4 + place % (variables - 4)) as u8;
        rows.push(Row::Work { x, op, a, b, t: ((place + 1) % places) as u8 });
    }
    Routine { variables, inputs, rows }
}

/// After a take for each variable nothing but forks, each to the two next places, and an end.
pub fn forked(places: usize, variables: usize) -> Routine {
    let inputs = vec![reading(0, 5000), reading(-1500, 1500), reading(1, 60), reading(-40, 900)];
    let mut rows: Vec<Row> = (0..variables as u8).map(|x| Row::Take { x, input: x % 4, t: x + 1 }).collect();
    for place in variables..places - 1 {
        let relation = Relation::ALL[place % 6];
        let (a, b) = ((place % variables) as u8, ((place * 7 + 3) % variables) as u8);
        let u = (place + 2).min(places - 1) as u8;
        rows.push(Row::Fork { relation, a, b, t: (place + 1) as u8, u });
    }
    rows.push(Row::End);
    Routine { variables, inputs, rows }
}

#[cfg(test)]
mod tests {
    use super::*;

    #[test]
    fn all_are_taken() {
        assert_eq!(dawn().sheet(0).len(), 271);
        for domain in [0, 4] {
            dawn().sheet(domain);
            mixed(40, 8).sheet(domain);
            for places in [16, 32, 64, 128, 256] {
                mixed(places, 16).sheet(domain);
            }
            worked(256, 16).sheet(domain);
            forked(256, 16).sheet(domain);
        }
    }
}
