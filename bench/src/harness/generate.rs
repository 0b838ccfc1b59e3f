//! Sheets made at random: routines with a table worked out for them, and probes of single ways.

use second_bay::number::{Op, Relation};
use second_bay::sheet::{Input, Kind, Row};

use super::analysis::{Analysis, random_values};
use super::draft::{Draft, ways};
use super::random::Random;

/// How many variables, inputs and places a routine has.
#[derive(Clone, Copy)]
pub struct Size {
    pub variables: usize,
    pub inputs: usize,
    pub places: usize,
}

impl Size {
    pub fn random(random: &mut Random) -> Size {
        let variables = if random.chance(85) { 1 + random.below(5) } else { 1 + random.below(16) };
        let inputs = if random.chance(80) { random.below(4) } else { random.below(9) };
        let places = match random.below(1000) {
            0..900 => 1 + random.below(10),
            900..997 => 1 + random.below(40),
            _ => random.pick(&[64, 128, 255, 256]),
        };
        Size { variables, inputs, places }
    }
}

pub fn random_input(random: &mut Random) -> Input {
    let kind = random.pick(&[Kind::Reading, Kind::Setting]);
    let (lo, hi) = random.ends();
    Input { kind, lo, hi }
}

/// Any row that names only what exists; `next` is where it mostly goes.
pub fn random_row(random: &mut Random, size: Size, next: usize) -> Row {
    let variable = |random: &mut Random| random.below(size.variables) as u8;
    let place = |random: &mut Random, likely| {
        (if random.chance(likely) { next } else { random.below(size.places) }) as u8
    };
    let (x, a, mut b) = (variable(random), variable(random), variable(random));
    if a == b && random.chance(75) {
        b = ((usize::from(a) + 1) % size.variables) as u8;
    }
    let t = place(random, 80);
    match random.below(20) {
        0 => Row::End,
        1..4 => Row::Put { x, n: random.integer(), t },
        4..8 if size.inputs > 0 => Row::Take { x, input: random.below(size.inputs) as u8, t },
        8..15 => Row::Work { x, op: random.pick(&Op::ALL), a, b, t },
        _ => Row::Fork { relation: random.pick(&Relation::ALL), a, b, t, u: place(random, 30) },
    }
}

/// A routine with its rows mostly one behind the other; before many a quotient its divisor is asked for.
fn random_routine(random: &mut Random, size: Size) -> (Vec<Input>, Vec<Row>) {
    let inputs: Vec<Input> = (0..size.inputs).map(|_| random_input(random)).collect();
    let next = |place: usize| (place + 1) % size.places;
    let mut rows: Vec<Row> = (0..size.places).map(|place| random_row(random, size, next(place))).collect();
    for place in 1..size.places {
        let Row::Work { op: Op::Div, b: divisor, .. } = rows[place] else { continue };
        if random.chance(50) {
            let relation = random.pick(&[Relation::Greater, Relation::Unequal, Relation::Less]);
            let b = random.below(size.variables) as u8;
            let u = random.below(size.places) as u8;
            rows[place - 1] = Row::Fork { relation, a: divisor, b, t: place as u8, u };
        }
    }
    if random.chance(70) {
        let last = size.places - 1;
        rows[last] = Row::End;
    }
    share_numbers(random, &inputs, &mut rows);
    (inputs, rows)
}

/// Lets many a put have a number that matters elsewhere: an end of an input, another put's, or one beside it.
fn share_numbers(random: &mut Random, inputs: &[Input], rows: &mut [Row]) {
    let mut numbers: Vec<i32> = inputs.iter().flat_map(|input| [input.lo, input.hi]).collect();
    numbers.push(random.between(-3, 3));
    for row in rows {
        if let Row::Put { n, .. } = row {
            if random.chance(60) {
                *n = random.pick(&numbers).wrapping_add(random.pick(&[0, 0, -1, 1]));
            }
            numbers.push(*n);
        }
    }
}

/// A row in the place of one that warns: it does not.
fn milder(random: &mut Random, row: Row) -> Row {
    match row {
        Row::Work { x, a, b, t, .. } if random.chance(60) => {
            let op = random.pick(&[Op::Less, Op::AtMost, Op::Equal, Op::Unequal]);
            Row::Work { x, op, a, b, t }
        }
        Row::Work { x, t, .. } => Row::Put { x, n: random.between(-9, 9), t },
        row => row,
    }
}

/// A routine with a table that covers its ways; most rows that would warn are made milder.
pub fn analysed<D: Analysis>(random: &mut Random, size: Size) -> Draft<D> {
    let (inputs, rows) = random_routine(random, size);
    let patience = random.below(5);
    let mild = random.chance(75);
    let mut draft = Draft::start(size.variables, inputs, rows);
    let seeds = if random.chance(30) { random.below(3) } else { 0 };
    let seeds: Vec<(usize, Vec<D>)> =
        (0..seeds).map(|_| (random.below(size.places), random_values(random, size.variables))).collect();
    loop {
        for (place, values) in &seeds {
            draft.admit(*place, values.clone(), false);
        }
        draft.close(patience);
        let warned = draft.warned();
        if warned.is_empty() || !mild {
            return draft;
        }
        for place in warned {
            draft.rows[place] = milder(random, draft.rows[place]);
        }
        draft = Draft::start(size.variables, draft.inputs, draft.rows);
    }
}

/// The row of a probe, which goes to the two places named.
fn probing_row(random: &mut Random, size: Size, t: usize, u: usize) -> Row {
    let (t, u) = (t as u8, u as u8);
    match random_row(random, size, 0) {
        Row::Put { x, n, .. } => Row::Put { x, n, t },
        Row::Take { x, input, .. } => Row::Take { x, input, t },
        Row::Work { x, op, a, b, .. } => Row::Work { x, op, a, b, t },
        Row::Fork { relation, a, b, .. } => Row::Fork { relation, a, b, t, u },
        Row::End => Row::Work { x: 0, op: random.pick(&Op::ALL), a: 0, b: 0, t },
    }
}

/// Places that no run comes to, with any values there, and the table exact, or off by a little, behind them.
pub fn probes<D: Analysis>(random: &mut Random) -> Draft<D> {
    random.tiny = random.chance(40);
    let count = 1 + random.below(3);
    let variables = if random.chance(90) { 1 + random.below(4) } else { 1 + random.below(16) };
    let size = Size { variables, inputs: random.below(3), places: 1 + 3 * count };
    let inputs: Vec<Input> = (0..size.inputs).map(|_| random_input(random)).collect();
    let mut draft: Draft<D> = Draft::start(variables, inputs, vec![Row::End; size.places]);
    for probe in 0..count {
        let from = 1 + 3 * probe;
        place_probe(random, &mut draft, size, from);
    }
    if random.chance(60) {
        let from = 1 + 3 * random.below(count);
        let to = from + random.pick(&[1, 1, 2]);
        let changed = changed_by(draft.rows[from]);
        if random.chance(75) && !changed.is_empty() {
            let variable = usize::from(random.pick(&changed));
            nudge_variable(random, &mut draft, to, variable);
        } else {
            nudge(random, &mut draft, to);
        }
    }
    random.tiny = false;
    draft
}

/// The variables that a row may change what is known of.
fn changed_by(row: Row) -> Vec<u8> {
    match row {
        Row::End => Vec::new(),
        Row::Put { x, .. } | Row::Take { x, .. } | Row::Work { x, .. } => vec![x],
        Row::Fork { a, b, .. } => vec![a, b],
    }
}

fn place_probe<D: Analysis>(random: &mut Random, draft: &mut Draft<D>, size: Size, from: usize) {
    let tries = if random.chance(80) { 12 } else { 1 };
    for _ in 0..tries {
        let row = probing_row(random, size, from + 1, from + 2);
        let values: Vec<D> = random_values(random, size.variables);
        let ways = ways(row, &draft.inputs, &values);
        draft.rows[from] = row;
        draft.entries[from] = Some(values);
        draft.entries[from + 1] = None;
        draft.entries[from + 2] = None;
        for (to, values) in ways.to {
            draft.entries[to] = Some(values);
        }
        if !ways.zero && !ways.range {
            return;
        }
    }
}

/// Changes one value of the entry at a place by a little.
pub fn nudge<D: Analysis>(random: &mut Random, draft: &mut Draft<D>, place: usize) {
    let variable = random.below(draft.variables);
    nudge_variable(random, draft, place, variable);
}

fn nudge_variable<D: Analysis>(random: &mut Random, draft: &mut Draft<D>, place: usize, variable: usize) {
    if let Some(values) = &mut draft.entries[place] {
        values[variable] = values[variable].nudged(random);
    }
}

/// A sheet with the parts right behind one another and nothing behind them, absent entries all 0.
pub fn canonical<D: Analysis>(random: &mut Random) -> Vec<u8> {
    let mut size = Size::random(random);
    size.places = size.places.min(1 + 60_000 / (ROW_AND_FLAG + size.variables * D::WIDTH));
    let mut draft: Draft<D> = match random.below(3) {
        0 => probes(random),
        _ => analysed(random, size),
    };
    for entry in &mut draft.entries {
        match random.below(12) {
            0 => *entry = None,
            1 => *entry = Some(random_values(random, draft.variables)),
            _ => {}
        }
    }
    draft.parts(None).bytes()
}

const ROW_AND_FLAG: usize = 13;

#[cfg(test)]
mod tests {
    use super::*;
    use second_bay::in_domain;
    use second_bay::play::verdict_answer;

    /// A table that was worked out, with no row that warns, is taken.
    #[test]
    fn closed_tables_are_taken() {
        for case in 0..3000 {
            let mut random = Random::of_case(5, case);
            let domain = random.below(10) as u32;
            let size = Size { places: 1 + random.below(12), ..Size::random(&mut random) };
            let (quiet, bytes) = in_domain!(domain, D => {
                let draft: Draft<D> = analysed(&mut random, size);
                (draft.warned().is_empty(), draft.parts(Some(&mut random)).bytes())
            }, else unreachable!());
            let refused = verdict_answer(domain, &bytes).number & 0xff;
            assert_eq!(quiet, refused == 0, "case {case}, domain {domain}: {refused}");
        }
    }

    #[test]
    fn canonical_sheets_have_the_format() {
        for case in 0..1000 {
            let mut random = Random::of_case(6, case);
            let domain = random.below(10) as u32;
            let bytes = in_domain!(domain, D => canonical::<D>(&mut random), else unreachable!());
            let refused = verdict_answer(domain, &bytes).number & 0xff;
            assert!(refused == 0 || refused > 10, "case {case}, domain {domain}: {refused}");
        }
    }
}
