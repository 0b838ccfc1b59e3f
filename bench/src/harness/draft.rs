//! A routine with its table as values, the ways out of a place, and a table worked out by going over the ways
//! until nothing changes.

use second_bay::number::Relation;
use second_bay::sheet::{HEAD_BYTES, Input, Row};

use super::analysis::Analysis;
use super::random::Random;

/// A sheet before it is bytes. An entry of none is absent.
#[derive(Clone)]
pub struct Draft<D> {
    pub variables: usize,
    pub inputs: Vec<Input>,
    pub rows: Vec<Row>,
    pub entries: Vec<Option<Vec<D>>>,
}

/// What a row does with the values at its place.
pub struct Ways<D> {
    pub zero: bool,
    pub range: bool,
    /// The places gone to, each with the values there.
    pub to: Vec<(usize, Vec<D>)>,
}

/// The bytes of a sheet, part by part.
#[derive(Clone)]
pub struct Parts {
    pub variables: u8,
    pub inputs_count: u8,
    pub inputs: Vec<u8>,
    pub rows: Vec<u8>,
    pub table: Vec<u8>,
    /// Bytes before each part, and behind the last.
    pub gaps: [Vec<u8>; 4],
}

fn changed<D: Copy>(values: &[D], x: u8, value: D) -> Vec<D> {
    let mut values = values.to_vec();
    values[usize::from(x)] = value;
    values
}

/// The values on one way of a fork; none if the way is passed over.
fn narrowed<D: Analysis>(values: &[D], relation: Relation, a: u8, b: u8) -> Option<Vec<D>> {
    if a == b {
        return Some(values.to_vec());
    }
    let (left, right) = (values[usize::from(a)], values[usize::from(b)]);
    let less = changed(values, a, left.narrow(relation, &right)?);
    Some(changed(&less, b, right.narrow(relation.mirrored(), &left)?))
}

pub fn ways<D: Analysis>(row: Row, inputs: &[Input], values: &[D]) -> Ways<D> {
    let one = |x, value, t: u8| vec![(usize::from(t), changed(values, x, value))];
    let quiet = |to| Ways { zero: false, range: false, to };
    match row {
        Row::End => quiet(Vec::new()),
        Row::Put { x, n, t } => quiet(one(x, D::of(n, n), t)),
        Row::Take { x, input, t } => {
            let Input { lo, hi, .. } = inputs[usize::from(input)];
            quiet(one(x, D::of(lo, hi), t))
        }
        Row::Work { x, op, a, b, t } => {
            let worked = D::work(op, &values[usize::from(a)], &values[usize::from(b)]);
            Ways { zero: worked.zero, range: worked.range, to: one(x, worked.value, t) }
        }
        Row::Fork { relation, a, b, t, u } => {
            let yes = narrowed(values, relation, a, b).map(|values| (usize::from(t), values));
            let no = narrowed(values, relation.opposite(), a, b).map(|values| (usize::from(u), values));
            quiet(yes.into_iter().chain(no).collect())
        }
    }
}

impl<D: Analysis> Draft<D> {
    /// A routine whose table says only where it starts.
    pub fn start(variables: usize, inputs: Vec<Input>, rows: Vec<Row>) -> Draft<D> {
        let mut entries = vec![None; rows.len()];
        entries[0] = Some(vec![D::of(0, 0); variables]);
        Draft { variables, inputs, rows, entries }
    }

    pub fn ways(&self, place: usize) -> Option<Ways<D>> {
        let values = self.entries[place].as_ref()?;
        Some(ways(self.rows[place], &self.inputs, values))
    }

    /// Widens the table until it covers every way; after some passes what still grows becomes "anything".
    pub fn close(&mut self, patience: usize) {
        let mut pass = 0;
        while self.grow(pass >= patience) {
            pass += 1;
        }
    }

    fn grow(&mut self, wide: bool) -> bool {
        let mut grew = false;
        for place in 0..self.rows.len() {
            for (to, values) in self.ways(place).map_or_else(Vec::new, |ways| ways.to) {
                grew |= self.admit(to, values, wide);
            }
        }
        grew
    }

    /// Makes the entry at a place cover the values; tells whether it had to change.
    pub fn admit(&mut self, place: usize, values: Vec<D>, wide: bool) -> bool {
        let Some(entry) = &mut self.entries[place] else {
            self.entries[place] = Some(values);
            return true;
        };
        let mut grew = false;
        for (old, new) in entry.iter_mut().zip(&values) {
            if !old.covers(new) {
                *old = if wide { D::anything() } else { old.join(new) };
                grew = true;
            }
        }
        grew
    }

    /// The places of present entries whose row warns.
    pub fn warned(&self) -> Vec<usize> {
        let warns = |&place: &usize| self.ways(place).is_some_and(|ways| ways.zero || ways.range);
        (0..self.rows.len()).filter(warns).collect()
    }

    /// The bytes, parts right behind one another; an absent entry's cells are 0, or garbage.
    pub fn parts(&self, mut garbage: Option<&mut Random>) -> Parts {
        let mut table = Vec::new();
        for entry in &self.entries {
            table.push(u8::from(entry.is_some()));
            let from = table.len();
            table.resize(from + self.variables * D::WIDTH, 0);
            match (entry, &mut garbage) {
                (Some(values), _) => {
                    for (value, cell) in values.iter().zip(table[from..].chunks_exact_mut(D::WIDTH)) {
                        value.store(cell);
                    }
                }
                (None, Some(random)) => table[from..].fill_with(|| random.byte()),
                (None, None) => {}
            }
        }
        Parts {
            variables: self.variables as u8,
            inputs_count: self.inputs.len() as u8,
            inputs: self.inputs.iter().flat_map(Input::store).collect(),
            rows: self.rows.iter().flat_map(Row::store).collect(),
            table,
            gaps: [const { Vec::new() }; 4],
        }
    }
}

impl Parts {
    pub fn bytes(&self) -> Vec<u8> {
        let mut sheet = vec![1, self.variables, self.inputs_count, 0];
        let mut body: Vec<u8> = Vec::new();
        for (gap, part) in self.gaps.iter().zip([&self.inputs, &self.rows, &self.table]) {
            body.extend(gap);
            sheet.extend(((HEAD_BYTES + body.len()) as u32).to_le_bytes());
            sheet.extend((part.len() as u32).to_le_bytes());
            body.extend(part);
        }
        sheet.extend(body);
        sheet.extend(&self.gaps[3]);
        sheet
    }
}
