//! The check of a sheet in a domain: rules 7 to 15 behind those of the format.

use std::marker::PhantomData;

use crate::domain::Domain;
use crate::number::Relation;
use crate::refusal::{Refusal, Rule};
use crate::sheet::{Input, MOST_VARIABLES, Row, Sheet};

/// The table of a sheet that keeps rules 7 to 10.
pub struct Table<'a, D> {
    bytes: &'a [u8],
    entry_bytes: usize,
    domain: PhantomData<D>,
}

impl<'a, D: Domain> Table<'a, D> {
    #[inline]
    pub fn read(sheet: &Sheet<'a>) -> Result<Table<'a, D>, Refusal> {
        if D::WIDTH == 0 {
            return Err(Refusal::new(Rule::NoWidth));
        }
        let entry_bytes = 1 + sheet.variables * D::WIDTH;
        if sheet.table.len() != sheet.rows.len() * entry_bytes {
            return Err(Refusal::new(Rule::TableSize));
        }
        for (place, entry) in sheet.table.chunks_exact(entry_bytes).enumerate() {
            match entry {
                [0, ..] => {}
                [1, cells @ ..] if D::readable_all(cells) => {}
                [1, cells @ ..] => return Err(unreadable::<D>(place, cells)),
                _ => return Err(Refusal::at(Rule::EntryFlag, place)),
            }
        }
        Ok(Table { bytes: sheet.table, entry_bytes, domain: PhantomData })
    }

    /// The cells at a place, if its entry is present.
    #[inline(always)]
    fn cells(&self, place: usize) -> Option<&'a [u8]> {
        match &self.bytes[place * self.entry_bytes..][..self.entry_bytes] {
            [0, ..] | [] => None,
            [_, cells @ ..] => Some(cells),
        }
    }

    /// The value of a variable at a place, if the entry is present.
    pub fn value(&self, place: usize, variable: usize) -> Option<D> {
        Some(D::load(&self.cells(place)?[variable * D::WIDTH..][..D::WIDTH]))
    }
}

#[cold]
fn unreadable<D: Domain>(place: usize, cells: &[u8]) -> Refusal {
    let variable = cells.chunks_exact(D::WIDTH).position(|cell| !D::readable(cell));
    Refusal::at(Rule::CellUnreadable, place).variable(variable.unwrap_or(MOST_VARIABLES))
}

/// Whether each of the cells covers its value.
#[inline]
fn covered<D: Domain>(cells: &[u8], values: &[D]) -> bool {
    cells.chunks_exact(D::WIDTH).zip(values).all(|(cell, value)| D::load(cell).covers(value))
}

/// A bit for each variable that its cell does not cover.
#[cold]
fn not_covered<D: Domain>(cells: &[u8], values: &[D]) -> u16 {
    let pairs = cells.chunks_exact(D::WIDTH).zip(values).enumerate();
    pairs.fold(0, |set, (variable, (cell, value))| set | u16::from(!D::load(cell).covers(value)) << variable)
}

/// The verdict on a sheet: its view if it is taken, else the refusal.
#[inline]
pub fn verdict<D: Domain>(bytes: &[u8]) -> Result<Sheet<'_>, Refusal> {
    let sheet = Sheet::read(bytes)?;
    let table = Table::<D>::read(&sheet)?;
    check_start(&sheet, &table)?;
    let mut checker = Checker { sheet, table, values: [D::anything(); MOST_VARIABLES] };
    for (place, record) in sheet.rows.iter().enumerate() {
        if let Some(cells) = checker.table.cells(place) {
            checker.place(place, Row::load(record), cells)?;
        }
    }
    Ok(sheet)
}

fn check_start<D: Domain>(sheet: &Sheet, table: &Table<D>) -> Result<(), Refusal> {
    let refusal = Refusal::new(Rule::StartUncovered);
    let cells = table.cells(0).ok_or(refusal.variable(MOST_VARIABLES))?;
    let values = [D::of(0, 0); MOST_VARIABLES];
    let values = &values[..sheet.variables];
    if covered(cells, values) {
        return Ok(());
    }
    Err(refusal.variable(not_covered(cells, values).trailing_zeros() as usize))
}

struct Checker<'a, D> {
    sheet: Sheet<'a>,
    table: Table<'a, D>,
    /// The values at the place that is checked, changed as its row does.
    values: [D; MOST_VARIABLES],
}

impl<D: Domain> Checker<'_, D> {
    /// Rules 12 to 15 at one place.
    #[inline]
    fn place(&mut self, place: usize, row: Row, cells: &[u8]) -> Result<(), Refusal> {
        if row == Row::End {
            return Ok(());
        }
        for (value, cell) in self.values.iter_mut().zip(cells.chunks_exact(D::WIDTH)) {
            *value = D::load(cell);
        }
        match row {
            Row::End => Ok(()),
            Row::Put { x, n, t } => self.assign(place, x, D::of(n, n), t),
            Row::Take { x, input, t } => {
                let Input { lo, hi, .. } = Input::load(&self.sheet.inputs[usize::from(input)]);
                self.assign(place, x, D::of(lo, hi), t)
            }
            Row::Work { x, op, a, b, t } => {
                let worked = D::work(op, &self.values[usize::from(a)], &self.values[usize::from(b)]);
                if worked.zero {
                    return Err(Refusal::at(Rule::ZeroWarning, place));
                }
                if worked.range {
                    return Err(Refusal::at(Rule::RangeWarning, place));
                }
                self.assign(place, x, worked.value, t)
            }
            Row::Fork { a, b, t, u, .. } if a == b => {
                self.way(place, 0, t)?;
                self.way(place, 1, u)
            }
            Row::Fork { relation, a, b, t, u } => {
                let operands = (self.values[usize::from(a)], self.values[usize::from(b)]);
                self.branch(place, 0, relation, (a, b), operands, t)?;
                self.branch(place, 1, relation.opposite(), (a, b), operands, u)
            }
        }
    }

    #[inline(always)]
    fn assign(&mut self, place: usize, x: u8, value: D, to: u8) -> Result<(), Refusal> {
        self.values[usize::from(x)] = value;
        self.way(place, 0, to)
    }

    /// One way of a fork on two variables, passed over where nothing is left of either.
    #[inline(always)]
    fn branch(
        &mut self,
        place: usize,
        way: usize,
        relation: Relation,
        (a, b): (u8, u8),
        (left, right): (D, D),
        to: u8,
    ) -> Result<(), Refusal> {
        let Some(narrowed) = left.narrow(relation, &right) else { return Ok(()) };
        self.values[usize::from(a)] = narrowed;
        let Some(narrowed) = right.narrow(relation.mirrored(), &left) else { return Ok(()) };
        self.values[usize::from(b)] = narrowed;
        self.way(place, way, to)
    }

    /// The entry gone to is present and covers the changed values.
    #[inline]
    fn way(&self, place: usize, way: usize, to: u8) -> Result<(), Refusal> {
        let cells = self
            .table
            .cells(usize::from(to))
            .ok_or_else(|| Refusal::at(Rule::EntryAbsent, place).way(way))?;
        let values = &self.values[..self.sheet.variables];
        if covered(cells, values) {
            return Ok(());
        }
        Err(Refusal::at(Rule::NotCovered, place).way(way).uncovered(not_covered(cells, values)))
    }
}

#[cfg(test)]
mod tests {
    use super::*;
    use crate::nonzero::Nonzero;
    use crate::number::Op;
    use crate::pair::Pair;
    use crate::sheet::Kind;
    use crate::span::Span;
    use crate::stride::Stride;

    const DAWN: &[u8] = include_bytes!("../../examples/dawn.sheet");

    fn answer<D: Domain>(bytes: &[u8]) -> [u16; 4] {
        match verdict::<D>(bytes) {
            Ok(_) => [0; 4],
            Err(refusal) => refusal.numbers(),
        }
    }

    fn dawn_with(edits: &[(usize, u8)]) -> [u16; 4] {
        let mut bytes = DAWN.to_vec();
        for &(at, byte) in edits {
            bytes[at] = byte;
        }
        answer::<Span>(&bytes)
    }

    /// A sheet of spans, parts right behind one another; an entry of no spans is absent.
    fn sheet(variables: u8, inputs: &[Input], rows: &[Row], entries: &[&[(i32, i32)]]) -> Vec<u8> {
        let inputs: Vec<u8> = inputs.iter().flat_map(Input::store).collect();
        let rows: Vec<u8> = rows.iter().flat_map(Row::store).collect();
        let mut table = Vec::new();
        for entry in entries {
            table.push(u8::from(!entry.is_empty()));
            for variable in 0..usize::from(variables) {
                let (lo, hi) = entry.get(variable).copied().unwrap_or((0, 0));
                table.extend(lo.to_le_bytes());
                table.extend(hi.to_le_bytes());
            }
        }
        let mut bytes = vec![1, variables, (inputs.len() / 9) as u8, 0];
        let mut offset = 28;
        for part in [&inputs, &rows, &table] {
            bytes.extend((offset as u32).to_le_bytes());
            bytes.extend((part.len() as u32).to_le_bytes());
            offset += part.len();
        }
        [bytes, inputs, rows, table].concat()
    }

    #[test]
    fn dawn() {
        assert_eq!(verdict::<Span>(DAWN).map(|sheet| sheet.rows.len()).ok(), Some(5));
        assert_eq!(answer::<Span>(include_bytes!("../../examples/dawn-at-least.sheet")), [15, 2, 0, 1]);
        assert_eq!(answer::<Stride>(DAWN), [8, 0, 0, 0]);
    }

    #[test]
    fn tables_of_the_wrong_shape() {
        type Two = Pair<Span, Span>;
        type Eight = Pair<Pair<Two, Two>, Pair<Two, Two>>;
        assert_eq!(answer::<Pair<Eight, Span>>(DAWN), [7, 0, 0, 0]);
        assert_eq!(answer::<Nonzero<Eight>>(DAWN), [7, 0, 0, 0]);
        assert_eq!(dawn_with(&[(106, 2)]), [9, 0, 0, 0]);
        assert_eq!(dawn_with(&[(106 + 33, 3), (106 + 66 + 1, 9)]), [9, 1, 0, 0]);
        // Entry 1, variable 2: lo 6000 is above hi 5000.
        assert_eq!(dawn_with(&[(106 + 33 + 1 + 16, 0x70), (106 + 33 + 1 + 17, 0x17)]), [10, 1, 0, 2]);
        // The same in an absent entry is not looked at; the way into it then is.
        assert_eq!(
            dawn_with(&[(106 + 33, 0), (106 + 33 + 1 + 16, 0x70), (106 + 33 + 1 + 17, 0x17)]),
            [14, 0, 0, 0]
        );
    }

    #[test]
    fn starts() {
        assert_eq!(dawn_with(&[(106, 0)]), [11, 0, 0, 16]);
        assert_eq!(dawn_with(&[(106 + 1 + 8, 1)]), [11, 0, 0, 1]);
    }

    #[test]
    fn warnings() {
        let work = |op| [Row::Work { x: 0, op, a: 0, b: 1, t: 1 }, Row::End];
        let table: [&[(i32, i32)]; 2] = [&[(-5, 5), (0, 5)], &[(i32::MIN, i32::MAX), (0, 5)]];
        assert_eq!(answer::<Span>(&sheet(2, &[], &work(Op::Div), &table)), [12, 0, 0, 0]);
        assert_eq!(answer::<Span>(&sheet(2, &[], &work(Op::Mul), &table)), [0; 4]);
        let table: [&[(i32, i32)]; 2] = [&[(0, i32::MAX), (0, 5)], &[(i32::MIN, i32::MAX), (0, 5)]];
        assert_eq!(answer::<Span>(&sheet(2, &[], &work(Op::Mul), &table)), [13, 0, 0, 0]);
    }

    #[test]
    fn forks() {
        let fork = |a, b| [Row::Fork { relation: Relation::Less, a, b, t: 1, u: 2 }, Row::End, Row::End];
        let table: [&[(i32, i32)]; 3] = [&[(0, 9), (0, 5)], &[(0, 4), (1, 5)], &[(0, 9), (0, 5)]];
        assert_eq!(answer::<Span>(&sheet(2, &[], &fork(0, 1), &table)), [0; 4]);
        // One variable on both sides is not narrowed, and no way is passed over.
        assert_eq!(answer::<Span>(&sheet(2, &[], &fork(0, 0), &table)), [15, 0, 0, 0]);
        let absent: [&[(i32, i32)]; 3] = [&[(0, 0), (0, 5)], &[(0, 4), (1, 5)], &[]];
        assert_eq!(answer::<Span>(&sheet(2, &[], &fork(0, 1), &absent)), [14, 0, 1, 0]);
        // 0..0 is never above 0..5, so way 0 is passed over.
        let table: [&[(i32, i32)]; 3] = [&[(0, 0), (0, 5)], &[], &[(0, 0), (0, 5)]];
        let greater = [Row::Fork { relation: Relation::Greater, a: 0, b: 1, t: 1, u: 2 }, Row::End, Row::End];
        assert_eq!(answer::<Span>(&sheet(2, &[], &greater, &table)), [0; 4]);
    }

    #[test]
    fn all_uncovered_variables_are_told() {
        let inputs = [Input { kind: Kind::Setting, lo: 1, hi: 4 }];
        let rows = [Row::Take { x: 2, input: 0, t: 1 }, Row::End];
        let table: [&[(i32, i32)]; 2] = [&[(0, 9), (0, 5), (0, 0)], &[(0, 9), (1, 5), (1, 3)]];
        let bytes = sheet(3, &inputs, &rows, &table);
        let refusal = verdict::<Span>(&bytes).err().expect("two variables are not covered");
        assert_eq!((refusal.numbers(), refusal.uncovered), ([15, 0, 0, 1], 0b110));
    }
}
