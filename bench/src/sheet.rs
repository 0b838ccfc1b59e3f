//! The sheet: its three parts, its inputs and its rows, and what refuses its format (rules 1 to 6).

use crate::domain::integer_at;
use crate::number::{Op, Relation};
use crate::refusal::{Refusal, Rule};

pub const HEAD_BYTES: usize = 28;
pub const MOST_BYTES: usize = 1_048_576;
pub const INPUT_BYTES: usize = 9;
pub const ROW_BYTES: usize = 12;
pub const MOST_VARIABLES: usize = 16;
pub const MOST_INPUTS: usize = 8;
pub const MOST_PLACES: usize = 256;

/// A view of a sheet that keeps rules 1 to 6.
#[derive(Clone, Copy)]
pub struct Sheet<'a> {
    pub variables: usize,
    pub inputs: &'a [[u8; INPUT_BYTES]],
    pub rows: &'a [[u8; ROW_BYTES]],
    pub table: &'a [u8],
}

#[derive(Clone, Copy, PartialEq, Eq, Debug)]
pub enum Kind {
    Reading,
    Setting,
}

#[derive(Clone, Copy, PartialEq, Eq, Debug)]
pub struct Input {
    pub kind: Kind,
    pub lo: i32,
    pub hi: i32,
}

#[derive(Clone, Copy, PartialEq, Eq, Debug)]
pub enum Row {
    End,
    Put { x: u8, n: i32, t: u8 },
    Take { x: u8, input: u8, t: u8 },
    Work { x: u8, op: Op, a: u8, b: u8, t: u8 },
    Fork { relation: Relation, a: u8, b: u8, t: u8, u: u8 },
}

impl Input {
    /// The input of a record that keeps rule 5.
    #[inline]
    pub fn load(record: &[u8; INPUT_BYTES]) -> Input {
        let kind = if record[0] == 0 { Kind::Reading } else { Kind::Setting };
        Input { kind, lo: integer_at(record, 1), hi: integer_at(record, 5) }
    }

    pub fn store(&self) -> [u8; INPUT_BYTES] {
        let mut record = [0; INPUT_BYTES];
        record[0] = u8::from(self.kind == Kind::Setting);
        record[1..5].copy_from_slice(&self.lo.to_le_bytes());
        record[5..9].copy_from_slice(&self.hi.to_le_bytes());
        record
    }

    pub fn admits(&self, n: i32) -> bool {
        self.lo <= n && n <= self.hi
    }
}

impl Row {
    /// The row of a record that keeps rule 6.
    #[inline]
    pub fn load(record: &[u8; ROW_BYTES]) -> Row {
        let &[kind, x, code, a, b, t, u, ..] = record;
        match kind {
            0 => Row::End,
            1 => Row::Put { x, n: integer_at(record, 8), t },
            2 => Row::Take { x, input: code, t },
            3 => Row::Work { x, op: Op::of_code(code), a, b, t },
            _ => Row::Fork { relation: Relation::of_code(code), a, b, t, u },
        }
    }

    pub fn store(&self) -> [u8; ROW_BYTES] {
        let mut record = [0; ROW_BYTES];
        let head = match *self {
            Row::End => [0; 7],
            Row::Put { x, t, .. } => [1, x, 0, 0, 0, t, 0],
            Row::Take { x, input, t } => [2, x, input, 0, 0, t, 0],
            Row::Work { x, op, a, b, t } => [3, x, op as u8, a, b, t, 0],
            Row::Fork { relation, a, b, t, u } => [4, 0, relation as u8, a, b, t, u],
        };
        record[..7].copy_from_slice(&head);
        if let Row::Put { n, .. } = *self {
            record[8..].copy_from_slice(&n.to_le_bytes());
        }
        record
    }
}

/// Below which each byte of a row must lie, for each kind: 1 for a byte that is 0, 256 for one that is free.
struct RowLimits([[u16; ROW_BYTES]; 5]);

impl RowLimits {
    fn new(variables: usize, inputs: usize, places: usize) -> RowLimits {
        let (v, k, p) = (variables as u16, inputs as u16, places as u16);
        RowLimits([
            [5, 1, 1, 1, 1, 1, 1, 1, 1, 1, 1, 1],
            [5, v, 1, 1, 1, p, 1, 1, 256, 256, 256, 256],
            [5, v, k, 1, 1, p, 1, 1, 1, 1, 1, 1],
            [5, v, 8, v, v, p, 1, 1, 1, 1, 1, 1],
            [5, 1, 6, v, v, p, p, 1, 1, 1, 1, 1],
        ])
    }

    /// Whether every byte of a row is right: all compared at once, with no early way out.
    #[inline]
    fn keep(&self, row: &[u8; ROW_BYTES]) -> bool {
        let Some(limits) = self.0.get(usize::from(row[0])) else { return false };
        row.iter().zip(limits).fold(true, |all, (&byte, &limit)| all & (u16::from(byte) < limit))
    }

    /// The lowest wrong byte of a row that has one.
    #[cold]
    fn fault(&self, row: &[u8; ROW_BYTES]) -> usize {
        let Some(limits) = self.0.get(usize::from(row[0])) else { return 0 };
        row.iter().zip(limits).position(|(&byte, &limit)| u16::from(byte) >= limit).unwrap_or(ROW_BYTES)
    }
}

impl<'a> Sheet<'a> {
    /// Reads a sheet's format, or says which of the rules 1 to 6 it breaks first.
    #[inline]
    pub fn read(bytes: &'a [u8]) -> Result<Sheet<'a>, Refusal> {
        if bytes.len() > MOST_BYTES {
            return Err(Refusal::new(Rule::SheetSize));
        }
        let Some(head) = bytes.first_chunk() else {
            return Err(Refusal::new(Rule::SheetSize));
        };
        check_head(head)?;
        let [inputs, rows, table] = parts(bytes, head)?;
        let sheet = Sheet {
            variables: usize::from(head[1]),
            inputs: sized_inputs(inputs, usize::from(head[2]))?,
            rows: sized_rows(rows)?,
            table,
        };
        sheet.check_inputs()?;
        sheet.check_rows()?;
        Ok(sheet)
    }

    #[inline]
    fn check_inputs(&self) -> Result<(), Refusal> {
        let wrong =
            |record: &[u8; INPUT_BYTES]| record[0] > 1 || integer_at(record, 1) > integer_at(record, 5);
        match self.inputs.iter().position(wrong) {
            Some(input) => Err(Refusal::at(Rule::InputRecord, input)),
            None => Ok(()),
        }
    }

    #[inline]
    fn check_rows(&self) -> Result<(), Refusal> {
        let limits = RowLimits::new(self.variables, self.inputs.len(), self.rows.len());
        match self.rows.iter().position(|row| !limits.keep(row)) {
            Some(place) => Err(Refusal::at(Rule::RowByte, place).way(limits.fault(&self.rows[place]))),
            None => Ok(()),
        }
    }
}

fn check_head(head: &[u8; HEAD_BYTES]) -> Result<(), Refusal> {
    let right = [
        head[0] == 1,
        (1..=MOST_VARIABLES as u8).contains(&head[1]),
        head[2] <= MOST_INPUTS as u8,
        head[3] == 0,
    ];
    match right.iter().position(|right| !right) {
        Some(byte) => Err(Refusal::at(Rule::HeadByte, byte)),
        None => Ok(()),
    }
}

/// The three parts, each behind what precedes it and inside the sheet.
fn parts<'a>(bytes: &'a [u8], head: &[u8; HEAD_BYTES]) -> Result<[&'a [u8]; 3], Refusal> {
    let number = |at: usize| integer_at(head, at) as u32 as usize;
    let mut parts: [&[u8]; 3] = [&[]; 3];
    let mut end = HEAD_BYTES;
    for (part, slot) in parts.iter_mut().enumerate() {
        let (offset, length) = (number(4 + 8 * part), number(8 + 8 * part));
        let wrong = Refusal::at(Rule::PartExtent, part);
        if offset < end {
            return Err(wrong);
        }
        end = offset.checked_add(length).ok_or(wrong)?;
        *slot = bytes.get(offset..end).ok_or(wrong)?;
    }
    Ok(parts)
}

fn sized_inputs(part: &[u8], inputs: usize) -> Result<&[[u8; INPUT_BYTES]], Refusal> {
    match part.as_chunks() {
        (records, []) if records.len() == inputs => Ok(records),
        _ => Err(Refusal::at(Rule::PartSize, 0)),
    }
}

fn sized_rows(part: &[u8]) -> Result<&[[u8; ROW_BYTES]], Refusal> {
    match part.as_chunks() {
        (records, []) if (1..=MOST_PLACES).contains(&records.len()) => Ok(records),
        _ => Err(Refusal::at(Rule::PartSize, 1)),
    }
}

#[cfg(test)]
mod tests {
    use super::*;

    const DAWN: &[u8] = include_bytes!("../../examples/dawn.sheet");

    fn refused(bytes: &[u8]) -> [u16; 4] {
        Sheet::read(bytes).err().map_or([0; 4], |refusal| refusal.numbers())
    }

    fn edited(edits: &[(usize, u8)]) -> [u16; 4] {
        let mut bytes = DAWN.to_vec();
        for &(at, byte) in edits {
            bytes[at] = byte;
        }
        refused(&bytes)
    }

    #[test]
    fn the_dawn_sheet_is_read() {
        let sheet = Sheet::read(DAWN).expect("the dawn sheet has the format");
        assert_eq!((sheet.variables, sheet.inputs.len(), sheet.rows.len()), (4, 2, 5));
        let rows: Vec<Row> = sheet.rows.iter().map(Row::load).collect();
        assert_eq!(rows[0], Row::Take { x: 0, input: 0, t: 1 });
        assert_eq!(rows[2], Row::Fork { relation: Relation::Greater, a: 1, b: 3, t: 3, u: 4 });
        assert_eq!(rows[3], Row::Work { x: 2, op: Op::Div, a: 0, b: 1, t: 0 });
        assert_eq!(rows[4], Row::End);
        for (row, record) in rows.iter().zip(sheet.rows) {
            assert_eq!(row.store(), *record);
        }
        assert_eq!(Input::load(&sheet.inputs[1]), Input { kind: Kind::Reading, lo: 0, hi: 1500 });
        assert_eq!(Input::load(&sheet.inputs[1]).store(), sheet.inputs[1]);
    }

    #[test]
    fn the_examples_that_have_no_format() {
        assert_eq!(refused(include_bytes!("../../examples/short.sheet")), [1, 0, 0, 0]);
        assert_eq!(refused(include_bytes!("../../examples/many-variables.sheet")), [2, 1, 0, 0]);
        assert_eq!(refused(include_bytes!("../../examples/overlap.sheet")), [3, 1, 0, 0]);
        assert_eq!(refused(include_bytes!("../../examples/ragged-rows.sheet")), [4, 1, 0, 0]);
        assert_eq!(refused(include_bytes!("../../examples/empty-input.sheet")), [5, 1, 0, 0]);
        assert_eq!(refused(include_bytes!("../../examples/no-such-place.sheet")), [6, 3, 5, 0]);
    }

    #[test]
    fn heads_and_parts() {
        assert_eq!(refused(&vec![0; MOST_BYTES + 1]), [1, 0, 0, 0]);
        assert_eq!(refused(&vec![0; MOST_BYTES]), [2, 0, 0, 0]);
        assert_eq!(edited(&[(3, 1), (2, 9)]), [2, 2, 0, 0]);
        assert_eq!(edited(&[(1, 0)]), [2, 1, 0, 0]);
        assert_eq!(edited(&[(4, 27)]), [3, 0, 0, 0]);
        assert_eq!(edited(&[(27, 0x80)]), [3, 2, 0, 0]);
        assert_eq!(edited(&[(24, 166)]), [3, 2, 0, 0]);
        assert_eq!(edited(&[(2, 1)]), [4, 0, 0, 0]);
        assert_eq!(edited(&[(16, 0), (12, 0x6a)]), [4, 1, 0, 0]);
    }

    #[test]
    fn bytes_of_rows() {
        let row = 46;
        assert_eq!(edited(&[(row, 5)]), [6, 0, 0, 0]);
        assert_eq!(edited(&[(row + 1, 4)]), [6, 0, 1, 0]);
        assert_eq!(edited(&[(row + 2, 2), (row + 8, 1)]), [6, 0, 2, 0]);
        assert_eq!(edited(&[(row + 11, 1)]), [6, 0, 11, 0]);
        assert_eq!(edited(&[(row + 24 + 2, 6)]), [6, 2, 2, 0]);
        assert_eq!(edited(&[(row + 24 + 6, 5)]), [6, 2, 6, 0]);
        assert_eq!(edited(&[(row + 36 + 2, 8)]), [6, 3, 2, 0]);
        assert_eq!(edited(&[(row + 48 + 5, 1)]), [6, 4, 5, 0]);
    }
}
