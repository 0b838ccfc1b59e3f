//! Edits that make a right sheet nearly right, and sheets that are hardly any.

use second_bay::sheet::{HEAD_BYTES, INPUT_BYTES, MOST_BYTES, ROW_BYTES};

use super::draft::Parts;
use super::random::Random;

fn garbage(random: &mut Random, length: usize) -> Vec<u8> {
    (0..length).map(|_| random.byte()).collect()
}

/// A byte that stands for something in some field: small, or next to a bound.
fn telling_byte(random: &mut Random) -> u8 {
    match random.below(4) {
        0 => random.byte(),
        1 => random.pick(&[0, 1, 2, 7, 8, 9, 15, 16, 17, 127, 128, 254, 255]),
        _ => random.below(9) as u8,
    }
}

fn set_any(random: &mut Random, bytes: &mut [u8]) {
    if !bytes.is_empty() {
        let at = random.below(bytes.len());
        bytes[at] = telling_byte(random);
    }
}

/// Gaps before the parts, or behind the last, which change nothing.
pub fn spread(random: &mut Random, parts: &mut Parts) {
    for gap in &mut parts.gaps {
        if random.chance(50) {
            let length = random.below(20);
            *gap = garbage(random, length);
        }
    }
}

/// An edit of the parts, before they are put together.
pub fn edit_parts(random: &mut Random, parts: &mut Parts, width: usize) {
    let entry_bytes = 1 + usize::from(parts.variables) * width;
    match random.below(12) {
        0 => set_any(random, &mut parts.inputs),
        1 | 2 => set_any(random, &mut parts.rows),
        3 => set_any(random, &mut parts.table),
        4 | 5 => edit_flag(random, &mut parts.table, entry_bytes),
        6 => edit_cell(random, parts, entry_bytes, width),
        7 => resize(random, parts),
        8 => parts.variables = random.below(18) as u8,
        9 => parts.inputs_count = random.below(10) as u8,
        10 => turn_input(random, &mut parts.inputs),
        _ => spread(random, parts),
    }
}

fn edit_flag(random: &mut Random, table: &mut [u8], entry_bytes: usize) {
    let entries = table.len() / entry_bytes;
    if entries > 0 {
        let flag = if random.chance(60) { random.below(2) as u8 } else { telling_byte(random) };
        table[random.below(entries) * entry_bytes] = flag;
    }
}

/// Fills a cell, or a byte of it, with anything.
fn edit_cell(random: &mut Random, parts: &mut Parts, entry_bytes: usize, width: usize) {
    let entries = parts.table.len() / entry_bytes;
    if entries == 0 || width == 0 || parts.variables == 0 {
        return;
    }
    let variable = random.below(usize::from(parts.variables));
    let from = random.below(entries) * entry_bytes + 1 + variable * width;
    let cell = &mut parts.table[from..from + width];
    if random.chance(50) {
        cell.fill_with(|| random.byte());
    } else {
        set_any(random, cell);
    }
}

/// A record or a byte more or less in a part.
fn resize(random: &mut Random, parts: &mut Parts) {
    let (part, record) = match random.below(3) {
        0 => (&mut parts.inputs, INPUT_BYTES),
        1 => (&mut parts.rows, ROW_BYTES),
        _ => (&mut parts.table, 1),
    };
    let length = part.len();
    let length = match random.below(7) {
        0 => length + record,
        1 => length.saturating_sub(record),
        2 => length + 1,
        3 => length.saturating_sub(1),
        4 => 0,
        5 => record * 256,
        _ => record * 257,
    };
    part.resize(length, 0);
}

/// Swaps the ends of an input.
fn turn_input(random: &mut Random, inputs: &mut [u8]) {
    let count = inputs.len() / INPUT_BYTES;
    if count > 0 {
        let from = random.below(count) * INPUT_BYTES;
        let (lo, hi) = inputs[from + 1..from + INPUT_BYTES].split_at_mut(4);
        lo.swap_with_slice(hi);
    }
}

/// An edit of the whole sheet.
pub fn edit_bytes(random: &mut Random, sheet: &mut Vec<u8>) {
    match random.below(10) {
        0 => set_any(random, sheet),
        1 => {
            if !sheet.is_empty() {
                let at = random.below(sheet.len());
                sheet[at] ^= 1 << random.below(8);
            }
        }
        2 => set_any(random, sheet.get_mut(..4).unwrap_or_default()),
        3 | 4 => move_part(random, sheet),
        5 => set_any(random, sheet.get_mut(4..HEAD_BYTES).unwrap_or_default()),
        6 => {
            let less = if random.chance(60) { random.below(4) } else { random.below(sheet.len() + 1) };
            sheet.truncate(sheet.len() - less.min(sheet.len()));
        }
        7 => {
            let more = random.below(30);
            sheet.extend(garbage(random, more));
        }
        8 => swap_parts(random, sheet),
        _ => grow_to_the_most(random, sheet),
    }
}

fn head_number(sheet: &[u8], field: usize) -> u32 {
    let at = 4 + 4 * field;
    u32::from_le_bytes([sheet[at], sheet[at + 1], sheet[at + 2], sheet[at + 3]])
}

fn set_head_number(sheet: &mut [u8], field: usize, number: u32) {
    let at = 4 + 4 * field;
    sheet[at..at + 4].copy_from_slice(&number.to_le_bytes());
}

/// Moves a part's begin or changes its length.
fn move_part(random: &mut Random, sheet: &mut [u8]) {
    if sheet.len() < HEAD_BYTES {
        return;
    }
    let field = random.below(6);
    let number = head_number(sheet, field);
    let number = match random.below(8) {
        0 | 1 => number.wrapping_add(1),
        2 | 3 => number.wrapping_sub(1),
        4 => random.pick(&[0, 27, 28, 29, u32::MAX, u32::MAX - 27, 1 << 31, sheet.len() as u32]),
        5 => random.below(sheet.len() + 3) as u32,
        6 => random.next() as u32,
        _ => number.wrapping_add(random.pick(&[9, 12, 9u32.wrapping_neg(), 12u32.wrapping_neg()])),
    };
    set_head_number(sheet, field, number);
}

/// Swaps where two parts lie.
fn swap_parts(random: &mut Random, sheet: &mut [u8]) {
    if sheet.len() < HEAD_BYTES {
        return;
    }
    let (one, other) = random.pick(&[(0, 1), (0, 2), (1, 2)]);
    for field in 0..2 {
        let (left, right) = (head_number(sheet, 2 * one + field), head_number(sheet, 2 * other + field));
        set_head_number(sheet, 2 * one + field, right);
        set_head_number(sheet, 2 * other + field, left);
    }
}

/// Now and then makes the sheet as long as a sheet may be, or a byte longer.
fn grow_to_the_most(random: &mut Random, sheet: &mut Vec<u8>) {
    if random.chance(5) {
        sheet.resize(MOST_BYTES + random.below(2), 0);
    } else {
        sheet.push(0);
    }
}

/// Bytes of any kind, or bytes behind a head that is nearly one.
pub fn hardly_a_sheet(random: &mut Random) -> Vec<u8> {
    let length = if random.chance(50) { random.below(40) } else { random.below(400) };
    let mut sheet = garbage(random, length);
    if length >= HEAD_BYTES && random.chance(80) {
        let head = [1, 1 + random.below(16) as u8, random.below(9) as u8, 0];
        sheet[..4].copy_from_slice(&head);
        let mut offset = HEAD_BYTES as u32;
        for part in 0..3 {
            let length = match part {
                0 => 9 * u32::from(head[2]),
                1 => 12 * random.below(8) as u32,
                _ => random.below(50) as u32,
            };
            set_head_number(&mut sheet, 2 * part, offset);
            set_head_number(&mut sheet, 2 * part + 1, length);
            offset += length;
        }
        if random.chance(20) {
            set_any(random, &mut sheet[..HEAD_BYTES]);
        }
    }
    sheet
}
