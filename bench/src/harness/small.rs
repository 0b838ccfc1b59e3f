//! Every operation and relation on every two of a few values, with the table exact behind it and with other
//! values in the place of one that the row changes.

use second_bay::catalog::NAMES;
use second_bay::in_domain;
use second_bay::number::{Op, Relation};
use second_bay::play::verdict_answer;
use second_bay::sheet::Row;

use super::analysis::{Analysis, thinned};
use super::calls::Offered;
use super::compare::{Difference, differs};
use super::draft::{Draft, ways};
use super::rattle;

/// How many other values are tried in the place of a changed one.
const OTHERS: usize = 22;

/// The row looked at is at place 1 and goes to 2, and to 3.
const FROM: usize = 1;

#[derive(Default)]
struct Count {
    sheets: u64,
    taken: u64,
}

pub fn run() -> Result<(), Difference> {
    println!("\nevery row on every two of a few values:");
    for (domain, name) in NAMES.iter().enumerate().take(10) {
        let domain = domain as u32;
        let count = in_domain!(domain, D => in_one::<D>(domain)?, else Count::default());
        println!("{name:30}{:>9} sheets, {:>8} taken", count.sheets, count.taken);
    }
    Ok(())
}

fn rows() -> Vec<Row> {
    let works = Op::ALL.map(|op| Row::Work { x: 0, op, a: 0, b: 1, t: 2 });
    let forks = Relation::ALL.map(|relation| Row::Fork { relation, a: 0, b: 1, t: 2, u: 3 });
    works.into_iter().chain(forks).collect()
}

fn in_one<D: Analysis>(domain: u32) -> Result<Count, Difference> {
    let mut count = Count::default();
    let values = D::few();
    let others = thinned(values.clone(), OTHERS);
    for row in rows() {
        let rows = vec![Row::End, row, Row::End, Row::End];
        let mut draft: Draft<D> = Draft::start(2, Vec::new(), rows);
        for a in &values {
            for b in &values {
                draft.entries.truncate(FROM);
                draft.entries.extend([Some(vec![*a, *b]), None, None]);
                for (to, values) in ways(row, &[], &[*a, *b]).to {
                    draft.entries[to] = Some(values);
                }
                variants(domain, &draft, &others, &mut count)?;
            }
        }
    }
    Ok(count)
}

/// The exact table, and those with another value of a variable that is changed.
fn variants<D: Analysis>(
    domain: u32,
    draft: &Draft<D>,
    others: &[D],
    count: &mut Count,
) -> Result<(), Difference> {
    let mut offered = Offered { domain, bytes: draft.parts(None).bytes() };
    judge(&offered, count)?;
    let entry_bytes = 1 + 2 * D::WIDTH;
    let table = offered.bytes.len() - 4 * entry_bytes;
    let changed = if matches!(draft.rows[FROM], Row::Fork { .. }) { 2 } else { 1 };
    for to in 2..4 {
        if draft.entries[to].is_none() {
            continue;
        }
        for variable in 0..changed {
            let from = table + to * entry_bytes + 1 + variable * D::WIDTH;
            let cell = from..from + D::WIDTH;
            let exact = offered.bytes[cell.clone()].to_vec();
            for other in others {
                other.store(&mut offered.bytes[cell.clone()]);
                judge(&offered, count)?;
            }
            offered.bytes[cell].copy_from_slice(&exact);
        }
    }
    Ok(())
}

fn judge(offered: &Offered, count: &mut Count) -> Result<(), Difference> {
    let answer = verdict_answer(offered.domain, &offered.bytes);
    let theirs = rattle::verdict(offered.domain, &offered.bytes);
    if !answer.agrees(theirs) {
        return Err(differs("the verdict", offered, answer, theirs));
    }
    count.sheets += 1;
    count.taken += u64::from(answer.number & 0xff == 0);
    Ok(())
}
