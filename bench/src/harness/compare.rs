//! The comparison of both bays on sheets and on lists of calls, with a count of what was answered.

use std::fmt::Write;

use second_bay::bay::{Bay, Stepped};
use second_bay::catalog::{NAMES, width};
use second_bay::check::Table;
use second_bay::in_domain;
use second_bay::play::{Answer, Call, play, verdict_answer};
use second_bay::sheet::Sheet;

use super::analysis::Analysis;
use super::calls::{List, Offered, random_list};
use super::draft::Draft;
use super::edits::{edit_bytes, edit_parts, hardly_a_sheet, spread};
use super::generate::{Size, analysed, nudge, probes, random_row};
use super::random::Random;
use super::{rattle, small};

pub struct Options {
    pub seed: u64,
    pub sheets: u64,
    pub sequences: u64,
}

/// Where the two bays differ, or the Rust bay breaks what it promises.
pub struct Difference(pub String);

impl Difference {
    pub fn text(&self) -> &str {
        &self.0
    }
}

/// How many answers of each number, 0 to 23 and, last, no such domain.
type Counts = [u64; 25];

fn count(counts: &mut Counts, number: u64) {
    counts[(number & 0xff).min(24) as usize] += 1;
}

const SHOWN: [usize; 24] =
    [0, 1, 2, 3, 4, 5, 6, 7, 8, 9, 10, 11, 12, 13, 14, 15, 16, 17, 18, 19, 21, 22, 23, 24];

pub fn hex(bytes: &[u8]) -> String {
    bytes.iter().fold(String::new(), |mut text, byte| {
        let _ = write!(text, "{byte:02x}");
        text
    })
}

pub fn run(options: &Options) -> Result<(), Difference> {
    println!(
        "compare: seed {}, {} sheets, {} lists of calls{}",
        options.seed,
        options.sheets,
        options.sequences,
        if rattle::LINKED { "" } else { " (the Rust bay with itself: the library is not linked)" }
    );
    small::run()?;
    let pool = compare_sheets(options)?;
    compare_lists(options, &pool)?;
    println!("no difference");
    Ok(())
}

/// Sheets to make lists of calls of.
#[derive(Default)]
struct Pool {
    taken: Vec<Offered>,
    refused: Vec<Offered>,
}

impl Pool {
    const MOST: usize = 4000;
    const MOST_BYTES: usize = 3000;

    /// Keeps a sheet, in the place of an older one if there are many.
    fn keep(&mut self, random: &mut Random, taken: bool, offered: Offered) {
        let sheets = if taken { &mut self.taken } else { &mut self.refused };
        if offered.bytes.len() > Pool::MOST_BYTES || offered.domain > 10 {
            return;
        }
        if sheets.len() < Pool::MOST {
            sheets.push(offered);
        } else {
            let at = random.below(Pool::MOST);
            sheets[at] = offered;
        }
    }

    fn pick(&self, random: &mut Random) -> Option<&Offered> {
        let sheets = if random.chance(75) { &self.taken } else { &self.refused };
        (!sheets.is_empty()).then(|| &sheets[random.below(sheets.len())])
    }
}

fn compare_sheets(options: &Options) -> Result<Pool, Difference> {
    let mut pool = Pool::default();
    let mut counts = [[0; 25]; 12];
    let mut steps = 0;
    for case in 0..options.sheets {
        let mut random = Random::of_case(options.seed, case);
        let offered = random_sheet(&mut random);
        let answer = compare_sheet(&offered)?;
        count(&mut counts[offered.domain.min(11) as usize], answer.number);
        let taken = answer.number & 0xff == 0;
        if taken {
            steps += run_sheet(&mut random, &offered)?;
        }
        pool.keep(&mut random, taken, offered);
    }
    print_counts("sheets", &NAMES, &counts);
    println!("states of runs of taken sheets that their tables describe: {steps}");
    Ok(pool)
}

fn compare_sheet(offered: &Offered) -> Result<Answer, Difference> {
    let Offered { domain, bytes } = offered;
    let answer = verdict_answer(*domain, bytes);
    let theirs = rattle::verdict(*domain, bytes);
    if !answer.agrees(theirs) {
        return Err(differs("the verdict", offered, answer, theirs));
    }
    let mut list = Vec::new();
    Call::Offer { domain: *domain as u8, sheet: bytes }.write([0; 2], &mut list);
    match rattle::play(&list, 2)[..] {
        [offer] if answer.agrees(offer) => Ok(answer),
        [offer] => Err(differs("the offer", offered, answer, offer)),
        ref answers => Err(Difference(format!("{} answers to one offer", answers.len()))),
    }
}

pub fn differs(what: &str, offered: &Offered, rust: Answer, rattle: u64) -> Difference {
    Difference(format!(
        "{what} differs in domain {} ({}): Rust {:#x} (uncovered {:#b}), Rattle {:#x}\nsheet {}",
        offered.domain,
        NAMES.get(offered.domain as usize).unwrap_or(&"none"),
        rust.number,
        rust.uncovered,
        rattle,
        hex(&offered.bytes)
    ))
}

/// A sheet of one of the kinds, with the domain that it is judged in, mostly that of its making.
fn random_sheet(random: &mut Random) -> Offered {
    let mut domain = if random.chance(3) { 10 } else { random.below(10) as u32 };
    let made_in = if domain == 10 { random.below(10) as u32 } else { domain };
    let bytes = in_domain!(made_in, D => sheet_in::<D>(random), else hardly_a_sheet(random));
    if random.chance(6) {
        let alike: Vec<u32> = (0..12).filter(|&other| width(other) == width(made_in)).collect();
        domain = if random.chance(60) { random.pick(&alike) } else { random.below(12) as u32 };
    }
    Offered { domain, bytes }
}

fn sheet_in<D: Analysis>(random: &mut Random) -> Vec<u8> {
    let roll = random.below(100);
    if roll < 5 {
        return hardly_a_sheet(random);
    }
    let mut draft: Draft<D> = if random.chance(50) {
        let size = Size::random(random);
        analysed(random, size)
    } else {
        probes(random)
    };
    let edits = if roll < 45 { 1 + random.below(2) } else { 0 };
    let levels: Vec<usize> = (0..edits).map(|_| random.below(3)).collect();
    for _ in levels.iter().filter(|&&level| level == 0) {
        edit_draft(random, &mut draft);
    }
    let garbage = random.chance(50);
    let mut parts = draft.parts(garbage.then_some(&mut *random));
    if random.chance(10) {
        spread(random, &mut parts);
    }
    for _ in levels.iter().filter(|&&level| level == 1) {
        edit_parts(random, &mut parts, D::WIDTH);
    }
    let mut bytes = parts.bytes();
    for _ in levels.iter().filter(|&&level| level == 2) {
        edit_bytes(random, &mut bytes);
    }
    bytes
}

/// A cell off by a little, an entry absent, or another row.
fn edit_draft<D: Analysis>(random: &mut Random, draft: &mut Draft<D>) {
    let places = draft.rows.len();
    let place = random.below(places);
    match random.below(4) {
        0 | 1 => nudge(random, draft, place),
        2 => draft.entries[place] = None,
        _ => {
            let size = Size { variables: draft.variables, inputs: draft.inputs.len(), places };
            draft.rows[place] = random_row(random, size, (place + 1) % places);
        }
    }
}

fn run_sheet(random: &mut Random, offered: &Offered) -> Result<u64, Difference> {
    let ran = in_domain!(
        offered.domain,
        D => run_in::<D>(random, &offered.bytes),
        else Some(0)
    );
    ran.ok_or_else(|| {
        let domain = offered.domain;
        Difference(format!("a taken sheet is not sound in domain {domain}\nsheet {}", hex(&offered.bytes)))
    })
}

/// Runs a taken sheet twice on random readings; none if it traps or its table does not describe a state.
fn run_in<D: Analysis>(random: &mut Random, bytes: &[u8]) -> Option<u64> {
    let sheet = Sheet::read(bytes).ok()?;
    let table = Table::<D>::read(&sheet).ok()?;
    let mut bay = Bay::default();
    bay.offer::<D>(bytes).ok()?;
    let mut states = 0;
    for _ in 0..2 {
        bay.start().ok()?;
        for _ in 0..40 {
            let held = bay.held()?;
            for variable in 0..held.variables {
                if !table.value(held.place, variable)?.describes(held.values[variable]) {
                    return None;
                }
            }
            states += 1;
            match step_inside(random, &mut bay)? {
                Stepped::At(_) => {}
                Stepped::Ended => break,
                Stepped::Trapped(..) => return None,
            }
        }
        // After an end it does not run: then stop is refused.
        let _ = bay.stop();
    }
    Some(states)
}

/// A step with a reading inside the set of whatever input is taken.
fn step_inside(random: &mut Random, bay: &mut Bay) -> Option<Stepped> {
    let held = bay.held()?;
    let reading = match held.rows[held.place] {
        second_bay::sheet::Row::Take { input, .. } => {
            let input = held.inputs[usize::from(input)];
            match random.below(4) {
                0 => input.lo,
                1 => input.hi,
                _ => random.between(input.lo, input.hi),
            }
        }
        _ => 0,
    };
    bay.step(reading).ok()
}

const CALLS: [&str; 6] = ["offer", "start", "set", "step", "stop", "show"];
const STEPS: [&str; 4] = ["at a place", "ended", "zero trap", "range trap"];

fn compare_lists(options: &Options, pool: &Pool) -> Result<(), Difference> {
    let mut counts = [[0; 25]; 6];
    let mut steps = [0u64; 4];
    for case in 0..options.sequences {
        let mut random = Random::of_case(!options.seed, case);
        let sheets: Vec<&Offered> = (0..1 + random.below(4)).filter_map(|_| pool.pick(&mut random)).collect();
        if sheets.is_empty() {
            continue;
        }
        let list = random_list(&mut random, &sheets);
        let answers = compare_list(&list)?;
        count_calls(&list, &answers, &mut counts, &mut steps);
    }
    print_counts("calls", &CALLS, &counts);
    for (name, count) in STEPS.iter().zip(steps) {
        println!("steps that came out {name}: {count}");
    }
    Ok(())
}

fn compare_list(list: &List) -> Result<Vec<Answer>, Difference> {
    let ours = play(&list.bytes, list.capacity);
    let theirs = rattle::play(&list.bytes, list.capacity);
    let at = ours.iter().zip(&theirs).position(|(ours, &theirs)| !ours.agrees(theirs));
    if at.is_none() && ours.len() == theirs.len() {
        return Ok(ours);
    }
    let mut text = format!(
        "a list of calls differs: Rust {} answers, Rattle {}, room for {}",
        ours.len(),
        theirs.len(),
        list.capacity
    );
    if let Some(at) = at {
        let call = nth_call(&list.bytes, at);
        let _ = write!(
            text,
            "; answer {at}: Rust {:#x}, Rattle {:#x}; the call {call}",
            ours[at].number, theirs[at]
        );
    }
    let _ = write!(text, "\ncalls {}", hex(&list.bytes));
    Err(Difference(text))
}

/// A call of a list, in words; the bytes of a sheet are left out.
fn nth_call(mut list: &[u8], number: usize) -> String {
    for _ in 0..number {
        let Some((_, rest)) = Call::read(list) else { break };
        list = rest;
    }
    match Call::read(list) {
        Some((Call::Offer { domain, sheet }, _)) => {
            format!("offer in domain {domain} of {} bytes", sheet.len())
        }
        Some((call, _)) => format!("{call:?}"),
        None => "none".to_string(),
    }
}

fn count_calls(list: &List, answers: &[Answer], counts: &mut [Counts; 6], steps: &mut [u64; 4]) {
    let mut rest = &list.bytes[..];
    for answer in answers {
        let kind = usize::from(rest[0]);
        count(&mut counts[kind], answer.number);
        if kind == 3 && answer.number & 0xff == 0 {
            steps[(answer.number >> 24 & 3) as usize] += 1;
        }
        let Some((_, behind)) = Call::read(rest) else { return };
        rest = behind;
    }
}

/// Prints a table: a line for each name, a column for each number that was answered at all.
fn print_counts(what: &str, names: &[&str], counts: &[Counts]) {
    let total = |number: usize| counts.iter().map(|counts| counts[number]).sum::<u64>();
    let columns: Vec<usize> = SHOWN.into_iter().filter(|&number| total(number) > 0).collect();
    println!("\n{what}, by what was answered:");
    let heads = columns.iter().map(|&number| match number {
        0 => "accepted".to_string(),
        24 => "none".to_string(),
        number => number.to_string(),
    });
    println!("{:30}{}", "", heads.map(|head| format!("{head:>9}")).collect::<String>());
    let line = |name: &str, cells: Vec<u64>| {
        println!("{name:30}{}", cells.iter().map(|cell| format!("{cell:>9}")).collect::<String>());
    };
    for (row, counts) in counts.iter().enumerate() {
        let name = names.get(row).unwrap_or(&"no such domain");
        line(name, columns.iter().map(|&number| counts[number]).collect());
    }
    line("all", columns.iter().map(|&number| total(number)).collect());
    let all: u64 = columns.iter().map(|&number| total(number)).sum();
    println!("{all} in all, accepted {:.1} of 100\n", 100.0 * total(0) as f64 / all.max(1) as f64);
}
