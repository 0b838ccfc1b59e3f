//! The time of a verdict in both bays, side by side in one run.

use std::hint::black_box;
use std::time::{Duration, Instant};

use second_bay::catalog::NAMES;

use super::rattle::{self, Verdict};
use super::timed::{Routine, dawn, forked, mixed, worked};

pub struct Options {
    pub rounds: usize,
}

/// Short, so that most rounds are not broken into by what else the machine does.
const ROUND: Duration = Duration::from_millis(1);
const DOMAINS: [u32; 2] = [0, 4];

/// Nanoseconds a verdict over the rounds.
struct Time {
    median: f64,
    best: f64,
}

struct Times {
    rattle: Time,
    rust: Time,
}

pub fn run(options: &Options) {
    println!(
        "time of one verdict, all sheets taken; median of {} rounds of about {} ms each, both bays turn by turn",
        options.rounds,
        ROUND.as_millis()
    );
    println!("the buffers are warm: each sheet is judged again and again from the same bytes");
    if !rattle::LINKED {
        println!("(the Rust bay with itself: the library is not linked)");
    }
    let cases = [
        ("small: dawn, 5 places, 4 variables", dawn()),
        ("typical: 40 places, 8 variables", mixed(40, 8)),
        ("largest: 256 places, 16 variables", mixed(256, 16)),
        ("products and quotients: 256 places, 16 variables", worked(256, 16)),
        ("forks: 256 places, 16 variables", forked(256, 16)),
    ];
    for domain in DOMAINS {
        print_head(domain);
        for (name, routine) in &cases {
            print_line(name, &measure(options, domain, routine), None);
        }
    }
    println!(
        "\nhow time grows with the places (16 variables, rows of all kinds; in brackets: to the line above)"
    );
    for domain in DOMAINS {
        print_head(domain);
        let mut before = None;
        for places in [16, 32, 64, 128, 256] {
            let times = measure(options, domain, &mixed(places, 16));
            print_line(&format!("{places} places"), &times, before.as_ref());
            before = Some(times);
        }
    }
}

fn print_head(domain: u32) {
    let heads = ["Rattle ns", "Rust ns", "Rattle/Rust", "best Rattle", "best Rust"];
    println!("\n{:50}{}", NAMES[domain as usize], heads.map(|head| format!("{head:>13}")).concat());
}

fn print_line(name: &str, times: &Times, before: Option<&Times>) {
    let Times { rattle, rust } = times;
    let growth = before.map_or_else(String::new, |before| {
        let grown = |now: &Time, then: &Time| now.median / then.median;
        let (rattle, rust) = (grown(rattle, &before.rattle), grown(rust, &before.rust));
        format!("   (Rattle {rattle:.2}, Rust {rust:.2})")
    });
    println!(
        "{name:50}{:>13.1}{:>13.1}{:>13.2}{:>13.1}{:>13.1}{growth}",
        rattle.median,
        rust.median,
        rattle.median / rust.median,
        rattle.best,
        rust.best
    );
}

fn measure(options: &Options, domain: u32, routine: &Routine) -> Times {
    let sheet = routine.sheet(domain);
    let bays = [rattle::RATTLE, rattle::RUST];
    let turns = bays.map(|bay| turns(bay, domain, &sheet));
    let mut rounds = [const { Vec::new() }; 2];
    for round in 0..options.rounds {
        // Who goes first changes from round to round.
        for turn in 0..2 {
            let bay = (round + turn) % 2;
            rounds[bay].push(time(bays[bay], domain, &sheet, turns[bay]));
        }
    }
    let [rattle, rust] = rounds.map(summed_up);
    Times { rattle, rust }
}

fn summed_up(mut rounds: Vec<f64>) -> Time {
    rounds.sort_by(f64::total_cmp);
    Time { median: rounds[rounds.len() / 2], best: rounds[0] }
}

/// How many verdicts take about a round.
fn turns(bay: Verdict, domain: u32, sheet: &[u8]) -> u32 {
    let mut turns = 8;
    loop {
        let nanos = time(bay, domain, sheet, turns) * f64::from(turns);
        if nanos > 2e5 {
            return (f64::from(turns) * ROUND.as_nanos() as f64 / nanos) as u32 + 1;
        }
        turns *= 4;
    }
}

/// Nanoseconds a verdict.
fn time(bay: Verdict, domain: u32, sheet: &[u8], turns: u32) -> f64 {
    let begin = Instant::now();
    for _ in 0..turns {
        let (domain, sheet) = black_box((domain, sheet));
        // SAFETY: the pointer and the length are those of a slice.
        black_box(unsafe { black_box(bay)(domain, sheet.as_ptr(), sheet.len()) });
    }
    begin.elapsed().as_nanos() as f64 / f64::from(turns)
}
