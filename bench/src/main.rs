//! Compares the Rattle bay with the Rust one, times both, and sends sheets through disassemble and assemble.

mod harness;

use std::env;
use std::process::ExitCode;
use std::str::FromStr;

use harness::{compare, roundtrip, timing};

const USAGE: &str = "usage: routine-bay-bench compare [--seed N] [--sheets N] [--sequences N]
       routine-bay-bench text [--seed N] [--count N]
       routine-bay-bench time [--rounds N]";

/// The words behind the command, as names with their numbers.
struct Flags(Vec<(String, u64)>);

impl Flags {
    fn read(words: &[String], known: &[&str]) -> Option<Flags> {
        let mut flags = Vec::new();
        for pair in words.chunks(2) {
            let [name, number] = pair else { return None };
            let name = name.strip_prefix("--").filter(|name| known.contains(name))?;
            flags.push((name.to_string(), u64::from_str(number).ok()?));
        }
        Some(Flags(flags))
    }

    fn get(&self, name: &str, default: u64) -> u64 {
        self.0.iter().rev().find(|(known, _)| known == name).map_or(default, |&(_, number)| number)
    }
}

fn run(command: &str, words: &[String]) -> Option<ExitCode> {
    match command {
        "compare" => {
            let flags = Flags::read(words, &["seed", "sheets", "sequences"])?;
            let options = compare::Options {
                seed: flags.get("seed", 1),
                sheets: flags.get("sheets", 200_000),
                sequences: flags.get("sequences", 20_000),
            };
            match compare::run(&options) {
                Ok(()) => Some(ExitCode::SUCCESS),
                Err(difference) => Some(fail(difference.text())),
            }
        }
        "text" => {
            let flags = Flags::read(words, &["seed", "count"])?;
            let options = roundtrip::Options { seed: flags.get("seed", 1), count: flags.get("count", 500) };
            match roundtrip::run(&options) {
                Ok(()) => Some(ExitCode::SUCCESS),
                Err(roundtrip::Failure::Io(error)) => Some(fail(&error.to_string())),
                Err(roundtrip::Failure::Differs(text)) => Some(fail(&text)),
            }
        }
        "time" => {
            let flags = Flags::read(words, &["rounds"])?;
            timing::run(&timing::Options { rounds: flags.get("rounds", 101).max(1) as usize });
            Some(ExitCode::SUCCESS)
        }
        _ => None,
    }
}

fn fail(text: &str) -> ExitCode {
    println!("DIFFERENCE: {text}");
    ExitCode::FAILURE
}

fn main() -> ExitCode {
    let words: Vec<String> = env::args().skip(1).collect();
    let ran = words.split_first().and_then(|(command, rest)| run(command, rest));
    ran.unwrap_or_else(|| {
        eprintln!("{USAGE}");
        ExitCode::from(2)
    })
}
