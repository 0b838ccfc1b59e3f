//! The round trip of sheets through two programs: disassemble prints a sheet, assemble makes the sheet of what
//! was printed.

use std::env;
use std::io::{self, Write};
use std::path::{Path, PathBuf};
use std::process::{Command, Stdio};
use std::thread;

use second_bay::catalog::NAMES;
use second_bay::in_domain;

use super::compare::hex;
use super::generate::canonical;
use super::random::Random;

pub struct Options {
    pub seed: u64,
    /// How many sheets in each domain.
    pub count: u64,
}

pub enum Failure {
    Io(io::Error),
    Differs(String),
}

impl From<io::Error> for Failure {
    fn from(error: io::Error) -> Failure {
        Failure::Io(error)
    }
}

/// A program's path: of the environment, or beside the package.
fn program(variable: &str, name: &str) -> PathBuf {
    match env::var_os(variable) {
        Some(path) => PathBuf::from(path),
        None => Path::new(env!("CARGO_MANIFEST_DIR")).join("../target/bin").join(name),
    }
}

/// What a program prints of an input; none if it ends with a failure.
fn piped(program: &Path, word: Option<&str>, input: &[u8]) -> io::Result<Option<Vec<u8>>> {
    let mut child = Command::new(program).args(word).stdin(Stdio::piped()).stdout(Stdio::piped()).spawn()?;
    let stdin = child.stdin.take();
    let output = thread::scope(|scope| {
        scope.spawn(move || {
            // A program that reads only a part of its input closes the pipe: then what it prints tells.
            stdin.map(|mut stdin| stdin.write_all(input))
        });
        child.wait_with_output()
    })?;
    Ok(output.status.success().then_some(output.stdout))
}

pub fn run(options: &Options) -> Result<(), Failure> {
    let disassemble = program("DISASSEMBLE", "disassemble");
    let assemble = program("ASSEMBLE", "assemble");
    for path in [&disassemble, &assemble] {
        if !path.is_file() {
            println!("text: skipped, there is no {}", path.display());
            return Ok(());
        }
    }
    println!("text: seed {}, {} sheets in each domain", options.seed, options.count);
    let mut longest = 0;
    for (domain, name) in NAMES.iter().enumerate().take(10) {
        for case in 0..options.count {
            let mut random = Random::of_case(options.seed ^ (domain as u64) << 32, case);
            let sheet = in_domain!(domain, D => canonical::<D>(&mut random), else Vec::new());
            longest = longest.max(sheet.len());
            round_trip(&disassemble, &assemble, name, &sheet)?;
        }
        println!("{name:30} {} sheets came back byte for byte", options.count);
    }
    println!("the longest sheet had {longest} bytes; no difference");
    Ok(())
}

fn round_trip(disassemble: &Path, assemble: &Path, domain: &str, sheet: &[u8]) -> Result<(), Failure> {
    let differs = |what: &str, text: &[u8]| {
        Failure::Differs(format!(
            "{what} in {domain}\nsheet {}\n{}",
            hex(sheet),
            String::from_utf8_lossy(text)
        ))
    };
    let Some(text) = piped(disassemble, Some(domain), sheet)? else {
        return Err(differs("disassemble failed", &[]));
    };
    match piped(assemble, None, &text)? {
        Some(back) if back == sheet => Ok(()),
        Some(_) => Err(differs("another sheet came back", &text)),
        None => Err(differs("assemble failed", &text)),
    }
}
