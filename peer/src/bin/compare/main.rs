//! Compares the proved library and the programs built on it with this program, on the same
//! bytes.
//!
//! Exits 1 on any difference or where the cases missed something they are there for, 2 where
//! the library or a program is missing.

#![forbid(unsafe_code)]

mod bytes;
mod counts;
mod listings;
mod logs;
mod programs;
mod tables;

use std::path::PathBuf;
use std::process::ExitCode;
use std::time::Instant;

use peer::library::Library;
use programs::Program;

const USAGE: &str = "usage: compare [--cases N] [--lister PATH] [--replay PATH]";

fn main() -> ExitCode {
    let sides = match Sides::from_arguments(std::env::args().skip(1)) {
        Ok(sides) => sides,
        Err(sentence) => {
            println!("{sentence}");
            return ExitCode::from(2);
        }
    };
    let start = Instant::now();
    let outcomes = [
        bytes::compare(&sides.proved, sides.cases),
        listings::compare(&sides.lister),
        logs::compare(&sides.replay),
    ];
    let differences: usize = outcomes.iter().map(|outcome| outcome.differences).sum();
    let missed: Vec<&String> = outcomes.iter().flat_map(|out| &out.missed).collect();
    for missed in &missed {
        println!("never met, or too seldom: {missed}");
    }
    println!(
        "{} cases in {:.1} s, {differences} differences",
        outcomes.iter().map(|outcome| outcome.cases).sum::<usize>(),
        start.elapsed().as_secs_f64()
    );
    match differences == 0 && missed.is_empty() {
        true => ExitCode::SUCCESS,
        false => ExitCode::from(1),
    }
}

/// What came of one part of the comparison.
struct Outcome {
    cases: usize,
    differences: usize,
    /// What the cases are there for and did not meet.
    missed: Vec<String>,
}

/// What this program is compared with.
struct Sides {
    proved: Library,
    lister: Program,
    replay: Program,
    /// How many random cases the library gets.
    cases: usize,
}

impl Sides {
    fn from_arguments(mut arguments: impl Iterator<Item = String>) -> Result<Sides, String> {
        let folder = PathBuf::from(concat!(env!("CARGO_MANIFEST_DIR"), "/../target/bin"));
        let (mut lister, mut replay) = (folder.join("lister"), folder.join("replay"));
        let mut cases = bytes::CASES;
        while let Some(name) = arguments.next() {
            let value = arguments.next().ok_or(USAGE)?;
            match name.as_str() {
                "--cases" => cases = value.parse().map_err(|_| USAGE)?,
                "--lister" => lister = value.into(),
                "--replay" => replay = value.into(),
                _ => return Err(USAGE.to_string()),
            }
        }
        Ok(Sides {
            proved: Library::proved()?,
            lister: Program::at(lister)?,
            replay: Program::at(replay)?,
            cases,
        })
    }
}
