//! The program `lister` on tables.

use peer::generate::{self, Damage, Random};
use peer::listing::listing;
use peer::table::Table;

use crate::counts::{hex, refusals, Differences, Grid, Met};
use crate::programs::{Handing, Program};
use crate::{tables, Outcome};

const RANDOM: usize = 4_000;
const IN_PIECES: usize = 300;
const FOR_EACH_LENGTH: usize = 50;

/// Lengths about those at which a lister may stop reading: where a 33rd job settles the text,
/// its 4,096 bytes, and more than a pipe holds.
const LENGTHS: [(usize, &str); 9] = [
    (266, "of 266 and 267 bytes"),
    (267, "of 266 and 267 bytes"),
    (268, "of 268 to 4,096 bytes"),
    (512, "of 268 to 4,096 bytes"),
    (4_095, "of 268 to 4,096 bytes"),
    (4_096, "of 268 to 4,096 bytes"),
    (4_097, "longer than 4,096 bytes"),
    (8_192, "longer than 4,096 bytes"),
    (70_000, "longer than 4,096 bytes"),
];

/// Compares the lister's text with this program's.
pub fn compare(lister: &Program) -> Outcome {
    let mut tally = Tally::new(lister);
    let mut random = Random::new(0x11E);
    for deadline in 0..=Table::LARGEST_TIME + 1 {
        let jobs = random.below(5);
        let largest = deadline / 2 + 1;
        let table = generate::table(&mut random, jobs, largest);
        let table = Table { deadline, ..table };
        tally.deadlines.note(deadline.into());
        tally.compare("each deadline", &table.write(), Handing::AtOnce);
    }
    for _ in 0..RANDOM {
        let (input, damage) = damaged(&mut random);
        tally.compare(damage.name(), &input, Handing::AtOnce);
    }
    for _ in 0..IN_PIECES {
        let (input, _) = damaged(&mut random);
        let piece = Handing::InPieces(1 + random.below(40));
        tally.compare("in pieces", &input, piece);
    }
    for (length, kind) in LENGTHS {
        for _ in 0..FOR_EACH_LENGTH {
            let input = long(&mut random, length);
            tally.compare(kind, &input, Handing::AtOnce);
        }
    }
    tally.print();
    tally.outcome()
}

fn damaged(random: &mut Random) -> (Vec<u8>, Damage) {
    let mut input = tables::any(random).write();
    let damage = tables::damage(random);
    damage.apply(random, &mut input);
    (input, damage)
}

/// An input of exactly a length: as many jobs as fill it, or a table with bytes after it.
fn long(random: &mut Random, length: usize) -> Vec<u8> {
    let mut input = match random.one_in(2) {
        true => {
            let mut table = generate::table(random, 32, 100);
            let jobs = table.jobs.clone();
            table.jobs.extend(jobs.iter().cycle().take(length / 4));
            table.write()
        }
        false => tables::any(random).write(),
    };
    input.resize_with(length, || random.byte());
    input
}

/// What came of the tables.
struct Tally<'a> {
    lister: &'a Program,
    inputs: Grid<1>,
    deadlines: Met,
    outcomes: Grid<1>,
    differences: Differences,
}

impl Tally<'_> {
    fn new(lister: &Program) -> Tally<'_> {
        let kinds = Damage::ALL.map(|damage| damage.name().to_string());
        let outcomes = std::iter::once("listed".to_string()).chain(refusals());
        Tally {
            lister,
            inputs: Grid::new(["inputs"], kinds),
            deadlines: Met::new("deadlines", usize::from(Table::LARGEST_TIME) + 1),
            outcomes: Grid::new(["inputs"], outcomes),
            differences: Differences::default(),
        }
    }

    fn compare(&mut self, kind: &str, input: &[u8], handing: Handing) {
        let ours = listing(input);
        let theirs = self.lister.run(input, handing);
        self.inputs.note(kind, 0);
        self.outcomes.note(&outcome(&ours), 0);
        if ours.as_bytes() != theirs {
            self.differences.note(|| {
                format!(
                    "lister, {kind}\n  input  {}\n  peer:\n{ours}  lister:\n{}",
                    hex(input),
                    String::from_utf8_lossy(&theirs),
                )
            });
        }
    }

    fn print(&self) {
        println!("the program lister: {} inputs", self.inputs.sum());
        self.inputs.print("kind");
        self.deadlines.print();
        self.outcomes.print("outcome");
        println!("  differences {}", self.differences.count);
        println!();
    }

    fn outcome(&self) -> Outcome {
        let unmet = (1..=7).map(|number| format!("refused {number}"));
        let unmet = unmet.filter(|row| self.outcomes.row(row) == 0);
        Outcome {
            cases: self.inputs.sum(),
            differences: self.differences.count,
            missed: unmet.chain(self.deadlines.missed()).collect(),
        }
    }
}

/// The first two words of a refusal, or that a plan was listed.
fn outcome(text: &str) -> String {
    let words: Vec<&str> = text.split_whitespace().take(2).collect();
    match words[..] {
        ["refused", number] => format!("refused {number}"),
        _ => "listed".to_string(),
    }
}
