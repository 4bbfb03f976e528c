//! Counting what was met, and showing differences.

use std::fmt::Display;

/// How many differences of one part are shown in full; the others are counted.
const SHOWN: usize = 5;

/// The differences of one part of the comparison.
#[derive(Default)]
pub struct Differences {
    pub count: usize,
}

impl Differences {
    /// Counts a difference, and shows it if it is one of the first.
    pub fn note(&mut self, shown: impl FnOnce() -> String) {
        self.count += 1;
        if self.count <= SHOWN {
            println!("DIFFERENCE, {}", shown());
        }
    }
}

/// How often each number from 0 to a last one was met.
pub struct Met {
    name: &'static str,
    counts: Vec<usize>,
}

impl Met {
    pub fn new(name: &'static str, last: usize) -> Met {
        Met {
            name,
            counts: vec![0; last + 1],
        }
    }

    /// Counts a number; one beyond the last is left out.
    pub fn note(&mut self, number: usize) {
        if let Some(count) = self.counts.get_mut(number) {
            *count += 1;
        }
    }

    pub fn print(&self) {
        let least = self.counts.iter().min().expect("there is a number 0");
        println!(
            "  {}: all of 0 to {} met, each at least {least} times",
            self.name,
            self.counts.len() - 1,
        );
    }

    /// The numbers that were never met.
    pub fn missed(&self) -> impl Iterator<Item = String> + '_ {
        let numbers = self.counts.iter().enumerate();
        numbers
            .filter(|(_, &count)| count == 0)
            .map(|(number, _)| format!("{} {number}", self.name))
    }
}

/// Counts in rows and columns, in the order in which the rows were named.
pub struct Grid<const COLUMNS: usize> {
    columns: [&'static str; COLUMNS],
    rows: Vec<(String, [usize; COLUMNS])>,
}

impl<const COLUMNS: usize> Grid<COLUMNS> {
    pub fn new(
        columns: [&'static str; COLUMNS],
        rows: impl IntoIterator<Item = String>,
    ) -> Grid<COLUMNS> {
        let rows = rows.into_iter().map(|row| (row, [0; COLUMNS])).collect();
        Grid { columns, rows }
    }

    /// Counts one, in a row that may be new.
    pub fn note(&mut self, row: &str, column: usize) {
        match self.rows.iter_mut().find(|(name, _)| name == row) {
            Some((_, counts)) => counts[column] += 1,
            None => {
                let mut counts = [0; COLUMNS];
                counts[column] = 1;
                self.rows.push((row.to_string(), counts));
            }
        }
    }

    /// The sum of a row, 0 if there is none of that name.
    pub fn row(&self, name: &str) -> usize {
        let row = self.rows.iter().find(|(row, _)| row == name);
        row.map_or(0, |(_, counts)| counts.iter().sum())
    }

    /// The sum of all counts.
    pub fn sum(&self) -> usize {
        self.rows.iter().flat_map(|(_, counts)| counts).sum()
    }

    /// Prints the rows that were met.
    pub fn print(&self, title: &str) {
        print_row(title, self.columns);
        for (name, counts) in &self.rows {
            if counts.iter().any(|&count| count > 0) {
                print_row(name, *counts);
            }
        }
    }
}

fn print_row<const COLUMNS: usize>(name: &str, row: [impl Display; COLUMNS]) {
    let cells = row.map(|cell| format!("{cell:>15}"));
    println!("  {name:<26}{}", cells.concat());
}

/// `refused 1` to `refused 18`.
pub fn refusals() -> impl Iterator<Item = String> {
    (1..=18).map(|number| format!("refused {number}"))
}

pub fn hex(bytes: &[u8]) -> String {
    let digits: Vec<String> = bytes.iter().map(|byte| format!("{byte:02X}")).collect();
    digits.join(" ")
}
