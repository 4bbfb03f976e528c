//! The program `replay` on logs of calls.

use peer::generate::{calls, Damage, Random};
use peer::replay::{replay, Call, LONGEST};

use crate::counts::{hex, refusals, Differences, Grid};
use crate::programs::{Handing, Program};
use crate::Outcome;

const SHORT_LOGS: usize = 2_000;
const FULL_LOGS: usize = 150;
const CALLS: [&str; 6] = ["begin", "next", "span", "return", "close", "read"];
/// What every reading and every refusal of the runner has to reach, so that it counts.
const OFTEN: usize = 500;

/// Compares the replay's lines with this program's.
pub fn compare(program: &Program) -> Outcome {
    let mut tally = Tally::new(program);
    let mut random = Random::new(0x106);
    tally.compare("empty", &[], Handing::AtOnce);
    short_logs(&mut tally, &mut random);
    unknown_kinds(&mut tally, &mut random);
    cut_bodies(&mut tally, &mut random);
    full_logs(&mut tally, &mut random);
    tally.print();
    tally.outcome()
}

/// Logs of a few frames, and of calls in any order; whole, damaged, and handed over slowly.
fn short_logs(tally: &mut Tally, random: &mut Random) {
    for _ in 0..SHORT_LOGS {
        let frames = 1 + random.below(5);
        let log = calls::frames(random, frames);
        tally.compare("frames", &log, Handing::AtOnce);

        let count = random.below(200);
        let log = calls::wild(random, count);
        tally.compare("calls in any order", &log, Handing::AtOnce);

        let mut log = calls::frames(random, frames);
        random.pick(&Damage::ALL[1..]).apply(random, &mut log);
        tally.compare("frames, damaged", &log, Handing::AtOnce);
    }
    for _ in 0..SHORT_LOGS / 10 {
        let log = calls::frames(random, 3);
        let piece = Handing::InPieces(1 + random.below(60));
        tally.compare("frames, in pieces", &log, piece);
    }
}

/// Every kind that is unknown, after whole calls and before others.
fn unknown_kinds(tally: &mut Tally, random: &mut Random) {
    for kind in (0..=255).filter(|kind| !(0x40..=0x45).contains(kind)) {
        let mut log = calls::frames(random, 1);
        log.push(kind);
        log.extend(calls::frames(random, 1));
        tally.compare("an unknown kind", &log, Handing::AtOnce);
    }
}

/// Logs cut at every length: the first has every call, so that each one's body is cut
/// everywhere.
fn cut_bodies(tally: &mut Tally, random: &mut Random) {
    for log in [every_call(), calls::frames(random, 4)] {
        for length in 0..log.len() {
            tally.compare("cut at each byte", &log[..length], Handing::AtOnce);
        }
    }
}

/// A frame of table E with each of the six calls.
fn every_call() -> Vec<u8> {
    let (number, id, value) = (7, 1, -0.0);
    let calls = [
        calls::begin_e(number),
        Call::Next,
        Call::SpanEnd { id, time: 5, value },
        Call::Return {
            number,
            id,
            time: 45,
            value,
        },
        Call::Read { id },
        Call::Close { time: 0x1234 },
    ];
    let mut log = Vec::new();
    calls.iter().for_each(|call| call.write(&mut log));
    log
}

/// Logs about the longest length that is judged, and far beyond it.
fn full_logs(tally: &mut Tally, random: &mut Random) {
    for place in 0..FULL_LOGS {
        let mut log = match place % 3 {
            0 => calls::wild(random, 6_000),
            _ => calls::frames_up_to(random, LONGEST + 2),
        };
        let length = match place % 5 {
            0 => LONGEST,
            1 => LONGEST + 1,
            2 => LONGEST - random.below(30),
            _ => log.len(),
        };
        log.truncate(length);
        if place % 10 == 9 {
            log.extend(calls::frames_up_to(random, LONGEST));
        }
        let handing = match place % 15 {
            14 => Handing::InPieces(1 + random.below(5_000)),
            _ => Handing::AtOnce,
        };
        let kind = match log.len() > LONGEST {
            true => "longer than 65,536 bytes",
            false => "up to 65,536 bytes",
        };
        tally.compare(kind, &log, handing);
    }
}

/// What came of the logs.
struct Tally<'a> {
    program: &'a Program,
    logs: Grid<1>,
    answers: Grid<6>,
    stopped: usize,
    differences: Differences,
}

impl Tally<'_> {
    fn new(program: &Program) -> Tally<'_> {
        let rows = [
            "accepted", "a job", "none", "fresh", "pending", "late", "missing",
        ];
        let rows = rows.map(String::from).into_iter().chain(refusals());
        Tally {
            program,
            logs: Grid::new(["logs"], []),
            answers: Grid::new(CALLS, rows),
            stopped: 0,
            differences: Differences::default(),
        }
    }

    fn compare(&mut self, kind: &str, log: &[u8], handing: Handing) {
        let ours = replay(log);
        let theirs = self.program.run(log, handing);
        self.logs.note(kind, 0);
        ours.lines().for_each(|line| self.note_line(line));
        if ours.as_bytes() != theirs {
            self.differences.note(|| shown(kind, log, &ours, &theirs));
        }
    }

    fn note_line(&mut self, line: &str) {
        let words: Vec<&str> = line.split(' ').collect();
        let row = match words[..] {
            ["stopped", ..] => {
                self.stopped += 1;
                return;
            }
            [_, "refused", number, ..] => format!("refused {number}"),
            ["next", _, "here" | "away"] => "a job".to_string(),
            [_, answer, ..] => answer.to_string(),
            _ => line.to_string(),
        };
        let call = CALLS.iter().position(|&call| call == words[0]);
        self.answers
            .note(&row, call.expect("each line opens with a call's word"));
    }

    fn print(&self) {
        println!(
            "the program replay: {} logs, {} calls",
            self.logs.sum(),
            self.answers.sum()
        );
        self.logs.print("kind");
        self.answers.print("answer");
        println!("  stopped at a record    {}", self.stopped);
        println!("  differences {}", self.differences.count);
        println!();
    }

    fn outcome(&self) -> Outcome {
        let readings = ["fresh", "pending", "late", "missing"].map(String::from);
        let refusals = (12..=17).map(|number| format!("refused {number}"));
        let seldom = readings.into_iter().chain(refusals);
        Outcome {
            cases: self.logs.sum(),
            differences: self.differences.count,
            missed: seldom.filter(|row| self.answers.row(row) < OFTEN).collect(),
        }
    }
}

/// The first lines that differ, and all bytes and lines.
fn shown(kind: &str, log: &[u8], ours: &str, theirs: &[u8]) -> String {
    let theirs = String::from_utf8_lossy(theirs);
    let mut pairs = ours.lines().zip(theirs.lines());
    let same = pairs.position(|(ours, theirs)| ours != theirs);
    let same = same.unwrap_or(ours.lines().count().min(theirs.lines().count()));
    format!(
        "replay, {kind}: the first {same} lines agree, then\n  peer   {}\n  replay {}\n  \
         log    {}\n  peer, all lines:\n{ours}  replay, all lines:\n{theirs}",
        ours.lines().nth(same).unwrap_or("(nothing)"),
        theirs.lines().nth(same).unwrap_or("(nothing)"),
        hex(log),
    )
}
