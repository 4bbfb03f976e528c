//! Calls on the frame runner, nothing printed for any: the program `shift` beside the same
//! shift played here.
//!
//! A frame of table E has eleven calls: begin; the spans of jobs 1, 2 and 3 at 5, 15 and 40;
//! the answers of job 2 at 25 and of job 1 at 45; close; three reads. In every 7th frame job 1
//! answers one tick late, and that answer is offered again in the next frame under its old
//! number; in every 10th frame job 2 never answers. Where no answer is offered the panel asks
//! which job is next.

use std::path::Path;
use std::process::Command;
use std::time::Instant;

use peer::frame::{Frame, Reading};
use peer::generate::{E, E_PLAN};
use peer::refusal::Refusal;

use crate::timing::median;
use crate::{rate, thousands};

const FRAMES: u32 = 100_000;
const FIRST: u32 = 1_000;
const ROUNDS: usize = 15;

/// Prints the calls per second of both sides.
///
/// # Panics
///
/// Where the counts that the program prints are not this program's.
pub fn print(program: &Path) {
    let (mut theirs, mut ours) = (Vec::new(), Vec::new());
    for _ in 0..ROUNDS {
        let start = Instant::now();
        let printed = Command::new(program).output().expect("the program runs");
        theirs.push(start.elapsed().as_secs_f64());
        let start = Instant::now();
        let counts = std::hint::black_box(play());
        ours.push(start.elapsed().as_secs_f64());
        let printed = String::from_utf8_lossy(&printed.stdout).into_owned();
        for (words, count) in counts.lines() {
            let line = format!("{words}{count}");
            assert!(printed.lines().any(|printed| printed == line), "{printed}");
        }
    }
    let calls = play().calls;
    let [theirs, ours] = [theirs, ours].map(|times| rate(calls as f64 / median(&times)));
    println!("| shift | calls | proved, calls per second | plain Rust, calls per second |");
    println!("|---|---|---|---|");
    println!(
        "| {} frames of table E | {} | {theirs} | {ours} |",
        thousands(FRAMES.into()),
        thousands(calls),
    );
    println!();
}

/// What came of the calls.
#[derive(Default)]
struct Counts {
    begun: u64,
    calls: u64,
    fresh: u64,
    late: u64,
    missing: u64,
    old_refused: u64,
    other_refused: u64,
}

impl Counts {
    /// The lines that the program prints for them.
    fn lines(&self) -> [(&'static str, u64); 7] {
        [
            ("frames begun ", self.begun),
            ("calls made ", self.calls),
            ("fresh readings ", self.fresh),
            ("late readings ", self.late),
            ("missing ", self.missing),
            ("old answers refused with 13: ", self.old_refused),
            ("other refusals ", self.other_refused),
        ]
    }

    fn note<T>(&mut self, answer: Result<T, Refusal>) {
        self.calls += 1;
        match answer {
            Ok(_) => {}
            Err(Refusal::Number) => self.old_refused += 1,
            Err(_) => self.other_refused += 1,
        }
    }
}

fn play() -> Counts {
    let mut counts = Counts::default();
    let mut frame = Frame::idle();
    for number in FIRST..FIRST + FRAMES {
        play_frame(&mut frame, number, &mut counts);
        for id in 1..=3 {
            let reading = frame.read(id);
            counts.note(reading);
            match reading {
                Ok(Reading::Fresh(sent)) => {
                    assert_eq!(sent.frame, number, "a stale reading");
                    assert_eq!(sent.value, value(number, id), "a stale reading");
                    counts.fresh += 1;
                }
                Ok(Reading::Late) => counts.late += 1,
                Ok(Reading::Missing) => counts.missing += 1,
                Ok(Reading::Pending) | Err(_) => {}
            }
        }
    }
    counts
}

/// A frame's calls up to its close.
fn play_frame(frame: &mut Frame, number: u32, counts: &mut Counts) {
    let late = number.is_multiple_of(7);
    let old_offered = number % 7 == 1;
    let never = number % 10 == 3;
    counts.begun += 1;
    counts.note(frame.begin(number, &E, &E_PLAN));
    counts.note(frame.span_end(1, 5, 0.0));
    match old_offered {
        true => counts.note(frame.give_back(number - 1, 1, 6, value(number - 1, 1))),
        false => counts.note(frame.next()),
    }
    counts.note(frame.span_end(2, 15, 0.0));
    match never {
        true => counts.note(frame.next()),
        false => counts.note(frame.give_back(number, 2, 25, value(number, 2))),
    }
    counts.note(frame.span_end(3, 40, value(number, 3)));
    let time = if late { 46 } else { 45 };
    counts.note(frame.give_back(number, 1, time, value(number, 1)));
    counts.note(frame.close(46));
}

/// A value that no other job has, nor the same job in another frame.
fn value(number: u32, id: u8) -> f32 {
    (4 * number + u32::from(id)) as f32
}
