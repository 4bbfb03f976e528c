//! Calls on the frame runner: the program `replay`, lines and all, beside this program's.
//!
//! The runner is not in the C interface, so a whole process is timed on a full log and on an
//! almost empty one; the difference is what the calls take.

use std::io::Write;
use std::path::Path;
use std::process::{Command, Stdio};
use std::time::Instant;

use peer::generate::calls;
use peer::replay::{replay, Call, LONGEST};

use crate::timing::median;
use crate::{rate, thousands};

const ROUNDS: usize = 200;

/// Prints the calls per second on each log.
pub fn print(program: &Path) {
    println!(
        "| log | calls | `replay`, calls per second | plain Rust in one process, calls per \
         second |"
    );
    println!("|---|---|---|---|");
    for (name, log) in [
        ("whole frames of table E", whole_frames()),
        ("one frame of table E, `next` again and again", nexts()),
    ] {
        let calls = replay(&log).lines().count();
        let (by_program, in_process) = seconds(program, &log);
        println!(
            "| {name} | {} | {} | {} |",
            thousands(calls as u64),
            rate(calls as f64 / by_program),
            rate(calls as f64 / in_process),
        );
    }
    println!();
}

/// As many frames as fit, each with every event of the plan and every job read.
fn whole_frames() -> Vec<u8> {
    let mut log = Vec::new();
    for number in 1.. {
        let whole = log.len();
        one_frame(&mut log, number);
        if log.len() > LONGEST {
            log.truncate(whole);
            break;
        }
    }
    log
}

fn one_frame(log: &mut Vec<u8>, number: u32) {
    let value = 1.5;
    let span = |id, time| Call::SpanEnd { id, time, value };
    let back = |id, time| Call::Return {
        number,
        id,
        time,
        value,
    };
    let calls = [
        calls::begin_e(number),
        Call::Next,
        span(1, 5),
        Call::Next,
        span(2, 15),
        Call::Next,
        back(2, 25),
        span(3, 40),
        back(1, 45),
        Call::Close { time: 45 },
        Call::Read { id: 1 },
        Call::Read { id: 2 },
        Call::Read { id: 3 },
    ];
    calls.iter().for_each(|call| call.write(log));
}

/// The most calls that fit.
fn nexts() -> Vec<u8> {
    let mut log = Vec::new();
    calls::begin_e(1).write(&mut log);
    while log.len() < LONGEST {
        Call::Next.write(&mut log);
    }
    log
}

/// What the log's calls take in the program, less its start and end, and in this program.
fn seconds(program: &Path, log: &[u8]) -> (f64, f64) {
    let (mut full, mut empty, mut ours) = (Vec::new(), Vec::new(), Vec::new());
    for _ in 0..ROUNDS {
        full.push(process(program, log));
        empty.push(process(program, &log[..log.len().min(1)]));
        let start = Instant::now();
        std::hint::black_box(replay(std::hint::black_box(log)));
        ours.push(start.elapsed().as_secs_f64());
    }
    (median(&full) - median(&empty), median(&ours))
}

/// A whole process, its lines thrown away.
fn process(program: &Path, log: &[u8]) -> f64 {
    let start = Instant::now();
    let mut child = Command::new(program)
        .stdin(Stdio::piped())
        .stdout(Stdio::null())
        .spawn()
        .expect("the program starts");
    let mut stdin = child.stdin.take().expect("a pipe was asked for");
    stdin.write_all(log).expect("standard input");
    drop(stdin);
    let status = child.wait().expect("the program's end");
    assert!(status.success(), "{status}");
    start.elapsed().as_secs_f64()
}
