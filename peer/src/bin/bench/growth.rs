//! How the free-order planner's time grows with the deadline and with the number of jobs.

use peer::generate::Random;

use crate::timing::{time, Timed};
use crate::{micros, plan_free, thousands, Input, Sides};

const TABLES: usize = 8;
/// All sizes are timed in turn, several times over, so that what else the machine does is
/// spread over them.
const PASSES: usize = 5;
const SECONDS: f64 = 0.25;
const DEADLINES: [u16; 10] = [125, 250, 500, 1000, 1500, 2000, 2500, 3000, 3500, 4000];
const JOBS: [u16; 10] = [1, 2, 4, 8, 12, 16, 20, 24, 28, 32];

/// Times for growing sizes.
pub struct Growth {
    /// What grows, with its unit, and what stays.
    pub size: &'static str,
    pub fixed: &'static str,
    /// The step of the numbers at its axis.
    pub step: u16,
    pub points: Vec<Point>,
}

/// A size with both sides' medians, in microseconds.
pub struct Point {
    pub size: u16,
    pub proved: f64,
    pub plain: f64,
}

/// Growth with the deadline, then with the number of jobs.
pub fn measure(sides: &Sides) -> [Growth; 2] {
    [
        Growth {
            size: "deadline D, ticks",
            fixed: "32 either jobs",
            step: 1000,
            points: points(sides, &DEADLINES, |size| (32, size)),
        },
        Growth {
            size: "either jobs",
            fixed: "D 4,000",
            step: 8,
            points: points(sides, &JOBS, |size| (size.into(), 4000)),
        },
    ]
}

fn points(sides: &Sides, sizes: &[u16], shape: fn(u16) -> (usize, u16)) -> Vec<Point> {
    let mut random = Random::new(2);
    let mut inputs = |&size: &u16| {
        let (jobs, deadline) = shape(size);
        Input::either_jobs(&mut random, TABLES, jobs, deadline)
    };
    let inputs: Vec<Vec<Input>> = sizes.iter().map(&mut inputs).collect();
    let mut timed: Vec<Timed> = sizes.iter().map(|_| Timed::default()).collect();
    for _ in 0..PASSES {
        for (timed, inputs) in timed.iter_mut().zip(&inputs) {
            timed.extend(time(sides, inputs, plan_free, SECONDS));
        }
    }
    let point = |(&size, timed): (&u16, &Timed)| Point {
        size,
        proved: timed.proved(),
        plain: timed.plain(),
    };
    sizes.iter().zip(&timed).map(point).collect()
}

/// Both growths side by side.
pub fn print([by_deadline, by_jobs]: &[Growth; 2]) {
    println!(
        "| D, with {} | proved, us | plain Rust, us | ratio | | jobs, with {} | proved, us | \
         plain Rust, us | ratio |",
        by_deadline.fixed, by_jobs.fixed
    );
    println!("|---|---|---|---|---|---|---|---|---|");
    for (deadline, jobs) in by_deadline.points.iter().zip(&by_jobs.points) {
        println!("| {} | | {} |", cells(deadline), cells(jobs));
    }
    println!();
}

fn cells(point: &Point) -> String {
    format!(
        "{} | {} | {} | {:.2}",
        thousands(point.size.into()),
        micros(point.proved),
        micros(point.plain),
        point.proved / point.plain,
    )
}
