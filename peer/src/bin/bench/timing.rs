//! Timing a call on both sides by turns.

use std::hint::black_box;
use std::time::Instant;

use peer::library::Library;

use crate::{Call, Input, Sides};

/// One timing takes at least so many microseconds: short calls are timed together.
const LEAST_TIMING: f64 = 60.0;
const LEAST_ROUNDS: f64 = 5.0;
const MOST_ROUNDS: f64 = 2000.0;

/// The timings of a call, in microseconds. Timings at the same place were taken one after
/// the other on the same table.
#[derive(Default)]
pub struct Timed {
    /// Calls on each side.
    pub calls: usize,
    proved: Vec<f64>,
    plain: Vec<f64>,
}

impl Timed {
    /// Takes in further timings of the same call.
    pub fn extend(&mut self, more: Timed) {
        self.calls += more.calls;
        self.proved.extend(more.proved);
        self.plain.extend(more.plain);
    }

    /// The proved side's median.
    pub fn proved(&self) -> f64 {
        median(&self.proved)
    }

    /// This program's median.
    pub fn plain(&self) -> f64 {
        median(&self.plain)
    }

    /// The ratio of the medians, below 1 where the proved side is faster.
    pub fn ratio(&self) -> f64 {
        self.proved() / self.plain()
    }

    /// The 10th and the 90th percentile of the ratios of the pairs.
    pub fn spread(&self) -> (f64, f64) {
        let pairs = self.proved.iter().zip(&self.plain);
        let ratios: Vec<f64> = pairs.map(|(proved, plain)| proved / plain).collect();
        (percentile(&ratios, 0.1), percentile(&ratios, 0.9))
    }
}

/// Times a call on each input for about so many seconds in all, the sides by turns.
///
/// # Panics
///
/// Where the sides' answers differ.
pub fn time(sides: &Sides, inputs: &[Input], call: Call, seconds: f64) -> Timed {
    for input in inputs {
        let answers = [sides.proved, sides.plain].map(|side| call(&side, input));
        assert_eq!(answers[0], answers[1], "the sides differ");
    }
    let batch = batch(&sides.plain, &inputs[0], call);
    let both = [sides.proved, sides.plain].map(|side| one(&side, &inputs[0], call, batch));
    let round = both.iter().sum::<f64>() * batch as f64 * inputs.len() as f64;
    let rounds = (seconds * 1e6 / round).clamp(LEAST_ROUNDS, MOST_ROUNDS) as usize;

    let mut timed = Timed {
        calls: rounds * inputs.len() * batch,
        ..Timed::default()
    };
    for round in 0..rounds {
        for (place, input) in inputs.iter().enumerate() {
            let mut proved = || timed.proved.push(one(&sides.proved, input, call, batch));
            let mut plain = || timed.plain.push(one(&sides.plain, input, call, batch));
            // Who goes first changes from turn to turn.
            if (round + place) % 2 == 0 {
                proved();
                plain();
            } else {
                plain();
                proved();
            }
        }
    }
    timed
}

/// How many calls one timing takes.
fn batch(side: &Library, input: &Input, call: Call) -> usize {
    let mut batch = 1;
    while one(side, input, call, batch) * (batch as f64) < LEAST_TIMING {
        batch *= 2;
    }
    batch
}

/// One timing: microseconds for a call.
fn one(side: &Library, input: &Input, call: Call, batch: usize) -> f64 {
    let start = Instant::now();
    for _ in 0..batch {
        let _ = black_box(call(side, black_box(input)));
    }
    start.elapsed().as_secs_f64() * 1e6 / batch as f64
}

/// The middle one of some values.
pub fn median(values: &[f64]) -> f64 {
    percentile(values, 0.5)
}

fn percentile(values: &[f64], part: f64) -> f64 {
    let mut values = values.to_vec();
    values.sort_by(f64::total_cmp);
    values[((values.len() - 1) as f64 * part).round() as usize]
}
