//! Times the proved library and this program on the same tables, in one run, the two taking
//! turns, and prints the tables of docs/SPEED.md.

#![forbid(unsafe_code)]

mod growth;
mod plot;
mod runner;
mod shift;
mod timing;

use std::hint::black_box;
use std::path::PathBuf;
use std::process::ExitCode;

use peer::generate::{either_jobs, Random, E};
use peer::library::{Answer, Library, Planner};
use peer::planner;
use peer::table::Table;
use timing::{time, Timed};

const TABLES: usize = 24;
const SECONDS: f64 = 2.0;
const USAGE: &str = "usage: bench [--plot PATH] [--replay PATH] [--shift PATH]";

fn main() -> ExitCode {
    let arguments = match Arguments::read(std::env::args().skip(1)) {
        Ok(arguments) => arguments,
        Err(sentence) => {
            println!("{sentence}");
            return ExitCode::from(2);
        }
    };
    let sides = Sides {
        proved: arguments.proved,
        plain: Library::peer(),
    };
    calls(&sides);
    let growths = growth::measure(&sides);
    growth::print(&growths);
    if let Some(path) = &arguments.plot {
        std::fs::write(path, plot::svg(&growths)).expect("the plot's file");
    }
    match arguments.shift.is_file() {
        true => shift::print(&arguments.shift),
        false => println!("there is no program {}\n", arguments.shift.display()),
    }
    runner::print(&arguments.replay);
    ExitCode::SUCCESS
}

struct Arguments {
    proved: Library,
    /// Where the plot goes, if it is wanted.
    plot: Option<PathBuf>,
    replay: PathBuf,
    /// A program that plays many frames and prints what came of them; left out where it is
    /// missing.
    shift: PathBuf,
}

impl Arguments {
    fn read(mut arguments: impl Iterator<Item = String>) -> Result<Arguments, String> {
        let folder = PathBuf::from(concat!(env!("CARGO_MANIFEST_DIR"), "/../target/bin"));
        let (mut replay, mut shift) = (folder.join("replay"), folder.join("shift"));
        let mut plot = None;
        while let Some(name) = arguments.next() {
            let value = arguments.next().ok_or(USAGE)?;
            match name.as_str() {
                "--plot" => plot = Some(value.into()),
                "--replay" => replay = value.into(),
                "--shift" => shift = value.into(),
                _ => return Err(USAGE.to_string()),
            }
        }
        let proved = Library::proved()?;
        if !replay.is_file() {
            return Err(format!("there is no program {}", replay.display()));
        }
        Ok(Arguments {
            proved,
            plot,
            replay,
            shift,
        })
    }
}

/// The two sides under the clock.
struct Sides {
    proved: Library,
    plain: Library,
}

/// A table with its free-order plan.
struct Input {
    table: Vec<u8>,
    plan: Vec<u8>,
}

impl Input {
    fn new(table: Vec<u8>) -> Input {
        let mut area = [0; Table::LONGEST_PLAN];
        let planned = planner::plan_free(&table, &mut area).expect("a table with a plan");
        let plan = area[..planned.length].to_vec();
        Input { table, plan }
    }

    /// Tables of either jobs that have a plan.
    fn either_jobs(random: &mut Random, count: usize, jobs: usize, deadline: u16) -> Vec<Input> {
        let mut inputs = Vec::new();
        while inputs.len() < count {
            let table = either_jobs(random, jobs, deadline).write();
            if planner::plan_free(&table, &mut [0; Table::LONGEST_PLAN]).is_ok() {
                inputs.push(Input::new(table));
            }
        }
        inputs
    }
}

/// A function of the library, called on an input.
type Call = fn(&Library, &Input) -> Answer;

const CHECK: &str = "zb_check_plan";

const CALLS: [(&str, Call); 4] = [
    ("zb_plan_free", plan_free),
    ("zb_plan_given", |library, input| {
        plan(library.plan_given, input)
    }),
    ("zb_least_deadline", |library, input| {
        (library.least_deadline)(&input.table)
    }),
    (CHECK, |library, input| {
        (library.check_plan)(&input.table, &input.plan)
    }),
];

fn plan_free(library: &Library, input: &Input) -> Answer {
    plan(library.plan_free, input)
}

fn plan(planner: Planner, input: &Input) -> Answer {
    let mut area = [0; Table::LONGEST_PLAN];
    let answer = planner(&input.table, &mut area);
    black_box(&area);
    answer
}

/// Large, middling and small tables, with their names.
fn sets() -> [(&'static str, Vec<Input>); 3] {
    let mut random = Random::new(1);
    let large = Input::either_jobs(&mut random, TABLES, 32, 4000);
    let middling = Input::either_jobs(&mut random, TABLES, 8, 500);
    [
        ("32 either jobs, D 4,000", large),
        ("8 either jobs, D 500", middling),
        ("table E: 3 jobs, D 45", vec![Input::new(E.to_vec())]),
    ]
}

/// Each function on each set of tables.
fn calls(sides: &Sides) {
    println!(
        "| call | table | tables | calls on each side | proved, us | plain Rust, us | ratio of \
         medians | ratio by pairs, 10th to 90th percentile |"
    );
    println!("|---|---|---|---|---|---|---|---|");
    let sets = sets();
    let mut checks = Vec::new();
    for (name, call) in CALLS {
        for (set, inputs) in &sets {
            let timed = time(sides, inputs, call, SECONDS);
            let accepted = inputs
                .iter()
                .filter(|input| call(&sides.plain, input).is_ok());
            print_call(name, set, (inputs.len(), accepted.count()), &timed);
            if name == CHECK {
                checks.push((set, timed));
            }
        }
    }
    println!();
    println!("| check of a plan | proved, calls per second | plain Rust, calls per second |");
    println!("|---|---|---|");
    for (set, timed) in checks {
        let [proved, plain] = [timed.proved(), timed.plain()].map(|time| rate(1e6 / time));
        println!("| {set} | {proved} | {plain} |");
    }
    println!();
}

fn print_call(name: &str, set: &str, (tables, accepted): (usize, usize), timed: &Timed) {
    let tables = match tables - accepted {
        0 => tables.to_string(),
        refused => format!("{tables}, {refused} of them refused"),
    };
    let (low, high) = timed.spread();
    println!(
        "| `{name}` | {set} | {tables} | {} | {} | {} | {:.2} | {low:.2} to {high:.2} |",
        thousands(timed.calls as u64),
        micros(timed.proved()),
        micros(timed.plain()),
        timed.ratio(),
    );
}

/// Microseconds with three digits or more.
fn micros(time: f64) -> String {
    match time {
        100.0.. => thousands(time.round() as u64),
        10.0.. => format!("{time:.1}"),
        1.0.. => format!("{time:.2}"),
        _ => format!("{time:.3}"),
    }
}

/// Calls per second, with three digits that count.
fn rate(calls: f64) -> String {
    let mut unit = 1.0;
    while calls / unit >= 1000.0 {
        unit *= 10.0;
    }
    thousands(((calls / unit).round() * unit) as u64)
}

/// A number with commas between its thousands.
fn thousands(number: u64) -> String {
    match number {
        0..1000 => number.to_string(),
        _ => format!("{},{:03}", thousands(number / 1000), number % 1000),
    }
}
