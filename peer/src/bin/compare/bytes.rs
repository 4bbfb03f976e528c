//! The library's functions on tables, plans and areas.

use peer::generate::{self, Damage, Random};
use peer::library::{Answer, Library, Planner};
use peer::table::{Job, Offload, Table};

use crate::counts::{hex, refusals, Differences, Grid, Met};
use crate::{tables, Outcome};

/// Random cases, unless another number is asked for.
pub const CASES: usize = 240_000;

const FUNCTIONS: [&str; 4] = ["plan_free", "plan_given", "least_deadline", "check_plan"];
/// The refusals of the library's functions; the other numbers are the frame runner's.
const REFUSALS: [usize; 12] = [1, 2, 3, 4, 5, 6, 7, 8, 9, 10, 11, 18];
/// Times at the limit.
const LIMITS: [u16; 3] = [3_999, 4_000, 4_001];
const GUARD: usize = 32;
const LONGEST_AREA: usize = 70;
/// Tables for each length of the area and for each number of jobs.
const FOR_EACH: usize = 60;

/// Compares both sides on random cases, then on every length of the area, every number of
/// jobs and every deadline.
pub fn compare(proved: &Library, cases: usize) -> Outcome {
    let mut tally = Tally::new(*proved);
    let mut random = Random::new(0x5EED);
    for _ in 0..cases {
        let case = Case::any(&mut random, &mut tally.damage);
        tally.compare("random", &case);
    }
    for area in 0..=LONGEST_AREA {
        for _ in 0..FOR_EACH {
            let table = tables::any(&mut random);
            let case = Case::whole(&mut random, &table, area);
            tally.compare("each area length", &case);
        }
    }
    for jobs in 0..=Table::MOST_JOBS + 1 {
        for _ in 0..FOR_EACH {
            let largest = random.pick(&[5, 40, 250, 4000]);
            let table = generate::table(&mut random, jobs, largest);
            let case = Case::whole(&mut random, &table, Table::LONGEST_PLAN);
            tally.compare("each number of jobs", &case);
        }
    }
    for deadline in 0..=Table::LARGEST_TIME + 1 {
        for jobs in jobs_around(&mut random, deadline) {
            let table = Table { deadline, jobs };
            let case = Case::whole(&mut random, &table, Table::LONGEST_PLAN);
            tally.compare("each deadline", &case);
        }
    }
    tally.print();
    tally.outcome()
}

/// Job lists on the edge of a deadline, and others of its size.
fn jobs_around(random: &mut Random, deadline: u16) -> Vec<Vec<Job>> {
    let here_only = |local| Job {
        id: 9,
        local,
        offload: None,
    };
    let away = |setup, return_time| Job {
        id: 7,
        local: Table::LARGEST_TIME,
        offload: Some(Offload { setup, return_time }),
    };
    let setup = random.within(0..=deadline);
    let rest = deadline - setup;
    let few = random.below(13);
    vec![
        vec![],
        vec![here_only(deadline)],
        vec![here_only(deadline + 1)],
        vec![away(setup, rest)],
        vec![away(setup, rest + 1)],
        vec![here_only(rest), away(setup, rest)],
        vec![here_only(rest + 1), away(setup, rest)],
        generate::table(random, few, deadline / 4 + 2).jobs,
        generate::either_jobs(random, 32, deadline).jobs,
    ]
}

/// One table, one plan and one area, each perhaps damaged or too short.
struct Case {
    table: Vec<u8>,
    plan: Vec<u8>,
    /// The area between two guards, as both sides find it.
    memory: Vec<u8>,
    with_least: bool,
    /// The jobs, if the table's bytes are whole.
    jobs: Option<Vec<Job>>,
}

impl Case {
    fn any(random: &mut Random, damage: &mut Grid<2>) -> Case {
        let table = tables::any(random);
        let area = match random.one_in(8) {
            true => random.below(Table::LONGEST_PLAN),
            false => Table::LONGEST_PLAN + random.below(LONGEST_AREA - Table::LONGEST_PLAN + 1),
        };
        let mut case = Case::whole(random, &table, area);
        for (column, bytes) in [&mut case.table, &mut case.plan].into_iter().enumerate() {
            let done = tables::damage(random);
            done.apply(random, bytes);
            damage.note(done.name(), column);
        }
        case.jobs = case.jobs.filter(|_| case.table == table.write());
        case
    }

    fn whole(random: &mut Random, table: &Table, area: usize) -> Case {
        Case {
            plan: generate::plan(random, table),
            table: table.write(),
            memory: (0..area + 2 * GUARD).map(|_| random.byte()).collect(),
            with_least: random.one_in(if table.jobs.len() < 15 { 6 } else { 16 }),
            jobs: Some(table.jobs.clone()),
        }
    }

    fn area(&self) -> usize {
        self.memory.len() - 2 * GUARD
    }

    /// The deadline in the table's bytes, if they go so far.
    fn deadline(&self) -> Option<u16> {
        match self.table[..] {
            [0x10, low, high, ..] => Some(u16::from_le_bytes([low, high])),
            _ => None,
        }
    }
}

/// What came of the cases.
struct Tally {
    proved: Library,
    peer: Library,
    cases: Grid<1>,
    damage: Grid<2>,
    areas: Met,
    deadlines: Met,
    jobs: Met,
    limits: Grid<3>,
    outcomes: Grid<4>,
    differences: Differences,
}

impl Tally {
    fn new(proved: Library) -> Tally {
        let kinds = Damage::ALL.map(|damage| damage.name().to_string());
        let outcomes = std::iter::once("accepted".to_string()).chain(refusals());
        Tally {
            proved,
            peer: Library::peer(),
            cases: Grid::new(["cases"], []),
            damage: Grid::new(["tables", "plans"], kinds),
            areas: Met::new("area lengths", LONGEST_AREA),
            deadlines: Met::new("deadlines", usize::from(Table::LARGEST_TIME) + 1),
            jobs: Met::new("numbers of jobs", Table::MOST_JOBS + 1),
            limits: Grid::new(["3,999", "4,000", "4,001"], []),
            outcomes: Grid::new(FUNCTIONS, outcomes),
            differences: Differences::default(),
        }
    }

    fn compare(&mut self, kind: &str, case: &Case) {
        self.cases.note(kind, 0);
        self.note_coverage(case);
        let (proved, peer) = (self.proved, self.peer);
        self.compare_planner(0, proved.plan_free, peer.plan_free, case);
        self.compare_planner(1, proved.plan_given, peer.plan_given, case);
        if case.with_least {
            let ours = (peer.least_deadline)(&case.table);
            let theirs = (proved.least_deadline)(&case.table);
            self.note(2, case, ours, theirs, "");
        }
        let ours = (peer.check_plan)(&case.table, &case.plan);
        let theirs = (proved.check_plan)(&case.table, &case.plan);
        self.note(3, case, ours, theirs, "");
    }

    /// What the case adds to the area lengths, deadlines, numbers of jobs and times met.
    fn note_coverage(&mut self, case: &Case) {
        self.areas.note(case.area());
        if let Some(deadline) = case.deadline() {
            self.deadlines.note(deadline.into());
        }
        let Some(jobs) = &case.jobs else {
            return;
        };
        self.jobs.note(jobs.len());
        let times = |job: &Job| {
            let away = job
                .offload
                .map(|offload| [offload.setup, offload.return_time]);
            [job.local].into_iter().chain(away.into_iter().flatten())
        };
        for time in jobs.iter().flat_map(times) {
            if let Some(place) = LIMITS.iter().position(|&limit| limit == time) {
                self.limits.note("entries of jobs", place);
            }
        }
    }

    fn compare_planner(&mut self, function: usize, proved: Planner, peer: Planner, case: &Case) {
        let (mut ours, mut theirs) = (case.memory.clone(), case.memory.clone());
        let area = GUARD..case.memory.len() - GUARD;
        let our_answer = peer(&case.table, &mut ours[area.clone()]);
        let their_answer = proved(&case.table, &mut theirs[area.clone()]);

        // What may have changed: a plan's own bytes, at the front of the area.
        let plan_length = our_answer.map_or(0, |figures| figures[0] as usize);
        let rest = area.start + plan_length;
        let trouble = if theirs[..area.start] != case.memory[..area.start] {
            "bytes before the area are changed"
        } else if theirs[area.end..] != case.memory[area.end..] {
            "bytes after the area are changed"
        } else if theirs[rest..] != case.memory[rest..] {
            "the area is changed where it may not be"
        } else if theirs != ours {
            "the plans differ"
        } else {
            ""
        };
        self.note(function, case, our_answer, their_answer, trouble);
    }

    fn note(&mut self, function: usize, case: &Case, peer: Answer, proved: Answer, trouble: &str) {
        let outcome = match peer {
            Ok(_) => "accepted".to_string(),
            Err(refused) => format!("refused {}", refused.number),
        };
        self.outcomes.note(&outcome, function);
        if peer != proved || !trouble.is_empty() {
            self.differences.note(|| {
                format!(
                    "{}: {trouble}\n  table  {}\n  plan   {}\n  area   {} bytes\n  \
                     peer   {peer:?}\n  proved {proved:?}",
                    FUNCTIONS[function],
                    hex(&case.table),
                    hex(&case.plan),
                    case.area(),
                )
            });
        }
    }

    fn print(&self) {
        println!("the library: {} cases", self.cases.sum());
        self.cases.print("kind");
        self.damage.print("damage in the random cases");
        for met in [&self.areas, &self.jobs, &self.deadlines] {
            met.print();
        }
        self.limits.print("times at the limit");
        self.outcomes.print("outcome");
        println!("  differences {}", self.differences.count);
        println!();
    }

    fn outcome(&self) -> Outcome {
        let unmet = REFUSALS.map(|number| format!("refused {number}"));
        let unmet = unmet.into_iter().filter(|row| self.outcomes.row(row) == 0);
        let met = [&self.areas, &self.jobs, &self.deadlines];
        Outcome {
            cases: self.cases.sum(),
            differences: self.differences.count,
            missed: unmet
                .chain(met.iter().flat_map(|met| met.missed()))
                .collect(),
        }
    }
}
