//! A deterministic generator of tables, plans and logs of calls, and of their damage.

pub mod calls;
mod damage;
mod random;

pub use damage::Damage;
pub use random::Random;

use crate::plan::{self, Choice, Record};
use crate::planner;
use crate::table::{Job, Offload, Table};

/// Table E of document 01.
pub const E: [u8; 24] = [
    0x10, 0x2D, 0x00, 0x12, 0x01, 0x1E, 0x00, 0x05, 0x00, 0x28, 0x00, 0x12, 0x02, 0x14, 0x00, 0x0A,
    0x00, 0x0A, 0x00, 0x11, 0x03, 0x19, 0x00, 0x1F,
];

/// The free-order plan of table E.
pub const E_PLAN: [u8; 7] = [0x21, 1, 0x21, 2, 0x20, 3, 0x2F];

/// A table with distinct ids and times within a largest one, and a deadline that some of
/// its choices may meet. Zeros, equal times and ties come up often.
pub fn table(random: &mut Random, jobs: usize, largest: u16) -> Table {
    let mut ids: Vec<u8> = (0..=255).collect();
    random.shuffle(&mut ids);
    let style = Style::new(random, jobs, largest);
    let jobs: Vec<Job> = ids[..jobs]
        .iter()
        .map(|&id| style.job(random, id))
        .collect();

    let locals: u32 = jobs.iter().map(|job| u32::from(job.local)).sum();
    let most = locals.clamp(1, Table::LARGEST_TIME.into()) as u16;
    let deadline = random.within(1..=most);
    Table { deadline, jobs }
}

/// What the jobs of one table have in common.
struct Style {
    largest: u16,
    largest_return: u16,
    short_setups: bool,
    /// One return time for all either jobs.
    equal_return: Option<u16>,
    /// One difference of C and S for all either jobs, so that many choices tie.
    equal_gain: Option<u16>,
}

impl Style {
    fn new(random: &mut Random, jobs: usize, largest: u16) -> Style {
        let long_return = usize::from(largest) * (1 + jobs / 2);
        let long_return = long_return.min(Table::LARGEST_TIME.into()) as u16;
        Style {
            largest,
            largest_return: random.pick(&[largest, long_return]),
            short_setups: random.one_in(2),
            equal_return: random.one_in(4).then(|| random.within(0..=largest)),
            equal_gain: random.one_in(3).then(|| random.within(0..=largest / 2)),
        }
    }

    fn job(&self, random: &mut Random, id: u8) -> Job {
        let local = self.time(random);
        if random.one_in(4) {
            let offload = None;
            return Job { id, local, offload };
        }
        let setup = match (self.equal_gain, random.below(6)) {
            (Some(gain), _) => local.saturating_sub(gain),
            (None, 0) => local,
            (None, _) if self.short_setups => self.time(random) / 4,
            (None, _) => self.time(random),
        };
        let return_time = match (self.equal_return, random.below(8)) {
            (Some(equal), _) => equal,
            (None, 0) => 0,
            (None, _) => random.within(0..=self.largest_return),
        };
        Job {
            id,
            local,
            offload: Some(Offload { setup, return_time }),
        }
    }

    fn time(&self, random: &mut Random) -> u16 {
        match random.below(8) {
            0 => 0,
            _ => random.within(0..=self.largest),
        }
    }
}

/// Moves the deadline to the least workable one, or next to it.
pub fn to_the_edge(random: &mut Random, table: &mut Table) {
    if let Ok(least) = planner::least_deadline(&table.write()) {
        let edge = random.within(least - 1..=least + 1);
        table.deadline = edge.clamp(1, Table::LARGEST_TIME);
    }
}

/// A table at the limits: 0, 1, 32 or 33 jobs, some times of 3,999 to 4,001, and now and
/// then an id used twice.
pub fn table_at_limits(random: &mut Random) -> Table {
    let largest = random.pick(&[0, 3, 200]);
    let jobs = random.pick(&[0, 1, 32, 33]);
    let mut table = table(random, jobs, largest);
    table.deadline = random.pick(&[1, 2, 100, 3999, 4000, 4000, 4000]);
    for _ in 0..random.below(3) {
        let time = random.pick(&[0, 3999, 4000, 4000, 4000, 4001]);
        if table.jobs.is_empty() || random.one_in(8) {
            table.deadline = time;
            continue;
        }
        let job = random.below(table.jobs.len());
        let job = &mut table.jobs[job];
        match (&mut job.offload, random.below(3)) {
            (Some(offload), 0) => offload.setup = time,
            (Some(offload), 1) => offload.return_time = time,
            _ => job.local = time,
        }
    }
    if !table.jobs.is_empty() && random.one_in(8) {
        let (one, other) = (random.below(jobs), random.below(jobs));
        table.jobs[one].id = table.jobs[other].id;
    }
    table
}

/// A table of either jobs alone, of the kind that keeps the recurrence busy: together they
/// are too long for the deadline, and some have to stay for their long return.
pub fn either_jobs(random: &mut Random, jobs: usize, deadline: u16) -> Table {
    let share = deadline / jobs as u16;
    let job = |id| Job {
        id,
        local: random.within(share / 2..=share * 2),
        offload: Some(Offload {
            setup: random.within(share / 8..=share),
            return_time: random.within(deadline / 8..=deadline),
        }),
    };
    let jobs = (0..=255).take(jobs).map(job).collect();
    Table { deadline, jobs }
}

/// A plan for a table, right or wrong: of a planner, or the jobs in any order with any
/// choice, or such a plan with a job too few, a stranger, or an id twice.
pub fn plan(random: &mut Random, table: &Table) -> Vec<u8> {
    let mut area = [0; Table::LONGEST_PLAN];
    let planner = random.pick(&[planner::plan_free, planner::plan_given]);
    if random.one_in(4) {
        if let Ok(planned) = planner(&table.write(), &mut area) {
            return area[..planned.length].to_vec();
        }
    }
    let may_break = random.one_in(8);
    let mut records: Vec<Record> = table
        .jobs
        .iter()
        .map(|job| Record {
            id: job.id,
            choice: match random.one_in(2) && (may_break || job.offload.is_some()) {
                true => Choice::Away,
                false => Choice::Here,
            },
        })
        .collect();
    random.shuffle(&mut records);
    if random.one_in(6) {
        let changed = random.below(records.len() + 1);
        let record = Record {
            id: random.byte(),
            choice: random.pick(&[Choice::Here, Choice::Away]),
        };
        match random.below(3) {
            0 => records.truncate(changed),
            1 => records.insert(changed, record),
            _ => records[changed..].fill(record),
        }
    }
    plan::write(records)
}
