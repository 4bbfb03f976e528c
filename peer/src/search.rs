//! A search over all choices and all orders of a few jobs, for the tests.
//!
//! It knows nothing of the planner's recurrence: every timetable it looks at is judged
//! by the definition.

use std::cmp::Reverse;

use crate::plan::Choice;
use crate::table::{Job, Table};

/// "A **timetable** gives each job a choice (here or away; here-only jobs stay here) and a
/// start, a whole number of at least 0." One entry for each job, in table order.
#[derive(Clone, Debug, PartialEq, Eq)]
pub struct Timetable {
    /// The jobs' choices.
    pub choices: Vec<Choice>,
    /// The jobs' starts.
    pub starts: Vec<u32>,
}

impl Timetable {
    /// "For any two jobs, one's span ends no later than the other's starts."
    pub fn is_sound(&self, jobs: &[Job]) -> bool {
        let end = |job: usize| self.starts[job] + span(&jobs[job], self.choices[job]);
        let stays_here =
            |(job, choice): (&Job, &Choice)| job.offload.is_some() || *choice == Choice::Here;
        jobs.iter().zip(&self.choices).all(stays_here)
            && (0..jobs.len()).all(|one| {
                (0..one)
                    .all(|other| end(one) <= self.starts[other] || end(other) <= self.starts[one])
            })
    }

    /// "A job finishes at start + C if here, at start + S + I if away."
    pub fn finish(&self, jobs: &[Job], job: usize) -> u32 {
        match (self.choices[job], jobs[job].offload) {
            (Choice::Away, Some(offload)) => {
                self.starts[job] + u32::from(offload.setup) + u32::from(offload.return_time)
            }
            _ => self.starts[job] + u32::from(jobs[job].local),
        }
    }

    /// "The timetable **meets D** if every finish is at most D."
    pub fn meets(&self, jobs: &[Job], deadline: u32) -> bool {
        self.is_sound(jobs) && (0..jobs.len()).all(|job| self.finish(jobs, job) <= deadline)
    }

    /// The jobs back to back from tick 0 in an order of table positions.
    ///
    /// No timetable with the same choices and order has an earlier start of any job.
    pub fn packed(jobs: &[Job], choices: &[Choice], order: &[usize]) -> Timetable {
        let mut starts = vec![0; jobs.len()];
        let mut now = 0;
        for &job in order {
            starts[job] = now;
            now += span(&jobs[job], choices[job]);
        }
        Timetable {
            choices: choices.to_vec(),
            starts,
        }
    }
}

/// "The job's span on the panel is C long if here, S long if away."
fn span(job: &Job, choice: Choice) -> u32 {
    match (choice, job.offload) {
        (Choice::Away, Some(offload)) => offload.setup.into(),
        _ => job.local.into(),
    }
}

/// A choice that the search found, with its order.
#[derive(Clone, Debug, PartialEq, Eq)]
pub struct Found {
    /// The jobs' choices, in table order.
    pub choices: Vec<Choice>,
    /// The table positions in plan order.
    pub order: Vec<usize>,
    /// The sum of the spans.
    pub busy: u32,
    /// The latest finish.
    pub last: u32,
}

/// The least deadline that some timetable meets, 1 or more, if it is within the limits.
pub fn least_deadline(table: &Table) -> Option<u16> {
    let jobs = &table.jobs;
    let mut least = None;
    for_each_order(jobs.len(), &mut |order| {
        for choices in all_choices(jobs) {
            let timetable = Timetable::packed(jobs, &choices, order);
            assert!(timetable.is_sound(jobs));
            let last = last_finish(jobs, &timetable).max(1);
            least = Some(least.map_or(last, |least: u32| least.min(last)));
        }
    });
    let least = u16::try_from(least?).ok()?;
    (least <= Table::LARGEST_TIME).then_some(least)
}

/// Whether some timetable meets the table's deadline.
pub fn some_timetable(table: &Table) -> bool {
    let jobs = &table.jobs;
    let mut met = false;
    for_each_order(jobs.len(), &mut |order| {
        met = met
            || all_choices(jobs).any(|choices| {
                Timetable::packed(jobs, &choices, order).meets(jobs, table.deadline.into())
            });
    });
    met
}

/// "the workable choice with the least busy total", ties settled by document 01's walk.
pub fn free_order(table: &Table) -> Option<Found> {
    let jobs = &table.jobs;
    let return_time = |job: usize| jobs[job].offload.map(|offload| offload.return_time);
    let mut away_order: Vec<usize> = (0..jobs.len()).collect();
    away_order.retain(|&job| jobs[job].offload.is_some());
    away_order.sort_by_key(|&job| Reverse(return_time(job)));

    let order_of = |choices: &[Choice]| {
        let is_away = |&job: &usize| choices[job] == Choice::Away;
        let here = (0..jobs.len()).filter(|job| !is_away(job));
        away_order
            .iter()
            .copied()
            .filter(is_away)
            .chain(here)
            .collect()
    };
    least_busy(table, &away_order, order_of)
}

/// The least busy choice whose jobs "keep table order". Among equally busy ones the walk
/// is over table order; the choices differ only where S = C.
pub fn given_order(table: &Table) -> Option<Found> {
    let table_order: Vec<usize> = (0..table.jobs.len()).collect();
    least_busy(table, &table_order, |_| table_order.clone())
}

fn least_busy(
    table: &Table,
    tie_order: &[usize],
    order_of: impl Fn(&[Choice]) -> Vec<usize>,
) -> Option<Found> {
    let jobs = &table.jobs;
    let mut best: Option<Found> = None;
    for choices in all_choices(jobs) {
        let order = order_of(&choices);
        let timetable = Timetable::packed(jobs, &choices, &order);
        if !timetable.meets(jobs, table.deadline.into()) {
            continue;
        }
        let spans = jobs.iter().zip(&choices);
        let found = Found {
            busy: spans.map(|(job, &choice)| span(job, choice)).sum(),
            last: last_finish(jobs, &timetable),
            order,
            choices,
        };
        if best
            .as_ref()
            .is_none_or(|best| beats(&found, best, tie_order))
        {
            best = Some(found);
        }
    }
    best
}

/// "Ties: walk the either jobs from the last in away order to the first; at the first place
/// where two choices differ, the one that keeps the job here wins."
fn beats(one: &Found, other: &Found, tie_order: &[usize]) -> bool {
    if one.busy != other.busy {
        return one.busy < other.busy;
    }
    for &job in tie_order.iter().rev() {
        if one.choices[job] != other.choices[job] {
            return one.choices[job] == Choice::Here;
        }
    }
    false
}

fn last_finish(jobs: &[Job], timetable: &Timetable) -> u32 {
    let finishes = (0..jobs.len()).map(|job| timetable.finish(jobs, job));
    finishes.max().unwrap_or(0)
}

/// Every choice that the jobs allow.
pub fn all_choices(jobs: &[Job]) -> impl Iterator<Item = Vec<Choice>> + '_ {
    let choice = |mask: u32, job: usize| match mask >> job & 1 {
        0 => Choice::Here,
        _ => Choice::Away,
    };
    (0..1_u32 << jobs.len())
        .map(move |mask| (0..jobs.len()).map(|job| choice(mask, job)).collect())
        .filter(|choices: &Vec<Choice>| {
            let mut both = jobs.iter().zip(choices);
            both.all(|(job, &choice)| job.chosen(choice).is_some())
        })
}

/// Calls on every order of the positions 0..count.
pub fn for_each_order(count: usize, visit: &mut impl FnMut(&[usize])) {
    fn extend(order: &mut Vec<usize>, count: usize, visit: &mut impl FnMut(&[usize])) {
        if order.len() == count {
            return visit(order);
        }
        for job in 0..count {
            if !order.contains(&job) {
                order.push(job);
                extend(order, count, visit);
                order.pop();
            }
        }
    }
    extend(&mut Vec::with_capacity(count), count, visit);
}
