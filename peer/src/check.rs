//! The plan check.

use crate::plan::{self, Record};
use crate::refusal::Refusal;
use crate::run;
use crate::table::{Chosen, Table};

/// "a pass returns that run's last finish and busy total."
#[derive(Clone, Copy, Debug, PartialEq, Eq)]
pub struct Passed {
    /// The latest finish of the run at full entries.
    pub last: u32,
    /// The sum of its spans.
    pub busy: u32,
}

/// Judges a proposed plan: "Order: the table's refusals, the plan's, then record by record
/// STRANGER, KEPT; then LEFT; then LATE."
pub fn check_plan(table: &[u8], plan: &[u8]) -> Result<Passed, Refusal> {
    let table = Table::read(table)?;
    let plan = plan::read(plan)?;
    let listed = listed(&table, &plan)?;
    Ok(Passed {
        last: run::last(&listed),
        busy: run::busy(&listed),
    })
}

/// The plan's jobs in plan order, if the plan passes the check.
pub(crate) fn listed(table: &Table, plan: &[Record]) -> Result<Vec<Chosen>, Refusal> {
    let mut listed = Vec::with_capacity(plan.len());
    for record in plan {
        let job = table.job(record.id).ok_or(Refusal::Stranger)?;
        listed.push(job.chosen(record.choice).ok_or(Refusal::Kept)?);
    }
    // The ids of each file are distinct, so a plan as long as its table names every job.
    if listed.len() < table.jobs.len() {
        return Err(Refusal::Left);
    }
    // "A run is on time if every finish is at most D. LATE judges the run at full entries".
    if run::last(&listed) > table.deadline.into() {
        return Err(Refusal::Late);
    }
    Ok(listed)
}
