//! The free-order plan, the given-order plan and the least deadline.

use std::cmp::Reverse;

use crate::plan::{self, Record};
use crate::refusal::Refusal;
use crate::run;
use crate::table::{Chosen, Table};

/// "The planner's own work rows have 4,001 entries, one for each tick from 0 to 4,000."
const COLUMNS: usize = Table::LARGEST_TIME as usize + 1;

/// The here total of a column that no choice reaches. It is above every sum of 32 times,
/// and 32 times can still be added to it.
const UNREACHED: u32 = u32::MAX / 2;

/// "The answer also gives plan length, busy total and last finish".
#[derive(Clone, Copy, Debug, PartialEq, Eq)]
pub struct Planned {
    /// The plan's length in bytes.
    pub length: usize,
    /// The sum of its spans.
    pub busy: u32,
    /// The latest of its finishes.
    pub last: u32,
}

/// Writes the free-order plan at the front of the area.
pub fn plan_free(table: &[u8], area: &mut [u8]) -> Result<Planned, Refusal> {
    write_plan(table, area, free_order)
}

/// Writes the given-order plan at the front of the area.
pub fn plan_given(table: &[u8], area: &mut [u8]) -> Result<Planned, Refusal> {
    write_plan(table, area, given_order)
}

/// "the smallest D in 1..4,000 that some timetable meets, the table's own D being
/// ignored; NONE if 4,000 is not met."
pub fn least_deadline(table: &[u8]) -> Result<u16, Refusal> {
    let table = Table::read(table)?;
    let either = Either::in_away_order(&table);
    let met = |deadline| least_busy(&table, &either, deadline).is_some();

    let (mut low, mut high) = (1, Table::LARGEST_TIME);
    if !met(high) {
        return Err(Refusal::NoTimetable);
    }
    while low < high {
        let middle = low + (high - low) / 2;
        if met(middle) {
            high = middle;
        } else {
            low = middle + 1;
        }
    }
    Ok(high)
}

/// "Planners judge ROOM, then the table, then NONE; success writes the plan at the front
/// of the area and leaves the rest".
fn write_plan(
    table: &[u8],
    area: &mut [u8],
    planner: fn(&Table) -> Option<Vec<Chosen>>,
) -> Result<Planned, Refusal> {
    if area.len() < Table::LONGEST_PLAN {
        return Err(Refusal::Room);
    }
    let table = Table::read(table)?;
    let listed = planner(&table).ok_or(Refusal::NoTimetable)?;
    let bytes = plan::write(
        listed
            .iter()
            .map(|&Chosen { id, choice, .. }| Record { id, choice }),
    );
    area[..bytes.len()].copy_from_slice(&bytes);
    Ok(Planned {
        length: bytes.len(),
        busy: run::busy(&listed),
        last: run::last(&listed),
    })
}

/// The free-order plan: "The plan lists away jobs in away order, then here jobs in table
/// order."
pub fn free_order(table: &Table) -> Option<Vec<Chosen>> {
    let either = Either::in_away_order(table);
    let away_mask = least_busy(table, &either, table.deadline)?;

    let mut listed = Vec::with_capacity(table.jobs.len());
    let mut is_away = [false; Table::MOST_JOBS];
    for (bit, job) in either.iter().enumerate() {
        if away_mask >> bit & 1 == 1 {
            is_away[job.position] = true;
            listed.extend(table.jobs[job.position].away());
        }
    }
    let kept = table.jobs.iter().zip(is_away).filter(|(_, away)| !away);
    listed.extend(kept.map(|(job, _)| job.here()));
    Some(listed)
}

/// The given-order plan: "at time t a job is sent away if it is an either job, S < C and
/// t + S + I <= D; else kept here if t + C <= D; else NONE."
pub fn given_order(table: &Table) -> Option<Vec<Chosen>> {
    let deadline = u32::from(table.deadline);
    let mut listed = Vec::with_capacity(table.jobs.len());
    let mut now = 0;
    for job in &table.jobs {
        let here = job.here();
        let on_time = |chosen: &Chosen| now + chosen.span + chosen.until_finish <= deadline;
        let away = job.away().filter(|away| away.span < here.span);
        let chosen = match away.filter(on_time) {
            Some(away) => away,
            None if on_time(&here) => here,
            None => return None,
        };
        now += chosen.span;
        listed.push(chosen);
    }
    Some(listed)
}

/// An either job as the recurrence sees it.
struct Either {
    position: usize,
    local: u32,
    setup: usize,
    return_time: usize,
}

impl Either {
    /// "Away order: either jobs by falling I, equal I by table position".
    fn in_away_order(table: &Table) -> Vec<Either> {
        let mut either = Vec::with_capacity(table.jobs.len());
        for (position, job) in table.jobs.iter().enumerate() {
            if let Some(offload) = job.offload {
                either.push(Either {
                    position,
                    local: job.local.into(),
                    setup: offload.setup.into(),
                    return_time: offload.return_time.into(),
                });
            }
        }
        either.sort_by_key(|job| Reverse(job.return_time));
        either
    }
}

/// "the workable choice with the least busy total", as a mask: bit k is set if the either
/// job at place k of the away order goes away. Of two masks with the same busy total the
/// smaller one wins, since the first difference from the last job in away order to the
/// first is the highest bit in which they differ.
///
/// Column t holds the least here total of the choices whose setup total is exactly t,
/// and the smallest mask that has it. A choice is workable if each away job is back by
/// D, t + I <= D when its setup ends at t, and its busy total is at most D.
fn least_busy(table: &Table, either: &[Either], deadline: u16) -> Option<u32> {
    let last_column = usize::from(deadline);
    let mut totals = [UNREACHED; COLUMNS];
    let mut masks = [0_u32; COLUMNS];
    totals[0] = here_only_total(table);

    for (place, job) in either.iter().enumerate() {
        // Sent away, the job ends its setup in one of the columns setup..in_time: in a
        // later one it would not be back by D.
        let in_time = (last_column + 1).saturating_sub(job.return_time);
        let setup = job.setup.min(in_time);

        for total in &mut totals[in_time..=last_column] {
            *total += job.local;
        }
        for t in (setup..in_time).rev() {
            let here = totals[t] + job.local;
            let away = totals[t - setup];
            // Kept here, the job leaves the mask the smaller: it wins a tie.
            if away < here {
                totals[t] = away;
                masks[t] = masks[t - setup] | 1 << place;
            } else {
                totals[t] = here;
            }
        }
        for total in &mut totals[..setup] {
            *total += job.local;
        }
    }

    let columns = totals[..=last_column].iter().zip(&masks);
    let (busy, mask) = (0..)
        .zip(columns)
        .map(|(setups, (here, &mask))| (setups + here, mask))
        .min()?;
    (busy <= u32::from(deadline)).then_some(mask)
}

fn here_only_total(table: &Table) -> u32 {
    let here_only = table.jobs.iter().filter(|job| job.offload.is_none());
    here_only.map(|job| u32::from(job.local)).sum()
}
