//! The lister's text.

use std::fmt::Write;

use crate::planner;
use crate::refusal::Refusal;
use crate::run;
use crate::table::Table;

/// The lister's text for a table: the free-order plan, or the refusal alone.
pub fn listing(table: &[u8]) -> String {
    match plan_lines(table) {
        Ok(lines) => lines,
        Err(refusal) => format!("{refusal}\n"),
    }
}

/// "Job lines: id, choice, start, span end, finish. First line: D, number of jobs; last
/// line: busy total, last finish. Job lines stand in plan order".
fn plan_lines(table: &[u8]) -> Result<String, Refusal> {
    let table = Table::read(table)?;
    let listed = planner::free_order(&table).ok_or(Refusal::NoTimetable)?;

    let mut lines = format!("frame {} jobs {}\n", table.deadline, table.jobs.len());
    for stay in run::stays(&listed) {
        let (id, choice) = (stay.chosen.id, stay.chosen.choice);
        let (start, end, finish) = (stay.start, stay.end, stay.finish);
        writeln!(lines, "{id} {choice} {start} {end} {finish}").expect("a string takes all");
    }
    let (busy, last) = (run::busy(&listed), run::last(&listed));
    writeln!(lines, "busy {busy} last {last}").expect("a string takes all");
    Ok(lines)
}
