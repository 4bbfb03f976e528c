//! The run of a plan at full entries.

use crate::table::Chosen;

/// A job's stay on the panel.
#[derive(Clone, Copy, Debug, PartialEq, Eq)]
pub struct Stay {
    /// The job and its choice.
    pub chosen: Chosen,
    /// The span's start.
    pub start: u32,
    /// The span's end.
    pub end: u32,
    /// "A job finishes at start + C if here, at start + S + I if away."
    pub finish: u32,
}

/// The stays of the listed jobs: "A *run* of a plan puts the listed jobs back to back
/// from tick 0".
pub fn stays(listed: &[Chosen]) -> impl Iterator<Item = Stay> + '_ {
    listed.iter().scan(0, |now, &chosen| {
        let start = *now;
        let end = start + chosen.span;
        *now = end;
        Some(Stay {
            chosen,
            start,
            end,
            finish: end + chosen.until_finish,
        })
    })
}

/// "Its *busy total* is the sum of its spans."
pub fn busy(listed: &[Chosen]) -> u32 {
    listed.iter().map(|chosen| chosen.span).sum()
}

/// The "last finish (latest of all finishes, 0 for no jobs)".
pub fn last(listed: &[Chosen]) -> u32 {
    stays(listed).map(|stay| stay.finish).max().unwrap_or(0)
}
