//! The frame runner.

use crate::check;
use crate::plan::{self, Choice, Record};
use crate::refusal::Refusal;
use crate::table::Table;

/// "A 32-bit float value always travels with the number of its frame, bits unchanged,
/// negative zero included."
#[derive(Clone, Copy, Debug, PartialEq)]
pub struct Sent {
    /// The value.
    pub value: f32,
    /// The number of the frame for which it was sent.
    pub frame: u32,
}

/// What a read finds: "fresh with its value, pending, late, or missing (closed, never
/// reported)".
#[derive(Clone, Copy, Debug, PartialEq)]
pub enum Reading {
    /// The job's own value, reported by the deadline.
    Fresh(Sent),
    /// The frame is open and the job has not reported.
    Pending,
    /// The job reported after the deadline.
    Late,
    /// The frame is closed and the job never reported.
    Missing,
}

/// How far a job of the frame has come.
#[derive(Clone, Copy, Debug, PartialEq)]
enum Progress {
    /// Its span has not ended.
    Waiting,
    /// It is away, and its answer is awaited.
    Out,
    /// It reported by the deadline.
    Reported(f32),
    /// It reported after the deadline.
    Late,
}

#[derive(Clone, Copy, Debug, PartialEq)]
struct Place {
    record: Record,
    progress: Progress,
}

/// What is known of a frame that was begun.
#[derive(Clone, Debug, PartialEq)]
struct Begun {
    number: u32,
    deadline: u16,
    /// The time of the last accepted event.
    clock: u16,
    /// The jobs in plan order.
    places: Vec<Place>,
    /// How many spans have ended; the place of the job now on the panel.
    ended: usize,
}

/// "Phases: idle, open, closed."
#[derive(Clone, Debug, PartialEq)]
enum Phase {
    Idle,
    Open(Begun),
    Closed(Begun),
}

/// The frame's record. Only its calls alter it, so that it is sound at all times.
#[derive(Clone, Debug, PartialEq)]
pub struct Frame {
    phase: Phase,
}

impl Default for Frame {
    fn default() -> Self {
        Frame::idle()
    }
}

impl Frame {
    /// The record before the first frame.
    pub fn idle() -> Self {
        Frame { phase: Phase::Idle }
    }

    /// Begin: "PHASE if open; the check's refusals; NUMBER (never from idle). Opens with
    /// the time at 0 and no values."
    pub fn begin(&mut self, number: u32, table: &[u8], plan: &[u8]) -> Result<(), Refusal> {
        let last_begun = match &self.phase {
            Phase::Idle => None,
            Phase::Open(_) => return Err(Refusal::Phase),
            Phase::Closed(begun) => Some(begun.number),
        };
        let table = Table::read(table)?;
        let plan = plan::read(plan)?;
        check::listed(&table, &plan)?;
        if last_begun.is_some_and(|last| number <= last) {
            return Err(Refusal::Number);
        }
        let waiting = |record| Place {
            record,
            progress: Progress::Waiting,
        };
        self.phase = Phase::Open(Begun {
            number,
            deadline: table.deadline,
            clock: 0,
            places: plan.into_iter().map(waiting).collect(),
            ended: 0,
        });
        Ok(())
    }

    /// Next: "PHASE unless open; else the job now on the panel with its choice, or none
    /// left."
    pub fn next(&self) -> Result<Option<Record>, Refusal> {
        match &self.phase {
            Phase::Open(begun) => Ok(begun.places.get(begun.ended).map(|place| place.record)),
            _ => Err(Refusal::Phase),
        }
    }

    /// Span end: "PHASE unless open; CLOCK; WHO unless it is the job now on the panel; for
    /// a here job VALUE. A here job gets its value if time <= D, else is late. An away job
    /// is now out, its value argument ignored. The next job starts at this time."
    pub fn span_end(&mut self, id: u8, time: u16, value: f32) -> Result<(), Refusal> {
        let begun = self.open()?;
        begun.judge_clock(time)?;
        let on_panel = begun.places.get_mut(begun.ended);
        let place = on_panel
            .filter(|place| place.record.id == id)
            .ok_or(Refusal::Who)?;
        place.progress = match place.record.choice {
            Choice::Here => reported(value, time, begun.deadline)?,
            Choice::Away => Progress::Out,
        };
        begun.ended += 1;
        begun.clock = time;
        Ok(())
    }

    /// Return: "PHASE unless open; NUMBER; CLOCK; WHO unless that job is out; VALUE. Value
    /// if time <= D, else late; no longer out."
    pub fn give_back(&mut self, number: u32, id: u8, time: u16, value: f32) -> Result<(), Refusal> {
        let begun = self.open()?;
        if number != begun.number {
            return Err(Refusal::Number);
        }
        begun.judge_clock(time)?;
        let is_out = |place: &&mut Place| place.progress == Progress::Out;
        let named = begun.places.iter_mut().find(|place| place.record.id == id);
        let place = named.filter(is_out).ok_or(Refusal::Who)?;
        place.progress = reported(value, time, begun.deadline)?;
        begun.clock = time;
        Ok(())
    }

    /// Close: "PHASE unless open; CLOCK; EARLY if time < D."
    pub fn close(&mut self, time: u16) -> Result<(), Refusal> {
        let begun = self.open()?;
        begun.judge_clock(time)?;
        if time < begun.deadline {
            return Err(Refusal::Early);
        }
        if let Phase::Open(begun) = std::mem::replace(&mut self.phase, Phase::Idle) {
            self.phase = Phase::Closed(begun);
        }
        Ok(())
    }

    /// Read: "PHASE if idle; WHO if not in the table; else fresh with its value, pending,
    /// late, or missing (closed, never reported)."
    pub fn read(&self, id: u8) -> Result<Reading, Refusal> {
        let (begun, unreported) = match &self.phase {
            Phase::Idle => return Err(Refusal::Phase),
            Phase::Open(begun) => (begun, Reading::Pending),
            Phase::Closed(begun) => (begun, Reading::Missing),
        };
        // The plan passed the check: it names exactly the jobs of the table.
        let place = begun.places.iter().find(|place| place.record.id == id);
        Ok(match place.ok_or(Refusal::Who)?.progress {
            Progress::Waiting | Progress::Out => unreported,
            Progress::Reported(value) => Reading::Fresh(Sent {
                value,
                frame: begun.number,
            }),
            Progress::Late => Reading::Late,
        })
    }

    fn open(&mut self) -> Result<&mut Begun, Refusal> {
        match &mut self.phase {
            Phase::Open(begun) => Ok(begun),
            _ => Err(Refusal::Phase),
        }
    }
}

impl Begun {
    /// CLOCK: "time below that of the last accepted event".
    fn judge_clock(&self, time: u16) -> Result<(), Refusal> {
        if time < self.clock {
            return Err(Refusal::Clock);
        }
        Ok(())
    }
}

/// A value that comes in at a time: VALUE if it is "not a number, or infinite".
fn reported(value: f32, time: u16, deadline: u16) -> Result<Progress, Refusal> {
    if !value.is_finite() {
        return Err(Refusal::Value);
    }
    Ok(if time <= deadline {
        Progress::Reported(value)
    } else {
        Progress::Late
    })
}
