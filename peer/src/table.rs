//! Jobs, and the bytes of a table.

use crate::plan::Choice;
use crate::records::Records;
use crate::refusal::Refusal;

const FRAME: u8 = 0x10;
const HERE_ONLY: u8 = 0x11;
const EITHER: u8 = 0x12;
const END: u8 = 0x1F;

/// "An *either* job also has a setup time S and a return time I."
#[derive(Clone, Copy, Debug, PartialEq, Eq)]
pub struct Offload {
    /// S: the span on the panel if the job is sent away.
    pub setup: u16,
    /// I: the time from the end of that span to the answer.
    pub return_time: u16,
}

/// "A job has an id 0..255 and a local time C."
#[derive(Clone, Copy, Debug, PartialEq, Eq)]
pub struct Job {
    /// The id, distinct within a table.
    pub id: u8,
    /// C: the span on the panel if the job is kept here.
    pub local: u16,
    /// S and I of an either job; "a *here-only* job has neither".
    pub offload: Option<Offload>,
}

/// A job whose choice is made.
#[derive(Clone, Copy, Debug, PartialEq, Eq)]
pub struct Chosen {
    /// The job's id.
    pub id: u8,
    /// Here or away.
    pub choice: Choice,
    /// "The job's span on the panel is C long if here, S long if away."
    pub span: u32,
    /// From the span's end to the finish: nothing if here, I if away.
    pub until_finish: u32,
}

impl Job {
    /// The job kept here.
    pub fn here(&self) -> Chosen {
        Chosen {
            id: self.id,
            choice: Choice::Here,
            span: self.local.into(),
            until_finish: 0,
        }
    }

    /// The job sent away: "here-only jobs stay here".
    pub fn away(&self) -> Option<Chosen> {
        self.offload.map(|offload| Chosen {
            id: self.id,
            choice: Choice::Away,
            span: offload.setup.into(),
            until_finish: offload.return_time.into(),
        })
    }

    /// The job with the given choice, if it may have it.
    pub fn chosen(&self, choice: Choice) -> Option<Chosen> {
        match choice {
            Choice::Here => Some(self.here()),
            Choice::Away => self.away(),
        }
    }

    fn in_range(&self) -> bool {
        let Offload { setup, return_time } = self.offload.unwrap_or(Offload {
            setup: 0,
            return_time: 0,
        });
        self.local.max(setup).max(return_time) <= Table::LARGEST_TIME
    }
}

/// "All jobs start at tick 0 of a frame and share one deadline."
#[derive(Clone, Debug, PartialEq, Eq)]
pub struct Table {
    /// The deadline D.
    pub deadline: u16,
    /// The jobs in table order.
    pub jobs: Vec<Job>,
}

impl Table {
    /// Most jobs of a table.
    pub const MOST_JOBS: usize = 32;
    /// Largest time, in ticks.
    pub const LARGEST_TIME: u16 = 4000;
    /// Longest table, in bytes.
    pub const LONGEST: usize = 260;
    /// Longest plan, in bytes.
    pub const LONGEST_PLAN: usize = 65;

    /// "A table is one 0x10 first, 0 to 32 jobs with distinct ids, one 0x1F, nothing
    /// after." Within one record: "no byte left SHORT; kind unknown or not allowed here
    /// KIND; body cut SHORT; 33rd job MANY; RANGE; TWICE."
    pub fn read(bytes: &[u8]) -> Result<Table, Refusal> {
        let mut records = Records::new(bytes);
        let place = records.place();
        if records.kind()? != FRAME {
            return Err(Refusal::Kind(place));
        }
        let deadline = u16::from_le_bytes(records.body()?);
        if deadline == 0 || deadline > Table::LARGEST_TIME {
            return Err(Refusal::Range(place));
        }

        let mut jobs = Vec::with_capacity(Table::MOST_JOBS);
        let mut used = [false; 256];
        loop {
            let place = records.place();
            let job = match records.kind()? {
                HERE_ONLY => here_only(records.body()?),
                EITHER => either(records.body()?),
                END => {
                    records.end()?;
                    return Ok(Table { deadline, jobs });
                }
                _ => return Err(Refusal::Kind(place)),
            };
            if jobs.len() == Table::MOST_JOBS {
                return Err(Refusal::Many(place));
            }
            if !job.in_range() {
                return Err(Refusal::Range(place));
            }
            if used[usize::from(job.id)] {
                return Err(Refusal::Twice(place));
            }
            used[usize::from(job.id)] = true;
            jobs.push(job);
        }
    }

    /// The table's bytes. A table outside the limits is written as it stands.
    pub fn write(&self) -> Vec<u8> {
        let mut bytes = Vec::with_capacity(Table::LONGEST);
        bytes.push(FRAME);
        bytes.extend(self.deadline.to_le_bytes());
        for job in &self.jobs {
            bytes.push(if job.offload.is_some() {
                EITHER
            } else {
                HERE_ONLY
            });
            bytes.push(job.id);
            bytes.extend(job.local.to_le_bytes());
            if let Some(Offload { setup, return_time }) = job.offload {
                bytes.extend(setup.to_le_bytes());
                bytes.extend(return_time.to_le_bytes());
            }
        }
        bytes.push(END);
        bytes
    }

    /// The job of the given id.
    pub fn job(&self, id: u8) -> Option<&Job> {
        self.jobs.iter().find(|job| job.id == id)
    }
}

fn here_only([id, c0, c1]: [u8; 3]) -> Job {
    Job {
        id,
        local: u16::from_le_bytes([c0, c1]),
        offload: None,
    }
}

fn either([id, c0, c1, s0, s1, i0, i1]: [u8; 7]) -> Job {
    Job {
        id,
        local: u16::from_le_bytes([c0, c1]),
        offload: Some(Offload {
            setup: u16::from_le_bytes([s0, s1]),
            return_time: u16::from_le_bytes([i0, i1]),
        }),
    }
}
