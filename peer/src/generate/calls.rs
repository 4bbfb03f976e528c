//! Logs of calls on the frame runner: frames as a panel runs them with some wrong calls
//! between, and calls of all kinds in any order.

use super::{Damage, Random, E, E_PLAN};
use crate::frame::Frame;
use crate::plan::{self, Choice};
use crate::planner;
use crate::replay::Call;
use crate::table::Table;

/// Ordinary values, and the ends of what a value can be.
const VALUES: [f32; 8] = [
    1.0,
    -2.5,
    0.0,
    -0.0,
    f32::MAX,
    f32::MIN_POSITIVE / 4.0,
    6.75,
    -1.0e9,
];

const NOT_VALUES: [f32; 3] = [f32::NAN, f32::INFINITY, f32::NEG_INFINITY];

/// The begin of a frame with table E and its plan.
pub fn begin_e(number: u32) -> Call<'static> {
    Call::Begin {
        number,
        table: &E,
        plan: &E_PLAN,
    }
}

/// A log of some frames, whole calls alone.
pub fn frames(random: &mut Random, frames: usize) -> Vec<u8> {
    let mut writer = Writer::new(random);
    for _ in 0..frames {
        writer.frame();
    }
    writer.bytes
}

/// A log of frames of at least a length, whole calls alone.
pub fn frames_up_to(random: &mut Random, length: usize) -> Vec<u8> {
    let mut writer = Writer::new(random);
    while writer.bytes.len() < length {
        writer.frame();
    }
    writer.bytes
}

/// A log of calls of all kinds with any arguments, in any order.
pub fn wild(random: &mut Random, calls: usize) -> Vec<u8> {
    let mut writer = Writer::new(random);
    for _ in 0..calls {
        writer.any_call();
    }
    writer.bytes
}

/// Writes calls, and follows the frame that they make.
struct Writer<'a> {
    random: &'a mut Random,
    frame: Frame,
    bytes: Vec<u8>,
    /// What the next frame is begun with: a panel runs the same plan many times.
    table: Table,
    plan: Vec<u8>,
    /// The number, the deadline and the jobs of the last frame begun.
    number: u32,
    deadline: u16,
    ids: Vec<u8>,
    clock: u16,
    out: Vec<u8>,
}

impl Writer<'_> {
    /// Before the first frame. A few logs start close to the largest frame number.
    fn new(random: &mut Random) -> Writer<'_> {
        let number = match random.below(16) {
            0 => u32::MAX - random.below(5) as u32,
            1 => random.number() as u32,
            _ => 0,
        };
        Writer {
            random,
            frame: Frame::idle(),
            bytes: Vec::new(),
            table: Table {
                deadline: 1,
                jobs: Vec::new(),
            },
            plan: plan::write([]),
            number,
            deadline: 0,
            ids: Vec::new(),
            clock: 0,
            out: Vec::new(),
        }
    }

    fn frame(&mut self) {
        self.begin();
        let mut steps = 0;
        while steps < 40 + 2 * self.ids.len() && (self.on_panel().is_some() || !self.out.is_empty())
        {
            steps += 1;
            match self.random.below(16) {
                0 | 1 => Call::Next.write(&mut self.bytes),
                2 | 3 => self.read(),
                4..=6 if !self.out.is_empty() => self.give_back(),
                7 => self.any_call(),
                // Now and then an answer is never given.
                8 | 9 if self.on_panel().is_none() => break,
                _ => self.span_end(),
            }
        }
        self.close();
        for _ in 0..=self.ids.len() {
            self.read();
        }
        if self.random.one_in(3) {
            self.any_call();
        }
    }

    fn any_call(&mut self) {
        match self.random.below(8) {
            0 => self.begin(),
            1 => Call::Next.write(&mut self.bytes),
            2 | 3 => self.span_end(),
            4 | 5 => self.give_back(),
            6 => self.close(),
            _ => self.read(),
        }
    }

    fn begin(&mut self) {
        if self.random.one_in(3) {
            self.table = self.new_table();
            self.plan = self.new_plan();
        }
        let mut bytes = self.table.write();
        if self.random.one_in(16) {
            let damage = self.random.pick(&Damage::ALL);
            damage.apply(self.random, &mut bytes);
        }
        let number = match self.random.below(64) {
            0..=3 => self.number,
            4..=6 => self.number.wrapping_sub(1),
            7 => self.random.number() as u32,
            _ => self.number.wrapping_add(1 + self.random.below(3) as u32),
        };
        let call = Call::Begin {
            number,
            table: &bytes,
            plan: &self.plan,
        };
        call.write(&mut self.bytes);
        if self.frame.begin(number, &bytes, &self.plan).is_ok() {
            self.number = number;
            self.deadline = self.table.deadline;
            self.ids = self.table.jobs.iter().map(|job| job.id).collect();
            self.clock = 0;
            self.out.clear();
        }
    }

    fn new_table(&mut self) -> Table {
        let jobs = self.random.below(7);
        let mut table = match self.random.one_in(24) {
            true => super::table_at_limits(self.random),
            false => super::table(self.random, jobs, 12),
        };
        if !self.random.one_in(4) {
            super::to_the_edge(self.random, &mut table);
        }
        table
    }

    /// The free-order plan if there is one, now and then any other.
    fn new_plan(&mut self) -> Vec<u8> {
        let mut area = [0; Table::LONGEST_PLAN];
        match planner::plan_free(&self.table.write(), &mut area) {
            Ok(planned) if !self.random.one_in(4) => area[..planned.length].to_vec(),
            _ => super::plan(self.random, &self.table),
        }
    }

    fn span_end(&mut self) {
        let on_panel = self.on_panel();
        let id = match on_panel {
            Some((id, _)) if !self.random.one_in(12) => id,
            _ => self.some_id(),
        };
        let (time, value) = (self.time(), self.value());
        Call::SpanEnd { id, time, value }.write(&mut self.bytes);
        if self.frame.span_end(id, time, value).is_ok() {
            self.clock = time;
            if let Some((id, Choice::Away)) = on_panel {
                self.out.push(id);
            }
        }
    }

    fn give_back(&mut self) {
        let id = match self.out.is_empty() || self.random.one_in(12) {
            true => self.some_id(),
            false => self.random.pick(&self.out),
        };
        let number = match self.random.below(24) {
            0 => self.number.wrapping_sub(1),
            1 => self.random.number() as u32,
            _ => self.number,
        };
        let (time, value) = (self.time(), self.value());
        let call = Call::Return {
            number,
            id,
            time,
            value,
        };
        call.write(&mut self.bytes);
        if self.frame.give_back(number, id, time, value).is_ok() {
            self.clock = time;
            self.out.retain(|&out| out != id);
        }
    }

    fn close(&mut self) {
        let time = match self.random.below(8) {
            0 => self.time(),
            1 => self.deadline.saturating_sub(1),
            _ => {
                let later = self.random.within(0..=3);
                self.deadline.max(self.clock).saturating_add(later)
            }
        };
        Call::Close { time }.write(&mut self.bytes);
        if self.frame.close(time).is_ok() {
            self.out.clear();
        }
    }

    fn read(&mut self) {
        let id = self.some_id();
        Call::Read { id }.write(&mut self.bytes);
    }

    fn on_panel(&self) -> Option<(u8, Choice)> {
        let record = self.frame.next().ok().flatten()?;
        Some((record.id, record.choice))
    }

    /// An id of the last frame begun, now and then any other.
    fn some_id(&mut self) -> u8 {
        match self.ids.is_empty() || self.random.one_in(12) {
            true => self.random.byte(),
            false => self.random.pick(&self.ids),
        }
    }

    /// A time a little after the clock, now and then before it or far away.
    fn time(&mut self) -> u16 {
        match self.random.below(48) {
            0 | 1 => self.clock.saturating_sub(1),
            2 => self.random.number() as u16,
            3 => 0,
            4 => u16::MAX - self.random.below(2) as u16,
            _ => self.clock.saturating_add(self.random.within(0..=8)),
        }
    }

    fn value(&mut self) -> f32 {
        match self.random.below(16) {
            0 => self.random.pick(&NOT_VALUES),
            1 => f32::from_bits(self.random.number() as u32),
            _ => self.random.pick(&VALUES),
        }
    }
}
