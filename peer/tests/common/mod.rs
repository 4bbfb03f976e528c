//! Tables and plans that several tests use.

#![allow(dead_code)]

#[allow(unused_imports)]
pub use peer::generate::{E, E_PLAN};
use peer::planner::{plan_free, plan_given, Planned};
use peer::refusal::Refusal;
use peer::table::{Job, Offload, Table};

pub fn e(deadline: u16) -> Vec<u8> {
    Table {
        deadline,
        ..Table::read(&E).unwrap()
    }
    .write()
}

pub fn either(id: u8, local: u16, setup: u16, return_time: u16) -> Job {
    Job {
        id,
        local,
        offload: Some(Offload { setup, return_time }),
    }
}

pub fn here_only(id: u8, local: u16) -> Job {
    Job {
        id,
        local,
        offload: None,
    }
}

pub fn table(deadline: u16, jobs: &[Job]) -> Vec<u8> {
    Table {
        deadline,
        jobs: jobs.to_vec(),
    }
    .write()
}

/// A planner's plan and figures; fails if it writes where it may not.
fn planned(
    planner: fn(&[u8], &mut [u8]) -> Result<Planned, Refusal>,
    table: &[u8],
) -> Result<(Vec<u8>, Planned), Refusal> {
    const FILL: u8 = 0xA5;
    let mut area = [FILL; 80];
    let answer = planner(table, &mut area);
    let length = answer.map_or(0, |planned| planned.length);
    assert!(area[length..].iter().all(|&byte| byte == FILL));
    Ok((area[..length].to_vec(), answer?))
}

pub fn free(table: &[u8]) -> Result<(Vec<u8>, Planned), Refusal> {
    planned(plan_free, table)
}

pub fn given(table: &[u8]) -> Result<(Vec<u8>, Planned), Refusal> {
    planned(plan_given, table)
}

/// The free-order plan's bytes alone.
pub fn free_plan(table: &[u8]) -> Result<Vec<u8>, Refusal> {
    free(table).map(|(plan, _)| plan)
}
