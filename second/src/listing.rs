//! The listing of document 01's "A listing in full".

use crate::plan::Plan;
use crate::text::{self, write_line};

/// What the planning program prints for a text: the listing of its plan, or one line with the
/// number of its refusal.
pub fn listing(text: &[u8]) -> String {
    match text::read(text) {
        Err(number) => write_line(&[i64::from(number)]),
        Ok(nest) => listing_of_plan(&Plan::new(&nest)),
    }
}

/// The line of counts and a line for each iteration in loop order.
fn listing_of_plan(plan: &Plan) -> String {
    let mut listing = write_line(&counts(plan));
    for rank in 0..plan.iterations.count() {
        listing += &write_line(&entries(plan, rank));
    }
    listing
}

/// The first line: how many iterations, steps, blocks, processors in use and messages there are.
fn counts(plan: &Plan) -> [i64; 5] {
    [
        plan.iterations.count() as i64,
        plan.partition.step_count,
        plan.partition.block_count() as i64,
        plan.mapping.used_processor_count() as i64,
        plan.mapping.messages.len() as i64,
    ]
}

/// An iteration's line: its rank, then what the plan gives it.
fn entries(plan: &Plan, rank: usize) -> [i64; 5] {
    [
        rank as i64,
        plan.partition.steps[rank],
        plan.partition.blocks[rank] as i64,
        plan.mapping.processors[rank] as i64,
        plan.values[rank],
    ]
}
