//! A loop nest as both planners take it, and the nests that are timed.

pub use rowlock::Nest;

/// A nest with limits 0 to extent - 1 for each loop, and one boundary value for all dependences.
pub fn with_extents(extents: &[i64], time: &[i64], dependences: &[&[i64]], cube: i64) -> Nest {
    let mut nest = Nest {
        depth: extents.len() as i64,
        count: dependences.len() as i64,
        cube,
        boundaries: [7; Nest::MAX_DEPENDENCES],
        weights: [3, 5, 2, 9, 4, 1, 6, 8],
        ..Nest::default()
    };
    for (k, extent) in extents.iter().enumerate() {
        nest.upper[k] = extent - 1;
        nest.time[k] = time[k];
    }
    for (i, dependence) in dependences.iter().enumerate() {
        nest.dependences[i * Nest::MAX_DEPTH..][..dependence.len()].copy_from_slice(dependence);
    }
    nest
}

/// The tables and counts of a plan.
#[derive(Clone, PartialEq, Eq, Debug)]
pub struct Tables {
    pub steps: Vec<u32>,
    pub blocks: Vec<u16>,
    pub processors: Vec<u8>,
    pub values: Vec<u16>,
    pub counts: [usize; 5],
}

impl Tables {
    /// Steps, blocks, processors and values of so many entries each, with a number in each that no
    /// planner writes everywhere.
    pub fn new(entries: [usize; 4]) -> Tables {
        Tables {
            steps: vec![77; entries[0]],
            blocks: vec![77; entries[1]],
            processors: vec![77; entries[2]],
            values: vec![77; entries[3]],
            counts: [77; 5],
        }
    }
}

/// A move: a processor computes its next iteration, or the message for a rank along a dependence is
/// delivered.
#[derive(Clone, Copy, PartialEq, Eq, Debug)]
pub enum Move {
    Compute(usize),
    Deliver(usize, usize),
}

/// The answer of a move: its number, and the rank and value computed, or the rank and dependence
/// number delivered; zeros where refused.
#[derive(Clone, Copy, PartialEq, Eq, Debug)]
pub struct Answer {
    pub number: u8,
    pub made: [usize; 2],
}

/// The state of a run.
#[derive(Clone, PartialEq, Eq, Debug)]
pub struct State {
    pub values: Vec<u16>,
    pub done: Vec<u8>,
    pub delivered: Vec<u8>,
}

impl State {
    /// A fresh state of so many iterations.
    pub fn fresh(iterations: usize) -> State {
        State {
            values: vec![77; iterations],
            done: vec![0; iterations],
            delivered: vec![0; iterations],
        }
    }
}
