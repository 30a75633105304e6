//! The proved planner, as the static library exports it.

use rowlock::exported;

use crate::nest::{Answer, Move, Nest, State, Tables};

/// The values of the sequential loop; answers 0 or the number of a refusal.
pub fn fill(nest: &Nest, values: &mut [u16]) -> u8 {
    exported::fill(nest, values)
}

/// To how many other blocks a block may send; answers 0 or the number of a refusal.
pub fn most_receivers(nest: &Nest, most: &mut usize) -> u8 {
    exported::most_receivers(nest, most)
}

/// The plan of a nest; answers 0 or the number of a refusal.
pub fn plan(nest: &Nest, tables: &mut Tables) -> u8 {
    let Tables { steps, blocks, processors, values, counts } = tables;
    exported::plan(nest, steps, blocks, processors, values, counts)
}

/// Makes one move.
pub fn make_move(nest: &Nest, request: Move, tables: &Tables, state: &mut State) -> Answer {
    let numbers = match request {
        Move::Compute(processor) => [exported::COMPUTE, processor, 0],
        Move::Deliver(rank, dependence) => [exported::DELIVER, rank, dependence],
    };
    let Tables { steps, processors, .. } = tables;
    let State { values, done, delivered } = state;
    let mut made = [0; 2];
    let number =
        exported::make_move(nest, numbers, steps, processors, values, done, delivered, &mut made);
    Answer { number, made }
}
