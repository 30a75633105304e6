//! The entries, with results.

use std::ops::Range;

use crate::{exported, Nest, Refusal};

/// The counts of a plan.
#[derive(Clone, Copy, Debug, PartialEq, Eq)]
pub struct Counts {
    pub iterations: usize,
    /// Each step has an iteration.
    pub steps: usize,
    pub blocks: usize,
    /// Processors that hold an iteration.
    pub processors: usize,
    pub messages: usize,
}

/// A move. Any numbers may be asked for.
#[derive(Clone, Copy, Debug, PartialEq, Eq)]
pub enum Move {
    /// A processor computes its next iteration.
    Compute { processor: usize },
    /// The message for an iteration along a dependence is delivered.
    Deliver { rank: usize, dependence: usize },
}

/// What a move did.
#[derive(Clone, Copy, Debug, PartialEq, Eq)]
pub enum Made {
    /// The iteration of this rank was computed, and has this value.
    Computed { rank: usize, value: u16 },
    /// The message for the iteration of this rank along this dependence was delivered.
    Delivered { rank: usize, dependence: usize },
}

/// Whether a nest is accepted. Refusals 2 to 13.
pub fn check(nest: &Nest) -> Result<(), Refusal> {
    Refusal::of(exported::check(nest))
}

/// The number of iterations of an accepted nest. Refusals 2 to 13.
pub fn inspect(nest: &Nest) -> Result<usize, Refusal> {
    let mut iterations = 0;
    Refusal::of(exported::inspect(nest, &mut iterations))?;
    Ok(iterations)
}

/// How many other blocks a block of the nest's plan sends to at most: twice the number of
/// dependences less the number of chosen vectors, grouping and auxiliary. A block sends to another
/// if a dependence leads from an iteration of one to an iteration of the other. It is for sizing a
/// processor's list of addresses before the nest is planned: so many for each block that the
/// processor holds. Refusals 2 to 13.
pub fn most_receivers(nest: &Nest) -> Result<usize, Refusal> {
    let mut most = 0;
    Refusal::of(exported::most_receivers(nest, &mut most))?;
    Ok(most)
}

/// A nest from its text; unused places are 0. Refusals 1 to 13.
pub fn read(text: &[u8]) -> Result<Nest, Refusal> {
    let mut nest = Nest::default();
    Refusal::of(exported::read(text, &mut nest))?;
    Ok(nest)
}

/// The text of a nest, from the buffer's first byte on; answers its length. The bytes behind it
/// stay. Refusals 2 to 14.
pub fn write(nest: &Nest, buffer: &mut [u8]) -> Result<usize, Refusal> {
    let mut length = 0;
    Refusal::of(exported::write(nest, buffer, &mut length))?;
    Ok(length)
}

/// Where the row of an outermost index lies in a table of so many entries. Refusals 2 to 14, then
/// 19.
pub fn locate(nest: &Nest, entries: usize, index: i64) -> Result<Range<usize>, Refusal> {
    let mut span = [0; 2];
    Refusal::of(exported::locate(nest, entries, index, &mut span))?;
    let [start, length] = span;
    Ok(start..start + length)
}

/// The row of an outermost index, as a part of the lent table. Refusals 2 to 14, then 19.
pub fn row<'a, T>(nest: &Nest, table: &'a [T], index: i64) -> Result<&'a [T], Refusal> {
    let span = locate(nest, table.len(), index)?;
    Ok(table.get(span).unwrap_or_default())
}

/// The values of the sequential loop, in loop order. The entries behind the last iteration stay.
/// Refusals 2 to 14.
pub fn fill(nest: &Nest, values: &mut [u16]) -> Result<(), Refusal> {
    Refusal::of(exported::fill(nest, values))
}

/// The plan of a nest: the step, block, processor and value of each iteration, in loop order;
/// answers its counts. A step is the number of distinct smaller values that the inner product of
/// time vector and index point takes among the iterations. The entries behind the last iteration
/// stay. Refusals 2 to 14.
pub fn plan(
    nest: &Nest,
    steps: &mut [u32],
    blocks: &mut [u16],
    processors: &mut [u8],
    values: &mut [u16],
) -> Result<Counts, Refusal> {
    let mut counts = [0; 5];
    Refusal::of(exported::plan(nest, steps, blocks, processors, values, &mut counts))?;
    let [iterations, steps, blocks, processors, messages] = counts;
    Ok(Counts { iterations, steps, blocks, processors, messages })
}

/// The listing of the plan of a text's nest, from the buffer's first byte on; answers its length.
/// The bytes behind it stay. Refusals 1 to 14.
pub fn list(text: &[u8], buffer: &mut [u8]) -> Result<usize, Refusal> {
    let mut length = 0;
    Refusal::of(exported::list(text, buffer, &mut length))?;
    Ok(length)
}

/// Makes one move on the step and processor tables of a plan and on a state, all of any content. A
/// fresh state has 0 in every byte of `done` and `delivered`. Refusals 2 to 14, then 18, 17, 15 or
/// 16.
pub fn make_move(
    nest: &Nest,
    request: Move,
    steps: &[u32],
    processors: &[u8],
    values: &mut [u16],
    done: &mut [u8],
    delivered: &mut [u8],
) -> Result<Made, Refusal> {
    let numbers = match request {
        Move::Compute { processor } => [exported::COMPUTE, processor, 0],
        Move::Deliver { rank, dependence } => [exported::DELIVER, rank, dependence],
    };
    let mut made = [0; 2];
    Refusal::of(exported::make_move(
        nest, numbers, steps, processors, values, done, delivered, &mut made,
    ))?;
    let [rank, second] = made;
    Ok(match request {
        Move::Compute { .. } => Made::Computed { rank, value: second as u16 },
        Move::Deliver { .. } => Made::Delivered { rank, dependence: second },
    })
}
