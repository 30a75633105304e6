//! Nests with one loop more that changes nothing but the depth.

use second::nest::LoopNest;

/// A nest with another loop at a place, 0 being outermost: its one index is the given one, and time
/// vector and dependences have 0 there. What is planned for it is what is planned for the nest: its
/// iterations are the same in number and order, and so are all times, projections and sources.
pub fn with_loop(nest: &LoopNest, place: usize, index: i64) -> LoopNest {
    let mut deeper = nest.clone();
    deeper.depth += 1;
    deeper.lower.insert(place, index);
    deeper.upper.insert(place, index);
    deeper.time_vector.insert(place, 0);
    deeper.dependences.iter_mut().for_each(|dependence| dependence.insert(place, 0));
    deeper
}
