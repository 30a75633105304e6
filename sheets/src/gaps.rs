//! Nests whose times P·j have gaps: from the earliest to the latest there are whole numbers that
//! are no iteration's time, and so no step (document 02, U2).

use second::nest::LoopNest;

use crate::accepted::{add_dependences, depth_from, nest_at, nest_near_zero, Directions};
use crate::in_turn;
use crate::random::Random;

/// The limits of each loop, a time vector and a dependence that it allows.
type Corner = (&'static [[i64; 2]], &'static [i64], &'static [i64]);

/// Where steps are easily numbered wrong.
const CORNERS: &[Corner] = &[
    // a common factor: every other time is missing
    (&[[0, 2], [0, 2]], &[2, 2], &[0, 1]),
    // times 0, 2, 3, 5: no common factor, and gaps all the same
    (&[[0, 1], [0, 1]], &[2, 3], &[0, 1]),
    // a large component on few indices: 0, 1, 2, 16, 17, 18
    (&[[0, 1], [0, 2]], &[16, 1], &[0, 1]),
    // negative components: -3, -1, 0, 1, 2, 4; then -4, -2, 0
    (&[[0, 1], [0, 2]], &[-3, 2], &[0, 1]),
    (&[[0, 1], [0, 1]], &[-2, -2], &[1, -2]),
    // both ends of the components' span
    (&[[0, 2], [0, 2]], &[16, -16], &[1, 0]),
    // a component of 0, and negative limits
    (&[[-4, -3], [-1, 0], [7, 8]], &[4, 0, 6], &[0, 0, 1]),
    // four loops, times -16, 0 or 16 and 0, 2, 5 or 7 more; then at both ends of the limits
    (&[[0, 1], [0, 1], [0, 1], [0, 1]], &[16, -16, 2, 5], &[0, 0, 0, 1]),
    (
        &[[-1000, -1000], [-1000, -999], [999, 1000], [1000, 1000]],
        &[16, -16, -16, 16],
        &[0, 0, 0, 1],
    ),
    // one iteration; then one loop from limit to limit, with a step for each of its iterations
    (&[[1000, 1000], [1000, 1000], [1000, 1000]], &[16, 16, 16], &[0, 0, 1]),
    (&[[-1000, 1000]], &[16], &[1]),
    // the latest time as far from the earliest as can be, 32016
    (&[[0, 1], [-1000, 1000]], &[-16, 16], &[0, 1]),
    // as many steps as there can be iterations: 16 i + 3 j, with j from 0 to 3
    (&[[-24, 999], [0, 3]], &[16, 3], &[0, 1]),
];

/// All corners, with the remaining numbers drawn at random.
pub fn corners(random: &mut Random) -> Vec<LoopNest> {
    (0..CORNERS.len() as u64).map(|number| corner(random, number)).collect()
}

/// A nest at one of the corners, which come in turn.
pub(crate) fn corner(random: &mut Random, number: u64) -> LoopNest {
    let (limits, time_vector, dependence) = in_turn(CORNERS, number);
    let lower: Vec<i64> = limits.iter().map(|[lower, _]| *lower).collect();
    let lengths: Vec<i64> = limits.iter().map(|[lower, upper]| upper - lower + 1).collect();
    nest_at(random, &lower, &lengths, (time_vector.to_vec(), vec![dependence.to_vec()]))
}

/// Few indices, and no component of the time vector that is 0, 1 or -1: the number after the
/// earliest time is never a time.
pub(crate) fn times_with_gaps(random: &mut Random) -> LoopNest {
    let depth = depth_from(random, 2);
    let lengths: Vec<i64> = (0..depth).map(|_| random.between(2, 5)).collect();
    let directions = directions_with_gaps(random, depth);
    nest_near_zero(random, &lengths, directions)
}

/// A time vector of such components, and at least one dependence for it.
fn directions_with_gaps(random: &mut Random, depth: usize) -> Directions {
    const COMPONENTS: &[i64] = &[-16, -15, -9, -6, -4, -3, -2, 2, 3, 4, 5, 7, 10, 13, 16];
    let wanted = random.between(1, 8) as usize;
    loop {
        let time_vector = (0..depth).map(|_| random.pick(COMPONENTS)).collect();
        let mut directions: Directions = (time_vector, Vec::new());
        add_dependences(random, &mut directions, wanted, 2, 1);
        if !directions.1.is_empty() {
            return directions;
        }
    }
}

/// How many whole numbers there are from the earliest time of a nest to the latest, both included.
/// That is its number of steps where times have no gap, and more where they have one.
pub fn time_count(nest: &LoopNest) -> i64 {
    let limits = nest.lower.iter().zip(&nest.upper).zip(&nest.time_vector);
    let spans = limits.map(|((lower, upper), component)| (upper - lower) * component.abs());
    spans.sum::<i64>() + 1
}
