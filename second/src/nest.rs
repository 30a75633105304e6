//! The loop nest as numbers (document 01, "The sheet"), the conditions under which it is refused,
//! and its index points in loop order.

use std::collections::{HashMap, HashSet};
use std::ops::RangeInclusive;

use crate::refusal::*;

/// A loop nest as numbers. The first three fields are line 1 as given. Where they are in span, the
/// lists have one entry for each loop and one for each dependence.
#[derive(Clone, Debug, PartialEq, Eq)]
pub struct LoopNest {
    /// n: how many loops there are.
    pub depth: i64,
    /// m: how many dependences there are.
    pub dependence_count: i64,
    /// c: the hypercube has 2^c processors.
    pub cube_dimension: i64,
    /// The loops' lower limits, from the outermost loop inwards.
    pub lower: Vec<i64>,
    /// The loops' upper limits, in the same order.
    pub upper: Vec<i64>,
    /// P, with a component for each loop.
    pub time_vector: Vec<i64>,
    /// The dependences as listed, each with a component for each loop.
    pub dependences: Vec<Vec<i64>>,
    /// For each dependence, what a source outside the nest reads as that was reached by it.
    pub boundary_values: Vec<i64>,
    /// The weight of each dependence.
    pub weights: Vec<i64>,
}

/// A refusal's number and the condition under which it is met.
type NumberedCondition = (Number, fn(&LoopNest) -> bool);

/// The inner product of two vectors.
pub fn inner_product(left: &[i64], right: &[i64]) -> i64 {
    left.iter().zip(right).map(|(a, b)| a * b).sum()
}

/// Whether a dependence does not point forward in loop order. Forward means a positive component
/// after any leading zeros.
fn is_backward(dependence: &[i64]) -> bool {
    match dependence.iter().find(|&&component| component != 0) {
        None => true,
        Some(&first) => first < 0,
    }
}

impl LoopNest {
    /// Spans of the table in document 01, "The sheet"; that of the depth is document 02's, U11.
    pub const DEPTHS: RangeInclusive<i64> = 1..=4;
    pub const DEPENDENCE_COUNTS: RangeInclusive<i64> = 1..=8;
    pub const CUBE_DIMENSIONS: RangeInclusive<i64> = 0..=6;
    pub const LIMITS: RangeInclusive<i64> = -1000..=1000;
    pub const COMPONENTS: RangeInclusive<i64> = -16..=16;
    pub const BOUNDARY_VALUES: RangeInclusive<i64> = 0..=65535;
    pub const WEIGHTS: RangeInclusive<i64> = 0..=255;
    /// The most iterations that a nest may have.
    pub const MOST_ITERATIONS: i64 = 4096;

    /// s, the time vector's inner product with itself.
    pub fn time_vector_square(&self) -> i64 {
        inner_product(&self.time_vector, &self.time_vector)
    }

    /// 2^c
    pub fn processor_count(&self) -> usize {
        1 << self.cube_dimension
    }

    /// The number of iterations of limits in span: the product of the loops' lengths.
    pub fn iteration_count(&self) -> i64 {
        self.lower.iter().zip(&self.upper).map(|(lower, upper)| upper - lower + 1).product()
    }

    /// The refusal of the nest given as numbers, if it has one: the smallest number whose condition
    /// is met. Numbers have no form to judge, so 1 cannot come up.
    pub fn refusal(&self) -> Option<Number> {
        self.refusal_of_counts().or_else(|| self.refusal_of_lists())
    }

    /// Refusals 2, 3, 4: the three numbers of line 1.
    pub fn refusal_of_counts(&self) -> Option<Number> {
        self.first_met(&[
            (BAD_DEPTH, LoopNest::bad_depth),
            (BAD_DEPENDENCE_COUNT, LoopNest::bad_dependence_count),
            (BAD_CUBE_DIMENSION, LoopNest::bad_cube_dimension),
        ])
    }

    /// Refusals 5 to 13, of which 12 is not used: all that follows line 1.
    pub fn refusal_of_lists(&self) -> Option<Number> {
        self.first_met(&[
            (BAD_LIMITS, LoopNest::bad_limits),
            (TOO_MANY_ITERATIONS, LoopNest::too_many_iterations),
            (TIME_VECTOR_SPAN, LoopNest::time_vector_out_of_span),
            (DEPENDENCE_SPAN, LoopNest::dependence_out_of_span),
            (BACKWARD_DEPENDENCE, LoopNest::backward_dependence),
            (REPEATED_DEPENDENCE, LoopNest::repeated_dependence),
            (AGAINST_TIME_VECTOR, LoopNest::against_time_vector),
            (WEIGHT_SPAN, LoopNest::weight_out_of_span),
        ])
    }

    /// The number of the first condition that is met. Conditions after it are not looked at.
    fn first_met(&self, conditions: &[NumberedCondition]) -> Option<Number> {
        conditions.iter().find(|(_, is_met)| is_met(self)).map(|&(number, _)| number)
    }

    /// 2: a depth outside its span.
    fn bad_depth(&self) -> bool {
        !LoopNest::DEPTHS.contains(&self.depth)
    }

    /// 3: too few or too many dependences.
    fn bad_dependence_count(&self) -> bool {
        !LoopNest::DEPENDENCE_COUNTS.contains(&self.dependence_count)
    }

    /// 4: a cube dimension outside its span.
    fn bad_cube_dimension(&self) -> bool {
        !LoopNest::CUBE_DIMENSIONS.contains(&self.cube_dimension)
    }

    /// 5: a loop with a limit outside the span, or without any index.
    fn bad_limits(&self) -> bool {
        let out_of_span = |limits: &[i64]| limits.iter().any(|l| !LoopNest::LIMITS.contains(l));
        let crossed = self.lower.iter().zip(&self.upper).any(|(lower, upper)| lower > upper);
        out_of_span(&self.lower) || out_of_span(&self.upper) || crossed
    }

    /// 6: too many iterations.
    fn too_many_iterations(&self) -> bool {
        self.iteration_count() > LoopNest::MOST_ITERATIONS
    }

    /// 7: the time vector leaves its span.
    fn time_vector_out_of_span(&self) -> bool {
        self.time_vector.iter().any(|component| !LoopNest::COMPONENTS.contains(component))
    }

    /// 8: a dependence leaves its span.
    fn dependence_out_of_span(&self) -> bool {
        let mut components = self.dependences.iter().flatten();
        components.any(|component| !LoopNest::COMPONENTS.contains(component))
    }

    /// 9: a dependence does not point forward.
    fn backward_dependence(&self) -> bool {
        self.dependences.iter().any(|dependence| is_backward(dependence))
    }

    /// 10: a dependence is listed twice.
    fn repeated_dependence(&self) -> bool {
        let different: HashSet<&Vec<i64>> = self.dependences.iter().collect();
        different.len() < self.dependences.len()
    }

    /// 11: a dependence d takes no time, or negative time: P·d is not positive. It is so for every
    /// dependence where the time vector is zero.
    fn against_time_vector(&self) -> bool {
        self.dependences.iter().any(|dependence| inner_product(&self.time_vector, dependence) < 1)
    }

    /// 13: one of the boundary values or one of the weights leaves its span.
    fn weight_out_of_span(&self) -> bool {
        self.boundary_values.iter().any(|value| !LoopNest::BOUNDARY_VALUES.contains(value))
            || self.weights.iter().any(|weight| !LoopNest::WEIGHTS.contains(weight))
    }
}

/// The iterations of an accepted nest.
#[derive(Clone, Debug)]
pub struct Iterations {
    /// All index points, the innermost index changing fastest.
    pub points: Vec<Vec<i64>>,
    /// Each point's rank, which is its place in that order, from 0.
    ranks: HashMap<Vec<i64>, usize>,
}

impl Iterations {
    /// The iterations of an accepted nest.
    pub fn new(nest: &LoopNest) -> Iterations {
        let points = points_in_loop_order(&nest.lower, &nest.upper);
        let ranks = points.iter().cloned().zip(0..).collect();
        Iterations { points, ranks }
    }

    pub fn count(&self) -> usize {
        self.points.len()
    }

    /// The rank of an index point; none if it is no iteration.
    pub fn rank_of(&self, point: &[i64]) -> Option<usize> {
        self.ranks.get(point).copied()
    }

    /// The rank of an iteration's source, one dependence before it; none if that is no iteration.
    pub fn source(&self, rank: usize, dependence: &[i64]) -> Option<usize> {
        let point = &self.points[rank];
        let source: Vec<i64> = point.iter().zip(dependence).map(|(j, d)| j - d).collect();
        self.rank_of(&source)
    }
}

/// The index points within the limits, outermost index slowest.
fn points_in_loop_order(lower: &[i64], upper: &[i64]) -> Vec<Vec<i64>> {
    let mut points = vec![Vec::new()];
    for (&low, &high) in lower.iter().zip(upper) {
        points = with_one_more_index(&points, low, high);
    }
    points
}

/// Each of the given beginnings in turn, followed by each index from low to high.
fn with_one_more_index(beginnings: &[Vec<i64>], low: i64, high: i64) -> Vec<Vec<i64>> {
    let mut longer = Vec::new();
    for beginning in beginnings {
        for index in low..=high {
            let mut point = beginning.clone();
            point.push(index);
            longer.push(point);
        }
    }
    longer
}

#[cfg(test)]
mod tests {
    use super::*;

    #[test]
    fn loop_order_has_the_outermost_index_slowest() {
        let points = points_in_loop_order(&[-1, 0], &[0, 1]);
        assert_eq!(points, vec![vec![-1, 0], vec![-1, 1], vec![0, 0], vec![0, 1]]);
        let points = points_in_loop_order(&[5, 0, 7, -1], &[5, 1, 7, 0]);
        assert_eq!(points, [[5, 0, 7, -1], [5, 0, 7, 0], [5, 1, 7, -1], [5, 1, 7, 0]]);
    }

    #[test]
    fn backward_dependences() {
        assert!(is_backward(&[0, 0]));
        assert!(is_backward(&[0, -1]));
        assert!(is_backward(&[-1, 2]));
        assert!(!is_backward(&[0, 1]));
        assert!(!is_backward(&[1, -2]));
    }
}
