//! The sequential loop (document 01, "Value" and the end of "The run"; document 02, U1).

use crate::nest::{Iterations, LoopNest};

/// Values are taken mod 65536.
pub const VALUE_MODULUS: i64 = 65536;

/// How an iteration's value is made: from its index point, its rank, and the values of its sources,
/// one for each dependence.
pub trait Rule: Fn(&[i64], usize, &[i64]) -> i64 {}

impl<F: Fn(&[i64], usize, &[i64]) -> i64> Rule for F {}

/// The rule that adds the rank and the weighted source values, modulo `VALUE_MODULUS` (document 01,
/// "Value").
pub fn weighted_sum(nest: &LoopNest) -> impl Rule + '_ {
    |_point: &[i64], rank: usize, sources: &[i64]| {
        let sum: i64 = nest.weights.iter().zip(sources).map(|(w, source)| w * source).sum();
        (rank as i64 + sum) % VALUE_MODULUS
    }
}

/// The values of an iteration's sources, by dependence: its entry in the table for a source that is
/// an iteration, the dependence's own boundary value for any other.
pub fn source_values(
    nest: &LoopNest,
    iterations: &Iterations,
    rank: usize,
    table: &[i64],
) -> Vec<i64> {
    nest.dependences
        .iter()
        .zip(&nest.boundary_values)
        .map(|(dependence, boundary_value)| match iterations.source(rank, dependence) {
            None => *boundary_value,
            Some(source) => table[source],
        })
        .collect()
}

/// The values that the loop nest computes under a rule when it is run as written, one iteration
/// after the other. In an accepted nest every source has a smaller rank; the loop would stop here
/// at one that has no value yet.
pub fn sequential_values(nest: &LoopNest, iterations: &Iterations, rule: impl Rule) -> Vec<i64> {
    let mut table = Vec::new();
    for (rank, point) in iterations.points.iter().enumerate() {
        let sources = source_values(nest, iterations, rank, &table);
        table.push(rule(point, rank, &sources));
    }
    table
}

#[cfg(test)]
mod tests {
    use super::*;
    use crate::text;

    /// The indices of both loops are 0 and 1, all weights 1. Of the sources outside, one reached by
    /// (0,1) reads as 1, by (1,1) as 100, by (1,0) as 10000.
    const THREE: &str =
        "     2     3     0\n     0     1\n     0     1\n     1     1\n     0     1\n     \
                         1     1\n     1     0\n     1   100 10000     1     1     1\n";

    /// (0,0) has all three sources outside: 0 + 1 + 100 + 10000 = 10101. (0,1) reads (0,0) by (0,1),
    /// the others are outside: 1 + 10101 + 100 + 10000 = 20202. (1,0) reads (0,0) by (1,0), the
    /// others are outside: 2 + 1 + 100 + 10101 = 10204. (1,1) has none outside: 3 + 10204 + 10101 +
    /// 20202 = 40510.
    #[test]
    fn a_source_outside_reads_as_the_value_of_the_dependence_that_it_was_reached_by() {
        let nest = text::read(THREE.as_bytes()).unwrap();
        let iterations = Iterations::new(&nest);
        let sources = |rank, table: &[i64]| source_values(&nest, &iterations, rank, table);
        assert_eq!(sources(0, &[]), vec![1, 100, 10000]);
        assert_eq!(sources(1, &[10101]), vec![10101, 100, 10000]);
        assert_eq!(sources(2, &[10101, 20202]), vec![1, 100, 10101]);
        assert_eq!(sources(3, &[10101, 20202, 10204]), vec![10204, 10101, 20202]);
        let values = sequential_values(&nest, &iterations, weighted_sum(&nest));
        assert_eq!(values, vec![10101, 20202, 10204, 40510]);
    }
}
