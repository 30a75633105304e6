//! The whole plan of an accepted nest.

use crate::mapping::Mapping;
use crate::nest::{Iterations, LoopNest};
use crate::partition::Partition;
use crate::sequential;

#[derive(Clone, Debug)]
pub struct Plan {
    pub iterations: Iterations,
    pub partition: Partition,
    pub mapping: Mapping,
    /// The values of the sequential loop.
    pub values: Vec<i64>,
}

impl Plan {
    /// The plan of an accepted nest.
    pub fn new(nest: &LoopNest) -> Plan {
        let iterations = Iterations::new(nest);
        let partition = Partition::new(nest, &iterations);
        let mapping = Mapping::new(nest, &iterations, &partition);
        let rule = sequential::weighted_sum(nest);
        let values = sequential::sequential_values(nest, &iterations, rule);
        Plan { iterations, partition, mapping, values }
    }
}
