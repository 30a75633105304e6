//! The other blocks that a block sends to (document 02, U3), and how many they are at most (source
//! document 000, theorem 2).

use std::collections::BTreeSet;

use crate::nest::{Iterations, LoopNest};
use crate::partition::Partition;
use crate::refusal::Number;

/// The other blocks that each block sends to, by number. A block sends to another if an iteration
/// of the other has a source in it, along any dependence, also one that leaves its class. `blocks`
/// has the block of each iteration.
pub fn receivers(
    nest: &LoopNest,
    iterations: &Iterations,
    blocks: &[usize],
) -> Vec<BTreeSet<usize>> {
    let block_count = blocks.iter().max().map_or(0, |last| last + 1);
    let mut receivers = vec![BTreeSet::new(); block_count];
    for (rank, &block) in blocks.iter().enumerate() {
        for dependence in &nest.dependences {
            let Some(source) = iterations.source(rank, dependence) else { continue };
            if blocks[source] != block {
                receivers[blocks[source]].insert(block);
            }
        }
    }
    receivers
}

/// 2m - β: no block of an accepted nest sends to more others.
pub fn bound(nest: &LoopNest, partition: &Partition) -> usize {
    2 * nest.dependences.len() - partition.beta()
}

/// The bound of a nest, or its refusal (2 to 13).
pub fn most_receivers(nest: &LoopNest) -> Result<usize, Number> {
    match nest.refusal() {
        Some(number) => Err(number),
        None => Ok(bound(nest, &Partition::new(nest, &Iterations::new(nest)))),
    }
}

#[cfg(test)]
mod tests {
    use super::*;
    use crate::refusal::WEIGHT_SPAN;
    use crate::worked::{Worked, ALL, FOUR, L2, LEAVING, LEAVING_AND_REACHED, NO_CHOSEN, ONE, P6};

    /// The receivers of each block in rising order, with the blocks as they are worked out by hand.
    fn receivers_of(nest: &LoopNest, blocks: &[usize]) -> Vec<Vec<usize>> {
        let receivers = receivers(nest, &Iterations::new(nest), blocks);
        receivers.into_iter().map(|numbers| numbers.into_iter().collect()).collect()
    }

    /// How many others each block sends to.
    fn counts(example: &Worked) -> Vec<usize> {
        receivers_of(&example.nest(), example.blocks).iter().map(Vec::len).collect()
    }

    #[test]
    fn receivers_are_those_worked_out_by_hand() {
        for example in ALL {
            let counted = receivers_of(&example.nest(), example.blocks);
            assert_eq!(counted, example.receivers, "{}", example.name);
        }
    }

    #[test]
    fn blocks_and_bounds_are_those_worked_out_by_hand() {
        for example in ALL {
            let nest = example.nest();
            let partition = Partition::new(&nest, &Iterations::new(&nest));
            assert_eq!(partition.blocks, example.blocks, "{}", example.name);
            assert_eq!(partition.beta(), example.beta, "{}", example.name);
            assert_eq!(most_receivers(&nest), Ok(example.bound), "{}", example.name);
        }
    }

    /// Blocks 0, 8 and 11 send to four others.
    #[test]
    fn three_of_17_blocks_of_loop_l2_reach_the_bound() {
        let counts = counts(&L2);
        assert_eq!(counts, vec![4, 3, 3, 2, 3, 3, 2, 1, 4, 3, 2, 4, 3, 2, 3, 2, 1]);
        assert_eq!((counts.len(), L2.bound), (17, 4));
    }

    /// Block 0 alone: three chosen vectors lead to one other each, the fourth dependence to two.
    #[test]
    fn one_of_15_blocks_of_four_loops_reaches_the_bound() {
        let counts = counts(&FOUR);
        assert_eq!(counts, vec![5, 3, 4, 2, 4, 2, 3, 1, 3, 2, 2, 1, 2, 1, 1]);
        assert_eq!((counts.len(), FOUR.bound), (15, 5));
    }

    /// A dependence whose projection is zero counts in the bound like any other that is not chosen,
    /// though it leads nowhere.
    #[test]
    fn zero_projections_lead_to_no_other_block() {
        assert_eq!((counts(&NO_CHOSEN), NO_CHOSEN.bound), (vec![0, 0, 0, 0], 2));
        assert_eq!((counts(&P6), P6.bound), (vec![1, 1, 1, 0], 3));
    }

    #[test]
    fn one_dependence_that_is_chosen_leads_to_one_block() {
        assert_eq!((counts(&ONE), ONE.bound), (vec![1, 0, 1, 1], 1));
    }

    /// What would be counted if dependences that leave their class did not count: of (0,3) and
    /// (0,1) only (0,3) stays. The blocks are those of both.
    fn receivers_within_classes(example: &Worked) -> Vec<Vec<usize>> {
        let mut nest = example.nest();
        nest.dependences.retain(|dependence| dependence == &[0, 3]);
        assert_eq!(nest.dependences.len(), 1);
        receivers_of(&nest, example.blocks)
    }

    /// Along (0,3) alone -1 leads to 2, -2 to 1 and -3 to 0: three pairs of blocks, where there are
    /// nine.
    #[test]
    fn dependences_that_leave_their_class_count() {
        let none = Vec::new();
        let within = vec![none.clone(), none.clone(), none, vec![2], vec![1], vec![0]];
        assert_eq!(receivers_within_classes(&LEAVING), within);
        assert_eq!(counts(&LEAVING), vec![1, 1, 1, 2, 2, 2]);
    }

    /// Along (0,3) alone 3 leads to 6, 4 to 7 and 5 to 8, so no block would have more than one
    /// receiver; block 2 has as many as there can be.
    #[test]
    fn the_bound_is_reached_along_a_dependence_that_leaves_its_class() {
        let none = Vec::new();
        let within = vec![vec![3], vec![4], vec![5], none.clone(), none.clone(), none];
        assert_eq!(receivers_within_classes(&LEAVING_AND_REACHED), within);
        assert_eq!(counts(&LEAVING_AND_REACHED), vec![2, 2, 3, 1, 1, 0]);
        assert_eq!(LEAVING_AND_REACHED.bound, 3);
    }

    /// Four iterations in a row, each made from the one before. Of two halves the first sends to
    /// the second, whatever their numbers, and not the other way round. Blocks that take turns send
    /// to each other, and a block alone to none.
    #[test]
    fn the_source_sends_and_each_receiver_counts_once() {
        let mut nest = ONE.nest();
        nest.upper = vec![0, 3];
        let none = Vec::new();
        assert_eq!(receivers_of(&nest, &[0, 0, 1, 1]), vec![vec![1], none.clone()]);
        assert_eq!(receivers_of(&nest, &[1, 1, 0, 0]), vec![none.clone(), vec![0]]);
        assert_eq!(receivers_of(&nest, &[0, 1, 0, 1]), vec![vec![1], vec![0]]);
        assert_eq!(receivers_of(&nest, &[0, 0, 0, 0]), vec![none]);
    }

    #[test]
    fn a_refused_nest_has_its_refusal_and_no_bound() {
        let mut nest = ONE.nest();
        nest.weights[0] = 256;
        assert_eq!(most_receivers(&nest), Err(WEIGHT_SPAN));
    }
}
