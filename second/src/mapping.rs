//! From blocks to processors of a hypercube, and the messages between processors (document 01,
//! "Card" and "Card message"; 000, algorithm 2).

use crate::nest::{Iterations, LoopNest};
use crate::partition::{Group, Partition};

#[derive(Clone, Debug)]
pub struct Mapping {
    /// The width of each direction.
    pub widths: Vec<i64>,
    /// The bits that each direction was dealt.
    pub bits: Vec<u32>,
    /// The processor of each block.
    pub block_processors: Vec<usize>,
    /// The processor of each iteration.
    pub processors: Vec<usize>,
    /// The messages, each as its receiving iteration's rank and its dependence's number.
    pub messages: Vec<(usize, usize)>,
}

impl Mapping {
    /// The mapping of an accepted nest.
    pub fn new(nest: &LoopNest, iterations: &Iterations, partition: &Partition) -> Mapping {
        Mapping::along(nest, iterations, partition, &directions(&partition.block_groups))
    }

    /// The mapping along any directions, each the list of its values, block by block; tests make
    /// wrong mappings by it.
    pub fn along(
        nest: &LoopNest,
        iterations: &Iterations,
        partition: &Partition,
        directions: &[Vec<i64>],
    ) -> Mapping {
        let widths: Vec<i64> = directions.iter().map(|values| width(values)).collect();
        let bits = deal_bits(&widths, nest.cube_dimension);
        let block_processors: Vec<usize> = (0..partition.block_count())
            .map(|block| processor_of_block(block, directions, &bits))
            .collect();
        let processors: Vec<usize> =
            partition.blocks.iter().map(|&block| block_processors[block]).collect();
        let messages = messages(nest, iterations, &processors);
        Mapping { widths, bits, block_processors, processors, messages }
    }

    /// The number of processors with at least one iteration.
    pub fn used_processor_count(&self) -> usize {
        let mut used = self.processors.clone();
        used.sort();
        used.dedup();
        used.len()
    }
}

/// The directions, first to last: q, then the b of each auxiliary vector, the first chosen first,
/// then the class (document 02, U11). Each is the list of its values, block by block.
pub fn directions(block_groups: &[Group]) -> Vec<Vec<i64>> {
    let auxiliary_count = block_groups[0].b.len();
    let mut directions = vec![block_groups.iter().map(|group| group.q).collect()];
    for place in 0..auxiliary_count {
        directions.push(block_groups.iter().map(|group| group.b[place]).collect());
    }
    directions.push(block_groups.iter().map(|group| group.class as i64).collect());
    directions
}

fn least(values: &[i64]) -> i64 {
    *values.iter().min().expect("at least one block")
}

fn greatest(values: &[i64]) -> i64 {
    *values.iter().max().expect("at least one block")
}

/// W of a direction: how many whole numbers its values span, both ends counted.
fn width(values: &[i64]) -> i64 {
    greatest(values) - least(values) + 1
}

/// 2^e
fn power_of_two(e: u32) -> i64 {
    2_i64.pow(e)
}

/// The bits of each direction, c in all or fewer: every round offers each direction one bit. A
/// direction is passed over when one more bit would make more parts than its width has room for. A
/// round that deals nothing is the last (document 01, "Card").
fn deal_bits(widths: &[i64], cube_dimension: i64) -> Vec<u32> {
    let mut bits: Vec<u32> = vec![0; widths.len()];
    let mut left_to_deal = cube_dimension;
    loop {
        let left_before_round = left_to_deal;
        for (direction, &width) in widths.iter().enumerate() {
            if left_to_deal > 0 && power_of_two(bits[direction] + 1) <= width {
                bits[direction] += 1;
                left_to_deal -= 1;
            }
        }
        if left_to_deal == left_before_round {
            return bits;
        }
    }
}

/// The part that a value falls into when its direction's width is cut into 2^e parts, from 0.
fn part(value: i64, values: &[i64], e: u32) -> i64 {
    (value - least(values)) * power_of_two(e) / width(values)
}

/// The Gray code of a part: codes of neighbouring parts differ in one bit.
fn gray_code(part: i64) -> i64 {
    part ^ (part >> 1)
}

/// A block's processor: the codes of its directions side by side in one number, the first
/// direction's in the highest of the bits dealt.
fn processor_of_block(block: usize, directions: &[Vec<i64>], bits: &[u32]) -> usize {
    let mut processor = 0;
    for (values, &e) in directions.iter().zip(bits) {
        let code = gray_code(part(values[block], values, e));
        processor = processor * power_of_two(e) + code;
    }
    processor as usize
}

/// The messages: one for each iteration and dependence whose source is an iteration of another
/// processor.
fn messages(nest: &LoopNest, iterations: &Iterations, processors: &[usize]) -> Vec<(usize, usize)> {
    let mut messages = Vec::new();
    for rank in 0..iterations.count() {
        for (number, dependence) in nest.dependences.iter().enumerate() {
            let source = iterations.source(rank, dependence);
            if source.is_some_and(|source| processors[source] != processors[rank]) {
                messages.push((rank, number));
            }
        }
    }
    messages
}

#[cfg(test)]
mod tests {
    use super::*;

    #[test]
    fn bits_go_round_the_directions() {
        assert_eq!(deal_bits(&[8, 8, 8], 0), vec![0, 0, 0]);
        assert_eq!(deal_bits(&[8, 8, 8], 4), vec![2, 1, 1]);
        assert_eq!(deal_bits(&[8, 1, 8], 4), vec![2, 0, 2]);
        assert_eq!(deal_bits(&[2, 3, 9], 6), vec![1, 1, 3]);
        assert_eq!(deal_bits(&[1, 1, 1], 6), vec![0, 0, 0]);
        assert_eq!(deal_bits(&[64, 1, 1], 6), vec![6, 0, 0]);
        assert_eq!(deal_bits(&[63, 1, 1], 6), vec![5, 0, 0]);
        assert_eq!(deal_bits(&[64, 2, 2, 2], 6), vec![3, 1, 1, 1]);
        assert_eq!(deal_bits(&[8, 8, 8, 8], 3), vec![1, 1, 1, 0]);
        assert_eq!(deal_bits(&[8, 8, 8, 8], 6), vec![2, 2, 1, 1]);
        assert_eq!(deal_bits(&[8, 1, 8, 8], 6), vec![2, 0, 2, 2]);
        assert_eq!(deal_bits(&[8, 8, 1, 8], 5), vec![2, 2, 0, 1]);
        assert_eq!(deal_bits(&[1, 2, 3, 64], 6), vec![0, 1, 1, 4]);
    }

    #[test]
    fn gray_codes() {
        let codes: Vec<i64> = (0..8).map(gray_code).collect();
        assert_eq!(codes, vec![0, 1, 3, 2, 6, 7, 5, 4]);
    }

    #[test]
    fn parts_are_rounded_down() {
        let values = [-1, 0, 1, 2, 3];
        let parts: Vec<i64> = values.iter().map(|&value| part(value, &values, 2)).collect();
        assert_eq!(parts, vec![0, 0, 1, 2, 3]);
    }

    #[test]
    fn codes_are_joined_q_highest_class_lowest() {
        let directions = vec![vec![0, 1, 2, 3], vec![0, 0, 1, 1], vec![0, 1, 0, 1]];
        let processors: Vec<usize> =
            (0..4).map(|block| processor_of_block(block, &directions, &[2, 1, 1])).collect();
        assert_eq!(processors, vec![0b0000, 0b0101, 0b1110, 0b1011]);
    }
}
