//! Nests of the greatest depth by their chosen vectors and by the directions that bits are dealt
//! to: q, one for each auxiliary vector, and the class (document 02, U11).

use second::linear::{self, Vector};
use second::nest::{Iterations, LoopNest};
use second::partition::{projection, Partition};
use second::plan::Plan;

use crate::accepted::{directions, greatest_depth, nest_near_zero};
use crate::random::Random;

/// The partition of one iteration of a nest: its chosen vectors are those of the whole nest.
fn choice(nest: &LoopNest) -> Partition {
    let first = LoopNest { upper: nest.lower.clone(), ..nest.clone() };
    Partition::new(&first, &Iterations::new(&first))
}

/// A nest of the greatest depth with as many chosen vectors as there can be, one less than loops.
/// Most have dependences that are not chosen too.
pub(crate) fn most_vectors(random: &mut Random) -> LoopNest {
    let depth = greatest_depth();
    loop {
        let (time_span, span) = (random.pick(&[1, 1, 2, 3, 16]), random.pick(&[1, 1, 2, 3]));
        let wanted = random.between(depth as i64 - 1, 8) as usize;
        let lengths: Vec<i64> = (0..depth).map(|_| random.between(2, 5)).collect();
        let directions = directions(random, depth, time_span, wanted, span, 1);
        let nest = nest_near_zero(random, &lengths, directions);
        if choice(&nest).beta() == depth - 1 {
            return nest;
        }
    }
}

/// The same, with a dependence between the first auxiliary vector and the next that depends on the
/// grouping vector and the first auxiliary one together, and not on the grouping vector alone.
pub(crate) fn vector_passed_over(random: &mut Random) -> LoopNest {
    loop {
        let nest = most_vectors(random);
        let partition = choice(&nest);
        let grouping = partition.grouping.expect("a chosen vector");
        let with_grouping = |number: usize| -> Vec<Vector> {
            [grouping, number].map(|k| projection(&nest, &nest.dependences[k])).to_vec()
        };
        let mut between = partition.auxiliary[0] + 1..partition.auxiliary[1];
        if between.any(|number| linear::are_independent(&with_grouping(number))) {
            return nest;
        }
    }
}

/// A nest of the greatest depth in which every direction takes a bit.
pub(crate) fn wide_directions(random: &mut Random) -> LoopNest {
    nest_with_widths(random, |widths| widths.iter().all(|&width| width > 1))
}

/// The same, but for a direction in the middle that takes none.
pub(crate) fn narrow_direction(random: &mut Random) -> LoopNest {
    nest_with_widths(random, |widths| {
        let (outer, middle) = ([widths[0], widths[widths.len() - 1]], &widths[1..widths.len() - 1]);
        outer.iter().all(|&width| width > 1) && middle.contains(&1)
    })
}

/// A nest of the greatest depth with as many chosen vectors as there can be, whose directions have
/// widths of which the given holds, and a processor for each bit that they may take.
fn nest_with_widths(random: &mut Random, holds: fn(&[i64]) -> bool) -> LoopNest {
    let depth = greatest_depth();
    loop {
        let mut nest = sparse_nest(random);
        nest.cube_dimension = random.between(depth as i64, 6);
        let widths = Plan::new(&nest).mapping.widths;
        if widths.len() == depth && holds(&widths) {
            return nest;
        }
    }
}

/// A nest of the greatest depth whose dependences are apart, so that there are several classes, and
/// whose time vector has few components that are not 0, so that groups are small.
fn sparse_nest(random: &mut Random) -> LoopNest {
    let depth = greatest_depth();
    let lengths: Vec<i64> = (0..depth).map(|_| random.pick(&[1, 2, 3, 4, 5])).collect();
    loop {
        let (time_span, unit) = (random.pick(&[1, 1, 2]), random.pick(&[1, 2]));
        let wanted = random.between(depth as i64 - 1, 6) as usize;
        let directions = directions(random, depth, time_span, wanted, 2, unit);
        let moving = directions.0.iter().filter(|&&component| component != 0).count();
        if moving < depth && directions.1.len() >= depth - 1 {
            return nest_near_zero(random, &lengths, directions);
        }
    }
}
