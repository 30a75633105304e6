//! How many other blocks the blocks of a nest send to, beside the bound of document 02, U3, by the
//! second planner; and nests whose bound is reached.

use second::nest::{Iterations, LoopNest};
use second::partition::Partition;
use second::receivers::{bound, receivers};

use crate::accepted::{add_dependences, nest_near_zero, Directions};
use crate::random::Random;

/// What is counted on an accepted nest.
#[derive(Clone, Copy, Debug, PartialEq, Eq)]
pub struct Counted {
    /// How many others the block sends to that sends to the most.
    pub most: usize,
    /// 2m - β.
    pub bound: usize,
    /// m - β: how many dependences are not chosen. For each the bound has two blocks.
    pub not_chosen: usize,
}

impl Counted {
    /// The counts of an accepted nest.
    pub fn of(nest: &LoopNest) -> Counted {
        let iterations = Iterations::new(nest);
        let partition = Partition::new(nest, &iterations);
        let receivers = receivers(nest, &iterations, &partition.blocks);
        Counted {
            most: receivers.iter().map(|numbers| numbers.len()).max().unwrap_or(0),
            bound: bound(nest, &partition),
            not_chosen: nest.dependences.len() - partition.beta(),
        }
    }

    /// Whether some block sends to as many others as the bound allows.
    pub fn reaches(&self) -> bool {
        self.most == self.bound
    }

    /// Whether some block sends to more.
    pub fn exceeds(&self) -> bool {
        self.most > self.bound
    }
}

/// How many nests are drawn for one whose bound is reached; the rarest take some hundreds.
const MOST_DRAWN: usize = 20_000;

/// An accepted nest of so many dependences, a block of which sends to as many others as the bound
/// allows. There is one loop more than β, which is 1, 2 or 3, and at least one dependence is not
/// chosen.
pub fn reaching_nest(random: &mut Random, dependence_count: usize, beta: usize) -> LoopNest {
    let reaches = |nest: &LoopNest| {
        let counted = Counted::of(nest);
        counted.not_chosen == dependence_count - beta && counted.reaches()
    };
    (0..MOST_DRAWN)
        .map(|_| nest_with_room(random, beta + 1, dependence_count))
        .find(|nest| nest.dependences.len() == dependence_count && reaches(nest))
        .expect("a nest whose bound is reached")
}

/// A nest of two loops or more with room for many blocks around one, and up to so many dependences
/// that lead to near ones.
fn nest_with_room(random: &mut Random, depth: usize, wanted: usize) -> LoopNest {
    let (least, greatest, span) = match depth {
        2 => (8, 24, 3),
        3 => (4, 8, 2),
        _ => (4, 6, 1),
    };
    let lengths: Vec<i64> = (0..depth).map(|_| random.between(least, greatest)).collect();
    let mut directions: Directions = (random.vector(depth, 2), Vec::new());
    add_dependences(random, &mut directions, wanted, span, 1);
    nest_near_zero(random, &lengths, directions)
}

#[cfg(test)]
mod tests {
    use super::*;
    use second::worked::ALL;

    /// Of loop L2 three blocks send to four others each, and 2 * 3 - 2 is 4; and so on.
    #[test]
    fn nests_worked_out_by_hand_are_counted_so() {
        let counted: Vec<Counted> =
            ALL.iter().map(|example| Counted::of(&example.nest())).collect();
        let by_hand = [(4, 4, 1), (0, 2, 1), (1, 3, 1), (1, 1, 0), (2, 3, 1), (3, 3, 1), (5, 5, 1)];
        let by_hand = by_hand.map(|(most, bound, not_chosen)| Counted { most, bound, not_chosen });
        assert_eq!(counted, by_hand);
    }

    /// Four receivers stay below a bound of 5, reach one of 4, and exceed one of 3.
    #[test]
    fn a_bound_that_is_too_small_is_exceeded() {
        let judged = |bound| {
            let counted = Counted { most: 4, bound, not_chosen: 1 };
            (counted.reaches(), counted.exceeds())
        };
        assert_eq!(judged(5), (false, false));
        assert_eq!(judged(4), (true, false));
        assert_eq!(judged(3), (false, true));
    }
}
