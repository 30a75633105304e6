//! `check` and `inspect`, compared with the second planner.

mod common;

use common::*;
use rowlock::{exported, Nest};
use second::nest::LoopNest;
use sheets::refused::zero_time_nest;
use sheets::Random;
use trial::entry::NUMBERS;

/// Checks and inspects a nest; answers the number of its refusal and the number of iterations.
fn inspected(nest: &Nest) -> (u8, usize) {
    let mut iterations = 77;
    let number = exported::inspect(nest, &mut iterations);
    assert_eq!(exported::check(nest), number);
    assert_eq!(
        rowlock::check(nest).map_err(|refusal| refusal.number()),
        if number == 0 { Ok(()) } else { Err(number) }
    );
    assert_eq!(
        rowlock::inspect(nest).map_err(|refusal| refusal.number()),
        if number == 0 { Ok(iterations) } else { Err(number) }
    );
    (number, iterations)
}

#[test]
fn accepted_nests_have_their_iterations() {
    let mut random = Random::new(11);
    for nest in accepted(1, 400) {
        assert_eq!(
            inspected(&lent(&mut random, &nest)),
            (0, nest.iteration_count() as usize),
            "{nest:?}"
        );
    }
}

#[test]
fn refused_nests_have_their_numbers_and_no_iterations() {
    let mut random = Random::new(12);
    let nests = refused(2, 2000);
    for (number, nest) in &nests {
        assert_eq!(inspected(&lent(&mut random, nest)), (*number, 0), "{nest:?}");
    }
    assert_seen(nests.iter().map(|(number, _)| *number).collect(), OF_NESTS);
}

#[test]
fn a_zero_time_vector_is_refused_with_11_at_each_depth() {
    let mut random = Random::new(16);
    for depth in LoopNest::DEPTHS {
        for _ in 0..200 {
            let nest = zero_time_nest(&mut random, depth as usize);
            assert_eq!(inspected(&lent(&mut random, &nest)), (11, 0), "{nest:?}");
        }
    }
}

#[test]
fn numbers_at_the_ends_of_their_type_are_refused_by_the_first_condition() {
    for end in [i64::MIN, i64::MIN + 1, -1, i64::MAX - 1, i64::MAX] {
        let mut nest = Nest::from([end; NUMBERS]);
        assert_eq!(inspected(&nest), (2, 0));
        nest.depth = 4;
        assert_eq!(inspected(&nest), (3, 0));
        nest.count = 8;
        assert_eq!(inspected(&nest), (4, 0));
        nest.cube = 6;
        nest.lower[0] = 2;
        nest.upper[0] = 1;
        assert_eq!(inspected(&nest), (5, 0));
    }
}

#[test]
fn numbers_are_a_nest_in_the_order_of_its_fields() {
    let nest = Nest::from(std::array::from_fn(|place| place as i64));
    assert_eq!((nest.depth, nest.count, nest.cube), (0, 1, 2));
    assert_eq!((nest.lower, nest.upper), ([3, 4, 5, 6], [7, 8, 9, 10]));
    assert_eq!(nest.time, [11, 12, 13, 14]);
    assert_eq!((nest.dependences[0], nest.dependences[31]), (15, 46));
    assert_eq!(nest.boundaries, [47, 48, 49, 50, 51, 52, 53, 54]);
    assert_eq!(nest.weights, [55, 56, 57, 58, 59, 60, 61, 62]);
}

/// One number out of span, in each place of the boundary values and of the weights: 13 in the first
/// `count` places, the last included, and ignored behind them.
#[test]
fn boundary_values_and_weights_are_judged_up_to_the_last_dependence() {
    let (mut judged, mut ignored) = (0, 0);
    for nest in accepted(17, 150) {
        let (whole, count) = (plain(&nest), nest.dependences.len());
        let iterations = nest.iteration_count() as usize;
        for place in 0..Nest::MAX_DEPENDENCES {
            let expected = if place < count { (13, 0) } else { (0, iterations) };
            for value in [-1, 65536, i64::MIN, i64::MAX] {
                let mut damaged = whole;
                damaged.boundaries[place] = value;
                assert_eq!(inspected(&damaged), expected, "{damaged:?}");
            }
            for weight in [-1, 256, i64::MIN, i64::MAX] {
                let mut damaged = whole;
                damaged.weights[place] = weight;
                assert_eq!(inspected(&damaged), expected, "{damaged:?}");
            }
            *(if place < count { &mut judged } else { &mut ignored }) += 1;
        }
    }
    assert!(judged >= 300 && ignored >= 300, "{judged} {ignored}");
}

/// Both ends of the span in each place alone.
#[test]
fn boundary_values_at_the_ends_of_their_span_are_accepted() {
    for nest in accepted(18, 60) {
        for place in 0..nest.dependences.len() {
            for value in [0, 65535] {
                let mut whole = plain(&nest);
                whole.boundaries[place] = value;
                assert_eq!(inspected(&whole).0, 0, "{whole:?}");
            }
        }
    }
}
