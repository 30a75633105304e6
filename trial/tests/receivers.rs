//! `most_receivers`, compared with the second planner and with nests worked out by hand; and the
//! receivers of each block that `plan` writes, counted by the second planner, which may be as many
//! and no more (document 02, U3).

mod common;

use std::collections::BTreeSet;

use common::*;
use rowlock::{exported, Nest, Refusal};
use second::nest::{Iterations, LoopNest};
use second::receivers::{most_receivers, receivers};
use second::worked::ALL;
use sheets::gaps::corners;
use sheets::receivers::reaching_nest;
use sheets::Random;
use trial::entry::NUMBERS;
use trial::nests;

/// The library's answer: its number, and what it stored beside it. There was another number before,
/// so that 0 has to be stored too.
fn asked(nest: &Nest) -> (u8, usize) {
    let mut most = 77;
    let number = exported::most_receivers(nest, &mut most);
    assert_eq!(
        rowlock::most_receivers(nest).map_err(Refusal::number),
        if number == 0 { Ok(most) } else { Err(number) }
    );
    (number, most)
}

/// What the library has to answer, by the second planner.
fn expected(nest: &LoopNest) -> (u8, usize) {
    match most_receivers(nest) {
        Ok(most) => (0, most),
        Err(number) => (byte(number), 0),
    }
}

/// The block of each iteration in the library's plan.
fn planned_blocks(nest: &Nest, count: usize) -> Vec<usize> {
    let (mut steps, mut blocks) = (vec![0; count], vec![0; count]);
    let (mut processors, mut values) = (vec![0; count], vec![0; count]);
    let counts = rowlock::plan(nest, &mut steps, &mut blocks, &mut processors, &mut values);
    assert_eq!(counts.expect("an accepted nest").iterations, count);
    blocks.into_iter().map(usize::from).collect()
}

/// The receivers of each block of the library's plan.
fn planned_receivers(lent: &Nest, nest: &LoopNest) -> Vec<BTreeSet<usize>> {
    let iterations = Iterations::new(nest);
    let blocks = planned_blocks(lent, iterations.count());
    receivers(nest, &iterations, &blocks)
}

/// The most receivers that a block of the library's plan has.
fn planned_most(lent: &Nest, nest: &LoopNest) -> usize {
    let receivers = planned_receivers(lent, nest);
    receivers.iter().map(BTreeSet::len).max().expect("at least one block")
}

#[test]
fn nests_worked_out_by_hand() {
    for example in ALL {
        let nest = example.nest();
        let lent = plain(&nest);
        assert_eq!(asked(&lent), (0, example.bound), "{}", example.name);
        assert_eq!(planned_blocks(&lent, example.blocks.len()), example.blocks, "{}", example.name);
        let receivers: Vec<Vec<usize>> = planned_receivers(&lent, &nest)
            .into_iter()
            .map(|numbers| numbers.into_iter().collect())
            .collect();
        assert_eq!(receivers, example.receivers, "{}", example.name);
    }
}

/// The most receivers of a block, beside the bound: of loop L2 4 of 4, and so on.
#[test]
fn the_most_receivers_of_nests_worked_out_by_hand() {
    let counted = ALL.iter().map(|example| {
        let lent = plain(&example.nest());
        (planned_most(&lent, &example.nest()), asked(&lent).1)
    });
    assert!(counted.eq([(4, 4), (0, 2), (1, 3), (1, 1), (2, 3), (3, 3), (5, 5)]));
}

/// Asks for an accepted nest and compares with the second planner; no block of its plan may have
/// more receivers. Answers whether one has as many.
fn compare_accepted(random: &mut Random, nest: &LoopNest) -> bool {
    let lent = lent(random, nest);
    let (number, most) = asked(&lent);
    assert_eq!((number, most), expected(nest), "{nest:?}");
    assert_eq!(number, 0, "{nest:?}");
    let counted = planned_most(&lent, nest);
    assert!(counted <= most, "{counted} of {most}: {nest:?}");
    counted == most
}

#[test]
fn no_block_of_an_accepted_nest_has_more() {
    let mut random = Random::new(61);
    let mut nests = accepted(62, 1500);
    nests.extend(nests::full_depths().map(|depth| nests::full(&mut random, depth)));
    nests.extend(corners(&mut random));
    let reached = nests.iter().filter(|nest| compare_accepted(&mut random, nest)).count();
    assert!(reached >= 50, "too few to see a bound that is too large: {reached}");
}

/// Every number of dependences with every β that leaves one of them out: 2m - β is reached.
#[test]
fn a_block_may_have_as_many() {
    let mut random = Random::new(63);
    for (m, beta) in (2..=8).flat_map(|m| [1, 2, 3].map(|b| (m, b))).filter(|(m, beta)| m > beta) {
        for _ in 0..4 {
            let nest = reaching_nest(&mut random, m, beta);
            let lent = lent(&mut random, &nest);
            assert_eq!(asked(&lent), (0, 2 * m - beta), "{nest:?}");
            assert_eq!(planned_most(&lent, &nest), 2 * m - beta, "{nest:?}");
        }
    }
}

#[test]
fn refused_nests_have_their_numbers_and_0() {
    let mut random = Random::new(64);
    let nests = refused(65, 2000);
    for (number, nest) in &nests {
        assert_eq!(expected(nest), (*number, 0));
        assert_eq!(asked(&lent(&mut random, nest)), (*number, 0), "{nest:?}");
    }
    assert_seen(nests.iter().map(|(number, _)| *number).collect(), OF_NESTS);
}

/// Limits, cube dimension, boundary values and weights have no part in it; a nest with more
/// iterations than there may be is refused all the same.
#[test]
fn the_bound_is_that_of_time_vector_and_dependences() {
    for example in ALL {
        let mut nest = example.nest();
        nest.lower.fill(-7);
        nest.upper.fill(-7);
        nest.cube_dimension = 6;
        nest.boundary_values.fill(65535);
        nest.boundary_values[0] = 0;
        nest.weights.fill(255);
        assert_eq!(asked(&plain(&nest)), (0, example.bound), "{}", example.name);
        nest.upper[1] = 993;
        nest.upper[0] = -3;
        assert_eq!(asked(&plain(&nest)), (6, 0), "{}", example.name);
    }
}

#[test]
fn numbers_at_the_ends_of_their_type_are_refused() {
    for end in [i64::MIN, i64::MIN + 1, -1, i64::MAX - 1, i64::MAX] {
        assert_eq!(asked(&Nest::from([end; NUMBERS])), (2, 0));
    }
}
