//! The plain planner and the plain machine beside the second planner, on nests of every depth. The
//! bench itself holds the proved entries to the plain ones, in every run.

use std::collections::BTreeMap;

use second::machine;
use second::nest::{Iterations, LoopNest};
use second::partition::Partition;
use second::plan::Plan;
use second::receivers;
use second::sequential::weighted_sum;
use sheets::Random;
use trial::nests::{accepted, full, full_depths, numbers_of, refused};

use crate::machine::Machine;
use crate::nest::{Move, Nest, State, Tables};
use crate::plain::{self, is_deepest, Lookup, DEEPEST, OTHERS};
use crate::runs::round_robin;

/// Accepted nests as the second planner takes them, and as the plain one does.
fn accepted_nests(seed: u64, count: u64) -> Vec<(LoopNest, Nest)> {
    let mut random = Random::new(seed);
    (0..count)
        .map(|number| {
            let nest = accepted(&mut random, number);
            let numbers = numbers_of(&mut random, &nest);
            (nest, Nest::from(numbers))
        })
        .collect()
}

/// The second planner's plan, in tables with some entries more than there are iterations.
fn second_tables(nest: &LoopNest) -> Tables {
    let plan = Plan::new(nest);
    let count = plan.iterations.count();
    let mut tables = Tables::new([count + 3; 4]);
    for rank in 0..count {
        tables.steps[rank] = plan.partition.steps[rank] as u32;
        tables.blocks[rank] = plan.partition.blocks[rank] as u16;
        tables.processors[rank] = plan.mapping.processors[rank] as u8;
        tables.values[rank] = plan.values[rank] as u16;
    }
    tables.counts = [
        count,
        plan.partition.step_count as usize,
        plan.partition.block_count(),
        plan.mapping.used_processor_count(),
        plan.mapping.messages.len(),
    ];
    tables
}

/// Stops unless both plain planners and the plain loop make what the second planner makes.
fn assert_planned_alike(nest: &LoopNest, numbers: &Nest) {
    let expected = second_tables(nest);
    let fresh = Tables::new([expected.steps.len(); 4]);
    for lookup in [Lookup::Search, Lookup::Hash] {
        let mut tables = fresh.clone();
        assert_eq!(plain::plan(numbers, &mut tables, lookup), 0, "{nest:?}");
        assert!(tables == expected, "the planners differ on {nest:?}");
    }
    let mut values = fresh.values;
    assert_eq!(plain::fill(numbers, &mut values), 0, "{nest:?}");
    assert!(values == expected.values, "the loops differ on {nest:?}");
}

#[test]
fn plans_are_the_second_planners() {
    for (nest, numbers) in accepted_nests(1, 2000) {
        assert_planned_alike(&nest, &numbers);
    }
}

#[test]
fn plans_of_4096_iterations_are_the_second_planners() {
    let mut random = Random::new(2);
    for depth in full_depths() {
        for _ in 0..3 {
            let nest = full(&mut random, depth);
            let numbers = Nest::from(numbers_of(&mut random, &nest));
            assert_planned_alike(&nest, &numbers);
        }
    }
}

/// Among the nests that are compared are some of every depth with every number of chosen vectors.
#[test]
fn every_number_of_chosen_vectors_is_among_the_compared() {
    let mut found: BTreeMap<(i64, usize), usize> = BTreeMap::new();
    for (nest, _) in accepted_nests(1, 2000) {
        let partition = Partition::new(&nest, &Iterations::new(&nest));
        *found.entry((nest.depth, partition.beta())).or_default() += 1;
    }
    let pairs: Vec<(i64, usize)> = found.keys().copied().collect();
    let all: Vec<(i64, usize)> = LoopNest::DEPTHS
        .flat_map(|depth| (0..depth as usize).map(move |beta| (depth, beta)))
        .collect();
    assert_eq!(pairs, all);
    assert!(found.values().all(|count| *count >= 3), "{found:?}");
}

#[test]
fn bounds_are_the_second_planners() {
    for (nest, numbers) in accepted_nests(3, 400) {
        let mut most = 77;
        assert_eq!(plain::most_receivers(&numbers, &mut most), 0, "{nest:?}");
        assert_eq!(Ok(most), receivers::most_receivers(&nest), "{nest:?}");
    }
}

#[test]
fn refusals_are_the_second_planners() {
    let mut random = Random::new(4);
    for number in 0..2000 {
        let (refusal, nest) = refused(&mut random, number);
        let numbers = Nest::from(numbers_of(&mut random, &nest));
        let mut tables = Tables::new([4100; 4]);
        let untouched = Tables { counts: [0; 5], ..tables.clone() };
        let number = plain::plan(&numbers, &mut tables, Lookup::Hash);
        assert_eq!(u32::from(number), refusal, "{nest:?}");
        assert!(tables == untouched, "a refused plan of {nest:?} was written");
    }
}

/// A move as the second planner's machine takes it.
fn second_move(request: Move) -> machine::Move {
    match request {
        Move::Compute(processor) => machine::Move::Compute { processor },
        Move::Deliver(rank, dependence) => machine::Move::Deliver { rank, dependence },
    }
}

/// Stops unless the plain machine for N loops answers every move of a complete run as the second
/// planner's machine does, and ends in its state.
fn assert_run_alike<const N: usize>(nest: &LoopNest, numbers: &Nest) {
    let ours: Machine<N> = Machine::new(numbers).expect("an accepted nest");
    let theirs = machine::Machine::new(nest, weighted_sum(nest)).expect("an accepted nest");
    let tables = second_tables(nest);
    let their_tables = machine::Tables::of_plan(&Plan::new(nest));
    let mut state = State::fresh(tables.counts[0]);
    let values = state.values.iter().map(|value| i64::from(*value)).collect();
    let mut their_state = machine::State::fresh(values);
    for request in round_robin(&ours, &tables, 1 << numbers.cube).moves() {
        let number = ours.make_move(*request, &tables, &mut state).number;
        let expected = theirs.execute(&their_tables, &mut their_state, second_move(*request));
        assert_eq!(u32::from(number), expected, "{request:?} on {nest:?}");
    }
    assert_eq!(state.done, their_state.done, "{nest:?}");
    assert_eq!(state.delivered, their_state.delivered, "{nest:?}");
    let values: Vec<i64> = state.values.iter().map(|value| i64::from(*value)).collect();
    assert_eq!(values, their_state.values, "{nest:?}");
    assert!(state.done.iter().all(|done| *done == 1), "the run of {nest:?} is not complete");
}

#[test]
fn runs_are_the_second_planners() {
    let mut runs = 0;
    for (nest, numbers) in accepted_nests(5, 200) {
        if is_deepest(&numbers) {
            assert_run_alike::<DEEPEST>(&nest, &numbers);
            runs += 1;
        } else {
            assert_run_alike::<OTHERS>(&nest, &numbers);
        }
    }
    assert!(runs >= 40, "{runs} runs of the greatest depth");
}
