//! The second planner's run on generated nests: complete runs end in the sequential loop's table,
//! and any list of moves is answered as by the reference machine.

use second::machine::{Machine, Move, ReferenceMachine, State, Tables};
use second::nest::LoopNest;
use second::plan::Plan;
use second::refusal::{Number, DONE};
use second::sequential::{sequential_values, weighted_sum};
use second::text;
use sheets::Random;

fn compute(processor: usize) -> Move {
    Move::Compute { processor }
}

fn deliver(rank: usize, dependence: usize) -> Move {
    Move::Deliver { rank, dependence }
}

/// Accepted nests of at most the given number of iterations.
fn small_nests(most: i64) -> Vec<LoopNest> {
    (0..500)
        .filter_map(|index| text::read(&sheets::case(5, index).text).ok())
        .filter(|nest| nest.iteration_count() <= most)
        .collect()
}

/// Every move that the reference machine could ever allow.
fn every_move(plan: &Plan) -> Vec<Move> {
    let computes = plan.mapping.processors.iter().map(|&processor| compute(processor));
    let delivers = plan.mapping.messages.iter().map(|&(rank, number)| deliver(rank, number));
    computes.chain(delivers).collect()
}

/// Goes round all moves until a whole round allows none; answers how many were allowed.
fn run_round_robin(moves: &[Move], mut execute: impl FnMut(Move) -> Number) -> usize {
    let mut allowed = 0;
    loop {
        let before_round = allowed;
        allowed += moves.iter().filter(|&&request| execute(request) == DONE).count();
        if allowed == before_round {
            return allowed;
        }
    }
}

#[test]
fn complete_runs_end_in_the_sequential_table() {
    let nests = small_nests(120);
    assert!(nests.len() > 100);
    for nest in &nests {
        let plan = Plan::new(nest);
        let tables = Tables::of_plan(&plan);
        let machine = Machine::new(nest, weighted_sum(nest)).ok().unwrap();
        let mut state = State::fresh(vec![-1; plan.iterations.count()]);
        let moves = every_move(&plan);
        let allowed =
            run_round_robin(&moves, |request| machine.execute(&tables, &mut state, request));
        assert_eq!(allowed, plan.iterations.count() + plan.mapping.messages.len());
        assert_eq!(state.values, plan.values);

        let mut reference = ReferenceMachine::new(nest);
        assert_eq!(run_round_robin(&moves, |request| reference.execute(request)), allowed);
    }
}

#[test]
fn complete_run_under_another_rule() {
    for nest in &small_nests(60) {
        let rule = |point: &[i64], rank: usize, sources: &[i64]| {
            let places: i64 = point.iter().sum();
            sources.iter().fold(places - rank as i64, |sum, source| (3 * sum + source) % 9973)
        };
        let plan = Plan::new(nest);
        let machine = Machine::new(nest, rule).ok().unwrap();
        let tables = Tables::of_plan(&plan);
        let mut state = State::fresh(vec![0; plan.iterations.count()]);
        run_round_robin(&every_move(&plan), |r| machine.execute(&tables, &mut state, r));
        assert_eq!(state.values, sequential_values(nest, &plan.iterations, rule));
    }
}

/// A move of any kind, places that do not exist included.
fn any_move(random: &mut Random, plan: &Plan, nest: &LoopNest) -> Move {
    let count = plan.iterations.count() as i64;
    let messages = &plan.mapping.messages;
    match random.between(0, 3) {
        0 => compute(plan.mapping.processors[random.between(0, count - 1) as usize]),
        1 => compute(random.between(0, nest.processor_count() as i64) as usize),
        2 if !messages.is_empty() => {
            let (rank, number) = messages[random.between(0, messages.len() as i64 - 1) as usize];
            deliver(rank, number)
        }
        _ => deliver(
            random.between(0, count) as usize,
            random.between(0, nest.dependence_count) as usize,
        ),
    }
}

/// The state that document 01 gives after a list of moves: done bytes and delivered bits are those
/// of the reference machine, computed values the sequential loop's, all others as at the start.
fn expected_state(reference: &ReferenceMachine, plan: &Plan, start: &State) -> State {
    let mut expected = start.clone();
    for &rank in &reference.computed {
        expected.values[rank] = plan.values[rank];
        expected.done[rank] = 1;
    }
    for &(rank, number) in &reference.delivered {
        expected.delivered[rank] |= 1 << number;
    }
    expected
}

#[test]
fn any_list_of_moves_is_answered_as_by_the_reference_machine() {
    let mut random = Random::new(3);
    for nest in &small_nests(40) {
        let plan = Plan::new(nest);
        let tables = Tables::of_plan(&plan);
        let machine = Machine::new(nest, weighted_sum(nest)).ok().unwrap();
        let mut reference = ReferenceMachine::new(nest);
        let values = (0..plan.iterations.count() as i64 + 2).map(|entry| 70000 + entry).collect();
        let start = State::fresh(values);
        let mut state = start.clone();
        let mut allowed = 0;
        for _ in 0..300 {
            let request = any_move(&mut random, &plan, nest);
            let answer = machine.execute(&tables, &mut state, request);
            assert_eq!(answer, reference.execute(request));
            assert_eq!(state, expected_state(&reference, &plan, &start));
            allowed += usize::from(answer == DONE);
        }
        assert_eq!(allowed, reference.computed.len() + reference.delivered.len());
    }
}
