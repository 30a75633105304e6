//! `make_move` (and `plan`, on which it builds) through the results of this crate: lists of moves,
//! compared after each move with the second planner's run. `trial/run` tries many more on the
//! exported functions themselves.

mod common;

use common::*;
use rowlock::{exported, Counts, Made, Move, Refusal};
use sheets::Random;
use trial::entry::{Answer, Entry, Lent, Numbers, Planned, Request};
use trial::suite::{self, Sizes};

/// The results of this crate as the numbers that they stand for.
struct Results;

impl Entry for Results {
    fn plan(&self, nest: &Numbers, tables: Planned) -> u8 {
        let Planned { steps, blocks, processors, values, counts } = tables;
        match rowlock::plan(&(*nest).into(), steps, blocks, processors, values) {
            Ok(Counts { iterations, steps, blocks, processors, messages }) => {
                *counts = [iterations, steps, blocks, processors, messages];
                0
            }
            Err(refusal) => {
                *counts = [0; 5];
                refusal.number()
            }
        }
    }

    fn make_move(&self, nest: &Numbers, request: Request, lent: Lent) -> Answer {
        let Lent { steps, processors, values, done, delivered } = lent;
        let request = match request {
            Request { kind: exported::COMPUTE, first, .. } => Move::Compute { processor: first },
            Request { kind: exported::DELIVER, first, second } => {
                Move::Deliver { rank: first, dependence: second }
            }
            // a kind that is no move's cannot be asked for here, but what is owed for it can
            _ => Move::Compute { processor: usize::MAX },
        };
        match rowlock::make_move(
            &(*nest).into(),
            request,
            steps,
            processors,
            values,
            done,
            delivered,
        ) {
            Ok(Made::Computed { rank, value }) => Answer { number: 0, made: [rank, value.into()] },
            Ok(Made::Delivered { rank, dependence }) => {
                Answer { number: 0, made: [rank, dependence] }
            }
            Err(refusal) => Answer::refused(refusal.number()),
        }
    }
}

#[test]
fn lists_of_moves_are_answered_alike() {
    let report = suite::try_all(&Results, 41, Sizes { accepted: 85, refused: 100, full: 1 });
    let total = report.total();
    assert_eq!((total.failed, report.differences.as_slice()), (0, [].as_slice()));
    assert!(report.nests[&("depth", 4)] >= 25 && report.nests[&("depth", 3)] >= 10);
    assert!(report.nests[&("chosen vectors", 3)] >= 20);
    let answered: Vec<u8> = (0..=18).filter(|&number| total.answers[number as usize] > 0).collect();
    assert_seen(answered, &[&[0], OF_NESTS, &[14, 15, 16, 17, 18]].concat());
}

#[test]
fn moves_on_the_nest_of_the_document() {
    let nest = rowlock::read(P2).expect("an accepted nest");
    let (steps, processors) = ([0, 1, 2, 1, 2, 3], [0, 0, 1, 0, 0, 0]);
    let (mut values, mut done, mut delivered) = ([9; 6], [0; 6], [0; 6]);
    let mut make = |request| {
        rowlock::make_move(
            &nest,
            request,
            &steps,
            &processors,
            &mut values,
            &mut done,
            &mut delivered,
        )
    };
    let compute = |processor| Move::Compute { processor };
    let deliver = |rank, dependence| Move::Deliver { rank, dependence };
    assert_eq!(make(compute(1)), Err(Refusal::WAITING));
    assert_eq!(make(deliver(2, 0)), Err(Refusal::OUT_OF_TURN));
    assert_eq!(make(compute(2)), Err(Refusal::NO_SUCH_PLACE));
    assert_eq!(make(compute(usize::MAX)), Err(Refusal::NO_SUCH_PLACE));
    assert_eq!(make(deliver(usize::MAX, 0)), Err(Refusal::NO_SUCH_PLACE));
    assert_eq!(make(deliver(0, usize::MAX)), Err(Refusal::NO_SUCH_PLACE));
    assert_eq!(make(compute(0)), Ok(Made::Computed { rank: 0, value: 5 }));
    assert_eq!(make(compute(0)), Ok(Made::Computed { rank: 1, value: 14 }));
    assert_eq!(make(deliver(2, 0)), Ok(Made::Delivered { rank: 2, dependence: 0 }));
    assert_eq!(make(compute(1)), Ok(Made::Computed { rank: 2, value: 33 }));
    assert_eq!(make(compute(1)), Err(Refusal::IDLE_PROCESSOR));
    assert_eq!(
        (values, done, delivered),
        ([5, 14, 33, 9, 9, 9], [1, 1, 1, 0, 0, 0], [0, 0, 1, 0, 0, 0])
    );
}

/// The nest of document 01's listing with the boundary values 1 and 10, whatever stands behind them,
/// from the first move to the last.
#[test]
fn a_run_with_a_boundary_value_for_each_dependence() {
    let nest = rowlock::read(P2_WITH_TWO).expect("an accepted nest");
    let (steps, processors) = ([0, 1, 2, 1, 2, 3], [0, 0, 1, 0, 0, 0]);
    let moves = [
        (Move::Compute { processor: 0 }, Made::Computed { rank: 0, value: 32 }),
        (Move::Compute { processor: 0 }, Made::Computed { rank: 1, value: 95 }),
        (Move::Deliver { rank: 2, dependence: 0 }, Made::Delivered { rank: 2, dependence: 0 }),
        (Move::Compute { processor: 0 }, Made::Computed { rank: 3, value: 101 }),
        (Move::Compute { processor: 1 }, Made::Computed { rank: 2, value: 222 }),
        (Move::Compute { processor: 0 }, Made::Computed { rank: 4, value: 491 }),
        (Move::Deliver { rank: 5, dependence: 1 }, Made::Delivered { rank: 5, dependence: 1 }),
        (Move::Compute { processor: 0 }, Made::Computed { rank: 5, value: 1653 }),
    ];
    for junk in [[0, 0], [7, 7], [65536, 256], [i64::MIN, i64::MAX]] {
        let nest = with_junk_behind(&nest, junk);
        let (mut values, mut done, mut delivered) = ([9; 6], [0; 6], [0; 6]);
        for (request, made) in moves {
            let state = (&mut values, &mut done, &mut delivered);
            let answer =
                rowlock::make_move(&nest, request, &steps, &processors, state.0, state.1, state.2);
            assert_eq!(answer, Ok(made));
        }
        assert_eq!((values, done, delivered), (VALUES_WITH_TWO, [1; 6], [0, 0, 1, 0, 0, 2]));
    }
}

/// Kinds that are no move's.
const OTHER_KINDS: [usize; 5] = [0, 3, 256, (1 << 32) + 1, usize::MAX];

/// Asks for each of these kinds, for a place that each nest has, on a fresh state of so many
/// entries; each must be answered with the number, and change nothing.
fn other_kinds_are_answered(nest: &rowlock::Nest, entries: usize, number: u8) {
    let (steps, processors) = (vec![0; entries], vec![0; entries]);
    for kind in OTHER_KINDS {
        let (mut values, mut done, mut delivered, mut made) =
            (vec![9; entries], vec![0; entries], vec![0; entries], [77; 2]);
        let answer = exported::make_move(
            nest,
            [kind, 0, 0],
            &steps,
            &processors,
            &mut values,
            &mut done,
            &mut delivered,
            &mut made,
        );
        assert_eq!((answer, made), (number, [0, 0]), "{nest:?} {kind}");
        assert_eq!(
            (values, done, delivered),
            (vec![9; entries], vec![0; entries], vec![0; entries])
        );
    }
}

#[test]
fn other_kinds_are_no_such_place() {
    let mut random = Random::new(34);
    for nest in accepted(12, 100) {
        let (n, lent) = (nest.iteration_count() as usize, lent(&mut random, &nest));
        other_kinds_are_answered(&lent, n, 18);
        other_kinds_are_answered(&lent, n + 1, 18);
        other_kinds_are_answered(&lent, n - 1, 14);
    }
    let nests = refused(13, 600);
    for (number, nest) in &nests {
        other_kinds_are_answered(&lent(&mut random, nest), 3, *number);
    }
    assert_seen(nests.iter().map(|(number, _)| *number).collect(), OF_NESTS);
}
