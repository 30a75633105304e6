//! Four loops (document 02, U11): the sheet of examples/ that is worked out by hand, its plan, rows
//! and moves; and nests with a loop more that changes nothing, planned by the library.

mod common;

use common::*;
use rowlock::{Counts, Made, Move, Refusal};
use second::nest::LoopNest;
use second::worked::{FOUR_LISTED, FOUR_ON_EIGHT};
use sheets::deeper::with_loop;
use sheets::Random;

const SHEET: &[u8] = include_bytes!("../../examples/U11-four-loops.txt");

/// Four tables of a plan, and its counts.
type Tables = (Vec<u32>, Vec<u16>, Vec<u8>, Vec<u16>, Counts);

/// The library's plan of a nest of so many iterations.
fn planned(nest: &rowlock::Nest, count: usize) -> Tables {
    let (mut steps, mut blocks) = (vec![77; count], vec![77; count]);
    let (mut processors, mut values) = (vec![77; count], vec![77; count]);
    let counts = rowlock::plan(nest, &mut steps, &mut blocks, &mut processors, &mut values);
    (steps, blocks, processors, values, counts.expect("an accepted nest"))
}

/// A column of the listing that is worked out by hand.
fn column<T: TryFrom<i64>>(place: usize) -> Vec<T> {
    let entry =
        |line: &[i64; 5]| line[place].try_into().ok().expect("a number of the table's type");
    FOUR_LISTED[1..].iter().map(entry).collect()
}

#[test]
fn the_sheet_worked_out_by_hand() {
    let nest = rowlock::read(SHEET).expect("an accepted nest");
    let [iterations, steps, blocks, processors, messages] = FOUR_LISTED[0].map(|n| n as usize);
    let counts = Counts { iterations, steps, blocks, processors, messages };
    assert_eq!(planned(&nest, 16), (column(1), column(2), column(3), column(4), counts));
    assert_eq!(rowlock::most_receivers(&nest), Ok(2 * 4 - 3));
    assert_eq!(rowlock::inspect(&nest), Ok(16));
    let mut text = [0; rowlock::MAX_TEXT];
    let length = rowlock::write(&nest, &mut text).expect("room for every text");
    assert_eq!(&text[..length], SHEET);
}

/// With c = 3 there is a bit for the second auxiliary vector too, and no use for a fourth bit.
#[test]
fn on_more_processors_the_second_auxiliary_vector_takes_a_bit() {
    let mut nest = rowlock::read(SHEET).expect("an accepted nest");
    let expected: Vec<u8> =
        column::<usize>(2).iter().map(|&block| FOUR_ON_EIGHT[block] as u8).collect();
    for cube in [3, 4, 6] {
        nest.cube = cube;
        assert_eq!(planned(&nest, 16).2, expected, "{cube}");
    }
}

/// Eight iterations have the outermost index 0, and eight have 1.
#[test]
fn the_rows_are_halves_of_the_table() {
    let nest = rowlock::read(SHEET).expect("an accepted nest");
    let table: Vec<usize> = (0..16).collect();
    assert_eq!(rowlock::locate(&nest, 16, 0), Ok(0..8));
    assert_eq!(rowlock::locate(&nest, 16, 1), Ok(8..16));
    assert_eq!(rowlock::row(&nest, &table, 1), Ok(&table[8..]));
    assert_eq!(rowlock::locate(&nest, 16, 2), Err(Refusal::NO_SUCH_ROW));
    assert_eq!(rowlock::locate(&nest, 15, 0), Err(Refusal::SHORT_BUFFER));
}

/// Rank 8 is on processor 0 and needs rank 0, of processor 2, along the fourth dependence; rank 2
/// is on processor 3 and needs it along the second; processor 1 has nothing.
#[test]
fn moves_of_four_loops() {
    let nest = rowlock::read(SHEET).expect("an accepted nest");
    let (steps, processors) = (column(1), column(3));
    let (mut values, mut done, mut delivered) = ([9; 16], [0; 16], [0; 16]);
    let mut make = |request| {
        let state = (&mut values, &mut done, &mut delivered);
        rowlock::make_move(&nest, request, &steps, &processors, state.0, state.1, state.2)
    };
    let compute = |processor| Move::Compute { processor };
    let deliver = |rank, dependence| Move::Deliver { rank, dependence };
    assert_eq!(make(compute(0)), Err(Refusal::WAITING));
    assert_eq!(make(compute(1)), Err(Refusal::IDLE_PROCESSOR));
    assert_eq!(make(compute(4)), Err(Refusal::NO_SUCH_PLACE));
    assert_eq!(make(deliver(8, 3)), Err(Refusal::OUT_OF_TURN));
    assert_eq!(make(compute(2)), Ok(Made::Computed { rank: 0, value: 4 }));
    assert_eq!(make(deliver(8, 4)), Err(Refusal::NO_SUCH_PLACE));
    assert_eq!(make(deliver(8, 3)), Ok(Made::Delivered { rank: 8, dependence: 3 }));
    assert_eq!(make(deliver(4, 2)), Err(Refusal::OUT_OF_TURN));
    assert_eq!(make(compute(0)), Ok(Made::Computed { rank: 8, value: 15 }));
    assert_eq!(make(compute(3)), Err(Refusal::WAITING));
    assert_eq!(make(deliver(2, 1)), Ok(Made::Delivered { rank: 2, dependence: 1 }));
    assert_eq!(make(compute(3)), Ok(Made::Computed { rank: 2, value: 9 }));
    assert_eq!((delivered[8], delivered[2]), (1 << 3, 1 << 1));
}

/// One loop in two, two in three, three in four, the new loop outermost and at any other place.
#[test]
fn a_loop_of_one_index_that_nothing_moves_along_changes_no_plan() {
    let mut random = Random::new(81);
    let mut compared = [0; 4];
    for nest in accepted(82, 400).iter().filter(|nest| nest.depth < *LoopNest::DEPTHS.end()) {
        let count = nest.iteration_count() as usize;
        let expected = planned(&lent(&mut random, nest), count);
        for place in [0, random.place(nest.lower.len() + 1)] {
            let deeper = with_loop(nest, place, random.pick(&[-1000, -1, 0, 3, 1000]));
            assert!(planned(&lent(&mut random, &deeper), count) == expected, "{deeper:?}");
        }
        compared[nest.depth as usize] += 1;
    }
    assert!(compared[1..].iter().all(|&count| count >= 30), "{compared:?}");
}
