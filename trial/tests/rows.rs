//! `locate` and `row`. A row starts behind the iterations with a smaller outermost index, and has
//! as many as have that index (document 01, "The row").

mod common;

use common::*;
use rowlock::{exported, Nest, Refusal};
use second::nest::Iterations;
use sheets::Random;

/// Locates a row and compares with what must be answered: start and length.
fn compare_locating(nest: &Nest, entries: usize, index: i64, expected: Result<[usize; 2], u8>) {
    let mut span = [77; 2];
    let number = exported::locate(nest, entries, index, &mut span);
    assert_eq!(
        (number, span),
        expected.map_or_else(|refusal| (refusal, [0, 0]), |span| (0, span)),
        "{nest:?} {index}"
    );
    let result = rowlock::locate(nest, entries, index).map_err(Refusal::number);
    assert_eq!(result, expected.map(|[start, length]| start..start + length));
}

#[test]
fn rows_lie_where_their_iterations_do() {
    let mut random = Random::new(31);
    for nest in accepted(9, 250) {
        let points = Iterations::new(&nest).points;
        let (n, lent) = (points.len(), lent(&mut random, &nest));
        let table: Vec<usize> = (0..n + 3).collect();
        for index in nest.lower[0]..=nest.upper[0] {
            let start = points.iter().filter(|point| point[0] < index).count();
            let length = points.iter().filter(|point| point[0] == index).count();
            compare_locating(&lent, n, index, Ok([start, length]));
            compare_locating(&lent, usize::MAX, index, Ok([start, length]));
            compare_locating(&lent, n - 1, index, Err(14));
            let row = rowlock::row(&lent, &table, index).expect("a row of the nest");
            assert_eq!(row, &table[start..start + length]);
            assert!(
                std::ptr::eq(row, &table[start..start + length]),
                "the row is a part of the table itself"
            );
        }
    }
}

#[test]
fn other_indices_are_refused_after_a_short_table() {
    let mut random = Random::new(32);
    for nest in accepted(10, 100) {
        let (n, lent) = (nest.iteration_count() as usize, lent(&mut random, &nest));
        for index in
            [nest.lower[0] - 1, nest.upper[0] + 1, i64::MIN, i64::MAX, nest.lower[0] + (1 << 32)]
        {
            compare_locating(&lent, n, index, Err(19));
            compare_locating(&lent, n + 1, index, Err(19));
            compare_locating(&lent, n - 1, index, Err(14));
            compare_locating(&lent, 0, index, Err(14));
            assert_eq!(rowlock::row(&lent, &vec![0; n], index), Err(Refusal::NO_SUCH_ROW));
        }
        assert_eq!(rowlock::row::<u8>(&lent, &[], nest.lower[0]), Err(Refusal::SHORT_BUFFER));
    }
}

#[test]
fn rows_of_refused_nests_are_refused_first() {
    let mut random = Random::new(33);
    let nests = refused(11, 600);
    for (number, nest) in &nests {
        let lent = lent(&mut random, nest);
        for (entries, index) in [(0, i64::MIN), (4096, 0), (usize::MAX, i64::MAX)] {
            compare_locating(&lent, entries, index, Err(*number));
            assert_eq!(rowlock::row(&lent, &[0; 9], index).map_err(Refusal::number), Err(*number));
        }
    }
    assert_seen(nests.iter().map(|(number, _)| *number).collect(), OF_NESTS);
}
