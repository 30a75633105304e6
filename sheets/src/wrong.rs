//! Wrong ways to choose auxiliary vectors and to deal bits at the greatest depth (document 02,
//! U11), for tests of comparisons: each has to be told apart from the right one.

use second::linear::{self, Vector};
use second::mapping::{directions, Mapping};
use second::nest::LoopNest;
use second::partition::{auxiliary_vectors, Choice, Partition};
use second::plan::Plan;

/// What a planner might make of the directions q, first auxiliary, second auxiliary, class.
pub type Dealing = fn(&mut Vec<Vec<i64>>);

pub const WRONG_DEALINGS: &[(&str, Dealing)] = &[
    ("class before the second auxiliary", |directions| directions.swap(2, 3)),
    ("second auxiliary before the first", |directions| directions.swap(1, 2)),
    ("class before both", |directions| directions[1..].rotate_right(1)),
    ("class first", |directions| directions.rotate_right(1)),
    ("no second auxiliary", |directions| drop(directions.remove(2))),
    ("no first auxiliary", |directions| drop(directions.remove(1))),
    ("the first auxiliary twice", |directions| directions[2] = directions[1].clone()),
    ("no class", |directions| drop(directions.pop())),
];

/// The mapping of a nest under a dealing, which changes it where there are four directions.
pub fn dealt_by(nest: &LoopNest, plan: &Plan, dealing: Dealing) -> Mapping {
    let mut directions = directions(&plan.partition.block_groups);
    if directions.len() == 4 {
        dealing(&mut directions);
    }
    Mapping::along(nest, &plan.iterations, &plan.partition, &directions)
}

/// The chosen vectors, of which the grouping vector is the first.
fn chosen(projected: &[Vector], numbers: &[usize]) -> Vec<Vector> {
    numbers.iter().map(|&number| projected[number].clone()).collect()
}

/// Every dependence that is independent of the grouping vector, as many as there may be. Those that
/// depend on others of them are then taken out, since nothing can be solved for along them.
fn against_grouping_vector_only(projected: &[Vector], grouping: Option<usize>) -> Vec<usize> {
    let Some(grouping) = grouping else { return Vec::new() };
    let is_taken = |&k: &usize| linear::are_independent(&chosen(projected, &[grouping, k]));
    let most = projected[0].len() - 2;
    let mut taken = vec![grouping];
    for number in (0..projected.len()).filter(is_taken).take(most) {
        taken.push(number);
        if !linear::are_independent(&chosen(projected, &taken)) {
            taken.pop();
        }
    }
    taken[1..].to_vec()
}

/// The same vectors, but from the last dependence to the first.
fn from_the_last(projected: &[Vector], grouping: Option<usize>) -> Vec<usize> {
    let last = projected.len() - 1;
    let turned: Vec<Vector> = projected.iter().rev().cloned().collect();
    let found = auxiliary_vectors(&turned, grouping.map(|number| last - number));
    found.iter().map(|number| last - number).collect()
}

pub const WRONG_CHOICES: &[(&str, Choice)] = &[
    ("one auxiliary vector", |projected, grouping| {
        auxiliary_vectors(projected, grouping).into_iter().take(1).collect()
    }),
    ("the second auxiliary vector alone", |projected, grouping| {
        auxiliary_vectors(projected, grouping).into_iter().skip(1).collect()
    }),
    ("each tried against the grouping vector only", against_grouping_vector_only),
    ("from the last to the first", from_the_last),
    ("the second first", |projected, grouping| {
        auxiliary_vectors(projected, grouping).into_iter().rev().collect()
    }),
];

/// The partition and the mapping of a nest under a choice of auxiliary vectors.
pub fn chosen_by(nest: &LoopNest, plan: &Plan, choice: Choice) -> (Partition, Mapping) {
    let partition = Partition::choosing(nest, &plan.iterations, choice);
    let mapping = Mapping::new(nest, &plan.iterations, &partition);
    (partition, mapping)
}
