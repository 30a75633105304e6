//! The partitioning of document 01's "From sheet to plan": projections, group size, grouping and
//! auxiliary vectors, classes, groups and blocks (000, algorithm 1); and the steps, which are those
//! of document 02, U2.

use std::collections::{BTreeSet, HashMap};
use std::hash::Hash;

use crate::linear::{self, Vector};
use crate::nest::{inner_product, Iterations, LoopNest};
use crate::rational::Rational;

/// A group of projected points, named by its class and its coordinates within the class: q along
/// the grouping vector, and along each auxiliary vector its own b, in the order of their choice.
#[derive(Clone, Debug, PartialEq, Eq, Hash)]
pub struct Group {
    pub class: usize,
    pub q: i64,
    pub b: Vec<i64>,
}

#[derive(Clone, Debug)]
pub struct Partition {
    /// The step of each iteration.
    pub steps: Vec<i64>,
    /// The number of steps. Each of them has an iteration.
    pub step_count: i64,
    /// r_i of each dependence.
    pub multipliers: Vec<i64>,
    /// r, the largest of the multipliers.
    pub group_size: i64,
    /// The number of the dependence that is the grouping vector, if there is one.
    pub grouping: Option<usize>,
    /// The numbers of the dependences that are auxiliary vectors: of n loops n - 2 at most.
    pub auxiliary: Vec<usize>,
    /// The projected points, each once, by first iteration.
    pub projected_points: Vec<Vector>,
    /// The place of each iteration's projection among the projected points.
    pub projected_point_of: Vec<usize>,
    /// The seed of each class.
    pub seeds: Vec<Vector>,
    /// The group of each projected point.
    pub groups: Vec<Group>,
    /// The block of each iteration.
    pub blocks: Vec<usize>,
    /// The group of each block.
    pub block_groups: Vec<Group>,
}

/// How auxiliary vectors are chosen: their numbers, by the projected dependences and the number of
/// the grouping vector.
pub type Choice = fn(&[Vector], Option<usize>) -> Vec<usize>;

impl Partition {
    /// The partition of an accepted nest.
    pub fn new(nest: &LoopNest, iterations: &Iterations) -> Partition {
        Partition::choosing(nest, iterations, auxiliary_vectors)
    }

    /// The partition with auxiliary vectors that are chosen in any way, as long as all chosen
    /// vectors are independent; tests make wrong partitions by it.
    pub fn choosing(nest: &LoopNest, iterations: &Iterations, choose: Choice) -> Partition {
        let (steps, step_count) = steps(nest, iterations);
        let projected: Vec<Vector> =
            nest.dependences.iter().map(|dependence| projection(nest, dependence)).collect();
        let multipliers: Vec<i64> = projected.iter().map(|vector| multiplier(vector)).collect();
        let group_size = *multipliers.iter().max().expect("at least one dependence");
        let grouping = grouping_vector(&projected, &multipliers, group_size);
        let auxiliary = choose(&projected, grouping);
        let chosen: Vec<Vector> =
            grouping.iter().chain(&auxiliary).map(|&number| projected[number].clone()).collect();

        let projections: Vec<Vector> =
            iterations.points.iter().map(|point| projection(nest, point)).collect();
        let (projected_points, projected_point_of) = numbered_by_first(&projections);
        let (seeds, classes) = classes(&chosen, &projected_points);
        let group_of = |(point, &class): (&Vector, &usize)| {
            group(class, &coordinates(&chosen, point, &seeds[class]), grouping, group_size)
        };
        let groups: Vec<Group> = projected_points.iter().zip(&classes).map(group_of).collect();
        let groups_of_iterations: Vec<Group> =
            projected_point_of.iter().map(|&point| groups[point].clone()).collect();
        let (block_groups, blocks) = numbered_by_first(&groups_of_iterations);

        Partition {
            steps,
            step_count,
            multipliers,
            group_size,
            grouping,
            auxiliary,
            projected_points,
            projected_point_of,
            seeds,
            groups,
            blocks,
            block_groups,
        }
    }

    /// β: how many vectors were chosen, grouping and auxiliary together.
    pub fn beta(&self) -> usize {
        self.grouping.iter().count() + self.auxiliary.len()
    }

    pub fn class_count(&self) -> usize {
        self.seeds.len()
    }

    pub fn block_count(&self) -> usize {
        self.block_groups.len()
    }
}

/// The step of each iteration j: how many different times smaller than its own, P·j, iterations
/// have. And the number of steps, which is the number of different times (document 02, U2).
fn steps(nest: &LoopNest, iterations: &Iterations) -> (Vec<i64>, i64) {
    let times: Vec<i64> =
        iterations.points.iter().map(|point| inner_product(&nest.time_vector, point)).collect();
    let different: BTreeSet<i64> = times.iter().copied().collect();
    let rising: Vec<i64> = different.into_iter().collect();
    let smaller = |time: &i64| rising.partition_point(|other| other < time) as i64;
    (times.iter().map(smaller).collect(), rising.len() as i64)
}

/// The part of j across the time vector (document 01, "Projection"; 000, section II).
pub fn projection(nest: &LoopNest, j: &[i64]) -> Vector {
    let time = inner_product(&nest.time_vector, j);
    let ratio = Rational::new(i128::from(time), i128::from(nest.time_vector_square()));
    j.iter()
        .zip(&nest.time_vector)
        .map(|(&component, &p)| Rational::whole(component) - ratio * Rational::whole(p))
        .collect()
}

/// r_i of a projected dependence: the first of 1, 2, 3, .. that clears all its denominators. They
/// divide s, so the search ends.
fn multiplier(projected: &[Rational]) -> i64 {
    let mut candidate = 1;
    loop {
        let factor = Rational::whole(candidate);
        if projected.iter().all(|&component| (factor * component).is_whole()) {
            break candidate;
        }
        candidate += 1;
    }
}

/// The number of the first dependence that needs the full group size and moves across the time
/// vector; none if no dependence does.
fn grouping_vector(projected: &[Vector], multipliers: &[i64], group_size: i64) -> Option<usize> {
    (0..projected.len())
        .find(|&number| multipliers[number] == group_size && !linear::is_zero(&projected[number]))
}

/// The numbers of the auxiliary vectors: going down the list, every dependence that adds a new
/// dimension to what the grouping vector and earlier auxiliary vectors span, all projected. What is
/// projected lies across the time vector and has a dimension less than the nest has loops, so β is
/// n - 1 at most, whatever n is.
pub fn auxiliary_vectors(projected: &[Vector], grouping: Option<usize>) -> Vec<usize> {
    let mut chosen: Vec<Vector> =
        grouping.iter().map(|&number| projected[number].clone()).collect();
    let mut auxiliary = Vec::new();
    for (number, vector) in projected.iter().enumerate() {
        chosen.push(vector.clone());
        if linear::are_independent(&chosen) {
            auxiliary.push(number);
        } else {
            chosen.pop();
        }
    }
    auxiliary
}

/// The different things in a list, each once, in the order of their first places; and for each
/// place of the list the number of its thing, from 0. Of a list in loop order, this numbers things
/// by the first iteration that has them.
fn numbered_by_first<T: Clone + Eq + Hash>(list: &[T]) -> (Vec<T>, Vec<usize>) {
    let mut different: Vec<T> = Vec::new();
    let mut number_of: HashMap<T, usize> = HashMap::new();
    let mut numbers = Vec::new();
    for thing in list {
        let next = different.len();
        let number = *number_of.entry(thing.clone()).or_insert(next);
        if number == next {
            different.push(thing.clone());
        }
        numbers.push(number);
    }
    (different, numbers)
}

/// The seed of each class, and the class of each projected point (document 01, "Class"). Points
/// share a class if whole steps along the chosen vectors lead from one to the other. The points
/// come in the order of their first iterations: so do the classes, and a class's first point is its
/// seed.
fn classes(chosen: &[Vector], projected_points: &[Vector]) -> (Vec<Vector>, Vec<usize>) {
    let Some(first) = projected_points.first() else {
        return (Vec::new(), Vec::new());
    };
    let basis = filled_up_with_unit_vectors(chosen, first.len());
    let marks: Vec<Vector> =
        projected_points.iter().map(|point| class_mark(&basis, chosen.len(), point)).collect();
    let (different, classes) = numbered_by_first(&marks);
    let first_of_class = |class| classes.iter().position(|&other| other == class);
    let seeds = (0..different.len())
        .map(|class| projected_points[first_of_class(class).expect("a first point")].clone())
        .collect();
    (seeds, classes)
}

/// The given independent vectors and then those unit vectors that are independent of all before
/// them: a basis of the whole space.
fn filled_up_with_unit_vectors(vectors: &[Vector], length: usize) -> Vec<Vector> {
    let mut basis = vectors.to_vec();
    for place in 0..length {
        basis.push(linear::unit_vector(length, place));
        if !linear::are_independent(&basis) {
            basis.pop();
        }
    }
    basis
}

/// What all points of one class, and no others, have in common. Written in the basis, a point has
/// one coordinate for each chosen vector and one for each vector that fills up. The difference of
/// two points is a combination of the chosen vectors with whole coefficients exactly if the former
/// coordinates differ by whole numbers (their fractions are equal) and the latter are equal.
fn class_mark(basis: &[Vector], chosen_count: usize, point: &[Rational]) -> Vector {
    let mut mark = linear::coefficients(basis, point).expect("a basis reaches every point");
    for coordinate in &mut mark[..chosen_count] {
        *coordinate = coordinate.fraction();
    }
    mark
}

/// How many whole steps along each chosen vector lead from a class's seed to one of its points: u
/// first, if there is a grouping vector, then each b.
fn coordinates(chosen: &[Vector], point: &[Rational], seed: &[Rational]) -> Vec<i64> {
    let from_seed = linear::difference(point, seed);
    linear::coefficients(chosen, &from_seed)
        .expect("a combination of the chosen vectors")
        .into_iter()
        .map(|coefficient| coefficient.to_whole().expect("a whole coefficient"))
        .collect()
}

/// The quotient of u by a positive r, rounded downwards below 0 too.
fn floor_division(u: i64, r: i64) -> i64 {
    Rational::new(i128::from(u), i128::from(r)).floor()
}

/// The group of a point with the given coordinates: r neighbours along the grouping vector share
/// one. Without a grouping vector there are no coordinates, and q is 0.
fn group(class: usize, coordinates: &[i64], grouping: Option<usize>, group_size: i64) -> Group {
    match grouping {
        None => Group { class, q: 0, b: Vec::new() },
        Some(_) => Group {
            class,
            q: floor_division(coordinates[0], group_size),
            b: coordinates[1..].to_vec(),
        },
    }
}

#[cfg(test)]
mod tests {
    use super::*;

    /// The steps and their number of a nest with these limits and one dependence, which must be
    /// accepted.
    fn steps_of(limits: &[[i64; 2]], time_vector: &[i64], dependence: &[i64]) -> (Vec<i64>, i64) {
        let nest = LoopNest {
            depth: limits.len() as i64,
            dependence_count: 1,
            cube_dimension: 0,
            lower: limits.iter().map(|[lower, _]| *lower).collect(),
            upper: limits.iter().map(|[_, upper]| *upper).collect(),
            time_vector: time_vector.to_vec(),
            dependences: vec![dependence.to_vec()],
            boundary_values: vec![0],
            weights: vec![1],
        };
        assert_eq!(nest.refusal(), None);
        let partition = Partition::new(&nest, &Iterations::new(&nest));
        (partition.steps, partition.step_count)
    }

    /// P·j is 2(i + j), row by row 0 2 4, 2 4 6, 4 6 8: the times 0, 2, 4, 6, 8, and no odd one.
    #[test]
    fn a_common_factor_of_the_time_vector_leaves_no_step_empty() {
        let steps = vec![0, 1, 2, 1, 2, 3, 2, 3, 4];
        assert_eq!(steps_of(&[[0, 2], [0, 2]], &[2, 2], &[0, 1]), (steps, 5));
    }

    /// The times are 0 3, 2 5. Nothing divides them all, and 1 and 4 are missing all the same. On
    /// 16i + j, with 0 1 2, 16 17 18, the times from 3 to 15 are.
    #[test]
    fn times_without_a_common_factor_may_have_gaps() {
        assert_eq!(steps_of(&[[0, 1], [0, 1]], &[2, 3], &[0, 1]), (vec![0, 2, 1, 3], 4));
        let far_apart = (vec![0, 1, 2, 3, 4, 5], 6);
        assert_eq!(steps_of(&[[0, 1], [0, 2]], &[16, 1], &[0, 1]), far_apart);
    }

    /// First the times 0 2 4, -3 -1 1: in order -3, -1, 0, 1, 2, 4. Then 0 -2, -2 -4.
    #[test]
    fn negative_components() {
        let steps = vec![2, 4, 5, 0, 1, 3];
        assert_eq!(steps_of(&[[0, 1], [0, 2]], &[-3, 2], &[0, 1]), (steps, 6));
        assert_eq!(steps_of(&[[0, 1], [0, 1]], &[-2, -2], &[1, -2]), (vec![2, 1, 1, 0], 3));
    }

    /// P·j is 16(i - j), row by row 0 -16 -32, 16 0 -16, 32 16 0: five times, 16 apart.
    #[test]
    fn components_at_both_ends_of_their_span() {
        let steps = vec![2, 1, 0, 3, 2, 1, 4, 3, 2];
        assert_eq!(steps_of(&[[0, 2], [0, 2]], &[16, -16], &[1, 0]), (steps, 5));
    }

    /// One time, whatever it is: 16000, three times -16000, or four times.
    #[test]
    fn one_iteration_is_at_step_0_of_1() {
        assert_eq!(steps_of(&[[1000, 1000]], &[16], &[1]), (vec![0], 1));
        let corner = [[-1000, -1000]; 4];
        assert_eq!(steps_of(&corner[1..], &[16, 16, 16], &[0, 0, 1]), (vec![0], 1));
        assert_eq!(steps_of(&corner, &[16, 16, 16, 16], &[0, 0, 0, 1]), (vec![0], 1));
    }

    /// The times are -16000, -15984, .., 16000, one for each iteration.
    #[test]
    fn the_longest_loop_has_a_step_for_each_iteration() {
        assert_eq!(steps_of(&[[-1000, 1000]], &[16], &[1]), ((0..2001).collect(), 2001));
    }

    /// P·j is 4a + 6c, whatever b is: 0 6, 0 6, 4 10, 4 10.
    #[test]
    fn three_loops_of_which_one_moves_no_time() {
        let steps = vec![0, 2, 0, 2, 1, 3, 1, 3];
        assert_eq!(steps_of(&[[0, 1]; 3], &[4, 0, 6], &[0, 0, 1]), (steps, 4));
    }

    /// P·j is 16(a - b - c + d), where a and d are -1000 and 1000, so it is -16(b + c), and b + c
    /// is -1, 0, 0, 1.
    #[test]
    fn four_loops_at_both_ends_of_their_limits() {
        let limits = [[-1000, -1000], [-1000, -999], [999, 1000], [1000, 1000]];
        let steps = vec![2, 1, 1, 0];
        assert_eq!(steps_of(&limits, &[16, -16, -16, 16], &[0, 0, 0, 1]), (steps, 3));
    }

    #[test]
    fn floor_division_below_at_and_above_zero() {
        let quotients: Vec<i64> = (-3..=3).map(|u| floor_division(u, 2)).collect();
        assert_eq!(quotients, vec![-2, -1, -1, 0, 0, 1, 1]);
    }

    #[test]
    fn numbers_by_first_place() {
        let (different, numbers) = numbered_by_first(&["b", "a", "b", "c", "a"]);
        assert_eq!(different, vec!["b", "a", "c"]);
        assert_eq!(numbers, vec![0, 1, 0, 2, 1]);
    }
}
