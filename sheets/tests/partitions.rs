//! The second planner's partition on generated nests: its classes, steps and receivers are those of
//! the definitions, and what 000 says of groups and blocks holds.

use std::collections::{BTreeSet, HashMap, HashSet};

use second::linear::{self, Vector};
use second::nest::{inner_product, Iterations, LoopNest};
use second::partition::{projection, Group, Partition};
use second::receivers::receivers;
use second::text;
use sheets::receivers::{reaching_nest, Counted};
use sheets::Random;

/// The classes by the definition alone: each point is compared with the seed of each class found
/// so far.
fn classes_by_definition(chosen: &[Vector], points: &[Vector]) -> Vec<usize> {
    let mut seeds: Vec<&Vector> = Vec::new();
    let mut classes = Vec::new();
    for point in points {
        let found = seeds.iter().position(|seed| {
            linear::coefficients(chosen, &linear::difference(point, seed))
                .is_some_and(|found| found.iter().all(|coefficient| coefficient.is_whole()))
        });
        classes.push(found.unwrap_or(seeds.len()));
        if found.is_none() {
            seeds.push(point);
        }
    }
    classes
}

fn accepted_nests(count: u64) -> impl Iterator<Item = LoopNest> {
    (0..count).filter_map(|index| text::read(&sheets::case(11, index).text).ok())
}

#[test]
fn classes_are_those_of_the_definition() {
    let mut compared = 0;
    for nest in accepted_nests(600).filter(|nest| nest.iteration_count() <= 200) {
        let iterations = Iterations::new(&nest);
        let partition = Partition::new(&nest, &iterations);
        let chosen: Vec<Vector> = partition
            .grouping
            .iter()
            .chain(&partition.auxiliary)
            .map(|&number| projection(&nest, &nest.dependences[number]))
            .collect();
        let classes: Vec<usize> = partition.groups.iter().map(|group| group.class).collect();
        assert_eq!(classes, classes_by_definition(&chosen, &partition.projected_points));
        compared += 1;
    }
    assert!(compared > 150);
}

/// The steps by the definition alone: for each iteration the different smaller times are gathered
/// anew, and counted.
fn steps_by_definition(nest: &LoopNest, iterations: &Iterations) -> Vec<i64> {
    let points = &iterations.points;
    let times: Vec<i64> =
        points.iter().map(|point| inner_product(&nest.time_vector, point)).collect();
    let smaller = |time: &i64| {
        times.iter().filter(|&other| other < time).collect::<HashSet<&i64>>().len() as i64
    };
    times.iter().map(smaller).collect()
}

#[test]
fn steps_are_those_of_the_definition() {
    let mut compared = 0;
    for nest in accepted_nests(600).filter(|nest| nest.iteration_count() <= 200) {
        let iterations = Iterations::new(&nest);
        let partition = Partition::new(&nest, &iterations);
        assert_eq!(partition.steps, steps_by_definition(&nest, &iterations), "{nest:?}");
        compared += 1;
    }
    assert!(compared > 150);
}

#[test]
fn every_step_that_is_counted_has_an_iteration() {
    for nest in accepted_nests(600) {
        let partition = Partition::new(&nest, &Iterations::new(&nest));
        let mut steps = partition.steps;
        steps.sort();
        steps.dedup();
        assert!(steps.into_iter().eq(0..partition.step_count), "{nest:?}");
    }
}

#[test]
fn every_dependence_leads_to_a_later_step() {
    let mut followed = 0;
    for nest in accepted_nests(600) {
        let iterations = Iterations::new(&nest);
        let steps = Partition::new(&nest, &iterations).steps;
        for rank in 0..iterations.count() {
            for dependence in &nest.dependences {
                let Some(source) = iterations.source(rank, dependence) else { continue };
                assert!(steps[source] < steps[rank], "{nest:?}");
                followed += 1;
            }
        }
    }
    assert!(followed > 10000);
}

#[test]
fn no_two_iterations_of_a_block_share_a_step() {
    for nest in accepted_nests(600) {
        let iterations = Iterations::new(&nest);
        let partition = Partition::new(&nest, &iterations);
        let mut places: Vec<(usize, i64)> =
            partition.blocks.iter().copied().zip(partition.steps.iter().copied()).collect();
        places.sort();
        places.dedup();
        assert_eq!(places.len(), iterations.count());
    }
}

#[test]
fn a_group_has_at_most_r_projected_points() {
    for nest in accepted_nests(600) {
        let partition = Partition::new(&nest, &Iterations::new(&nest));
        let mut sizes: HashMap<&Group, i64> = HashMap::new();
        for group in &partition.groups {
            *sizes.entry(group).or_insert(0) += 1;
        }
        assert!(sizes.values().all(|&size| size <= partition.group_size));
    }
}

/// The receivers by the definition alone: each pair of iterations that a dependence leads between.
fn receivers_by_definition(
    nest: &LoopNest,
    iterations: &Iterations,
    blocks: &[usize],
) -> BTreeSet<(usize, usize)> {
    let mut sent = BTreeSet::new();
    for (from, sender) in iterations.points.iter().zip(blocks) {
        for (to, receiver) in iterations.points.iter().zip(blocks) {
            let led: Vec<i64> = to.iter().zip(from).map(|(to, from)| to - from).collect();
            if sender != receiver && nest.dependences.contains(&led) {
                sent.insert((*sender, *receiver));
            }
        }
    }
    sent
}

#[test]
fn receivers_are_those_of_the_definition() {
    let (mut compared, mut pairs) = (0, 0);
    for nest in accepted_nests(600).filter(|nest| nest.iteration_count() <= 200) {
        let iterations = Iterations::new(&nest);
        let partition = Partition::new(&nest, &iterations);
        let receivers = receivers(&nest, &iterations, &partition.blocks);
        assert_eq!(receivers.len(), partition.block_count());
        let sent: BTreeSet<(usize, usize)> = (0..)
            .zip(&receivers)
            .flat_map(|(sender, numbers)| numbers.iter().map(move |&number| (sender, number)))
            .collect();
        assert_eq!(sent, receivers_by_definition(&nest, &iterations, &partition.blocks));
        compared += 1;
        pairs += sent.len();
    }
    assert!(compared > 150 && pairs > 1500, "{compared} {pairs}");
}

/// The nest without the dependences that lead from one class to another. `None` if all stay.
fn with_dependences_that_stay(nest: &LoopNest) -> Option<LoopNest> {
    let iterations = Iterations::new(nest);
    let partition = Partition::new(nest, &iterations);
    let class = |rank: usize| partition.groups[partition.projected_point_of[rank]].class;
    let stays = |dependence: &Vec<i64>| {
        let sources = (0..iterations.count()).map(|rank| iterations.source(rank, dependence));
        sources.enumerate().all(|(rank, source)| source.is_none_or(|s| class(s) == class(rank)))
    };
    let mut staying = nest.clone();
    staying.dependences.retain(stays);
    (staying.dependences.len() < nest.dependences.len()).then_some(staying)
}

/// How many others the block sends to that sends to the most, along the dependences of `nest` and
/// with the blocks of `planned`.
fn most_receivers(nest: &LoopNest, planned: &LoopNest) -> usize {
    let iterations = Iterations::new(planned);
    let blocks = Partition::new(planned, &iterations).blocks;
    let receivers = receivers(nest, &iterations, &blocks);
    receivers.iter().map(|numbers| numbers.len()).max().unwrap_or(0)
}

#[test]
fn a_block_sends_to_at_most_as_many_others_as_theorem_2_allows() {
    let (mut reaching, mut leaving, mut fewer_without_leaving) = (0, 0, 0);
    for nest in accepted_nests(1500) {
        let counted = Counted::of(&nest);
        assert!(!counted.exceeds(), "{counted:?} {nest:?}");
        reaching += usize::from(counted.reaches());
        if let Some(staying) = with_dependences_that_stay(&nest) {
            leaving += 1;
            fewer_without_leaving += usize::from(most_receivers(&staying, &nest) < counted.most);
        }
    }
    assert!(reaching >= 20, "{reaching}");
    assert!(leaving >= 60 && fewer_without_leaving >= 50, "{leaving} {fewer_without_leaving}");
}

#[test]
fn the_bound_is_reached_with_any_number_of_dependences() {
    let mut random = Random::new(12);
    for (m, beta) in (2..=8).flat_map(|m| [1, 2, 3].map(|b| (m, b))).filter(|(m, beta)| m > beta) {
        for _ in 0..3 {
            let nest = reaching_nest(&mut random, m, beta);
            assert_eq!((nest.refusal(), nest.dependences.len()), (None, m));
            let most = 2 * m - beta;
            let expected = Counted { most, bound: most, not_chosen: m - beta };
            assert_eq!(Counted::of(&nest), expected, "{nest:?}");
        }
    }
}
