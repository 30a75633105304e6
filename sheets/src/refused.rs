//! Nests that meet the condition of one refusal.

use second::nest::{inner_product, LoopNest};
use second::refusal::*;

use crate::accepted::{any_directions, depth_from, directions, even_lengths, nest_near_zero};
use crate::boundary::in_either_form;
use crate::random::Random;
use crate::{Case, REFUSED};

/// Changes a nest so that the condition of a refusal is met.
pub type Spoiler = fn(&mut Random, &mut LoopNest);

/// A refusal's number and what makes a nest meet its condition.
pub type NumberedSpoiler = (Number, Spoiler);

/// Each condition just met, and some met by far, in the order in which they are tested.
pub const SPOILERS: &[NumberedSpoiler] = &[
    (BAD_DEPTH, |_, nest| nest.depth = below(LoopNest::DEPTHS)),
    (BAD_DEPTH, |_, nest| nest.depth = above(LoopNest::DEPTHS)),
    (BAD_DEPTH, |random, nest| nest.depth = far(random)),
    (BAD_DEPENDENCE_COUNT, |_, nest| nest.dependence_count = below(LoopNest::DEPENDENCE_COUNTS)),
    (BAD_DEPENDENCE_COUNT, |_, nest| nest.dependence_count = above(LoopNest::DEPENDENCE_COUNTS)),
    (BAD_DEPENDENCE_COUNT, |random, nest| nest.dependence_count = far(random)),
    (BAD_CUBE_DIMENSION, |_, nest| nest.cube_dimension = below(LoopNest::CUBE_DIMENSIONS)),
    (BAD_CUBE_DIMENSION, |_, nest| nest.cube_dimension = above(LoopNest::CUBE_DIMENSIONS)),
    (BAD_CUBE_DIMENSION, |random, nest| nest.cube_dimension = far(random)),
    (BAD_LIMITS, |random, nest| put_limits(random, nest, -1001, -1000)),
    (BAD_LIMITS, |random, nest| put_limits(random, nest, 1000, 1001)),
    (BAD_LIMITS, |random, nest| put_limits(random, nest, -1001, -1001)),
    (BAD_LIMITS, |random, nest| put_limits(random, nest, 1001, 1001)),
    (BAD_LIMITS, |random, nest| put_limits(random, nest, 1, 0)),
    (BAD_LIMITS, put_limits_far),
    (TOO_MANY_ITERATIONS, |random, nest| put_lengths(random, nest, &[17, 241])),
    (TOO_MANY_ITERATIONS, |random, nest| put_lengths(random, nest, &[64, 65])),
    (TOO_MANY_ITERATIONS, put_any_lengths),
    (TIME_VECTOR_SPAN, |random, nest| put_time(random, nest, below(LoopNest::COMPONENTS))),
    (TIME_VECTOR_SPAN, |random, nest| put_time(random, nest, above(LoopNest::COMPONENTS))),
    (TIME_VECTOR_SPAN, |random, nest| put_time_far(random, nest)),
    (DEPENDENCE_SPAN, |random, nest| put_component(random, nest, below(LoopNest::COMPONENTS))),
    (DEPENDENCE_SPAN, |random, nest| put_component(random, nest, above(LoopNest::COMPONENTS))),
    (DEPENDENCE_SPAN, |random, nest| put_component_far(random, nest)),
    (BACKWARD_DEPENDENCE, |random, nest| multiply_one_dependence(random, nest, 0)),
    (BACKWARD_DEPENDENCE, |random, nest| multiply_one_dependence(random, nest, -1)),
    (BACKWARD_DEPENDENCE, turn_all_dependences),
    (REPEATED_DEPENDENCE, repeat_a_dependence),
    (REPEATED_DEPENDENCE, repeat_a_neighbour),
    (AGAINST_TIME_VECTOR, |random, nest| turn_time_vector(random, nest, 0)),
    (AGAINST_TIME_VECTOR, |random, nest| turn_time_vector(random, nest, -1)),
    (AGAINST_TIME_VECTOR, |_, nest| multiply(&mut nest.time_vector, -1)),
    (AGAINST_TIME_VECTOR, |_, nest| multiply(&mut nest.time_vector, 0)),
    (WEIGHT_SPAN, |_, nest| nest.boundary_values.fill(below(LoopNest::BOUNDARY_VALUES))),
    (WEIGHT_SPAN, |_, nest| nest.boundary_values.fill(above(LoopNest::BOUNDARY_VALUES))),
    (WEIGHT_SPAN, |random, nest| nest.boundary_values.fill(far(random))),
    (WEIGHT_SPAN, |random, nest| put_value(random, nest, below(LoopNest::BOUNDARY_VALUES))),
    (WEIGHT_SPAN, |random, nest| put_value(random, nest, above(LoopNest::BOUNDARY_VALUES))),
    (WEIGHT_SPAN, |random, nest| put_value_far(random, nest)),
    (WEIGHT_SPAN, |_, nest| nest.boundary_values[0] = below(LoopNest::BOUNDARY_VALUES)),
    (WEIGHT_SPAN, |_, nest| nest.boundary_values[0] = above(LoopNest::BOUNDARY_VALUES)),
    (WEIGHT_SPAN, |_, nest| *last_value(nest) = below(LoopNest::BOUNDARY_VALUES)),
    (WEIGHT_SPAN, |_, nest| *last_value(nest) = above(LoopNest::BOUNDARY_VALUES)),
    (WEIGHT_SPAN, |random, nest| put_weight(random, nest, below(LoopNest::WEIGHTS))),
    (WEIGHT_SPAN, |random, nest| put_weight(random, nest, above(LoopNest::WEIGHTS))),
];

/// The refusals that spoilers bring about, in the same order.
pub(crate) fn spoiled() -> Vec<Number> {
    let mut numbers: Vec<Number> = SPOILERS.iter().map(|&(number, _)| number).collect();
    numbers.dedup();
    numbers
}

/// Those of line 1.
pub(crate) const SPOILED_IN_LINE_ONE: std::ops::RangeInclusive<Number> =
    BAD_DEPTH..=BAD_CUBE_DIMENSION;

/// A nest with one condition met. Refusal 1 comes with the damaged texts.
pub(crate) fn refused_case(random: &mut Random, number: u64) -> Case {
    let (refusal, nest) = refused_nest(random, number);
    let text = in_either_form(random, &nest);
    Case { family: REFUSED, kind: refusal.to_string(), text }
}

/// A nest with one condition met, and the number of that refusal: all spoilers come in turn, and
/// behind them a zero time vector at each depth.
pub fn refused_nest(random: &mut Random, number: u64) -> (Number, LoopNest) {
    let depths: Vec<usize> = LoopNest::DEPTHS.map(|depth| depth as usize).collect();
    let turn = number as usize % (SPOILERS.len() + depths.len());
    let Some(&(refusal, spoil)) = SPOILERS.get(turn) else {
        return (AGAINST_TIME_VECTOR, zero_time_nest(random, depths[turn - SPOILERS.len()]));
    };
    let mut nest = nest_to_spoil(random);
    spoil(random, &mut nest);
    (refusal, nest)
}

/// A nest that is accepted but for its time vector, which is zero. No dependence leads to a later
/// step then: 11, and not 12, which is no longer used (document 02, U8).
pub fn zero_time_nest(random: &mut Random, depth: usize) -> LoopNest {
    let directions = any_directions(random, depth);
    let lengths = even_lengths(random, depth, 60);
    let mut nest = nest_near_zero(random, &lengths, directions);
    multiply(&mut nest.time_vector, 0);
    nest
}

/// A nest with two conditions met, each by any of the spoilers.
pub fn twice_refused_nest(random: &mut Random) -> LoopNest {
    let mut nest = nest_to_spoil(random);
    for _ in 0..2 {
        let (_, spoil) = random.pick(SPOILERS);
        spoil(random, &mut nest);
    }
    nest
}

/// Makes the nest meet the condition of the given refusal, in any of the ways above.
pub(crate) fn spoil(random: &mut Random, nest: &mut LoopNest, refusal: Number) {
    let ways: Vec<Spoiler> = SPOILERS
        .iter()
        .filter(|(number, _)| *number == refusal)
        .map(|&(_, spoiler)| spoiler)
        .collect();
    random.pick(&ways)(random, nest);
}

/// An accepted nest with at least two loops and at least four dependences.
pub fn nest_to_spoil(random: &mut Random) -> LoopNest {
    loop {
        let depth = depth_from(random, 2);
        let time_span = random.pick(&[1, 2, 5]);
        let directions = directions(random, depth, time_span, 5, 3, 1);
        let lengths = even_lengths(random, depth, 60);
        let nest = nest_near_zero(random, &lengths, directions);
        if nest.dependences.len() >= 4 {
            return nest;
        }
    }
}

/// The number just below a span.
fn below(span: std::ops::RangeInclusive<i64>) -> i64 {
    span.start() - 1
}

/// The number just above a span.
fn above(span: std::ops::RangeInclusive<i64>) -> i64 {
    span.end() + 1
}

/// A number outside every span that fits six columns.
fn far(random: &mut Random) -> i64 {
    random.pick(&[999_999, 100_000, -10_000, -99_999])
}

fn multiply(vector: &mut [i64], factor: i64) {
    vector.iter_mut().for_each(|component| *component *= factor);
}

fn put_limits(random: &mut Random, nest: &mut LoopNest, lower: i64, upper: i64) {
    let place = random.place(nest.lower.len());
    nest.lower[place] = lower;
    nest.upper[place] = upper;
}

fn put_limits_far(random: &mut Random, nest: &mut LoopNest) {
    let (lower, upper) = (random.between(-1000, 1000), far(random));
    put_limits(random, nest, lower, upper);
}

/// Gives the nest loops of the given lengths, and of length 1 where none is given.
fn put_lengths(random: &mut Random, nest: &mut LoopNest, given: &[i64]) {
    let mut lengths = given.to_vec();
    lengths.resize(nest.lower.len(), 1);
    random.shuffle(&mut lengths);
    nest.lower = lengths.iter().map(|&length| random.pick(&[-1000, 1001 - length])).collect();
    nest.upper = nest.lower.iter().zip(&lengths).map(|(low, length)| low + length - 1).collect();
}

/// Lengths of all loops with more iterations than there may be, some just more.
const TOO_LONG: &[&[i64]] = &[
    &[2001, 3],
    &[1366, 3],
    &[2001, 2001],
    &[8, 513],
    &[16, 16, 17],
    &[3, 3, 456],
    &[2001, 2001, 2001],
    &[2, 2, 1025],
    &[8, 8, 8, 9],
    &[3, 3, 3, 152],
    &[2001, 2001, 2001, 2001],
    &[2, 2, 2, 513],
];

fn put_any_lengths(random: &mut Random, nest: &mut LoopNest) {
    let depth = nest.lower.len();
    let fitting: Vec<&[i64]> =
        TOO_LONG.iter().copied().filter(|lengths| lengths.len() == depth).collect();
    let lengths = random.pick(&fitting);
    put_lengths(random, nest, lengths);
}

fn put_time(random: &mut Random, nest: &mut LoopNest, component: i64) {
    let place = random.place(nest.time_vector.len());
    nest.time_vector[place] = component;
}

fn put_time_far(random: &mut Random, nest: &mut LoopNest) {
    let component = far(random);
    put_time(random, nest, component);
}

fn put_component(random: &mut Random, nest: &mut LoopNest, component: i64) {
    let number = random.place(nest.dependences.len());
    let place = random.place(nest.dependences[number].len());
    nest.dependences[number][place] = component;
}

fn put_component_far(random: &mut Random, nest: &mut LoopNest) {
    let component = far(random);
    put_component(random, nest, component);
}

fn put_value(random: &mut Random, nest: &mut LoopNest, value: i64) {
    let place = random.place(nest.boundary_values.len());
    nest.boundary_values[place] = value;
}

fn put_value_far(random: &mut Random, nest: &mut LoopNest) {
    let value = far(random);
    put_value(random, nest, value);
}

/// The boundary value of the last dependence.
fn last_value(nest: &mut LoopNest) -> &mut i64 {
    nest.boundary_values.last_mut().expect("a nest with dependences")
}

fn put_weight(random: &mut Random, nest: &mut LoopNest, weight: i64) {
    let place = random.place(nest.weights.len());
    nest.weights[place] = weight;
}

fn multiply_one_dependence(random: &mut Random, nest: &mut LoopNest, factor: i64) {
    let number = random.place(nest.dependences.len());
    multiply(&mut nest.dependences[number], factor);
}

fn turn_all_dependences(_random: &mut Random, nest: &mut LoopNest) {
    nest.dependences.iter_mut().for_each(|dependence| multiply(dependence, -1));
}

fn repeat_a_dependence(random: &mut Random, nest: &mut LoopNest) {
    let mut numbers: Vec<usize> = (0..nest.dependences.len()).collect();
    random.shuffle(&mut numbers);
    nest.dependences[numbers[0]] = nest.dependences[numbers[1]].clone();
}

fn repeat_a_neighbour(random: &mut Random, nest: &mut LoopNest) {
    let number = random.place(nest.dependences.len() - 1);
    nest.dependences[number + 1] = nest.dependences[number].clone();
}

/// Turns the time vector so that P·d has the given value for a dependence; right round if no such
/// time vector is found.
fn turn_time_vector(random: &mut Random, nest: &mut LoopNest, value: i64) {
    for _ in 0..200 {
        let turned = random.vector(nest.time_vector.len(), 3);
        let is_zero = turned.iter().all(|&component| component == 0);
        if !is_zero && nest.dependences.iter().any(|d| inner_product(&turned, d) == value) {
            nest.time_vector = turned;
            return;
        }
    }
    multiply(&mut nest.time_vector, -1);
}
