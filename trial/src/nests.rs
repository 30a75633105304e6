//! Loop nests to try, and the 63 numbers that a nest is lent as.

use std::ops::RangeInclusive;

use second::nest::LoopNest;
use second::refusal::Number;
use sheets::accepted::full_of_depth;
use sheets::Random;

use crate::entry::{Numbers, NUMBERS};

/// Where each part of a nest begins among its numbers.
pub(crate) const LOWER: usize = 3;
pub(crate) const UPPER: usize = 7;
pub(crate) const TIME: usize = 11;
pub(crate) const DEPENDENCES: usize = 15;
pub(crate) const BOUNDARIES: usize = 47;
pub(crate) const WEIGHTS: usize = 55;
/// The numbers from one dependence to the next, as many as there may be loops.
pub(crate) const ROW: usize = 4;

/// Nests with more iterations are large.
pub const LARGE: i64 = 700;

/// Numbers for places that are no part of a nest.
const UNUSED: &[i64] = &[0, 0, 1, -1, 77, 4097, i64::MIN, i64::MAX];

/// The numbers of a nest. Places that are no part of it hold anything.
pub fn numbers_of(random: &mut Random, nest: &LoopNest) -> Numbers {
    numbers_over([0; NUMBERS].map(|_| random.pick(UNUSED)), nest)
}

/// Numbers over which those of a nest are written, each at its place.
pub fn numbers_over(mut numbers: Numbers, nest: &LoopNest) -> Numbers {
    let mut put = |place: usize, list: &[i64]| {
        numbers[place..place + list.len()].copy_from_slice(list);
    };
    put(0, &[nest.depth, nest.dependence_count, nest.cube_dimension]);
    put(LOWER, &nest.lower);
    put(UPPER, &nest.upper);
    put(TIME, &nest.time_vector);
    for (number, dependence) in nest.dependences.iter().enumerate() {
        put(DEPENDENCES + number * ROW, dependence);
    }
    put(BOUNDARIES, &nest.boundary_values);
    put(WEIGHTS, &nest.weights);
    numbers
}

/// An accepted nest that is not large; a kind that makes large ones gives way to the next.
pub fn accepted(random: &mut Random, number: u64) -> LoopNest {
    let (_, nest) = sheets::accepted_nest(random, number);
    if nest.iteration_count() <= LARGE {
        nest
    } else {
        accepted(random, number + 1)
    }
}

/// An accepted nest of 4096 iterations in two loops or more.
pub fn full(random: &mut Random, depth: usize) -> LoopNest {
    loop {
        let nest = full_of_depth(random, depth);
        if nest.iteration_count() == LoopNest::MOST_ITERATIONS {
            return nest;
        }
    }
}

/// The depths at which a nest can have 4096 iterations: one loop has 2001 at most.
pub fn full_depths() -> RangeInclusive<usize> {
    2..=*LoopNest::DEPTHS.end() as usize
}

/// A refused nest, and its refusal: one condition met, or two, or a number out of the span of
/// anything narrower than 64 bits.
pub fn refused(random: &mut Random, number: u64) -> (Number, LoopNest) {
    loop {
        let nest = match number % 4 {
            0 | 1 => sheets::refused_nest(random, number / 4 * 2 + number % 4).1,
            2 => sheets::twice_refused_nest(random),
            _ => with_great_number(random),
        };
        if let Some(refusal) = nest.refusal() {
            return (refusal, nest);
        }
    }
}

/// An accepted nest in which one number is changed so that its low bits stay, or is the least or
/// the greatest of all.
fn with_great_number(random: &mut Random) -> LoopNest {
    let kind = random.between(0, 100) as u64;
    let mut nest = accepted(random, kind);
    let mut places = number_places(&mut nest);
    let place = random.place(places.len());
    let number = *places[place];
    let added = [1 << 8, 1 << 16, 1 << 32, -(1 << 8), -(1 << 16), -(1 << 32)];
    *places[place] = match random.between(0, 7) {
        0 => i64::MIN,
        1 => i64::MAX,
        way => number + added[way as usize - 2],
    };
    nest
}

/// All numbers that are a part of a nest.
fn number_places(nest: &mut LoopNest) -> Vec<&mut i64> {
    let mut places = vec![&mut nest.depth, &mut nest.dependence_count, &mut nest.cube_dimension];
    places.extend(&mut nest.lower);
    places.extend(&mut nest.upper);
    places.extend(&mut nest.time_vector);
    places.extend(nest.dependences.iter_mut().flatten());
    places.extend(&mut nest.boundary_values);
    places.extend(&mut nest.weights);
    places
}
