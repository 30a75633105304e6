//! Nests that are accepted, of every kind that a plan may treat in its own way.

use second::nest::{inner_product, LoopNest};
use second::rational::greatest_common_divisor;

use crate::boundary::{boundary_values, different_values, in_either_form};
use crate::gaps::{corner, times_with_gaps};
use crate::random::Random;
use crate::vectors::{most_vectors, narrow_direction, vector_passed_over, wide_directions};
use crate::{Case, ACCEPTED};

type NestMaker = fn(&mut Random) -> LoopNest;

const ACCEPTED_KINDS: &[(&str, NestMaker)] = &[
    ("one loop", |random| nest_of_depth(random, 1)),
    ("two loops", |random| nest_of_depth(random, 2)),
    ("three loops", |random| nest_of_depth(random, 3)),
    ("deepest", |random| nest_of_depth(random, greatest_depth())),
    ("any depth", any_depth),
    ("long and thin", long_and_thin),
    ("negative limits", negative_limits),
    ("many classes", many_classes),
    ("three loops, many classes", |random| even_with_many_classes(random, 3)),
    ("deepest, many classes", |random| even_with_many_classes(random, greatest_depth())),
    ("zero projections", zero_projections),
    ("some zero projections", some_zero_projections),
    ("one iteration", one_iteration),
    ("ends of the spans", ends_of_the_spans),
    ("unit dependences", unit_dependences),
    ("three loops, unit dependences", |random| even_with_unit_dependences(random, 3)),
    ("deepest, unit dependences", |random| even_with_unit_dependences(random, greatest_depth())),
    ("large cube", large_cube),
    ("longest text", longest_text),
    ("most dependences", most_dependences),
    ("times with gaps", times_with_gaps),
    ("full", full),
    ("deepest, most vectors", most_vectors),
    ("deepest, vector passed over", vector_passed_over),
    ("deepest, wide directions", wide_directions),
    ("deepest, narrow direction", narrow_direction),
];

pub(crate) fn accepted_case(random: &mut Random, number: u64) -> Case {
    let (kind, nest) = accepted_nest(random, number);
    Case { family: ACCEPTED, kind: kind.into(), text: in_either_form(random, &nest) }
}

/// An accepted nest and its kind: all kinds come in turn, and behind them one of the corners of
/// steps, the next one each time.
pub fn accepted_nest(random: &mut Random, number: u64) -> (&'static str, LoopNest) {
    let round = ACCEPTED_KINDS.len() as u64 + 1;
    match ACCEPTED_KINDS.get((number % round) as usize) {
        Some((kind, make)) => (kind, make(random)),
        None => ("corner of steps", corner(random, number / round)),
    }
}

pub(crate) fn greatest_depth() -> usize {
    *LoopNest::DEPTHS.end() as usize
}

pub(crate) fn depth_from(random: &mut Random, least: usize) -> usize {
    random.between(least as i64, greatest_depth() as i64) as usize
}

/// A time vector with dependences that it allows.
pub(crate) type Directions = (Vec<i64>, Vec<Vec<i64>>);

/// Whether a dependence may be added: not backward, not there yet, not against the time vector.
fn may_be_added(dependence: &[i64], time_vector: &[i64], dependences: &[Vec<i64>]) -> bool {
    let forward = dependence.iter().find(|&&component| component != 0).is_some_and(|&c| c > 0);
    forward
        && !dependences.iter().any(|other| other == dependence)
        && inner_product(time_vector, dependence) >= 1
}

/// Adds up to `wanted` dependences whose components are multiples of `unit` up to `span` units.
pub(crate) fn add_dependences(
    random: &mut Random,
    directions: &mut Directions,
    wanted: usize,
    span: i64,
    unit: i64,
) {
    let (time_vector, dependences) = directions;
    for _ in 0..40 * wanted {
        let mut dependence = random.vector(time_vector.len(), span);
        dependence.iter_mut().for_each(|component| *component *= unit);
        if dependences.len() < wanted && may_be_added(&dependence, time_vector, dependences) {
            dependences.push(dependence);
        }
    }
}

/// A time vector within a span and at least one dependence for it.
pub(crate) fn directions(
    random: &mut Random,
    depth: usize,
    time_span: i64,
    wanted: usize,
    span: i64,
    unit: i64,
) -> Directions {
    loop {
        let mut directions = (random.vector(depth, time_span), Vec::new());
        add_dependences(random, &mut directions, wanted, span, unit);
        if !directions.1.is_empty() {
            return directions;
        }
    }
}

/// Directions with spans and a number of dependences drawn at random.
pub(crate) fn any_directions(random: &mut Random, depth: usize) -> Directions {
    let time_span = random.pick(&[1, 1, 2, 3, 5, 16]);
    let span = random.pick(&[1, 2, 2, 3, 5, 16]);
    let wanted = random.between(1, 8) as usize;
    directions(random, depth, time_span, wanted, span, 1)
}

/// Lengths of loops with at most the given number of iterations, none much longer than the others.
pub(crate) fn even_lengths(random: &mut Random, depth: usize, most: i64) -> Vec<i64> {
    let mut longest = 1;
    while (longest + 1_i64).pow(depth as u32) <= most {
        longest += 1;
    }
    (0..depth).map(|_| random.between(1, longest)).collect()
}

/// Lengths of loops with at most the given number of iterations, lopsided.
fn uneven_lengths(random: &mut Random, depth: usize, most: i64) -> Vec<i64> {
    let mut lengths = Vec::new();
    let mut left = most;
    for _ in 0..depth {
        let length = random.between(1, left);
        lengths.push(length);
        left /= length;
    }
    random.shuffle(&mut lengths);
    lengths
}

fn any_lengths(random: &mut Random, depth: usize, most: i64) -> Vec<i64> {
    if random.once_in(3) {
        uneven_lengths(random, depth, most)
    } else {
        even_lengths(random, depth, most)
    }
}

/// A nest with the given loop lengths, each loop beginning near 0.
pub(crate) fn nest_near_zero(
    random: &mut Random,
    lengths: &[i64],
    directions: Directions,
) -> LoopNest {
    let lower: Vec<i64> = lengths.iter().map(|_| random.between(-3, 3)).collect();
    nest_at(random, &lower, lengths, directions)
}

/// A nest with the given lower limits and loop lengths, the remaining numbers drawn at random.
pub(crate) fn nest_at(
    random: &mut Random,
    lower: &[i64],
    lengths: &[i64],
    (time_vector, dependences): Directions,
) -> LoopNest {
    let weights = dependences.iter().map(|_| weight(random)).collect();
    let boundary_values = boundary_values(random, dependences.len());
    LoopNest {
        depth: lengths.len() as i64,
        dependence_count: dependences.len() as i64,
        cube_dimension: random.between(0, 6),
        lower: lower.to_vec(),
        upper: lower.iter().zip(lengths).map(|(low, length)| low + length - 1).collect(),
        time_vector,
        dependences,
        boundary_values,
        weights,
    }
}

fn weight(random: &mut Random) -> i64 {
    if random.once_in(4) {
        random.pick(&[0, 1, 254, 255])
    } else {
        random.between(0, 255)
    }
}

fn nest_of_depth(random: &mut Random, depth: usize) -> LoopNest {
    let lengths = any_lengths(random, depth, 256);
    let directions = any_directions(random, depth);
    nest_near_zero(random, &lengths, directions)
}

fn any_depth(random: &mut Random) -> LoopNest {
    let depth = depth_from(random, 1);
    nest_of_depth(random, depth)
}

/// One loop of up to 700 indices, the others of one to three, at most 1000 iterations.
fn long_and_thin(random: &mut Random) -> LoopNest {
    let depth = depth_from(random, 1);
    let mut lengths: Vec<i64> = vec![random.pick(&[150, 200, 300, 700])];
    while lengths.len() < depth {
        let length = random.pick(&[1, 1, 2, 3]);
        let fits = lengths.iter().product::<i64>() * length <= 1000;
        lengths.push(if fits { length } else { 1 });
    }
    random.shuffle(&mut lengths);
    let directions = any_directions(random, depth);
    nest_near_zero(random, &lengths, directions)
}

fn negative_limits(random: &mut Random) -> LoopNest {
    let depth = depth_from(random, 1);
    let lengths = any_lengths(random, depth, 150);
    let lower: Vec<i64> = lengths.iter().map(|_| random.between(-1000, -1)).collect();
    let directions = any_directions(random, depth);
    nest_at(random, &lower, &lengths, directions)
}

/// Dependences whose components share a factor: most points are not reached from one seed.
fn sparse_dependences(random: &mut Random, depth: usize) -> Directions {
    let unit = random.pick(&[2, 2, 3, 4, 5]);
    let time_span = random.pick(&[1, 2, 3, 16]);
    let wanted = random.between(1, 4) as usize;
    let span = random.between(1, 16 / unit);
    directions(random, depth, time_span, wanted, span, unit)
}

fn many_classes(random: &mut Random) -> LoopNest {
    let depth = depth_from(random, 2);
    let lengths = any_lengths(random, depth, 200);
    let directions = sparse_dependences(random, depth);
    nest_near_zero(random, &lengths, directions)
}

fn even_with_many_classes(random: &mut Random, depth: usize) -> LoopNest {
    let lengths = even_lengths(random, depth, 256);
    let directions = sparse_dependences(random, depth);
    nest_near_zero(random, &lengths, directions)
}

/// A time vector and multiples of its direction as dependences: all projections are zero.
fn parallel_directions(random: &mut Random, depth: usize) -> Directions {
    let mut direction = random.vector(depth, 4);
    if direction.iter().find(|&&component| component != 0).is_none_or(|&first| first < 0) {
        direction.iter_mut().for_each(|component| *component = component.abs());
        direction[depth - 1] += 1;
    }
    let divisor = direction
        .iter()
        .fold(0, |divisor, &component| greatest_common_divisor(divisor, i128::from(component)))
        as i64;
    let greatest = direction.iter().map(|component| component.abs()).max().unwrap_or(1);
    let mut multiples: Vec<i64> = (1..=16 * divisor / greatest).collect();
    random.shuffle(&mut multiples);
    multiples.truncate(random.between(1, 3) as usize);
    let dependences = multiples
        .iter()
        .map(|multiple| direction.iter().map(|component| component / divisor * multiple).collect())
        .collect();
    (direction, dependences)
}

fn zero_projections(random: &mut Random) -> LoopNest {
    let depth = depth_from(random, 1);
    let lengths = any_lengths(random, depth, 200);
    let directions = parallel_directions(random, depth);
    nest_near_zero(random, &lengths, directions)
}

/// Some projections are zero, and they are listed anywhere among the others.
fn some_zero_projections(random: &mut Random) -> LoopNest {
    let depth = depth_from(random, 2);
    let lengths = any_lengths(random, depth, 200);
    let mut directions = parallel_directions(random, depth);
    let (wanted, span) = (random.between(3, 8) as usize, random.between(1, 4));
    add_dependences(random, &mut directions, wanted, span, 1);
    if random.once_in(2) {
        random.shuffle(&mut directions.1);
    }
    nest_near_zero(random, &lengths, directions)
}

fn one_iteration(random: &mut Random) -> LoopNest {
    let depth = depth_from(random, 1);
    let lower: Vec<i64> = (0..depth).map(|_| random.pick(&[-1000, -1, 0, 1, 1000])).collect();
    let directions = any_directions(random, depth);
    nest_at(random, &lower, &vec![1; depth], directions)
}

/// Limits, components, boundary values and weights at the ends of their spans.
fn ends_of_the_spans(random: &mut Random) -> LoopNest {
    let depth = depth_from(random, 1);
    let lengths = any_lengths(random, depth, 150);
    let lower: Vec<i64> =
        lengths.iter().map(|length| random.pick(&[-1000, 1001 - length])).collect();
    let directions = loop {
        let time_vector = (0..depth).map(|_| random.pick(&[-16, -15, 0, 15, 16, 16])).collect();
        let mut directions: Directions = (time_vector, Vec::new());
        for _ in 0..200 {
            let dependence: Vec<i64> =
                (0..depth).map(|_| random.pick(&[-16, -15, 0, 1, 15, 16])).collect();
            let (time_vector, dependences) = &mut directions;
            if dependences.len() < 8 && may_be_added(&dependence, time_vector, dependences) {
                dependences.push(dependence);
            }
        }
        if !directions.1.is_empty() {
            break directions;
        }
    };
    let mut nest = nest_at(random, &lower, &lengths, directions);
    nest.cube_dimension = random.pick(&[0, 6]);
    nest.boundary_values.iter_mut().for_each(|value| *value = random.pick(&[0, 65535]));
    nest.weights.iter_mut().for_each(|weight| *weight = random.pick(&[0, 255]));
    nest
}

/// As the paper's loops: components of dependences are 0 or 1, those of the time vector all 1.
fn unit_directions(random: &mut Random, depth: usize) -> Directions {
    let mut dependences: Vec<Vec<i64>> = (1..1_usize << depth)
        .map(|bits| (0..depth).map(|place| (bits >> place & 1) as i64).collect())
        .collect();
    random.shuffle(&mut dependences);
    dependences.truncate(random.between(1, 8) as usize);
    (vec![1; depth], dependences)
}

fn unit_dependences(random: &mut Random) -> LoopNest {
    let depth = depth_from(random, 2);
    let lengths = any_lengths(random, depth, 200);
    let directions = unit_directions(random, depth);
    nest_near_zero(random, &lengths, directions)
}

fn even_with_unit_dependences(random: &mut Random, depth: usize) -> LoopNest {
    let lengths = even_lengths(random, depth, 256);
    let directions = unit_directions(random, depth);
    nest_near_zero(random, &lengths, directions)
}

/// Many blocks on many processors.
fn large_cube(random: &mut Random) -> LoopNest {
    let depth = depth_from(random, 2);
    let lengths = any_lengths(random, depth, 600);
    let directions = any_directions(random, depth);
    let mut nest = nest_near_zero(random, &lengths, directions);
    nest.cube_dimension = random.between(4, 6);
    nest
}

/// The greatest depth, the greatest number of dependences, and boundary values that are not all
/// equal: no text has more bytes.
pub(crate) fn longest_text(random: &mut Random) -> LoopNest {
    let mut nest = with_most_dependences(random, greatest_depth());
    nest.boundary_values = different_values(random, nest.dependences.len());
    nest
}

/// The greatest number of dependences, at a depth at which they are easily found.
fn most_dependences(random: &mut Random) -> LoopNest {
    let depth = depth_from(random, 2);
    with_most_dependences(random, depth)
}

/// A nest of the given depth with as many dependences as there may be.
fn with_most_dependences(random: &mut Random, depth: usize) -> LoopNest {
    let most = *LoopNest::DEPENDENCE_COUNTS.end() as usize;
    let lengths = even_lengths(random, depth, 81);
    loop {
        let directions = directions(random, depth, 3, most, 3, 1);
        if directions.1.len() == most {
            return nest_near_zero(random, &lengths, directions);
        }
    }
}

/// As many iterations as the limits allow: 2001 for one loop, 64 by 64, 16 by 16 by 16, 8 by 8 by 8
/// by 8, or lengths that are powers of 2.
fn full(random: &mut Random) -> LoopNest {
    let depth = depth_from(random, 1);
    full_of_depth(random, depth)
}

/// The same of a depth.
pub fn full_of_depth(random: &mut Random, depth: usize) -> LoopNest {
    let lengths = full_lengths(random, depth);
    let directions = any_directions(random, depth);
    let lower: Vec<i64> = lengths
        .iter()
        .map(|&length| random.pick(&[-1000, 1001 - length, (-length / 2).max(-1000)]))
        .collect();
    nest_at(random, &lower, &lengths, directions)
}

fn full_lengths(random: &mut Random, depth: usize) -> Vec<i64> {
    const LONGEST: i64 = 2001;
    let mut bits_left = 12;
    let mut lengths = Vec::new();
    let even = random.once_in(2);
    for place in 1..depth {
        let even_share = bits_left / (depth - place + 1) as i64;
        let bits = if even { even_share } else { random.between(0, bits_left.min(10)) };
        bits_left -= bits;
        lengths.push(1 << bits);
    }
    lengths.push(LONGEST.min(1 << bits_left));
    random.shuffle(&mut lengths);
    lengths
}
