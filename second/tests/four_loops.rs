//! Document 02's fourth loop (U11): a sheet worked out by hand, every number of chosen vectors, the
//! dealing of bits over four directions, and both ends of the spans at depth 4.

mod common;

use common::*;
use second::nest::LoopNest;
use second::plan::Plan;
use second::refusal::*;
use second::text;
use second::worked::{FOUR_LISTED, FOUR_ON_EIGHT};

/// The numbers are worked out in `second::worked`.
#[test]
fn four_loops_with_three_chosen_vectors() {
    assert_eq!(listed("U11-four-loops"), FOUR_LISTED);
    let plan = plan(&text::read(sheet("U11-four-loops").as_bytes()).unwrap());
    assert_eq!(plan.partition.multipliers, vec![4; 4]);
    assert_eq!((plan.partition.grouping, plan.partition.auxiliary), (Some(0), vec![1, 2]));
    assert_eq!(plan.mapping.widths, vec![2, 3, 3, 1]);
    assert_eq!(plan.mapping.bits, vec![1, 1, 0, 0]);
}

/// With c = 3 there is a bit for the second auxiliary vector too, and no use for a fourth bit.
#[test]
fn bits_that_no_direction_takes_are_left() {
    let mut nest = text::read(sheet("U11-four-loops").as_bytes()).unwrap();
    for c in [3, 4, 6] {
        nest.cube_dimension = c;
        let mapping = plan(&nest).mapping;
        assert_eq!(mapping.bits, vec![1, 1, 1, 0], "{c}");
        assert_eq!(mapping.block_processors, FOUR_ON_EIGHT, "{c}");
    }
}

/// Four loops of the given lengths with the time vector (1,0,0,0), along which (i,j,k,l) is
/// projected to (0,j,k,l): all projections are whole, r is 1, and a block is one projected point.
/// On the largest hypercube.
fn across(lengths: [i64; 4], dependences: &[&[i64]]) -> LoopNest {
    changed(silent_nest(4), |nest| {
        nest.upper = lengths.iter().map(|length| length - 1).collect();
        nest.time_vector = vec![1, 0, 0, 0];
        nest.cube_dimension = 6;
        set_dependences(nest, dependences);
    })
}

/// The Gray codes of 0 to 3.
const CODES: [usize; 4] = [0, 1, 3, 2];

/// The Gray code of a part, by document 01's rule.
fn gray(part: usize) -> usize {
    part ^ (part >> 1)
}

/// The blocks' processors, by j, k and l of their first iterations, of which the outermost index is
/// 0.
fn assert_processors(plan: &Plan, lengths: [i64; 4], processor: impl Fn([usize; 3]) -> usize) {
    let [_, j, k, l] = lengths.map(|length| length as usize);
    let points = (0..j * k * l).map(|block| [block / (k * l), block / l % k, block % l]);
    let expected: Vec<usize> = points.map(processor).collect();
    assert_eq!(plan.mapping.block_processors, expected);
}

/// A dependence that is projected to zero and up to three that are not, the innermost loop's first.
/// Each that is chosen makes a direction of four of what were classes; the six bits go round.
#[test]
fn every_number_of_chosen_vectors() {
    let all: [&[i64]; 4] = [&[1, 0, 0, 0], &[1, 0, 0, 1], &[1, 0, 1, 0], &[1, 1, 0, 0]];
    let lengths = [4; 4];
    let plans = [1, 2, 3, 4].map(|count| plan(&across(lengths, &all[..count])));
    for (beta, plan) in plans.iter().enumerate() {
        assert_eq!(plan.partition.beta(), beta);
        assert_eq!(plan.partition.grouping, (beta > 0).then_some(1));
        assert_eq!(plan.partition.class_count(), 4_usize.pow(3 - beta as u32));
        assert_eq!(plan.partition.block_count(), 64);
        assert_eq!(plan.mapping.used_processor_count(), 64);
    }
    let bits = plans.each_ref().map(|plan| plan.mapping.bits.clone());
    assert_eq!(bits, [vec![0, 6], vec![2, 4], vec![2, 2, 2], vec![2, 2, 2, 0]]);
    assert_processors(&plans[0], lengths, |[j, k, l]| gray(16 * j + 4 * k + l));
    assert_processors(&plans[1], lengths, |[j, k, l]| 16 * CODES[l] + gray(4 * j + k));
    for plan in &plans[2..] {
        assert_processors(plan, lengths, |[j, k, l]| 16 * CODES[l] + 4 * CODES[k] + CODES[j]);
    }
}

/// A dependence that depends on the grouping vector and the first auxiliary one together is passed
/// over, though it depends on neither alone, and the next is taken.
#[test]
fn an_auxiliary_vector_is_independent_of_all_before_it() {
    let dependences: [&[i64]; 4] = [&[1, 0, 0, 1], &[1, 0, 1, 0], &[1, 0, 1, -1], &[1, 1, 0, 0]];
    let three = plan(&across([2; 4], &dependences[..3]));
    assert_eq!((three.partition.beta(), three.partition.auxiliary), (2, vec![1]));
    let four = plan(&across([2; 4], &dependences));
    assert_eq!((four.partition.beta(), four.partition.auxiliary), (3, vec![1, 3]));
}

/// Stops unless the four directions have these widths and were dealt so many bits.
fn assert_dealt(plan: &Plan, widths: [i64; 4], bits: [u32; 4]) {
    assert_eq!((&plan.mapping.widths[..], &plan.mapping.bits[..]), (&widths[..], &bits[..]));
}

/// The grouping vector goes two indices of the innermost loop at a time, so the class is l modulo 2
/// and q is l / 2. The first auxiliary vector goes along k, the second along j.
const WITH_TWO_CLASSES: [&[i64]; 3] = [&[1, 0, 0, 2], &[1, 0, 1, 0], &[1, 1, 0, 0]];

/// Widths 4, 4, 2 and 2: all four directions take a bit, then q and the first auxiliary another.
#[test]
fn six_bits_over_four_directions() {
    let lengths = [2, 2, 4, 8];
    let plan = plan(&across(lengths, &WITH_TWO_CLASSES));
    assert_eq!((plan.partition.beta(), plan.partition.class_count()), (3, 2));
    assert_dealt(&plan, [4, 4, 2, 2], [2, 2, 1, 1]);
    assert_processors(&plan, lengths, |[j, k, l]| 16 * CODES[l / 2] + 4 * CODES[k] + 2 * j + l % 2);
}

/// A loop of one index makes the auxiliary vector's direction 1 wide, first the one of k and then
/// that of j: it takes no bit, and those on both sides of it do.
#[test]
fn a_direction_in_the_middle_without_a_bit() {
    let lengths = [2, 2, 1, 8];
    let first = plan(&across(lengths, &WITH_TWO_CLASSES));
    assert_dealt(&first, [4, 1, 2, 2], [2, 0, 1, 1]);
    assert_processors(&first, lengths, |[j, _, l]| 4 * CODES[l / 2] + 2 * j + l % 2);
    let lengths = [2, 1, 4, 8];
    let second = plan(&across(lengths, &WITH_TWO_CLASSES));
    assert_dealt(&second, [4, 4, 1, 2], [2, 2, 0, 1]);
    assert_processors(&second, lengths, |[_, k, l]| 8 * CODES[l / 2] + 2 * CODES[k] + l % 2);
}

/// 8 x 8 x 8 x 8 is 4096. One index more in any loop makes 4608, and 17 x 241 is 4097.
#[test]
fn as_many_iterations_as_there_may_be() {
    let with_upper = |upper: [i64; 4]| changed(silent_nest(4), |nest| nest.upper = upper.to_vec());
    let full = plan(&with_upper([7; 4]));
    assert_eq!((full.iterations.count(), full.partition.step_count), (4096, 29));
    for place in 0..4 {
        let mut upper = [7; 4];
        upper[place] = 8;
        assert_eq!(refusal(&with_upper(upper)), Some(TOO_MANY_ITERATIONS), "{place}");
    }
    assert_eq!(refusal(&with_upper([0, 16, 0, 240])), Some(TOO_MANY_ITERATIONS));
    assert_eq!(refusal(&with_upper([1, 1, 1, 511])), None);
}

/// Limits at both ends in one nest, with 1 x 2 x 2 x 1 iterations; then each limit one further.
#[test]
fn limits_at_both_ends_of_their_span() {
    let nest = changed(silent_nest(4), |nest| {
        nest.lower = vec![-1000, -1000, 999, 1000];
        nest.upper = vec![-1000, -999, 1000, 1000];
    });
    assert_eq!(plan(&nest).partition.steps, vec![0, 1, 1, 2]);
    let whole = changed(nest.clone(), |nest| (nest.lower[1], nest.upper[1]) = (-1000, 1000));
    assert_eq!(plan(&whole).iterations.count(), 4002);
    for place in 0..4 {
        let below = changed(nest.clone(), |nest| nest.lower[place] = -1001);
        let above = changed(nest.clone(), |nest| nest.upper[place] = 1001);
        assert_eq!((refusal(&below), refusal(&above)), (Some(BAD_LIMITS), Some(BAD_LIMITS)));
    }
}

/// The fourth component of the time vector and of a dependence is judged as the others are.
#[test]
fn components_of_the_fourth_loop_are_judged() {
    let nest = silent_nest(4);
    let with_time = |p| changed(nest.clone(), |nest| nest.time_vector[3] = p);
    assert_eq!(
        [16, 17, -16, -17, 0].map(|p| refusal(&with_time(p))),
        [
            None,
            Some(TIME_VECTOR_SPAN),
            Some(AGAINST_TIME_VECTOR),
            Some(TIME_VECTOR_SPAN),
            Some(AGAINST_TIME_VECTOR),
        ]
    );
    let with_dependence = |d| changed(nest.clone(), |nest| nest.dependences[0][3] = d);
    assert_eq!(
        [16, 17, -16, -17, 0].map(|d| refusal(&with_dependence(d))),
        [
            None,
            Some(DEPENDENCE_SPAN),
            Some(BACKWARD_DEPENDENCE),
            Some(DEPENDENCE_SPAN),
            Some(BACKWARD_DEPENDENCE),
        ]
    );
    // equal but for the fourth component, and equal in it too
    let two =
        |d: [i64; 4]| changed(nest.clone(), |nest| set_dependences(nest, &[&[0, 1, 2, 3], &d]));
    assert_eq!(refusal(&two([0, 1, 2, 4])), None);
    assert_eq!(refusal(&two([0, 1, 2, 3])), Some(REPEATED_DEPENDENCE));
}

/// Four loops are no refusal any more, and five are, whatever else is wrong.
#[test]
fn a_fifth_loop_is_refused_before_all_else() {
    assert_eq!(refusal(&silent_nest(4)), None);
    let five = silent_nest(5);
    assert_eq!((refusal(&five), BAD_DEPTH), (Some(2), 2));
    let faults: [fn(&mut LoopNest); 8] = [
        |nest| nest.dependence_count = 9,
        |nest| nest.cube_dimension = 7,
        |nest| nest.lower[4] = 4,
        |nest| nest.upper[0] = 1001,
        |nest| nest.time_vector[4] = 17,
        |nest| nest.dependences[0][4] = -17,
        |nest| nest.time_vector.fill(0),
        |nest| nest.weights[0] = 256,
    ];
    for fault in faults {
        assert_eq!(refusal(&changed(five.clone(), fault)), Some(BAD_DEPTH));
    }
}
