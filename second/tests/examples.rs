//! Document 01's examples P1 to P10, its listing in full, the counts that source document 000
//! gives for its loops L1 and L2, nests worked out by hand, and document 02's boundary values (U1)
//! and steps (U2) in sheets worked out by hand.

mod common;

use std::fs;

use common::*;
use second::listing::listing;
use second::nest::{inner_product, LoopNest};
use second::plan::Plan;
use second::refusal::*;
use second::text;

fn p1() -> LoopNest {
    let mut nest = silent_nest(2);
    set_dependences(&mut nest, &[&[0, 1], &[1, 1], &[1, 0]]);
    nest
}

/// 000's loop L2 with the given upper limits.
fn loop_l2(upper: [i64; 3]) -> LoopNest {
    let mut nest = silent_nest(3);
    nest.upper = upper.to_vec();
    set_dependences(&mut nest, &[&[0, 1, 0], &[1, 0, 0], &[0, 0, 1]]);
    nest
}

/// The number of iterations of each block.
fn block_sizes(plan: &Plan) -> Vec<usize> {
    (0..plan.partition.block_count())
        .map(|block| plan.partition.blocks.iter().filter(|&&other| other == block).count())
        .collect()
}

/// Pairs of iteration and dependence whose source is an iteration: all, and those between blocks.
fn dependence_counts(nest: &LoopNest, plan: &Plan) -> (usize, usize) {
    let blocks = &plan.partition.blocks;
    let (mut all, mut between_blocks) = (0, 0);
    for rank in 0..plan.iterations.count() {
        for dependence in &nest.dependences {
            if let Some(source) = plan.iterations.source(rank, dependence) {
                all += 1;
                between_blocks += usize::from(blocks[source] != blocks[rank]);
            }
        }
    }
    (all, between_blocks)
}

#[test]
fn p1_blocks_and_dependences() {
    let nest = p1();
    let plan = plan(&nest);
    assert_eq!(block_sizes(&plan), vec![7, 3, 5, 1]);
    assert_eq!(dependence_counts(&nest, &plan), (33, 12));
    assert_eq!(plan.partition.projected_points.len(), 7);
    assert_eq!((plan.partition.group_size, plan.partition.beta()), (2, 1));
}

#[test]
fn p1_processors() {
    let mut nest = p1();
    nest.cube_dimension = 2;
    assert_eq!(plan(&nest).mapping.block_processors, vec![3, 2, 1, 0]);
}

#[test]
fn p1_rounding_toward_zero_would_put_two_iterations_of_a_block_at_one_step() {
    let plan = plan(&p1());
    let (one, other) =
        (plan.iterations.rank_of(&[1, 0]).unwrap(), plan.iterations.rank_of(&[0, 1]).unwrap());
    assert_eq!(plan.partition.steps[one], plan.partition.steps[other]);
    assert_ne!(plan.partition.blocks[one], plan.partition.blocks[other]);
}

const P2_TEXT: &str = "     2     2     1
     0     1
     0     2
     1     1
     0     1
     1     0
     1     2     3
";

const P2_LISTING: &str = "     6     4     3     2     2
     0     0     0     0     5
     1     1     0     0    14
     2     2     1     1    33
     3     1     2     0    20
     4     2     0     0    86
     5     3     0     0   276
";

#[test]
fn p2_listing_byte_for_byte() {
    assert_eq!(listing(P2_TEXT.as_bytes()), P2_LISTING);
    let nest = text::read(P2_TEXT.as_bytes()).unwrap();
    assert_eq!(text::write(&nest), P2_TEXT);
}

/// P2 with a boundary value for each dependence. A source that (0,1) leads to, on the left of
/// column 0, reads as 1; one that (1,0) leads to, above row 0, reads as 10. A value is the rank, 2
/// times what is on the left, and 3 times what is above:
///
///     (0,0)  0 + 2 *   1 + 3 *  10 =   32, both sources outside, along different dependences
///     (0,1)  1 + 2 *  32 + 3 *  10 =   95
///     (0,2)  2 + 2 *  95 + 3 *  10 =  222
///     (1,0)  3 + 2 *   1 + 3 *  32 =  101
///     (1,1)  4 + 2 * 101 + 3 *  95 =  491
///     (1,2)  5 + 2 * 491 + 3 * 222 = 1653
///
/// All else is as in P2: boundary values have no part in steps, blocks and processors.
#[test]
fn p2_with_a_boundary_value_for_each_dependence() {
    let with_two = P2_TEXT.replace("     1     2     3\n", "     1    10     2     3\n");
    let expected = "     6     4     3     2     2
     0     0     0     0    32
     1     1     0     0    95
     2     2     1     1   222
     3     1     2     0   101
     4     2     0     0   491
     5     3     0     0  1653
";
    assert_eq!(listing(with_two.as_bytes()), expected);
    let nest = text::read(with_two.as_bytes()).unwrap();
    assert_eq!(nest.boundary_values, vec![1, 10]);
    assert_eq!(text::write(&nest), with_two);
}

/// P2 with the long last line: its listing is P2's, and it is written again as P2.
#[test]
fn p2_with_equal_boundary_values_one_by_one() {
    let long = P2_TEXT.replace("     1     2     3\n", "     1     1     2     3\n");
    assert_eq!(listing(long.as_bytes()), P2_LISTING);
    assert_eq!(text::write(&text::read(long.as_bytes()).unwrap()), P2_TEXT);
}

#[test]
fn p3_one_iteration() {
    let mut nest = silent_nest(1);
    nest.upper = vec![0];
    let plan = plan(&nest);
    assert_eq!(plan.iterations.count(), 1);
    assert_eq!(plan.partition.step_count, 1);
    assert_eq!(plan.partition.block_count(), 1);
    assert_eq!(plan.mapping.processors, vec![0]);
    let expected = "     1     1     1     1     0\n     0     0     0     0     1\n";
    assert_eq!(listing(text::write(&nest).as_bytes()), expected);
}

#[test]
fn p4_loop_l2() {
    let plan = plan(&loop_l2([3, 2, 3]));
    assert_eq!(plan.iterations.count(), 48);
    assert_eq!(plan.partition.step_count, 9);
    assert_eq!(plan.partition.group_size, 3);
    assert_eq!(plan.partition.beta(), 2);
    assert_eq!(plan.partition.projected_points.len(), 30);
    assert_eq!(plan.partition.block_count(), 12);
}

#[test]
fn loop_l2_with_four_indices_in_each_loop() {
    let plan = plan(&loop_l2([3, 3, 3]));
    assert_eq!(plan.partition.projected_points.len(), 37);
    assert_eq!(plan.partition.block_count(), 17);
}

#[test]
fn p5_three_classes() {
    let mut nest = silent_nest(2);
    set_dependences(&mut nest, &[&[0, 3], &[0, 1]]);
    let plan = plan(&nest);
    assert_eq!(plan.partition.class_count(), 3);
    let class_of = |point: &[i64]| {
        let rank = plan.iterations.rank_of(point).unwrap();
        plan.partition.groups[plan.partition.projected_point_of[rank]].class
    };
    assert_eq!(class_of(&[0, 0]), class_of(&[0, 3]));
    assert_ne!(class_of(&[0, 0]), class_of(&[0, 1]));
}

#[test]
fn p6_the_second_is_the_grouping_vector() {
    let mut nest = silent_nest(2);
    nest.time_vector = vec![1, 0];
    set_dependences(&mut nest, &[&[1, 0], &[1, 1]]);
    let plan = plan(&nest);
    assert_eq!(plan.partition.group_size, 1);
    assert_eq!(plan.partition.grouping, Some(1));
}

#[test]
fn p7_backward_dependence() {
    let mut nest = silent_nest(2);
    set_dependences(&mut nest, &[&[-1, 2]]);
    assert!(inner_product(&nest.time_vector, &nest.dependences[0]) > 0);
    assert_eq!(refusal(&nest), Some(BACKWARD_DEPENDENCE));
    assert_eq!(BACKWARD_DEPENDENCE, 9);
}

#[test]
fn p8_against_the_time_vector() {
    let mut nest = silent_nest(2);
    nest.time_vector = vec![1, -1];
    assert_eq!(refusal(&nest), Some(AGAINST_TIME_VECTOR));
    assert_eq!(AGAINST_TIME_VECTOR, 11);
}

#[test]
fn p9_number_of_iterations() {
    let mut nest = silent_nest(2);
    nest.upper = vec![63, 63];
    assert_eq!(plan(&nest).iterations.count(), 4096);
    nest.upper = vec![63, 64];
    assert_eq!(refusal(&nest), Some(TOO_MANY_ITERATIONS));
    assert_eq!(TOO_MANY_ITERATIONS, 6);
}

#[test]
fn p10_limits() {
    let mut nest = silent_nest(1);
    nest.upper = vec![1000];
    assert_eq!(plan(&nest).iterations.count(), 1001);
    nest.upper = vec![1001];
    assert_eq!(refusal(&nest), Some(BAD_LIMITS));
    assert_eq!(BAD_LIMITS, 5);
}

#[test]
fn refusals_come_by_number_over_the_whole_nest() {
    let mut nest = p1();
    nest.dependences[0] = vec![0, 0];
    nest.dependences[2] = vec![17, 0];
    assert_eq!(refusal(&nest), Some(DEPENDENCE_SPAN));
    nest.dependences[2] = vec![1, 1];
    assert_eq!(refusal(&nest), Some(BACKWARD_DEPENDENCE));
    nest.dependences[0] = vec![0, 1];
    nest.time_vector = vec![0, 0];
    nest.weights[2] = 256;
    assert_eq!(refusal(&nest), Some(REPEATED_DEPENDENCE));
    nest.dependences[2] = vec![1, 0];
    assert_eq!(refusal(&nest), Some(AGAINST_TIME_VECTOR));
    nest.time_vector = vec![1, 1];
    assert_eq!(refusal(&nest), Some(WEIGHT_SPAN));
    nest.weights[2] = 255;
    assert_eq!(refusal(&nest), None);
    nest.boundary_values[2] = 65536;
    assert_eq!(refusal(&nest), Some(WEIGHT_SPAN));
}

#[test]
fn all_projections_zero_makes_each_projected_point_a_group() {
    let mut nest = silent_nest(2);
    set_dependences(&mut nest, &[&[1, 1], &[2, 2]]);
    let plan = plan(&nest);
    assert_eq!(plan.partition.grouping, None);
    assert_eq!(plan.partition.beta(), 0);
    assert_eq!(plan.partition.block_count(), 7);
    assert_eq!(plan.partition.class_count(), 7);
}

/// The projection of (x,y) is (0,y), so block y holds (0,y) to (3,y). All bits go to the class,
/// whose parts 0, 1, 2, 3 have the Gray codes 0, 1, 3, 2.
#[test]
fn without_a_grouping_vector_the_bits_go_to_the_class() {
    let mut nest = silent_nest(2);
    nest.time_vector = vec![1, 0];
    nest.cube_dimension = 2;
    set_dependences(&mut nest, &[&[1, 0]]);
    let plan = plan(&nest);
    assert_eq!((plan.partition.group_size, plan.partition.beta()), (1, 0));
    assert_eq!(plan.partition.projected_points.len(), 4);
    assert_eq!(plan.partition.blocks, [0, 1, 2, 3].repeat(4));
    assert_eq!(dependence_counts(&nest, &plan), (12, 0));
    assert_eq!(plan.mapping.block_processors, vec![0, 1, 3, 2]);
    assert_eq!(plan.mapping.messages.len(), 0);
}

/// Widths 3, 5 and 2: q, b, class and b again take a bit, and the fifth is left. The parts of
/// q = -2, -1, 0 are 0, 0, 1; those of b have the codes 0, 0, 1, 3, 2; the class is its own part.
#[test]
fn directions_whose_widths_are_no_powers_of_2() {
    let mut nest = silent_nest(3);
    nest.upper = vec![1, 5, 4];
    nest.time_vector = vec![1, 0, 0];
    nest.cube_dimension = 5;
    set_dependences(&mut nest, &[&[1, -2, 0], &[1, 0, 1]]);
    let plan = plan(&nest);
    assert_eq!((plan.partition.group_size, plan.partition.beta()), (1, 2));
    assert_eq!((plan.partition.class_count(), plan.partition.block_count()), (2, 30));
    assert_eq!(dependence_counts(&nest, &plan), (44, 44));
    assert_eq!(plan.mapping.bits, vec![1, 2, 1]);
    let first_of_row = [8, 9, 0, 1, 0, 1];
    let codes_of_b = [0, 0, 1, 3, 2];
    let expected: Vec<usize> =
        (0..30).map(|k| first_of_row[k / 5] + 2 * codes_of_b[k % 5]).collect();
    assert_eq!(plan.mapping.block_processors, expected);
    assert_eq!(plan.mapping.messages.len(), 28);
}

/// The names of the sheets in examples/, each with the nest that it must hold.
fn nests_by_name() -> Vec<(&'static str, LoopNest)> {
    let one = |upper| changed(silent_nest(1), |nest| nest.upper = vec![upper]);
    let two = |upper| changed(silent_nest(2), |nest| nest.upper = vec![63, upper]);
    let with = |time: [i64; 2], dependences: &[&[i64]]| {
        changed(silent_nest(2), |nest| {
            nest.time_vector = time.to_vec();
            set_dependences(nest, dependences);
        })
    };
    let row_of_64 = changed(with([1, 0], &[&[1, 0]]), |nest| {
        nest.cube_dimension = 6;
        nest.upper = vec![0, 63];
    });
    let p2 = text::read(P2_TEXT.as_bytes()).unwrap();
    let p4 = loop_l2([3, 2, 3]);
    let four = changed(silent_nest(4), |nest| {
        nest.cube_dimension = 2;
        nest.upper = vec![1; 4];
        set_dependences(nest, &[&[0, 0, 0, 1], &[0, 0, 1, 0], &[0, 1, 0, 0], &[1, 0, 0, 0]]);
    });
    vec![
        ("P1", changed(p1(), |nest| nest.cube_dimension = 2)),
        ("P2", p2.clone()),
        ("P3", one(0)),
        ("P4", p4.clone()),
        ("P4-cube-2", changed(p4, |nest| nest.cube_dimension = 2)),
        ("P5", with([1, 1], &[&[0, 3], &[0, 1]])),
        ("P6", with([1, 0], &[&[1, 0], &[1, 1]])),
        ("P7", with([1, 1], &[&[-1, 2]])),
        ("P8", with([1, -1], &[&[0, 1]])),
        ("P9", two(63)),
        ("P9-refused", two(64)),
        ("P10", one(1000)),
        ("P10-refused", one(1001)),
        ("gray", row_of_64),
        ("U11-four-loops", four),
        ("U1-two-values", changed(p2.clone(), |nest| nest.boundary_values = vec![1, 10])),
        ("refused", changed(p2, |nest| nest.time_vector = vec![1, 0])),
    ]
}

/// The same of the sheets whose times P·j have gaps (document 02, U2): two processors, and equal
/// limits in both loops.
fn nests_with_gaps() -> Vec<(&'static str, LoopNest)> {
    let with = |upper: i64, time: [i64; 2], dependences: &[&[i64]]| {
        changed(silent_nest(2), |nest| {
            nest.cube_dimension = 1;
            nest.upper = vec![upper; 2];
            nest.time_vector = time.to_vec();
            set_dependences(nest, dependences);
        })
    };
    vec![
        ("U2-common-factor", with(2, [2, 2], &[&[0, 1], &[1, 0]])),
        ("U2-no-common-factor", with(1, [2, 3], &[&[0, 1], &[1, 0]])),
        ("U2-both-ends", with(2, [16, -16], &[&[1, 0], &[1, -1]])),
    ]
}

/// The times are 2(i + j): 0 2 4, 2 4 6, 4 6 8, five of them. (0,1) is projected to (-1/2,1/2), so
/// u is j - i and r is 2: q is 0 0 1, -1 0 0, -1 -1 0. Of the parts (q + 1) * 2 / 3 only that of
/// q = 1 is 1: the iteration (0,2), which has a message each from (0,1) and to (1,2). A value is
/// the rank with what is on the left and what is above.
#[test]
fn a_time_vector_with_a_common_factor() {
    let expected = [
        [9, 5, 3, 2, 2],
        [0, 0, 0, 0, 2],
        [1, 1, 0, 0, 4],
        [2, 2, 1, 1, 7],
        [3, 1, 2, 0, 6],
        [4, 2, 0, 0, 14],
        [5, 3, 0, 0, 26],
        [6, 2, 2, 0, 13],
        [7, 3, 2, 0, 34],
        [8, 4, 0, 0, 68],
    ];
    assert_eq!(listed("U2-common-factor"), expected);
}

/// The times are 0 3, 2 5: nothing but 1 divides them all, and 1 and 4 are missing. s is 13; (0,1)
/// is projected to (-6,4)/13 and (1,0) to -3/2 of that. So r is 13, and each row is a class and a
/// block. The one bit goes to the class: each row has its processor, and the second row's
/// iterations have a message each from above.
#[test]
fn a_time_vector_without_a_common_factor() {
    let expected =
        [[4, 4, 2, 2, 2], [0, 0, 0, 0, 2], [1, 2, 0, 0, 4], [2, 1, 1, 1, 5], [3, 3, 1, 1, 12]];
    assert_eq!(listed("U2-no-common-factor"), expected);
}

/// The times are 16(i - j): 0 -16 -32, 16 0 -16, 32 16 0; the earliest is at the end of the first
/// row. (1,0) is projected to (1/2,1/2) and (1,-1) to zero, so u is i + j and r is 2: q is 0 0 1,
/// 0 1 1, 1 1 2. Of the parts q * 2 / 3 only that of q = 2 is 1: the iteration (2,2), with a
/// message from (1,2); its other source is outside. A value is the rank with what is above and
/// what is on the right of that.
#[test]
fn a_time_vector_at_both_ends_of_its_span() {
    let expected = [
        [9, 5, 3, 2, 1],
        [0, 2, 0, 0, 2],
        [1, 1, 0, 0, 3],
        [2, 0, 1, 0, 4],
        [3, 3, 0, 0, 8],
        [4, 2, 1, 0, 11],
        [5, 1, 1, 0, 10],
        [6, 4, 1, 0, 25],
        [7, 3, 1, 0, 28],
        [8, 2, 2, 1, 19],
    ];
    assert_eq!(listed("U2-both-ends"), expected);
}

#[test]
fn the_sheets_in_examples_are_those_of_the_table() {
    let nests = [nests_by_name(), nests_with_gaps()].concat();
    for (name, nest) in &nests {
        assert_eq!(sheet(name), text::write(nest), "{name}");
    }
    assert_eq!(fs::read_dir(EXAMPLES).unwrap().count(), nests.len());
}
