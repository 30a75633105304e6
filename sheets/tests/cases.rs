//! Tests of the generator itself: its kinds are what they say, and all of them come up.

use std::collections::{HashMap, HashSet};

use second::nest::{inner_product, Iterations, LoopNest};
use second::rational::greatest_common_divisor;
use second::text;
use sheets::gaps::{corners, time_count};
use sheets::refused::{nest_to_spoil, zero_time_nest, SPOILERS};
use sheets::{Case, Random, ACCEPTED};

const COUNT: u64 = 3300;

fn cases() -> impl Iterator<Item = Case> {
    (0..COUNT).map(|index| sheets::case(1, index))
}

#[test]
fn accepted_kinds_are_accepted() {
    for case in cases().filter(|case| case.family == ACCEPTED) {
        assert_eq!(text::read(&case.text).err(), None, "{}", case.kind);
    }
}

/// The accepted nests among the cases.
fn accepted_nests() -> impl Iterator<Item = LoopNest> {
    cases().filter_map(|case| text::read(&case.text).ok())
}

/// How many different times P·j the iterations of a nest have.
fn different_times(nest: &LoopNest) -> i64 {
    let points = Iterations::new(nest).points;
    let times: HashSet<i64> =
        points.iter().map(|point| inner_product(&nest.time_vector, point)).collect();
    times.len() as i64
}

/// What divides the difference of any two times: the common divisor of the components that belong
/// to loops of more than one index, or 1 if there is none.
fn common_divisor(nest: &LoopNest) -> i64 {
    let limits = nest.lower.iter().zip(&nest.upper);
    let moving = limits.zip(&nest.time_vector).filter(|((lower, upper), _)| lower < upper);
    let divisor = moving.fold(0, |divisor, (_, &component)| {
        greatest_common_divisor(divisor, i128::from(component))
    });
    divisor.max(1) as i64
}

#[test]
fn times_with_gaps_come_up() {
    let (mut with_gaps, mut with_gaps_after_division, mut with_negative_component) = (0, 0, 0);
    for nest in accepted_nests() {
        let (different, all) = (different_times(&nest), time_count(&nest));
        with_gaps += u64::from(different < all);
        if different < (all - 1) / common_divisor(&nest) + 1 {
            with_gaps_after_division += 1;
            with_negative_component += u64::from(nest.time_vector.iter().any(|&p| p < 0));
        }
    }
    assert!(with_gaps >= 400, "{with_gaps}");
    assert!(with_gaps_after_division >= 150, "{with_gaps_after_division}");
    assert!(with_negative_component >= 80, "{with_negative_component}");
}

#[test]
fn the_kind_with_gaps_has_them_always() {
    let mut seen = 0;
    for case in cases().filter(|case| case.kind == "times with gaps") {
        let nest = text::read(&case.text).expect("an accepted nest");
        assert!(different_times(&nest) < time_count(&nest), "{nest:?}");
        seen += 1;
    }
    assert!(seen >= 40);
}

/// The different times of each corner, and the whole numbers from the first to the last of them. By
/// hand: with limits from 0, the last is the sum of component times upper limit, taken for the
/// components above 0, and the first is that for those below.
#[test]
fn corners_of_steps_have_the_times_that_are_said() {
    let counted: Vec<(i64, i64)> = corners(&mut Random::new(1))
        .iter()
        .map(|nest| {
            assert_eq!(nest.refusal(), None);
            (different_times(nest), time_count(nest))
        })
        .collect();
    let expected = [
        (5, 9),        // 0, 2, 4, 6, 8
        (4, 6),        // 0, 2, 3, 5
        (6, 19),       // 0, 1, 2, 16, 17, 18
        (6, 8),        // -3, -1, 0, 1, 2, 4
        (3, 5),        // -4, -2, 0
        (5, 65),       // -32, -16, 0, 16, 32
        (4, 11),       // the first, and 4, 6 and 10 after it
        (12, 40),      // three times four, from -16 to 16 + 7
        (3, 33),       // -16, 0, 16
        (1, 1),        // 48000
        (2001, 32001), // every sixteenth from -16000 to 16000
        (2002, 32017), // every sixteenth from -16016 to 16000
        (4096, 16378), // four different rests modulo 16, 1024 times; 16 * 1023 + 9 + 1
    ];
    assert_eq!(counted, expected);
}

#[test]
fn all_corners_of_steps_come_up() {
    let directions = |nest: &LoopNest| {
        let LoopNest { lower, upper, time_vector, dependences, .. } = nest.clone();
        (lower, upper, time_vector, dependences)
    };
    let seen: Vec<_> = accepted_nests().map(|nest| directions(&nest)).collect();
    for corner in corners(&mut Random::new(1)) {
        let corner = directions(&corner);
        assert!(seen.iter().filter(|&nest| *nest == corner).count() >= 4, "{corner:?}");
    }
}

#[test]
fn every_refusal_comes_alone() {
    for (number, spoiler) in SPOILERS {
        for seed in 0..200 {
            let mut random = Random::new(seed);
            let mut nest = nest_to_spoil(&mut random);
            assert_eq!(nest.refusal(), None);
            spoiler(&mut random, &mut nest);
            let text = text::write(&nest);
            assert_eq!(text::read(text.as_bytes()).err(), Some(*number));
        }
    }
}

#[test]
fn a_zero_time_vector_is_refused_with_11_at_each_depth() {
    for depth in LoopNest::DEPTHS {
        for seed in 0..200 {
            let mut nest = zero_time_nest(&mut Random::new(seed), depth as usize);
            assert_eq!((nest.depth, nest.time_vector.iter().all(|p| *p == 0)), (depth, true));
            assert_eq!(text::read(text::write(&nest).as_bytes()).err(), Some(11));
            // what is tested behind 11 does not come first
            nest.boundary_values.fill(-1);
            assert_eq!(nest.refusal(), Some(11));
        }
    }
}

#[test]
fn all_depths_cube_dimensions_dependence_counts_and_refusals_come_up() {
    let mut seen: HashMap<(&str, i64), i64> = HashMap::new();
    for case in cases() {
        if let Some(depth) = depth_with_zero_time(&case.text) {
            *seen.entry(("zero time vector", depth)).or_insert(0) += 1;
        }
        match text::read(&case.text) {
            Err(number) => *seen.entry(("refusal", i64::from(number))).or_insert(0) += 1,
            Ok(nest) => {
                *seen.entry(("depth", nest.depth)).or_insert(0) += 1;
                *seen.entry(("cube dimension", nest.cube_dimension)).or_insert(0) += 1;
                *seen.entry(("dependences", nest.dependence_count)).or_insert(0) += 1;
            }
        }
    }
    let often = |what, number| seen.get(&(what, number)).copied().unwrap_or(0) >= 10;
    assert!(LoopNest::DEPTHS.into_iter().all(|depth| often("depth", depth)));
    assert!(LoopNest::CUBE_DIMENSIONS.into_iter().all(|c| often("cube dimension", c)));
    assert!(LoopNest::DEPENDENCE_COUNTS.into_iter().all(|m| often("dependences", m)));
    assert!((1..=13).filter(|&number| number != 12).all(|number| often("refusal", number)));
    assert_eq!(seen.get(&("refusal", 12)), None, "12 is not used");
    assert!(LoopNest::DEPTHS.into_iter().all(|n| seen[&("zero time vector", n)] >= 5));
}

/// The depth of a text that is refused with 11 and has only zeros in the line of its time vector.
fn depth_with_zero_time(text: &[u8]) -> Option<i64> {
    if text::read(text).err() != Some(11) {
        return None;
    }
    let lines = text::split_lines(text)?;
    let depth = text::read_fields(lines[0], 3)?[0];
    let time_vector = text::read_fields(lines[depth as usize + 1], depth as usize)?;
    time_vector.iter().all(|component| *component == 0).then_some(depth)
}

#[test]
fn the_same_seed_gives_the_same_texts() {
    assert!((0..100).all(|index| sheets::case(7, index).text == sheets::case(7, index).text));
    assert!((0..100).any(|index| sheets::case(7, index).text != sheets::case(8, index).text));
}
