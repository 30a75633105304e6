//! Boundary values, one for each dependence, and the two forms in which a text has them (document
//! 02, U1).

use second::nest::LoopNest;
use second::text;

use crate::random::Random;

/// The boundary values of so many dependences: one for all in two of five cases; otherwise each
/// drawn by itself, all equal but one, or all equal but the last.
pub(crate) fn boundary_values(random: &mut Random, count: usize) -> Vec<i64> {
    match random.between(0, 4) {
        0 | 1 => vec![boundary_value(random); count],
        2 => (0..count).map(|_| boundary_value(random)).collect(),
        3 => {
            let place = random.place(count.max(1));
            equal_but_at(random, count, place)
        }
        _ => equal_but_at(random, count, count.saturating_sub(1)),
    }
}

/// Boundary values of two dependences or more that are not all equal: all equal but one, or but the
/// last, or each drawn by itself until two differ.
pub(crate) fn different_values(random: &mut Random, count: usize) -> Vec<i64> {
    loop {
        let values = boundary_values(random, count);
        if !are_equal(&values) {
            return values;
        }
    }
}

/// Whether boundary values are all equal.
pub fn are_equal(values: &[i64]) -> bool {
    values.iter().all(|value| *value == values[0])
}

/// A boundary value, in half of the cases one at which something may go wrong.
fn boundary_value(random: &mut Random) -> i64 {
    if random.once_in(2) {
        random.pick(&[0, 65535, 0, 65535, 1, 7, 256, 40000])
    } else {
        random.between(0, 65535)
    }
}

/// A boundary value that is not the given one.
fn another_value(random: &mut Random, value: i64) -> i64 {
    loop {
        let other = boundary_value(random);
        if other != value {
            return other;
        }
    }
}

/// Boundary values of which the one at a place, if there is one, is not as the others.
fn equal_but_at(random: &mut Random, count: usize, place: usize) -> Vec<i64> {
    let value = boundary_value(random);
    let other = another_value(random, value);
    (0..count).map(|number| if number == place { other } else { value }).collect()
}

/// The text of a nest. If its boundary values are equal, the last line is the long one in half of
/// the cases, which no writer makes.
pub(crate) fn in_either_form(random: &mut Random, nest: &LoopNest) -> Vec<u8> {
    let write = random.pick(&[text::write, text::write_long]);
    write(nest).into_bytes()
}
