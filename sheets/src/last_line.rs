//! Last lines of whole fields that have neither of the two forms of a last line. With m dependences
//! the short form has m + 1 fields and the long one 2m (document 02, U1).

use second::nest::LoopNest;
use second::text;

use crate::damaged::{lines_of, Damage};
use crate::random::Random;

/// A field less and a field more than each form has, or two where that is the other form; and any
/// other number of fields.
pub(crate) const LAST_LINE_DAMAGES: &[(&str, Damage)] = &[
    ("last line shorter than the short form", |random, text| {
        with_last_line(random, text, |_, m| fewer_fields(m, m + 1))
    }),
    ("last line longer than the short form", |random, text| {
        with_last_line(random, text, |_, m| more_fields(m, m + 1))
    }),
    ("last line shorter than the long form", |random, text| {
        with_last_line(random, text, |_, m| fewer_fields(m, 2 * m))
    }),
    ("last line longer than the long form", |random, text| {
        with_last_line(random, text, |_, m| more_fields(m, 2 * m))
    }),
    ("last line of another length", |random, text| with_last_line(random, text, any_other)),
];

/// Whether a last line of so many fields has one of the forms.
pub(crate) fn is_form(dependence_count: usize, fields: usize) -> bool {
    fields == dependence_count + 1 || fields == 2 * dependence_count
}

/// The next number of fields above that of a form which is no form's.
fn more_fields(dependence_count: usize, form: usize) -> usize {
    let longer = [form + 1, form + 2];
    longer.into_iter().find(|&fields| !is_form(dependence_count, fields)).expect("one of two")
}

/// The next number of fields below that of a form which is no form's.
fn fewer_fields(dependence_count: usize, form: usize) -> usize {
    let mut shorter = (0..form).rev();
    shorter.find(|&fields| !is_form(dependence_count, fields)).expect("at least 0")
}

/// Any number of fields that is no form's, up to two more than the long form has.
fn any_other(random: &mut Random, dependence_count: usize) -> usize {
    loop {
        let fields = random.place(2 * dependence_count + 3);
        if !is_form(dependence_count, fields) {
            return fields;
        }
    }
}

/// The number of dependences that line 1 says; 1 if it says none that there may be.
pub(crate) fn dependence_count(lines: &[Vec<u8>]) -> usize {
    let line = lines[0].strip_suffix(&[text::LINE_END]).unwrap_or(&lines[0]);
    let counts = text::read_fields(line, 3).unwrap_or(vec![0; 3]);
    if LoopNest::DEPENDENCE_COUNTS.contains(&counts[1]) {
        counts[1] as usize
    } else {
        1
    }
}

/// Puts another last line into a text, of as many fields as are chosen for its dependences. Each
/// would be in span as a boundary value and as a weight.
fn with_last_line(
    random: &mut Random,
    text: Vec<u8>,
    choose: impl FnOnce(&mut Random, usize) -> usize,
) -> Vec<u8> {
    let mut lines = lines_of(&text);
    let fields = choose(random, dependence_count(&lines));
    let numbers: Vec<i64> = (0..fields).map(|_| random.between(0, 255)).collect();
    lines.pop();
    lines.push(text::write_line(&numbers).into_bytes());
    lines.concat()
}
