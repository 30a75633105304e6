//! Tests of the generator's boundary values, one for each dependence, and of the two forms of a last
//! line (document 02, U1): they come up in every way, so that a planner that reads them wrongly is
//! found out.

use std::collections::{HashMap, HashSet};

use second::nest::{Iterations, LoopNest};
use second::plan::Plan;
use second::text;
use sheets::boundary::are_equal;
use sheets::Case;

const COUNT: u64 = 3300;

fn cases() -> impl Iterator<Item = Case> {
    (0..COUNT).map(|index| sheets::case(1, index))
}

/// The accepted nests among the cases.
fn accepted_nests() -> impl Iterator<Item = LoopNest> {
    cases().filter_map(|case| text::read(&case.text).ok())
}

/// The numbers of a text's last line.
fn last_numbers(text: &[u8]) -> Option<Vec<i64>> {
    let line = *text::split_lines(text)?.last()?;
    text::read_fields(line, line.len() / text::COLUMNS)
}

/// The forms of a last line; with one dependence both are one.
#[derive(Clone, Copy, Debug, PartialEq, Eq, Hash)]
enum Form {
    Both,
    Short,
    LongOfEqual,
    LongOfDifferent,
}

/// The form of an accepted text's last line.
fn form(text: &[u8], nest: &LoopNest) -> Form {
    let fields = last_numbers(text).expect("numbers in an accepted text").len();
    match (nest.dependences.len(), are_equal(&nest.boundary_values)) {
        (1, _) => Form::Both,
        (m, true) if fields == m + 1 => Form::Short,
        (_, true) => Form::LongOfEqual,
        (_, false) => Form::LongOfDifferent,
    }
}

/// A long line of equal boundary values comes back short; every other accepted text comes back byte
/// for byte.
#[test]
fn accepted_texts_are_written_as_they_were_read() {
    let (mut accepted, mut shorter) = (0, 0);
    for case in cases() {
        let Ok(nest) = text::read(&case.text) else { continue };
        let written = text::write(&nest).into_bytes();
        if form(&case.text, &nest) == Form::LongOfEqual {
            let fields_less = nest.dependences.len() - 1;
            assert_eq!(written.len() + fields_less * text::COLUMNS, case.text.len());
            assert_eq!(text::write_long(&nest).into_bytes(), case.text);
            assert_eq!(text::read(&written), Ok(nest));
            shorter += 1;
        } else {
            assert_eq!(written, case.text);
        }
        accepted += 1;
    }
    assert!(accepted > COUNT / 3 && shorter > COUNT / 30, "{accepted} {shorter}");
}

#[test]
fn both_forms_come_up_with_every_number_of_dependences() {
    let mut seen: HashMap<(usize, Form), u64> = HashMap::new();
    for case in cases() {
        if let Ok(nest) = text::read(&case.text) {
            *seen.entry((nest.dependences.len(), form(&case.text, &nest))).or_insert(0) += 1;
        }
    }
    assert!(seen[&(1, Form::Both)] >= 100);
    for m in 2..=8 {
        for form in [Form::Short, Form::LongOfEqual, Form::LongOfDifferent] {
            let often = seen.get(&(m, form)).copied().unwrap_or(0);
            assert!(often >= 8, "{m} {form:?} {often}");
        }
    }
    assert!(seen[&(8, Form::LongOfDifferent)] >= 60);
}

/// How many accepted nests have boundary values of which the given holds.
fn nests_with(holds: impl Fn(&[i64]) -> bool) -> usize {
    accepted_nests().filter(|nest| holds(&nest.boundary_values)).count()
}

#[test]
fn boundary_values_differ_in_every_way() {
    let counts = |values: &[i64], value: i64| values.iter().filter(|v| **v == value).count();
    let three_or_more = nests_with(|values| values.iter().collect::<HashSet<_>>().len() >= 3);
    let only_last = nests_with(|values| {
        values.len() > 2 && are_equal(&values[..values.len() - 1]) && !are_equal(values)
    });
    let only_first =
        nests_with(|values| values.len() > 2 && are_equal(&values[1..]) && !are_equal(values));
    let one_least = nests_with(|values| values.len() > 1 && counts(values, 0) == 1);
    let one_greatest = nests_with(|values| values.len() > 1 && counts(values, 65535) == 1);
    assert!(three_or_more >= 80, "{three_or_more}");
    assert!(only_last >= 80, "{only_last}");
    assert!(only_first >= 20, "{only_first}");
    assert!(one_least >= 80 && one_greatest >= 80, "{one_least} {one_greatest}");
}

/// Whether an iteration has a source that is an iteration, and two outside the nest that read as
/// different values.
fn has_mixed_sources(nest: &LoopNest) -> bool {
    let iterations = Iterations::new(nest);
    (0..iterations.count()).any(|rank| {
        let is_outside = |d: &Vec<i64>| iterations.source(rank, d).is_none();
        let pairs = nest.dependences.iter().zip(&nest.boundary_values);
        let outside: Vec<i64> = pairs.filter(|(d, _)| is_outside(d)).map(|(_, v)| *v).collect();
        outside.len() < nest.dependences.len() && !are_equal(&outside)
    })
}

/// What a planner might take for the value of a source outside, by all values, the number of the
/// dependence, and how many sources of the iteration were outside before.
type Reading = fn(&[i64], usize, usize) -> i64;

const WRONG_READINGS: &[(&str, Reading)] = &[
    ("the first for all", |values, _, _| values[0]),
    ("the last for all", |values, _, _| values[values.len() - 1]),
    ("one after the other", |values, _, before| values[before]),
    ("from the last to the first", |values, number, _| values[values.len() - 1 - number]),
];

/// The values of the sequential loop with a reading of boundary values.
fn values_by(nest: &LoopNest, reading: Reading) -> Vec<i64> {
    let iterations = Iterations::new(nest);
    let mut table: Vec<i64> = Vec::new();
    for rank in 0..iterations.count() {
        let (mut sum, mut outside) = (rank as i64, 0);
        for (number, dependence) in nest.dependences.iter().enumerate() {
            let value = iterations.source(rank, dependence).map(|source| table[source]);
            let read = || reading(&nest.boundary_values, number, outside);
            sum += nest.weights[number] * value.unwrap_or_else(read);
            outside += usize::from(value.is_none());
        }
        table.push(sum % 65536);
    }
    table
}

/// An iteration with two sources outside that read as different values is in every nest of different
/// boundary values: it is the first. Here there is another in many, and in many the listing shows
/// what is read wrongly.
#[test]
fn boundary_values_that_are_read_wrongly_show() {
    let nests: Vec<LoopNest> =
        accepted_nests().filter(|nest| !are_equal(&nest.boundary_values)).collect();
    let mixed = nests.iter().filter(|nest| has_mixed_sources(nest)).count();
    assert!(nests.len() >= 350 && mixed >= 150, "{} {mixed}", nests.len());
    let right: Vec<Vec<i64>> =
        nests.iter().map(|nest| values_by(nest, |values, number, _| values[number])).collect();
    for (nest, values) in nests.iter().zip(&right) {
        assert_eq!(*values, Plan::new(nest).values, "{nest:?}");
    }
    for (name, reading) in WRONG_READINGS {
        let pairs = nests.iter().zip(&right);
        let shown = pairs.filter(|(nest, values)| values_by(nest, *reading) != **values).count();
        assert!(shown >= 150, "{name}: {shown}");
    }
}

/// Of a text that is refused with 13 for its boundary values alone: whether the line is long, and
/// the places of the values that are out of span, of how many.
fn places_out_of_span(text: &[u8]) -> Option<(bool, Vec<usize>, usize)> {
    if text::read(text) != Err(13) {
        return None;
    }
    let m = text::read_fields(text::split_lines(text)?[0], 3)?[1] as usize;
    let numbers = last_numbers(text)?;
    let (values, weights) = numbers.split_at(numbers.len() - m);
    let out = |place: &usize| !LoopNest::BOUNDARY_VALUES.contains(&values[*place]);
    weights
        .iter()
        .all(|weight| LoopNest::WEIGHTS.contains(weight))
        .then(|| (values.len() > 1, (0..values.len()).filter(out).collect(), values.len()))
}

#[test]
fn each_boundary_value_comes_up_out_of_span() {
    let refused: Vec<(bool, Vec<usize>, usize)> =
        cases().filter_map(|case| places_out_of_span(&case.text)).collect();
    let count = |holds: &dyn Fn(bool, &[usize], usize) -> bool| {
        refused.iter().filter(|(is_long, places, m)| holds(*is_long, places, *m)).count()
    };
    let short = count(&|is_long, _, _| !is_long);
    let all = count(&|is_long, places, m| is_long && places.len() == m);
    let first = count(&|is_long, places, _| is_long && *places == [0]);
    let last = count(&|is_long, places, m| is_long && *places == [m - 1]);
    let between = count(&|_, places, m| places.len() == 1 && places[0] > 0 && places[0] < m - 1);
    assert!(short >= 8 && all >= 4, "{short} {all}");
    assert!(first >= 10 && last >= 10 && between >= 5, "{first} {last} {between}");
}

/// Kinds of damage after which no text is in form.
const NEVER_IN_FORM: &[&str] = &[
    "no last line end",
    "carriage returns",
    "blank field",
    "minus zero",
    "line missing",
    "lines joined",
    "line cut in two",
    "field too many",
    "field missing",
    "space at a line's end",
    "last line shorter than the short form",
    "last line longer than the short form",
    "last line shorter than the long form",
    "last line longer than the long form",
    "last line of another length",
];

#[test]
fn damages_of_the_form_are_refused_with_1() {
    let mut seen: HashMap<&str, u64> = HashMap::new();
    for case in (0..4 * COUNT).map(|index| sheets::case(2, index)) {
        if let Some(kind) = NEVER_IN_FORM.iter().find(|kind| **kind == case.kind) {
            assert_eq!(text::read(&case.text), Err(1), "{kind}");
            *seen.entry(kind).or_insert(0) += 1;
        }
    }
    assert!(NEVER_IN_FORM.iter().all(|kind| seen[kind] >= 40), "{seen:?}");
}

/// A last line that is in no form goes before 5 to 13, and after 2, 3 and 4.
#[test]
fn a_damaged_last_line_goes_before_the_numbers_behind_line_1() {
    let mut seen = 0;
    for case in (0..4 * COUNT).map(|index| sheets::case(2, index)) {
        if let Some(number) = case.kind.strip_suffix(" and last line") {
            let number: u32 = number.parse().expect("a refusal");
            assert_eq!(text::read(&case.text), Err(if number <= 4 { number } else { 1 }));
            seen += 1;
        }
    }
    assert!(seen >= 200, "{seen}");
}

/// Texts of two dependences with five fields in the last line, and of three with five: one more than
/// the long form has, and one between the forms.
#[test]
fn last_lines_around_the_forms_come_up() {
    let mut seen: HashMap<(i64, usize), u64> = HashMap::new();
    for case in cases().filter(|case| case.kind.starts_with("last line")) {
        let lines = text::split_lines(&case.text).expect("whole lines");
        let m = text::read_fields(lines[0], 3).expect("line 1")[1];
        let fields = lines[lines.len() - 1].len() / text::COLUMNS;
        *seen.entry((m, fields)).or_insert(0) += 1;
    }
    for place in [(2, 2), (2, 5), (3, 3), (3, 5), (3, 7), (8, 8), (8, 10), (8, 15), (8, 17)] {
        assert!(seen.get(&place).is_some_and(|count| *count >= 1), "{place:?} {seen:?}");
    }
}
