//! Texts that are damaged in one way.

use second::text;

use crate::accepted::{any_directions, depth_from, even_lengths, longest_text, nest_near_zero};
use crate::boundary::in_either_form;
use crate::last_line::{dependence_count, is_form, LAST_LINE_DAMAGES};
use crate::random::Random;
use crate::{in_turn, Case, DAMAGED};

/// Makes a damaged text of a whole one.
pub(crate) type Damage = fn(&mut Random, Vec<u8>) -> Vec<u8>;

const DAMAGES: &[(&str, Damage)] = &[
    ("empty text", empty_text),
    ("no last line end", no_last_line_end),
    ("carriage returns", carriage_returns),
    ("one carriage return", one_carriage_return),
    ("tab", tab),
    ("plus sign", plus_sign),
    ("blank field", blank_field),
    ("minus zero", minus_zero),
    ("leading zero", leading_zero),
    ("minus in a wrong place", misplaced_minus),
    ("digit before space", digit_before_space),
    ("not a whole number", not_a_whole_number),
    ("line too many", line_too_many),
    ("line missing", line_missing),
    ("empty line", empty_line),
    ("lines exchanged", lines_exchanged),
    ("lines joined", lines_joined),
    ("line cut in two", line_cut_in_two),
    ("field too many", field_too_many),
    ("field missing", field_missing),
    ("byte too many", byte_too_many),
    ("space at a line's end", space_at_line_end),
    ("byte too few", byte_too_few),
    ("six digits", six_digits),
    ("least number of six columns", least_number),
    ("field shifted", field_shifted),
    ("line shifted", line_shifted),
    ("very long text", very_long_text),
    ("cut anywhere", cut_anywhere),
    ("line 1 only", first_line_only),
    ("byte changed", byte_changed),
    ("two bytes changed", two_bytes_changed),
    ("byte changed to a likely one", byte_changed_to_likely),
    ("byte 0 or byte over 127", unusual_byte),
    ("any bytes", any_bytes),
];

/// All damages, those of the last line included.
pub(crate) fn all_damages() -> Vec<(&'static str, Damage)> {
    [DAMAGES, LAST_LINE_DAMAGES].concat()
}

pub(crate) fn damaged_case(random: &mut Random, number: u64) -> Case {
    let (kind, damage) = in_turn(&all_damages(), number);
    let whole = any_text(random);
    Case { family: DAMAGED, kind: kind.into(), text: damage(random, whole) }
}

/// The text of an accepted nest that is quickly planned; sometimes the longest that a nest can
/// have.
fn any_text(random: &mut Random) -> Vec<u8> {
    if random.once_in(4) {
        let nest = longest_text(random);
        return in_either_form(random, &nest);
    }
    let depth = depth_from(random, 1);
    let lengths = even_lengths(random, depth, 40);
    let directions = any_directions(random, depth);
    let nest = nest_near_zero(random, &lengths, directions);
    in_either_form(random, &nest)
}

/// The lines of a whole text, each with its line end.
pub(crate) fn lines_of(text: &[u8]) -> Vec<Vec<u8>> {
    text.split_inclusive(|&byte| byte == text::LINE_END).map(<[u8]>::to_vec).collect()
}

/// The place of a line: the first one more often than the others.
fn any_line(random: &mut Random, lines: &[Vec<u8>]) -> usize {
    if random.once_in(4) {
        0
    } else {
        random.place(lines.len())
    }
}

/// Changes one line of a text.
fn with_line_changed(
    random: &mut Random,
    text: Vec<u8>,
    change: impl FnOnce(&mut Random, &mut Vec<u8>),
) -> Vec<u8> {
    let mut lines = lines_of(&text);
    let place = any_line(random, &lines);
    change(random, &mut lines[place]);
    lines.concat()
}

/// Puts six bytes in the place of a field.
fn with_field(random: &mut Random, text: Vec<u8>, field: &[u8; 6]) -> Vec<u8> {
    with_field_changed(random, text, |_, old| old.copy_from_slice(field))
}

/// Changes one field of a text.
fn with_field_changed(
    random: &mut Random,
    text: Vec<u8>,
    change: impl FnOnce(&mut Random, &mut [u8]),
) -> Vec<u8> {
    with_line_changed(random, text, |random, line| {
        let start = random.place(line.len() / text::COLUMNS) * text::COLUMNS;
        change(random, &mut line[start..start + text::COLUMNS]);
    })
}

fn empty_text(_random: &mut Random, _text: Vec<u8>) -> Vec<u8> {
    Vec::new()
}

pub(crate) fn no_last_line_end(_random: &mut Random, mut text: Vec<u8>) -> Vec<u8> {
    text.pop();
    text
}

pub(crate) fn carriage_returns(_random: &mut Random, text: Vec<u8>) -> Vec<u8> {
    let mut returned = Vec::new();
    for byte in text {
        if byte == text::LINE_END {
            returned.push(13);
        }
        returned.push(byte);
    }
    returned
}

fn one_carriage_return(random: &mut Random, text: Vec<u8>) -> Vec<u8> {
    with_line_changed(random, text, |random, line| {
        line.pop();
        line.push(13);
        if random.once_in(2) {
            line.push(text::LINE_END);
        }
    })
}

fn tab(random: &mut Random, text: Vec<u8>) -> Vec<u8> {
    with_field_changed(random, text, |random, field| field[random.place(5)] = 9)
}

fn plus_sign(random: &mut Random, text: Vec<u8>) -> Vec<u8> {
    let field = random.pick(&[b"    +1", b"    +0", b"+    1", b"   +16", b"     +"]);
    with_field(random, text, field)
}

fn blank_field(random: &mut Random, text: Vec<u8>) -> Vec<u8> {
    with_field(random, text, b"      ")
}

fn minus_zero(random: &mut Random, text: Vec<u8>) -> Vec<u8> {
    let field = random.pick(&[b"    -0", b"    -0", b"    -0", b"-00000"]);
    with_field(random, text, field)
}

fn leading_zero(random: &mut Random, text: Vec<u8>) -> Vec<u8> {
    let field = random.pick(&[b"    01", b"    00", b"   -01", b"000001", b"000000", b"   002"]);
    with_field(random, text, field)
}

fn misplaced_minus(random: &mut Random, text: Vec<u8>) -> Vec<u8> {
    let field = random.pick(&[b"-    1", b"    1-", b"   --1", b"     -", b"   - 1", b"   1-1"]);
    with_field(random, text, field)
}

fn digit_before_space(random: &mut Random, text: Vec<u8>) -> Vec<u8> {
    let field = random.pick(&[b"1     ", b"    1 ", b"1    1", b"   1 1", b"  0  1", b"0     "]);
    with_field(random, text, field)
}

fn not_a_whole_number(random: &mut Random, text: Vec<u8>) -> Vec<u8> {
    let field =
        random.pick(&[b"   1.0", b"   0x1", b"   1e1", b"   1_0", b"     a", b"   \xd9\xa1 "]);
    with_field(random, text, field)
}

fn line_too_many(random: &mut Random, text: Vec<u8>) -> Vec<u8> {
    let mut lines = lines_of(&text);
    let repeated = lines[random.place(lines.len())].clone();
    let place = if random.once_in(2) { lines.len() } else { random.place(lines.len() + 1) };
    lines.insert(place, repeated);
    lines.concat()
}

fn line_missing(random: &mut Random, text: Vec<u8>) -> Vec<u8> {
    let mut lines = lines_of(&text);
    lines.remove(random.place(lines.len()));
    lines.concat()
}

fn empty_line(random: &mut Random, text: Vec<u8>) -> Vec<u8> {
    let mut lines = lines_of(&text);
    let place = random.pick(&[0, 1, lines.len(), lines.len() - 1]);
    lines.insert(place, vec![text::LINE_END]);
    lines.concat()
}

fn lines_exchanged(random: &mut Random, text: Vec<u8>) -> Vec<u8> {
    let mut lines = lines_of(&text);
    let (one, other) = (random.place(lines.len()), random.place(lines.len()));
    lines.swap(one, other);
    lines.concat()
}

fn lines_joined(random: &mut Random, text: Vec<u8>) -> Vec<u8> {
    with_line_changed(random, text, |_, line| {
        line.pop();
    })
}

fn line_cut_in_two(random: &mut Random, text: Vec<u8>) -> Vec<u8> {
    with_line_changed(random, text, |random, line| {
        let field = random.place(line.len() / text::COLUMNS + 1);
        line.insert(field * text::COLUMNS, text::LINE_END);
    })
}

/// A line with a field too many; the last line may need two to be in neither of its forms.
fn field_too_many(random: &mut Random, text: Vec<u8>) -> Vec<u8> {
    with_fields_changed(random, text, |line| {
        line.pop();
        line.extend(b"     1\n");
    })
}

/// A line with a field missing; the last line may have to lose two.
fn field_missing(random: &mut Random, text: Vec<u8>) -> Vec<u8> {
    with_fields_changed(random, text, |line| {
        line.drain(..text::COLUMNS);
    })
}

/// Changes the number of fields in one line, the last one until it is in neither of its forms.
fn with_fields_changed(
    random: &mut Random,
    text: Vec<u8>,
    change: impl Fn(&mut Vec<u8>),
) -> Vec<u8> {
    let mut lines = lines_of(&text);
    let (place, m) = (any_line(random, &lines), dependence_count(&lines));
    change(&mut lines[place]);
    while place + 1 == lines.len() && is_form(m, lines[place].len() / text::COLUMNS) {
        change(&mut lines[place]);
    }
    lines.concat()
}

fn byte_too_many(random: &mut Random, mut text: Vec<u8>) -> Vec<u8> {
    let place = if random.once_in(3) { text.len() } else { random.place(text.len() + 1) };
    let byte = random.pick(&[b' ', b'\n', b'0', b'1', b'-', 0]);
    text.insert(place, byte);
    text
}

fn space_at_line_end(random: &mut Random, text: Vec<u8>) -> Vec<u8> {
    with_line_changed(random, text, |_, line| line.insert(line.len() - 1, b' '))
}

fn byte_too_few(random: &mut Random, mut text: Vec<u8>) -> Vec<u8> {
    text.remove(random.place(text.len()));
    text
}

fn six_digits(random: &mut Random, text: Vec<u8>) -> Vec<u8> {
    let field = random.pick(&[b"999999", b"100000", b"123456", b"065535", b"131072"]);
    with_field(random, text, field)
}

fn least_number(random: &mut Random, text: Vec<u8>) -> Vec<u8> {
    let field = random.pick(&[b"-99999", b"-10000", b"-65536", b"-00001"]);
    with_field(random, text, field)
}

fn field_shifted(random: &mut Random, text: Vec<u8>) -> Vec<u8> {
    with_field_changed(random, text, |random, field| {
        if random.once_in(3) {
            field.rotate_right(1);
        } else {
            field.rotate_left(1);
        }
    })
}

fn line_shifted(random: &mut Random, text: Vec<u8>) -> Vec<u8> {
    with_line_changed(random, text, |random, line| {
        if random.once_in(2) {
            line.insert(0, b' ');
        } else {
            line.remove(0);
        }
    })
}

fn very_long_text(random: &mut Random, text: Vec<u8>) -> Vec<u8> {
    match random.between(0, 5) {
        0 => text.repeat(1000),
        1 => [text, vec![b'\n'; 100_000]].concat(),
        2 => vec![b' '; 300_000],
        3 => b"     1".repeat(30_000),
        4 => [text, vec![b'7'; 200_000]].concat(),
        _ => [&text[..19], &b"     0     0\n".repeat(10_000)].concat(),
    }
}

fn cut_anywhere(random: &mut Random, mut text: Vec<u8>) -> Vec<u8> {
    text.truncate(random.place(text.len()));
    text
}

fn first_line_only(random: &mut Random, mut text: Vec<u8>) -> Vec<u8> {
    text.truncate(random.between(17, 20) as usize);
    text
}

fn byte_changed(random: &mut Random, mut text: Vec<u8>) -> Vec<u8> {
    let place = random.place(text.len());
    text[place] = random.byte();
    text
}

fn two_bytes_changed(random: &mut Random, text: Vec<u8>) -> Vec<u8> {
    let once = byte_changed_to_likely(random, text);
    byte_changed_to_likely(random, once)
}

fn byte_changed_to_likely(random: &mut Random, mut text: Vec<u8>) -> Vec<u8> {
    let place = random.place(text.len());
    text[place] = random.pick(b" -0123456789\n");
    text
}

fn unusual_byte(random: &mut Random, mut text: Vec<u8>) -> Vec<u8> {
    let place = random.place(text.len());
    text[place] = random.pick(&[0, 11, 12, 127, 128, 0xa0, 0xb2, 0xff]);
    text
}

pub(crate) fn any_bytes(random: &mut Random, text: Vec<u8>) -> Vec<u8> {
    let length = random.place(2 * text.len());
    if random.once_in(2) {
        (0..length).map(|_| random.byte()).collect()
    } else {
        (0..length).map(|_| random.pick(b"    -01\n")).collect()
    }
}
