//! The text of a loop nest: six-column fields, reader and writer (document 01, "The sheet"). The
//! last line has two forms (document 02, U1): the short one has one boundary value for all
//! dependences, the long one has one for each. With one dependence they are the same.

use crate::nest::LoopNest;
use crate::refusal::{Number, MALFORMED_TEXT};

/// The width of a field; a shorter number is filled up with spaces on its left.
pub const COLUMNS: usize = 6;
/// The byte after each line, the last one included.
pub const LINE_END: u8 = 10;

/// Reads a text: the nest if it is accepted, its refusal (1 to 13) otherwise. Line 1 is judged in
/// full, its form before its numbers, before anything after it is looked at; then all other lines
/// are, again form before numbers.
pub fn read(text: &[u8]) -> Result<LoopNest, Number> {
    let (first_line, remaining) = split_first_line(text).ok_or(MALFORMED_TEXT)?;
    let counts = read_fields(first_line, 3).ok_or(MALFORMED_TEXT)?;
    let nest = nest_with_counts(&counts);
    accept(nest.refusal_of_counts())?;
    let nest = read_lists(nest, remaining).ok_or(MALFORMED_TEXT)?;
    accept(nest.refusal_of_lists())?;
    Ok(nest)
}

/// No refusal lets the reader go on; a refusal ends it.
fn accept(refusal: Option<Number>) -> Result<(), Number> {
    match refusal {
        None => Ok(()),
        Some(number) => Err(number),
    }
}

/// The bytes before the first line end and those after it; none if there is no line end.
fn split_first_line(text: &[u8]) -> Option<(&[u8], &[u8])> {
    let end = text.iter().position(|&byte| byte == LINE_END)?;
    Some((&text[..end], &text[end + 1..]))
}

/// All lines of a text, without their line ends. None if bytes follow the last line end.
pub fn split_lines(text: &[u8]) -> Option<Vec<&[u8]>> {
    let mut lines = Vec::new();
    let mut remaining = text;
    while !remaining.is_empty() {
        let (line, after) = split_first_line(remaining)?;
        lines.push(line);
        remaining = after;
    }
    Some(lines)
}

/// The numbers of a line that has exactly the given number of fields; none otherwise. Each field is
/// handed on as the slice of its columns.
pub fn read_fields(line: &[u8], count: usize) -> Option<Vec<i64>> {
    if line.len() != count * COLUMNS {
        return None;
    }
    line.chunks(COLUMNS).map(read_field).collect()
}

/// The number in a field: any spaces come first, then perhaps a minus sign, then the digits. None
/// if the field has another form, 0 with a minus sign included.
fn read_field(field: &[u8]) -> Option<i64> {
    let spaces = field.iter().take_while(|&&byte| byte == b' ').count();
    let number = &field[spaces..];
    match number.strip_prefix(b"-") {
        None => read_digits(number),
        Some(digits) => read_digits(digits).filter(|&size| size != 0).map(|size| -size),
    }
}

/// The number that the digits make: at least one digit, nothing else, no leading zero.
fn read_digits(digits: &[u8]) -> Option<i64> {
    let only_digits = digits.iter().all(|byte| byte.is_ascii_digit());
    let leading_zero = digits.len() > 1 && digits[0] == b'0';
    if digits.is_empty() || !only_digits || leading_zero {
        return None;
    }
    Some(digits.iter().fold(0, |number, &digit| 10 * number + i64::from(digit - b'0')))
}

/// A nest of which only line 1 is known.
fn nest_with_counts(counts: &[i64]) -> LoopNest {
    LoopNest {
        depth: counts[0],
        dependence_count: counts[1],
        cube_dimension: counts[2],
        lower: Vec::new(),
        upper: Vec::new(),
        time_vector: Vec::new(),
        dependences: Vec::new(),
        boundary_values: Vec::new(),
        weights: Vec::new(),
    }
}

/// The numbers of fields in the lines between line 1 and the last one: two limits for each loop, the
/// time vector, and each dependence.
fn field_counts(depth: usize, dependence_count: usize) -> Vec<usize> {
    let mut counts = vec![2; depth];
    counts.push(depth);
    counts.extend(vec![depth; dependence_count]);
    counts
}

/// The boundary values and the weights, one of each for every dependence, of the last line; none if
/// it has neither form. Its length tells which form it has.
fn read_last_line(line: &[u8], dependence_count: usize) -> Option<(Vec<i64>, Vec<i64>)> {
    let is_long = line.len() == 2 * dependence_count * COLUMNS;
    let value_count = if is_long { dependence_count } else { 1 };
    let mut values = read_fields(line, value_count + dependence_count)?;
    let weights = values.split_off(value_count);
    if !is_long {
        values = vec![values[0]; dependence_count];
    }
    Some((values, weights))
}

/// Reads the lines after line 1 into a nest whose counts are in span; none if there are too many or
/// too few of them, or one has another form.
fn read_lists(mut nest: LoopNest, remaining: &[u8]) -> Option<LoopNest> {
    let depth = nest.depth as usize;
    let dependence_count = nest.dependence_count as usize;
    let lines = split_lines(remaining)?;
    let (last_line, lines) = lines.split_last()?;
    let field_counts = field_counts(depth, dependence_count);
    if lines.len() != field_counts.len() {
        return None;
    }
    let numbers: Vec<Vec<i64>> = lines
        .iter()
        .zip(field_counts)
        .map(|(line, count)| read_fields(line, count))
        .collect::<Option<_>>()?;
    let (limits, after_limits) = numbers.split_at(depth);
    nest.lower = limits.iter().map(|pair| pair[0]).collect();
    nest.upper = limits.iter().map(|pair| pair[1]).collect();
    nest.time_vector = after_limits[0].clone();
    nest.dependences = after_limits[1..].to_vec();
    (nest.boundary_values, nest.weights) = read_last_line(last_line, dependence_count)?;
    Some(nest)
}

/// Writes numbers as one line of six-column fields.
pub fn write_line(numbers: &[i64]) -> String {
    let fields: String = numbers.iter().map(|number| format!("{number:6}")).collect();
    fields + "\n"
}

/// Writes a nest as text, with the short last line if all boundary values are equal. Every number
/// must fit its six columns; those of an accepted nest do.
pub fn write(nest: &LoopNest) -> String {
    let mut values = nest.boundary_values.clone();
    values.dedup();
    if values.len() == 1 {
        write_with(nest, &values)
    } else {
        write_long(nest)
    }
}

/// Writes a nest as text with the long last line, also if all boundary values are equal. The writer
/// of document 02, U1, does not make that text, but its reader takes it.
pub fn write_long(nest: &LoopNest) -> String {
    write_with(nest, &nest.boundary_values)
}

/// Writes a nest as text, with the given boundary values before the weights.
fn write_with(nest: &LoopNest, boundary_values: &[i64]) -> String {
    let mut text = write_line(&[nest.depth, nest.dependence_count, nest.cube_dimension]);
    for (&lower, &upper) in nest.lower.iter().zip(&nest.upper) {
        text += &write_line(&[lower, upper]);
    }
    text += &write_line(&nest.time_vector);
    for dependence in &nest.dependences {
        text += &write_line(dependence);
    }
    text + &write_line(&[boundary_values, &nest.weights].concat())
}

#[cfg(test)]
mod tests {
    use super::*;

    #[test]
    fn fields_in_form() {
        let forms: [(&[u8; 6], i64); 7] = [
            (b"     0", 0),
            (b"     7", 7),
            (b"    -7", -7),
            (b"    10", 10),
            (b"999999", 999999),
            (b"-99999", -99999),
            (b"100000", 100000),
        ];
        for (field, number) in forms {
            assert_eq!(read_field(field), Some(number));
        }
    }

    #[test]
    fn fields_not_in_form() {
        let damaged: [&[u8; 6]; 17] = [
            b"      ",
            b"     -",
            b"    -0",
            b"    00",
            b"    01",
            b"   -01",
            b"000000",
            b"1     ",
            b"    1 ",
            b"  1  2",
            b"    +1",
            b"-    1",
            b"   --1",
            b"    1-",
            b"\t    1",
            b"   1.0",
            b"\x00    1",
        ];
        for field in damaged {
            assert_eq!(read_field(field), None, "{:?}", String::from_utf8_lossy(field));
        }
    }

    #[test]
    fn lines_end_in_byte_10_and_nothing_follows() {
        assert_eq!(split_lines(b""), Some(vec![]));
        assert_eq!(split_lines(b"a\nb\n"), Some(vec![&b"a"[..], &b"b"[..]]));
        assert_eq!(split_lines(b"a\n\n"), Some(vec![&b"a"[..], &b""[..]]));
        assert_eq!(split_lines(b"a\nb"), None);
    }

    #[test]
    fn line_one_is_judged_before_the_remaining_lines() {
        assert_eq!(read(b"     0     2     1\n"), Err(2));
        assert_eq!(read(b"     2     9     1\n"), Err(3));
        assert_eq!(read(b"     2     2     7\nanything"), Err(4));
        assert_eq!(read(b"     0     9     7\n"), Err(2));
        assert_eq!(read(b"     0     9     7"), Err(1));
        assert_eq!(read(b"     5     2     1\n"), Err(2));
        assert_eq!(read(b"     5     9     7\nanything"), Err(2));
        assert_eq!(read(b"     4     2     1\n"), Err(1));
        assert_eq!(read(b"     4     9     1\n"), Err(3));
        assert_eq!(read(b"     0     9     7     0\n"), Err(1));
        assert_eq!(read(b"     2     2     1\n"), Err(1));
    }

    /// A text of one loop with the dependences 1, 2, .. up to m, and the given last line, of which
    /// the line end is left out.
    fn with_last_line(m: usize, last_line: &str) -> String {
        let dependences: String = (1..=m).map(|d| format!("     {d}\n")).collect();
        format!("     1     {m}     0\n     0     3\n     1\n{dependences}{last_line}\n")
    }

    /// Boundary values and weights that are read from such a text, or its refusal.
    fn last_numbers(m: usize, last_line: &str) -> Result<(Vec<i64>, Vec<i64>), Number> {
        let nest = read(with_last_line(m, last_line).as_bytes())?;
        Ok((nest.boundary_values, nest.weights))
    }

    /// What is written for the nest of such a text.
    fn written(m: usize, last_line: &str) -> String {
        write(&read(with_last_line(m, last_line).as_bytes()).unwrap())
    }

    /// A last line of so many fields, all of them 1.
    fn ones(count: usize) -> String {
        "     1".repeat(count)
    }

    /// With one dependence the short line has 1 + 1 fields and the long one 2 * 1.
    #[test]
    fn with_one_dependence_both_forms_are_one() {
        assert_eq!(last_numbers(1, "     5     2"), Ok((vec![5], vec![2])));
        assert_eq!(written(1, "     5     2"), with_last_line(1, "     5     2"));
        let nest = read(with_last_line(1, "     5     2").as_bytes()).unwrap();
        assert_eq!(write_long(&nest), write(&nest));
        for count in [0, 1, 3, 4] {
            assert_eq!(last_numbers(1, &ones(count)), Err(1), "{count}");
        }
    }

    /// With two dependences the short line has 2 + 1 fields: one value, which both get, and two
    /// weights. The long line has 2 * 2: two values, then two weights.
    #[test]
    fn two_dependences_with_one_boundary_value_and_with_two() {
        assert_eq!(last_numbers(2, "     5     2     3"), Ok((vec![5, 5], vec![2, 3])));
        assert_eq!(last_numbers(2, "     5     6     2     3"), Ok((vec![5, 6], vec![2, 3])));
        assert_eq!(last_numbers(2, "     5     6     7     2     3"), Err(1));
        for count in [0, 1, 2, 5, 6] {
            assert_eq!(last_numbers(2, &ones(count)), Err(1), "{count}");
        }
    }

    /// With eight dependences the short line has 8 + 1 fields and the long one 2 * 8.
    #[test]
    fn eight_dependences_take_9_or_16_fields() {
        for count in 0..=20 {
            let refusal = last_numbers(8, &ones(count)).err();
            assert_eq!(refusal, if [9, 16].contains(&count) { None } else { Some(1) }, "{count}");
        }
        let numbers = |first: i64| (first..first + 8).collect::<Vec<i64>>();
        let long = write_line(&(1..=16).collect::<Vec<i64>>());
        assert_eq!(last_numbers(8, long.trim_end()), Ok((numbers(1), numbers(9))));
        let short = write_line(&(1..=9).collect::<Vec<i64>>());
        assert_eq!(last_numbers(8, short.trim_end()), Ok((vec![1; 8], numbers(2))));
    }

    /// A nest of eight dependences with a boundary value for each.
    fn with_most_fields(depth: usize) -> LoopNest {
        let innermost = |d| [vec![0; depth - 1], vec![d]].concat();
        LoopNest {
            depth: depth as i64,
            dependence_count: 8,
            cube_dimension: 0,
            lower: vec![0; depth],
            upper: vec![0; depth],
            time_vector: vec![1; depth],
            dependences: (1..=8).map(innermost).collect(),
            boundary_values: (1..=8).collect(),
            weights: vec![1; 8],
        }
    }

    /// 393 bytes: line 1 has 3 fields, the 4 lines of limits 2 each, the time vector and the 8
    /// dependences 4 each, the last line 16, which is 63 fields of 6 columns; and 15 line ends.
    /// With three loops it is 52 fields and 14 line ends.
    #[test]
    fn the_longest_text_has_393_bytes() {
        for (depth, bytes) in [(3, 326), (4, 393)] {
            let nest = with_most_fields(depth);
            let text = write(&nest);
            assert_eq!(text.len(), bytes);
            assert_eq!(read(text.as_bytes()), Ok(nest));
        }
    }

    /// In the long line the first m fields are the values; 256 is a value and no weight.
    #[test]
    fn the_values_stand_before_the_weights() {
        assert_eq!(last_numbers(2, "   256   256     2     3"), Ok((vec![256; 2], vec![2, 3])));
        assert_eq!(last_numbers(2, "   256     5   256     3"), Err(13));
        assert_eq!(last_numbers(2, "   256     5     2   256"), Err(13));
        assert_eq!(last_numbers(2, "   256   256     3"), Err(13));
    }

    #[test]
    fn a_long_line_of_equal_values_comes_back_short() {
        let long = "     5     5     2     3";
        assert_eq!(last_numbers(2, long), Ok((vec![5, 5], vec![2, 3])));
        assert_eq!(written(2, long), with_last_line(2, "     5     2     3"));
        assert_eq!(written(8, &ones(16)), with_last_line(8, &ones(9)));
        let nest = read(with_last_line(2, "     5     2     3").as_bytes()).unwrap();
        assert_eq!(write_long(&nest), with_last_line(2, long));
    }

    /// Values that differ in one place only, the first, a middle one or the last; values that are
    /// equal but for two; and a short line.
    #[test]
    fn every_other_last_line_comes_back_byte_for_byte() {
        let lines = [
            (2, "     5     6     2     3"),
            (2, "     0 65535     0   255"),
            (3, "     4     5     5     1     1     1"),
            (3, "     5     4     5     1     1     1"),
            (3, "     5     5     4     1     1     1"),
            (4, "     5     6     6     5     1     1     1     1"),
            (4, "     5     6     5     6     1     1     1     1"),
            (3, "     5     1     1     1"),
            (2, " 65535     2     3"),
        ];
        for (m, line) in lines {
            assert_eq!(written(m, line), with_last_line(m, line));
        }
    }

    /// Both ends of the span 0 to 65535 and what is next to them, in each place alone; the short
    /// line has them for all dependences at once.
    #[test]
    fn each_boundary_value_is_judged() {
        let refusal = |m, line: String| last_numbers(m, line.trim_end()).err();
        for (value, expected) in [(-1, Some(13)), (0, None), (65535, None), (65536, Some(13))] {
            for m in 2..=8 {
                for place in 0..m {
                    let mut numbers = vec![1; 2 * m];
                    numbers[place] = value;
                    assert_eq!(refusal(m, write_line(&numbers)), expected, "{numbers:?}");
                }
                let mut numbers = vec![1; m + 1];
                numbers[0] = value;
                assert_eq!(refusal(m, write_line(&numbers)), expected, "{numbers:?}");
            }
        }
    }

    /// The last line's form goes before 5, its numbers after 11.
    #[test]
    fn the_last_line_is_judged_in_turn() {
        let limits =
            |last_line| with_last_line(2, last_line).replace("     0     3", "     3     0");
        assert_eq!(read(limits("     1     2     3     4     5").as_bytes()), Err(1));
        assert_eq!(read(limits("     1    -1     2     3").as_bytes()), Err(5));
        let time = |last_line| with_last_line(2, last_line).replacen("\n     1\n", "\n     0\n", 1);
        assert_eq!(read(time("     1     2").as_bytes()), Err(1));
        assert_eq!(read(time("     1    -1     2     3").as_bytes()), Err(11));
    }
}
