//! `read` and `write`, compared with the second planner.

mod common;

use common::*;
use rowlock::{exported, Nest, Refusal, MAX_TEXT};
use second::text;
use sheets::boundary::are_equal;
use sheets::Random;
use trial::entry::NUMBERS;

/// Reads a text and compares with the second planner; answers the number of its refusal.
fn compare_reading(bytes: &[u8]) -> u8 {
    let expected = text::read(bytes).map(|nest| plain(&nest)).map_err(byte);
    let mut nest = Nest::from([77; NUMBERS]);
    let number = exported::read(bytes, &mut nest);
    let shown = String::from_utf8_lossy(bytes);
    assert_eq!(if number == 0 { Ok(nest) } else { Err(number) }, expected, "{shown}");
    assert!(
        number == 0 || nest == Nest::default(),
        "a refused text leaves a nest of zeros: {shown}"
    );
    assert_eq!(rowlock::read(bytes).map_err(Refusal::number), expected, "{shown}");
    number
}

#[test]
fn texts_whole_and_damaged_are_read_alike() {
    let seen: Vec<u8> =
        (0..4000).map(|index| compare_reading(&sheets::case(3, index).text)).collect();
    assert_seen(seen, &[&[0, 1], OF_NESTS].concat());
}

#[test]
fn every_damage_of_one_byte_is_read_alike() {
    for text in [P2, P2_WITH_TWO, P2_LONG] {
        for place in 0..text.len() {
            compare_reading(&text[..place]);
            for other in b"\n\r\t -+019:/\x00\xff" {
                let mut changed = text.to_vec();
                changed[place] = *other;
                compare_reading(&changed);
                let mut longer = text.to_vec();
                longer.insert(place, *other);
                compare_reading(&longer);
            }
        }
        assert_eq!(compare_reading(text), 0);
        assert_eq!(compare_reading(&[text, b"\n"].concat()), 1);
    }
    assert_eq!(compare_reading(&vec![b' '; 1 << 20]), 1);
}

/// P2 with a last line of so many fields, the numbers 1, 2, 3 and so on.
fn p2_with_fields(count: i64) -> Vec<u8> {
    let line = text::write_line(&(1..=count).collect::<Vec<i64>>());
    [&P2[..P2.len() - 19], line.as_bytes()].concat()
}

/// Two dependences have three fields, 1 for both and the weights 2 and 3; or four, 1 and 2, and the
/// weights 3 and 4. Any other number is malformed.
#[test]
fn the_last_line_has_one_boundary_value_or_one_for_each_dependence() {
    for count in (0..=9).filter(|count| ![3, 4].contains(count)) {
        assert_eq!(compare_reading(&p2_with_fields(count)), 1, "{count}");
    }
    let read = |count| rowlock::read(&p2_with_fields(count)).expect("an accepted nest");
    let (short, long) = (read(3), read(4));
    assert_eq!(short.boundaries, [1, 1, 0, 0, 0, 0, 0, 0]);
    assert_eq!(short.weights, [2, 3, 0, 0, 0, 0, 0, 0]);
    assert_eq!(long.boundaries, [1, 2, 0, 0, 0, 0, 0, 0]);
    assert_eq!(long.weights, [3, 4, 0, 0, 0, 0, 0, 0]);
    assert_eq!(rowlock::read(P2_LONG), rowlock::read(P2));
    assert_eq!(rowlock::read(P2), Ok(short));
}

/// Each boundary value of the long line, and the one of the short line, at the ends of its span and
/// outside of it.
#[test]
fn each_boundary_value_of_a_text_is_judged() {
    let before = &P2[..P2.len() - 19];
    for (value, number) in [(-1, 13), (0, 0), (65535, 0), (65536, 13), (-99999, 13), (999999, 13)] {
        for numbers in [[value, 5, 2, 3], [5, value, 2, 3]] {
            let text = [before, text::write_line(&numbers).as_bytes()].concat();
            assert_eq!(compare_reading(&text), number, "{numbers:?}");
        }
        let text = [before, text::write_line(&[value, 2, 3]).as_bytes()].concat();
        assert_eq!(compare_reading(&text), number, "{value}");
    }
}

/// Texts of one to four loops with a zero time vector; all but the first are also wrong behind it.
const ZERO_TIMES: [&[u8]; 4] = [
    b"     1     1     0\n     0     3\n     0\n     1\n     0     1\n",
    b"     2     1     0\n     0     3\n     0     3\n     0     0\n     0     1\n     0   256\n",
    b"     3     1     6\n     0     1\n     0     1\n     0     1\n     0     0     0\n\
      \x20    1    -1     2\n    -1     1\n",
    b"     4     1     6\n     0     1\n     0     1\n     0     1\n     0     1\n\
      \x20    0     0     0     0\n     0     1    -1     2\n 65536     1\n",
];

#[test]
fn a_text_with_a_zero_time_vector_is_refused_with_11() {
    for text in ZERO_TIMES {
        assert_eq!(compare_reading(text), 11, "{}", String::from_utf8_lossy(text));
    }
}

/// Writes a nest into a buffer of so many bytes and compares with what must be answered and left.
fn compare_writing(nest: &Nest, room: usize, expected: Result<&[u8], u8>) {
    let before: Vec<u8> = (0..room).map(|place| place as u8 ^ 0x5A).collect();
    let ((number, length), bytes) = after(&before, |buffer| {
        let mut length = 77;
        (exported::write(nest, buffer, &mut length), length)
    });
    let (result, same) = after(&before, |buffer| rowlock::write(nest, buffer));
    assert_eq!(bytes, same);
    assert_eq!(result.map_err(Refusal::number), expected.map(<[u8]>::len));
    match expected {
        Ok(text) => assert_eq!((number, length, bytes), (0, text.len(), over(text, &before))),
        Err(refusal) => assert_eq!((number, length, bytes), (refusal, 0, before)),
    }
}

#[test]
fn accepted_nests_are_written_where_there_is_room() {
    let mut random = Random::new(13);
    for nest in accepted(4, 200) {
        let text = text::write(&nest).into_bytes();
        let lent = lent(&mut random, &nest);
        for room in [0, 1, 6, text.len() / 2, text.len() - 1] {
            compare_writing(&lent, room, Err(14));
        }
        for room in [text.len(), text.len() + 1, text.len() + 100] {
            compare_writing(&lent, room, Ok(&text));
        }
        assert_eq!(rowlock::read(&text), Ok(plain(&nest)));
    }
}

/// A long text of equal values is written short; every other text is written as it was read.
#[test]
fn texts_are_written_as_they_were_read_but_for_long_ones_of_equal_values() {
    let (mut as_read, mut shorter) = (0, 0);
    for bytes in (0..1500).map(|index| sheets::case(16, index).text) {
        let Ok(expected) = text::read(&bytes) else { continue };
        let nest = rowlock::read(&bytes).expect("a text that the second planner reads");
        let fields =
            bytes.split(|byte| *byte == b'\n').rev().nth(1).expect("a last line").len() / 6;
        let dependences = expected.dependences.len();
        if dependences > 1 && fields == 2 * dependences && are_equal(&expected.boundary_values) {
            let short = text::write(&expected).into_bytes();
            assert_eq!(short.len() + 6 * (dependences - 1), bytes.len());
            compare_writing(&nest, short.len(), Ok(&short));
            compare_writing(&nest, short.len() - 1, Err(14));
            shorter += 1;
        } else {
            compare_writing(&nest, bytes.len(), Ok(&bytes));
            compare_writing(&nest, bytes.len() - 1, Err(14));
            as_read += 1;
        }
    }
    assert!(as_read >= 300 && shorter >= 40, "{as_read} {shorter}");
}

/// Numbers for places that are no part of a nest: such as would make equal values different, be out
/// of span, or be taken for a weight.
const JUNK: [[i64; 2]; 5] = [[0, 0], [7, 7], [-1, -1], [65536, 256], [i64::MIN, i64::MAX]];

/// The short text has 103 bytes and the long one 109: 16 or 17 fields of six columns, and 7 line
/// ends.
#[test]
fn a_nest_is_written_short_or_long_by_its_own_boundary_values() {
    let different = rowlock::read(P2_WITH_TWO).expect("an accepted nest");
    let equal = rowlock::read(P2_LONG).expect("an accepted nest");
    assert_eq!((P2.len(), P2_LONG.len(), P2_WITH_TWO.len()), (103, 109, 109));
    for junk in JUNK {
        let nest = with_junk_behind(&equal, junk);
        compare_writing(&nest, P2.len(), Ok(P2));
        compare_writing(&nest, P2.len() - 1, Err(14));
        compare_writing(&nest, P2_LONG.len(), Ok(P2));
        let nest = with_junk_behind(&different, junk);
        compare_writing(&nest, P2_WITH_TWO.len(), Ok(P2_WITH_TWO));
        compare_writing(&nest, P2_WITH_TWO.len() - 1, Err(14));
        compare_writing(&nest, P2.len(), Err(14));
    }
}

#[test]
fn refused_nests_are_not_written_whatever_the_room() {
    let mut random = Random::new(14);
    for (number, nest) in refused(5, 600) {
        let lent = lent(&mut random, &nest);
        compare_writing(&lent, 0, Err(number));
        compare_writing(&lent, 400, Err(number));
    }
}

#[test]
fn the_longest_text_fills_the_most_bytes() {
    let mut random = Random::new(15);
    let nests: Vec<_> =
        (0..100).map(|number| sheets::accepted_nest(&mut random, number).1).collect();
    let lengths = nests.iter().map(|nest| text::write(nest).len());
    assert_eq!(lengths.clone().max(), Some(MAX_TEXT));
    assert!(lengths.filter(|length| *length == MAX_TEXT).count() >= 4);
    for nest in nests.iter().filter(|nest| text::write(nest).len() == MAX_TEXT) {
        compare_writing(&plain(nest), MAX_TEXT, Ok(text::write(nest).as_bytes()));
        compare_writing(&plain(nest), MAX_TEXT - 1, Err(14));
    }
}
