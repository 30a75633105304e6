//! Nests with two refusals or more, so that their order is tested.

use second::nest::LoopNest;
use second::refusal::*;
use second::text;

use crate::boundary::in_either_form;
use crate::damaged::{all_damages, any_bytes, carriage_returns, no_last_line_end};
use crate::last_line::LAST_LINE_DAMAGES;
use crate::random::Random;
use crate::refused::{nest_to_spoil, spoil, spoiled, SPOILED_IN_LINE_ONE, SPOILERS};
use crate::{Case, TWICE_REFUSED};

/// What a case with two refusals has.
enum Twice {
    /// Two conditions met.
    Pair(Number, Number),
    /// A condition met, and any damage to the text.
    Damaged(Number),
    /// A condition met, and the form of the last line wrong.
    LastLineDamaged(Number),
    /// A number of line 1 out of span, and something wrong with what follows it.
    InLineOne(&'static str, Remainder),
    /// Several conditions met.
    Several,
}

/// What follows line 1 without its line end, made of what followed it in a whole text.
type Remainder = fn(&mut Random, Vec<u8>) -> Vec<u8>;

const REMAINDERS: &[(&str, Remainder)] = &[
    ("nothing, not even a line end", |_, _| Vec::new()),
    ("its line end only", |_, _| vec![text::LINE_END]),
    ("another byte for its line end", |random, mut rest| {
        rest[0] = random.pick(b" 0\r\t");
        rest
    }),
    ("a byte before its line end", |random, mut rest| {
        rest.insert(0, random.pick(b" 0\r-"));
        rest
    }),
    ("a field more", |_, rest| [b"     0".to_vec(), rest].concat()),
    ("remaining lines without last line end", no_last_line_end),
    ("remaining lines cut", |random, mut rest| {
        rest.truncate(random.between(1, rest.len() as i64) as usize);
        rest
    }),
    ("any bytes", |random, rest| [b"\n".to_vec(), any_bytes(random, rest)].concat()),
    ("a line too many", |_, rest| [rest, b"     0\n".to_vec()].concat()),
    ("carriage returns in the remaining lines", |random, rest| {
        [b"\n".to_vec(), carriage_returns(random, rest[1..].to_vec())].concat()
    }),
];

/// What stands in the place of the last line end. A field more does not make the short form of four
/// dependences or five, which a nest to spoil has, a long one.
const LAST_LINE_ENDS: &[&[u8]] =
    &[b"", b" \n", b"\r\n", b"     0\n", b"\n\n", b"\n ", b"\n     0\n"];

/// All that cases with two refusals have in turn.
fn all_twice() -> Vec<Twice> {
    let spoiled = spoiled();
    let mut all = vec![Twice::Several];
    for (place, &high) in spoiled.iter().enumerate() {
        all.extend(spoiled[..place].iter().map(|&low| Twice::Pair(low, high)));
    }
    all.extend(spoiled.iter().copied().map(Twice::Damaged));
    all.extend(spoiled.iter().copied().map(Twice::LastLineDamaged));
    all.extend(REMAINDERS.iter().map(|&(kind, remainder)| Twice::InLineOne(kind, remainder)));
    all
}

pub(crate) fn twice_refused_case(random: &mut Random, number: u64) -> Case {
    let all = all_twice();
    let nest = nest_to_spoil(random);
    let (kind, text) = match all[(number % all.len() as u64) as usize] {
        Twice::Pair(low, high) => spoiled_twice(random, nest, low, high),
        Twice::Damaged(refusal) => spoiled_and_damaged(random, nest, refusal),
        Twice::LastLineDamaged(refusal) => spoiled_with_last_line(random, nest, refusal),
        Twice::InLineOne(kind, remainder) => spoiled_in_line_one(random, nest, kind, remainder),
        Twice::Several => spoiled_often(random, nest),
    };
    Case { family: TWICE_REFUSED, kind, text }
}

fn spoiled_twice(
    random: &mut Random,
    mut nest: LoopNest,
    low: Number,
    high: Number,
) -> (String, Vec<u8>) {
    spoil(random, &mut nest, high);
    spoil(random, &mut nest, low);
    (format!("{low} and {high}"), in_either_form(random, &nest))
}

fn spoiled_and_damaged(
    random: &mut Random,
    mut nest: LoopNest,
    refusal: Number,
) -> (String, Vec<u8>) {
    spoil(random, &mut nest, refusal);
    let (kind, damage) = random.pick(&all_damages());
    let text = in_either_form(random, &nest);
    (format!("{refusal} and {kind}"), damage(random, text))
}

fn spoiled_with_last_line(
    random: &mut Random,
    mut nest: LoopNest,
    refusal: Number,
) -> (String, Vec<u8>) {
    spoil(random, &mut nest, refusal);
    let mut text = in_either_form(random, &nest);
    if random.once_in(3) {
        let (_, damage) = random.pick(LAST_LINE_DAMAGES);
        text = damage(random, text);
    } else {
        let end = random.pick(LAST_LINE_ENDS);
        text.pop();
        text.extend(end);
    }
    (format!("{refusal} and last line"), text)
}

fn spoiled_in_line_one(
    random: &mut Random,
    mut nest: LoopNest,
    kind: &str,
    remainder: Remainder,
) -> (String, Vec<u8>) {
    const FIRST_LINE_END: usize = 3 * text::COLUMNS;
    let in_line_one: Vec<Number> = SPOILED_IN_LINE_ONE.collect();
    let refusal = random.pick(&in_line_one);
    spoil(random, &mut nest, refusal);
    let mut text = in_either_form(random, &nest);
    let rest = text.split_off(FIRST_LINE_END);
    text.extend(remainder(random, rest));
    (format!("{refusal} and after line 1 {kind}"), text)
}

fn spoiled_often(random: &mut Random, mut nest: LoopNest) -> (String, Vec<u8>) {
    for _ in 0..random.between(3, 6) {
        let (_, spoiler) = random.pick(SPOILERS);
        spoiler(random, &mut nest);
    }
    ("several".into(), in_either_form(random, &nest))
}
