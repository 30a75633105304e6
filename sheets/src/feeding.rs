//! A text given to a program as a pipe may give it, and what the program prints taken as a pipe may
//! take it. A program can count on neither: one read answers any part of what is to come, and the
//! reader of what it writes may be late.

use std::io::{self, Read, Write};
use std::process::{Command, Stdio};
use std::thread;
use std::time::Duration;

use crate::random::Random;

/// How long the next piece of a text is kept back; a program has read what there is by then.
const BETWEEN_PIECES: Duration = Duration::from_millis(10);
const BETWEEN_BYTES: Duration = Duration::from_micros(100);
/// How long what a program prints is left lying at first, and how much of it is taken at a time
/// then.
const BEFORE_TAKING: Duration = Duration::from_millis(30);
const BETWEEN_TAKINGS: Duration = Duration::from_millis(1);
const TAKEN_AT_A_TIME: u64 = 4096;
/// What a pipe holds; the writer of more has to wait.
const PIPE: usize = 65536;

/// How a text comes to a program's standard input.
#[derive(Clone, Debug, PartialEq, Eq)]
pub enum Feeding {
    Whole,
    /// With a pause at each of these places; 0 is before the first byte, the text's length behind
    /// the last.
    Pieces(Vec<usize>),
    Bytes,
}

/// How a text is given and what is printed taken.
#[derive(Clone, Debug, PartialEq, Eq)]
pub struct Manner {
    pub feeding: Feeding,
    pub taken_late: bool,
}

impl Manner {
    /// The manner at an index of a seed, for a text and a listing of these lengths: of 20 texts
    /// three come in pieces and one byte by byte; half of the listings that a pipe does not hold
    /// are taken late.
    pub fn of(seed: u64, index: u64, text: usize, listing: usize) -> Manner {
        let mut random = Random::new(Random::new(!seed).bits() ^ Random::new(index).bits());
        let feeding = match random.between(1, 20) {
            1 | 2 => Feeding::Pieces(cuts(&mut random, text, 1)),
            3 => Feeding::Pieces(cuts(&mut random, text, 2)),
            4 => Feeding::Bytes,
            _ => Feeding::Whole,
        };
        let taken_late = random.once_in(if listing > PIPE { 2 } else { 40 });
        Manner { feeding, taken_late }
    }

    /// In words, for the summary.
    pub fn name(&self) -> &'static str {
        match (&self.feeding, self.taken_late) {
            (Feeding::Whole, false) => "whole",
            (Feeding::Pieces(_), false) => "in pieces",
            (Feeding::Bytes, false) => "byte by byte",
            (Feeding::Whole, true) => "whole, listing taken late",
            (Feeding::Pieces(_), true) => "in pieces, listing taken late",
            (Feeding::Bytes, true) => "byte by byte, listing taken late",
        }
    }
}

/// So many places of a text, in order.
fn cuts(random: &mut Random, text: usize, count: usize) -> Vec<usize> {
    let mut cuts: Vec<usize> = (0..count).map(|_| random.place(text + 1)).collect();
    cuts.sort();
    cuts
}

/// Runs a program with a text on standard input. Answers what it printed, and how it ended if it
/// did not end by itself. Its exit status is not judged: document 01 says nothing of it.
pub fn run(program: &str, text: &[u8], manner: &Manner) -> io::Result<(Vec<u8>, Option<String>)> {
    let mut child = Command::new(program).stdin(Stdio::piped()).stdout(Stdio::piped()).spawn()?;
    let input = child.stdin.take().expect("a piped standard input");
    let output = child.stdout.take().expect("a piped standard output");
    let printed = thread::scope(|scope| {
        // A program may stop reading early, so a failure to write is none of the comparison's.
        scope.spawn(move || {
            let _ = feed(input, text, &manner.feeding);
        });
        take(output, manner.taken_late)
    });
    let status = child.wait()?;
    let ending = status.code().is_none().then(|| format!("ended by {status}"));
    Ok((printed?, ending))
}

/// Writes a text to a program's input, which ends with it.
fn feed(mut input: impl Write, text: &[u8], feeding: &Feeding) -> io::Result<()> {
    let mut from = 0;
    let mut give = |to: usize, pause: Duration| {
        input.write_all(&text[from..to])?;
        from = to;
        thread::sleep(pause);
        Ok(())
    };
    match feeding {
        Feeding::Whole => (),
        Feeding::Pieces(cuts) => cuts.iter().try_for_each(|&cut| give(cut, BETWEEN_PIECES))?,
        Feeding::Bytes => (1..=text.len()).try_for_each(|to| give(to, BETWEEN_BYTES))?,
    }
    give(text.len(), Duration::ZERO)
}

/// Reads all that a program prints.
fn take(mut output: impl Read, late: bool) -> io::Result<Vec<u8>> {
    let mut printed = Vec::new();
    if !late {
        output.read_to_end(&mut printed)?;
        return Ok(printed);
    }
    thread::sleep(BEFORE_TAKING);
    while output.by_ref().take(TAKEN_AT_A_TIME).read_to_end(&mut printed)? > 0 {
        thread::sleep(BETWEEN_TAKINGS);
    }
    Ok(printed)
}
