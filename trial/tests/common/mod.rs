//! What the tests share: nests in the form of the second planner and of the library, and buffers in
//! which a byte out of place shows.
#![allow(dead_code)]

use rowlock::Nest;
use second::nest::LoopNest;
use second::refusal::Number;
use sheets::Random;
use trial::buffers::Guarded;
use trial::entry::NUMBERS;
use trial::nests;

/// The nest of document 01's listing: two loops (0..1, 0..2), dependences (0,1) and (1,0), time
/// vector (1,1), cube dimension 1, boundary value 1, weights 2 and 3.
pub const P2: &[u8] = include_bytes!("../../../examples/P2.txt");

/// The same with boundary value 1 for (0,1) and 10 for (1,0): a value is the rank, 2 times what is
/// on the left and 3 times what is above, where 1 is on the left of column 0 and 10 is above row 0.
pub const P2_WITH_TWO: &[u8] = b"     2     2     1\n     0     1\n     0     2\n     1     1\n\
      \x20    0     1\n     1     0\n     1    10     2     3\n";

/// Its values: 0 + 2 * 1 + 3 * 10 = 32, 1 + 2 * 32 + 3 * 10 = 95, 2 + 2 * 95 + 3 * 10 = 222,
/// 3 + 2 * 1 + 3 * 32 = 101, 4 + 2 * 101 + 3 * 95 = 491, 5 + 2 * 491 + 3 * 222 = 1653.
pub const VALUES_WITH_TWO: [u16; 6] = [32, 95, 222, 101, 491, 1653];

/// The same with boundary value 1 for both, in the long form.
pub const P2_LONG: &[u8] = b"     2     2     1\n     0     1\n     0     2\n     1     1\n\
      \x20    0     1\n     1     0\n     1     1     2     3\n";

/// A nest with other numbers in the places behind its dependences, which are no part of it.
pub fn with_junk_behind(nest: &Nest, junk: [i64; 2]) -> Nest {
    let (mut other, count) = (*nest, nest.count as usize);
    other.boundaries[count..].fill(junk[0]);
    other.weights[count..].fill(junk[1]);
    other
}

/// A nest of the second planner as it is lent, with anything in the places that are no part of it.
pub fn lent(random: &mut Random, nest: &LoopNest) -> Nest {
    nests::numbers_of(random, nest).into()
}

/// The same, with 0 in those places.
pub fn plain(nest: &LoopNest) -> Nest {
    nests::numbers_over([0; NUMBERS], nest).into()
}

/// Accepted nests of every kind, none of them large.
pub fn accepted(seed: u64, count: u64) -> Vec<LoopNest> {
    let mut random = Random::new(seed);
    (0..count).map(|number| nests::accepted(&mut random, number)).collect()
}

/// Refused nests with their refusals: one condition met, or two, or a number that needs 64 bits.
pub fn refused(seed: u64, count: u64) -> Vec<(u8, LoopNest)> {
    let mut random = Random::new(seed);
    (0..count)
        .map(|number| nests::refused(&mut random, number))
        .map(|(number, nest)| (byte(number), nest))
        .collect()
}

/// A refusal's number as the library answers it.
pub fn byte(number: Number) -> u8 {
    number.try_into().expect("a number below 256")
}

/// What a call left in a lent buffer, together with what it answered. Stops if it wrote outside of
/// the buffer.
pub fn after<T: Copy + PartialEq + From<u8>, R>(
    before: &[T],
    call: impl FnOnce(&mut [T]) -> R,
) -> (R, Vec<T>) {
    let mut buffer = Guarded::new(before);
    let answer = call(buffer.lent_mut());
    assert!(buffer.is_whole(), "a byte outside of the buffer changed");
    (answer, buffer.lent().to_vec())
}

/// A list followed by what stood behind its places before.
pub fn over<T: Copy>(list: &[T], before: &[T]) -> Vec<T> {
    [list, &before[list.len()..]].concat()
}

/// Stops unless the numbers seen are exactly those named.
pub fn assert_seen(mut seen: Vec<u8>, numbers: &[u8]) {
    seen.sort();
    seen.dedup();
    assert_eq!(seen, numbers, "the refusals that came up");
}

/// The refusals of a nest given as numbers. 12 is not used: a zero time vector has an inner product
/// of 0 with every dependence, which is 11.
pub const OF_NESTS: &[u8] = &[2, 3, 4, 5, 6, 7, 8, 9, 10, 11, 13];
