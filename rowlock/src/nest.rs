//! A loop nest as numbers.

/// A loop nest: 63 numbers, any of which may be anything. Of each array the first `depth` or
/// `count` places are a part of the nest; the others are ignored. `c/rowlock.h` has the same
/// struct.
#[repr(C)]
#[derive(Clone, Copy, Debug, Default, PartialEq, Eq, Hash)]
pub struct Nest {
    /// The number of loops, 1 to 4.
    pub depth: i64,
    /// The number of dependences, 1 to 8.
    pub count: i64,
    /// The dimension of the hypercube, 0 to 6; it has 2^cube processors.
    pub cube: i64,
    /// The lower limits, outermost loop first, -1000 to 1000.
    pub lower: [i64; Nest::MAX_DEPTH],
    /// The upper limits.
    pub upper: [i64; Nest::MAX_DEPTH],
    /// The time vector, -16 to 16.
    pub time: [i64; Nest::MAX_DEPTH],
    /// Component k of dependence i is at place i * 4 + k, -16 to 16.
    pub dependences: [i64; Nest::MAX_DEPTH * Nest::MAX_DEPENDENCES],
    /// What a source outside the nest reads as, by the dependence it was reached by, 0 to 65535.
    pub boundaries: [i64; Nest::MAX_DEPENDENCES],
    /// One for each dependence, 0 to 255.
    pub weights: [i64; Nest::MAX_DEPENDENCES],
}

/// How many numbers a nest has.
const NUMBERS: usize = 63;

/// The library reads a nest as so many numbers of 64 bits without a gap.
const _: () = assert!(size_of::<Nest>() == NUMBERS * size_of::<i64>());

impl Nest {
    pub const MAX_DEPTH: usize = 4;
    pub const MAX_DEPENDENCES: usize = 8;
}

impl From<[i64; NUMBERS]> for Nest {
    /// The nest that numbers are, in the order of its fields.
    fn from(numbers: [i64; NUMBERS]) -> Nest {
        Nest {
            depth: numbers[0],
            count: numbers[1],
            cube: numbers[2],
            lower: part(&numbers, 3),
            upper: part(&numbers, 7),
            time: part(&numbers, 11),
            dependences: part(&numbers, 15),
            boundaries: part(&numbers, 47),
            weights: part(&numbers, 55),
        }
    }
}

/// As many numbers as are wanted, from a place on.
fn part<const N: usize>(numbers: &[i64; NUMBERS], from: usize) -> [i64; N] {
    std::array::from_fn(|k| numbers[from + k])
}
