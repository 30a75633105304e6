//! The refusals.

use std::fmt;

/// Why a call is refused: a number from 1 to 19. 12 is not used.
#[derive(Clone, Copy, PartialEq, Eq, Hash)]
pub struct Refusal(u8);

/// The constants of the refusals, and their names and meanings by number.
macro_rules! refusals {
    ($($number:literal $name:ident $meaning:literal)*) => {
        impl Refusal {
            $(#[doc = $meaning] pub const $name: Refusal = Refusal($number);)*

            fn words(self) -> (&'static str, &'static str) {
                match self.0 {
                    $($number => (stringify!($name), $meaning),)*
                    _ => ("REFUSAL", "not in the list"),
                }
            }
        }
    };
}

refusals! {
    1 MALFORMED_TEXT "a line is missing, extra or not in columns"
    2 BAD_DEPTH "depth not from 1 to 4"
    3 BAD_COUNT "number of dependences not from 1 to 8"
    4 BAD_CUBE "cube dimension not from 0 to 6"
    5 BAD_LIMITS "a limit not from -1000 to 1000, or lower above upper"
    6 TOO_MANY_POINTS "more than 4096 iterations"
    7 BAD_TIME "a component of the time vector not from -16 to 16"
    8 BAD_DEPENDENCE "a component of a dependence not from -16 to 16"
    9 BACKWARD_DEPENDENCE "a dependence is zero, or its first component that is not zero is negative"
    10 EQUAL_DEPENDENCES "two dependences equal"
    11 AGAINST_TIME "the inner product of time vector and a dependence is below 1"
    13 BAD_WEIGHT "a boundary value not from 0 to 65535, or a weight not from 0 to 255"
    14 SHORT_BUFFER "a lent buffer has fewer entries than are needed"
    15 WAITING "compute: a source is not there"
    16 OUT_OF_TURN "delivery: no message, its source not done, or already delivered"
    17 IDLE_PROCESSOR "compute: the processor has no iteration left"
    18 NO_SUCH_PLACE "no such processor, rank or dependence"
    19 NO_SUCH_ROW "index outside the outermost limits"
}

impl Refusal {
    /// The number, by which document 01 lists the refusals.
    pub fn number(self) -> u8 {
        self.0
    }

    /// What an exported function answered: a refusal, unless its number is 0.
    pub(crate) fn of(number: u8) -> Result<(), Refusal> {
        match number {
            0 => Ok(()),
            _ => Err(Refusal(number)),
        }
    }
}

impl fmt::Display for Refusal {
    fn fmt(&self, f: &mut fmt::Formatter<'_>) -> fmt::Result {
        write!(f, "{} ({}): {}", self.words().0, self.0, self.words().1)
    }
}

impl fmt::Debug for Refusal {
    fn fmt(&self, f: &mut fmt::Formatter<'_>) -> fmt::Result {
        write!(f, "{} ({})", self.words().0, self.0)
    }
}

impl std::error::Error for Refusal {}

#[cfg(test)]
mod tests {
    use super::*;

    /// The number of no refusal: document 02, U8, took it out of use.
    const NOT_USED: u8 = 12;

    /// Number, name and meaning of each refusal, in order.
    fn refusals() -> Vec<(u8, &'static str, &'static str)> {
        (1..=19)
            .filter(|&number| number != NOT_USED)
            .map(Refusal)
            .map(|refusal| (refusal.number(), refusal.words().0, refusal.words().1))
            .collect()
    }

    #[test]
    fn refusals_are_those_of_the_table_in_readme() {
        let (_, table) = include_str!("../../README.md")
            .split_once("| number | name | met when |\n|---|---|---|\n")
            .expect("a table");
        let (not_used, rows): (Vec<&str>, Vec<&str>) = table
            .lines()
            .take_while(|line| line.starts_with('|'))
            .partition(|line| line.starts_with(&format!("| {NOT_USED} |")));
        let ours: Vec<String> = refusals()
            .iter()
            .map(|(number, name, meaning)| format!("| {number} | `{name}` | {meaning} |"))
            .collect();
        assert_eq!(rows, ours);
        assert_eq!(
            not_used,
            ["| 12 | | not used: a time vector that is zero is refused with 11 |"]
        );
    }

    #[test]
    fn a_number_that_is_not_used_has_no_name() {
        assert_eq!(Refusal(NOT_USED).words(), Refusal(0).words());
        let value = format!(" = {NOT_USED}");
        let header = include_str!("../../c/rowlock.h");
        assert!(header.lines().all(|line| !line.trim_end_matches(',').ends_with(&value)));
    }

    #[test]
    fn refusals_limits_and_kinds_are_those_of_the_header() {
        let header = include_str!("../../c/rowlock.h");
        for (number, name, _) in refusals() {
            assert!(header.contains(&format!("    ROWLOCK_{name} = {number}")), "{name}");
        }
        let limits = [
            ("MAX_DEPTH", crate::Nest::MAX_DEPTH),
            ("MAX_DEPENDENCES", crate::Nest::MAX_DEPENDENCES),
            ("MAX_ITERATIONS", crate::MAX_ITERATIONS),
            ("MAX_TEXT", crate::MAX_TEXT),
            ("MAX_LISTING", crate::MAX_LISTING),
        ];
        for (name, limit) in limits {
            assert!(header.contains(&format!("#define ROWLOCK_{name} {limit}\n")), "{name}");
        }
        for (name, kind) in
            [("COMPUTE", crate::exported::COMPUTE), ("DELIVER", crate::exported::DELIVER)]
        {
            assert!(header.contains(&format!(" ROWLOCK_{name} = {kind}")), "{name}");
        }
    }

    #[test]
    fn a_refusal_says_what_it_is() {
        assert_eq!(Refusal::of(0), Ok(()));
        let refusal = Refusal::of(4).unwrap_err();
        assert_eq!(refusal, Refusal::BAD_CUBE);
        assert_eq!(refusal.to_string(), "BAD_CUBE (4): cube dimension not from 0 to 6");
        assert_eq!(format!("{refusal:?}"), "BAD_CUBE (4)");
    }
}
