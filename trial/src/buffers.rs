//! The five buffers of a move. Each is lent as the middle of a longer one, so that a write outside
//! what is lent shows.

use crate::entry::Lent;

/// How many entries stand before and behind the lent ones.
const GUARDS: usize = 8;

/// What a buffer holds outside the lent entries.
const GUARD: u8 = 0xA5;

/// What the five lent buffers hold, which may differ in length.
#[derive(Clone, Debug, PartialEq, Eq)]
pub struct Contents {
    pub steps: Vec<u32>,
    pub processors: Vec<u8>,
    pub values: Vec<u16>,
    pub done: Vec<u8>,
    pub delivered: Vec<u8>,
}

/// A buffer with guards around the lent entries.
pub struct Guarded<T> {
    entries: Vec<T>,
}

impl<T: Copy + PartialEq + From<u8>> Guarded<T> {
    pub fn new(lent: &[T]) -> Guarded<T> {
        let guards = [T::from(GUARD); GUARDS];
        Guarded { entries: [&guards, lent, &guards].concat() }
    }

    pub fn lent(&self) -> &[T] {
        &self.entries[GUARDS..self.entries.len() - GUARDS]
    }

    pub fn lent_mut(&mut self) -> &mut [T] {
        let end = self.entries.len() - GUARDS;
        &mut self.entries[GUARDS..end]
    }

    /// Whether the guards are as they were.
    pub fn is_whole(&self) -> bool {
        let (before, rest) = self.entries.split_at(GUARDS);
        let behind = &rest[rest.len() - GUARDS..];
        before.iter().chain(behind).all(|&entry| entry == T::from(GUARD))
    }
}

/// The buffers that a list of moves is made on.
pub struct Buffers {
    steps: Guarded<u32>,
    processors: Guarded<u8>,
    values: Guarded<u16>,
    done: Guarded<u8>,
    delivered: Guarded<u8>,
}

impl Buffers {
    pub fn new(contents: &Contents) -> Buffers {
        Buffers {
            steps: Guarded::new(&contents.steps),
            processors: Guarded::new(&contents.processors),
            values: Guarded::new(&contents.values),
            done: Guarded::new(&contents.done),
            delivered: Guarded::new(&contents.delivered),
        }
    }

    /// The buffers as they are lent for one move.
    pub fn lend(&mut self) -> Lent<'_> {
        Lent {
            steps: self.steps.lent(),
            processors: self.processors.lent(),
            values: self.values.lent_mut(),
            done: self.done.lent_mut(),
            delivered: self.delivered.lent_mut(),
        }
    }

    /// The name of the first buffer that does not hold what it must, guards included.
    pub fn first_difference(&self, expected: &Contents) -> Option<&'static str> {
        let whole = [
            ("steps", self.steps.is_whole() && self.steps.lent() == expected.steps),
            (
                "processors",
                self.processors.is_whole() && self.processors.lent() == expected.processors,
            ),
            ("values", self.values.is_whole() && self.values.lent() == expected.values),
            ("done", self.done.is_whole() && self.done.lent() == expected.done),
            ("delivered", self.delivered.is_whole() && self.delivered.lent() == expected.delivered),
        ];
        whole.iter().find(|(_, same)| !same).map(|&(name, _)| name)
    }
}

#[cfg(test)]
mod tests {
    use super::*;

    fn contents() -> Contents {
        Contents {
            steps: vec![1, 2],
            processors: vec![3],
            values: vec![4, 5, 6],
            done: vec![],
            delivered: vec![7],
        }
    }

    type Change = fn(&mut Contents);

    #[test]
    fn a_changed_entry_shows_in_each_buffer() {
        let whole = contents();
        assert_eq!(Buffers::new(&whole).first_difference(&whole), None);
        let changes: [(&str, Change); 5] = [
            ("steps", |c| c.steps[1] ^= 1 << 31),
            ("processors", |c| c.processors[0] ^= 128),
            ("values", |c| c.values[2] ^= 1 << 15),
            ("done", |c| c.done.push(0)),
            ("delivered", |c| c.delivered[0] ^= 1),
        ];
        for (name, change) in changes {
            let mut changed = contents();
            change(&mut changed);
            assert_eq!(Buffers::new(&changed).first_difference(&whole), Some(name));
        }
    }

    #[test]
    fn a_changed_guard_shows_on_either_side() {
        let whole = contents();
        let mut before = Buffers::new(&whole);
        before.values.entries[GUARDS - 1] = 0;
        assert_eq!(before.first_difference(&whole), Some("values"));
        let mut behind = Buffers::new(&whole);
        behind.done.entries[GUARDS] = 0;
        assert_eq!(behind.first_difference(&whole), Some("done"));
    }
}
