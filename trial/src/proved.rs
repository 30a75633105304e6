//! The proved entries, as the static library exports them.

use rowlock::exported;
use trial::entry::{Answer, Entry, Lent, Numbers, Planned, Request};

/// The proved entries.
pub struct Proved;

impl Entry for Proved {
    fn plan(&self, nest: &Numbers, tables: Planned) -> u8 {
        let Planned { steps, blocks, processors, values, counts } = tables;
        exported::plan(&(*nest).into(), steps, blocks, processors, values, counts)
    }

    fn make_move(&self, nest: &Numbers, request: Request, lent: Lent) -> Answer {
        let Request { kind, first, second } = request;
        let Lent { steps, processors, values, done, delivered } = lent;
        // numbers that no move answers together, so that each has to be written
        let mut made = [usize::MAX, usize::MAX];
        let number = exported::make_move(
            &(*nest).into(),
            [kind, first, second],
            steps,
            processors,
            values,
            done,
            delivered,
            &mut made,
        );
        Answer { number, made }
    }
}
