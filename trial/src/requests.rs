//! Moves to ask for: likely ones, and ones with places that do not exist.

use second::nest::LoopNest;
use second::plan::Plan;
use sheets::Random;

use crate::entry::{Request, COMPUTE};

/// The places that moves on a nest are about.
pub struct Places {
    pub iterations: usize,
    pub dependences: usize,
    /// 2^c
    pub processors: usize,
    /// The processor entry of each iteration in the lent table.
    pub held: Vec<usize>,
    /// The messages of the plan.
    pub messages: Vec<(usize, usize)>,
}

impl Places {
    /// The places of an accepted nest, with its plan's own table.
    pub fn of_plan(nest: &LoopNest, plan: &Plan) -> Places {
        Places {
            iterations: plan.iterations.count(),
            dependences: nest.dependences.len(),
            processors: nest.processor_count(),
            held: plan.mapping.processors.clone(),
            messages: plan.mapping.messages.clone(),
        }
    }

    /// Places for a nest that is refused: nothing is known of it.
    pub fn of_nothing() -> Places {
        Places {
            iterations: 5,
            dependences: 2,
            processors: 4,
            held: vec![0, 1, 2, 3],
            messages: vec![],
        }
    }

    /// A move of any kind: mostly such as may be allowed, some with strange places.
    pub fn any(&self, random: &mut Random) -> Request {
        let request = match random.between(0, 10) {
            0..=3 => Request::compute(random.pick(&self.held)),
            4 => Request::compute(random.place(self.processors)),
            5 | 6 if !self.messages.is_empty() => {
                let (rank, dependence) = random.pick(&self.messages);
                Request::deliver(rank, dependence)
            }
            5..=8 => self.any_delivery(random),
            9 => self.strange(random),
            _ => return self.of_no_kind(random),
        };
        disguised(random, request)
    }

    /// Numbers that are a likely compute or delivery, with a kind that is no move's.
    fn of_no_kind(&self, random: &mut Random) -> Request {
        let kind =
            random.pick(&[0, 3, 4, 255, 256, 257, 258, (1 << 32) + 1, (1 << 32) + 2, usize::MAX]);
        let request = match self.messages[..] {
            [_, ..] if random.once_in(2) => {
                let (rank, dependence) = random.pick(&self.messages);
                Request::deliver(rank, dependence)
            }
            _ => Request::compute(random.pick(&self.held)),
        };
        Request { kind, ..request }
    }

    /// A delivery of any rank and dependence that exist.
    fn any_delivery(&self, random: &mut Random) -> Request {
        Request::deliver(random.place(self.iterations), random.place(self.dependences))
    }

    /// A move at the ends of what exists, or beyond.
    pub fn strange(&self, random: &mut Random) -> Request {
        match random.between(0, 3) {
            0 => Request::compute(self.strange_processor(random)),
            1 => Request::deliver(self.strange_rank(random), random.place(self.dependences)),
            2 => Request::deliver(random.place(self.iterations), self.strange_dependence(random)),
            _ => Request::deliver(self.strange_rank(random), self.strange_dependence(random)),
        }
    }

    fn strange_processor(&self, random: &mut Random) -> usize {
        let (end, held) = (self.processors, random.pick(&self.held));
        random.pick(&[
            end - 1,
            end,
            end + 1,
            200,
            255,
            256,
            65536,
            held + 256,
            held + 65536,
            held + (1 << 32),
            usize::MAX - 255 + held.min(255),
            usize::MAX,
        ])
    }

    fn strange_rank(&self, random: &mut Random) -> usize {
        let (end, rank) = (self.iterations, random.place(self.iterations));
        random.pick(&[
            end - 1,
            end,
            end + 1,
            end + 4,
            4096,
            rank + 65536,
            rank + (1 << 32),
            usize::MAX - rank,
            usize::MAX,
        ])
    }

    fn strange_dependence(&self, random: &mut Random) -> usize {
        let (end, number) = (self.dependences, random.place(self.dependences));
        random.pick(&[
            end - 1,
            end,
            7,
            8,
            63,
            64,
            number + 8,
            number + 64,
            number + 256,
            number + (1 << 32),
            usize::MAX - 7 + number,
            usize::MAX,
        ])
    }
}

/// The same move, of a compute with another number in the place that is ignored.
pub fn disguised(random: &mut Random, request: Request) -> Request {
    match request.kind {
        COMPUTE => Request { second: random.pick(&[0, 0, 1, 8, 4096, usize::MAX]), ..request },
        _ => request,
    }
}
