//! In which order moves are asked: any moves, or complete runs at several paces.

use std::collections::{HashSet, VecDeque};

use second::nest::LoopNest;
use second::plan::Plan;
use second::refusal::{DONE, IDLE_PROCESSOR};
use sheets::Random;

use crate::entry::{Answer, Request, COMPUTE};
use crate::requests::{disguised, Places};

/// What asks for moves.
pub trait Pace {
    /// The next move, or none at the end of the list.
    fn next(&mut self, random: &mut Random) -> Option<Request>;

    /// Learns what a move was answered.
    fn learn(&mut self, request: Request, answer: Answer);
}

/// So many moves of any kind.
pub struct AnyMoves<'p> {
    pub places: &'p Places,
    pub left: usize,
}

impl Pace for AnyMoves<'_> {
    fn next(&mut self, random: &mut Random) -> Option<Request> {
        self.left = self.left.checked_sub(1)?;
        Some(self.places.any(random))
    }

    fn learn(&mut self, _request: Request, _answer: Answer) {}
}

/// The order in which a complete run is asked.
#[derive(Clone, Copy, Debug, PartialEq, Eq)]
pub enum Order {
    /// Every processor in turn, then every message.
    RoundRobin,
    /// The same from last to first.
    Backward,
    /// Any order, another one in each round.
    Shuffled,
    /// Every move asked twice, and messages also for the next rank and along the next dependence.
    Twice,
    /// No message before every processor is stuck.
    LateMessages,
    /// Each message at once after its source.
    EarlyMessages,
    /// One processor with all it needs first; the others only when it is stuck.
    OneAhead,
}

impl Order {
    pub const ALL: &'static [Order] = &[
        Order::RoundRobin,
        Order::Backward,
        Order::Shuffled,
        Order::Twice,
        Order::LateMessages,
        Order::EarlyMessages,
        Order::OneAhead,
    ];

    pub fn name(self) -> &'static str {
        match self {
            Order::RoundRobin => "complete run, round robin",
            Order::Backward => "complete run, round robin backward",
            Order::Shuffled => "complete run, any order",
            Order::Twice => "complete run, all asked twice",
            Order::LateMessages => "complete run, late messages",
            Order::EarlyMessages => "complete run, early messages",
            Order::OneAhead => "complete run, one processor ahead",
        }
    }
}

/// A message: for a rank, along a dependence, from a source.
#[derive(Clone, Copy)]
struct Message {
    rank: usize,
    dependence: usize,
    source: usize,
}

/// A complete run: rounds of moves until none is allowed, then every move once more. Now and then
/// another move comes between.
pub struct CompleteRun<'p> {
    places: &'p Places,
    order: Order,
    ahead: usize,
    messages: Vec<Message>,
    computed: Vec<bool>,
    delivered: HashSet<(usize, usize)>,
    busy: Vec<bool>,
    round: VecDeque<Request>,
    /// Whether the round is one for those that wait until the others are stuck.
    second_phase: bool,
    allowed_in_round: bool,
    rounds_without: usize,
}

impl<'p> CompleteRun<'p> {
    pub fn new(
        random: &mut Random,
        places: &'p Places,
        nest: &LoopNest,
        plan: &Plan,
        order: Order,
    ) -> CompleteRun<'p> {
        let message = |&(rank, dependence): &(usize, usize)| {
            let source = plan.iterations.source(rank, &nest.dependences[dependence]);
            Message { rank, dependence, source: source.expect("a message has a source") }
        };
        CompleteRun {
            places,
            order,
            ahead: random.pick(&places.held),
            messages: plan.mapping.messages.iter().map(message).collect(),
            computed: vec![false; places.iterations],
            delivered: HashSet::new(),
            busy: vec![true; places.processors],
            round: VecDeque::new(),
            second_phase: true,
            allowed_in_round: true,
            rounds_without: 0,
        }
    }

    /// Computes on the processors that have something left, and sometimes on others.
    fn computes(&self, random: &mut Random) -> Vec<usize> {
        (0..self.busy.len()).filter(|&number| self.busy[number] || random.once_in(16)).collect()
    }

    /// The messages whose source is computed, and some of the others, delivered ones too.
    fn deliveries(&self, random: &mut Random) -> Vec<Message> {
        let mut asked = self.messages.clone();
        asked.retain(|message| {
            let delivered = self.delivered.contains(&(message.rank, message.dependence));
            let ready = self.computed[message.source] && !delivered;
            ready || random.once_in(32)
        });
        asked
    }

    /// The moves of the next round.
    fn next_round(&self, random: &mut Random) -> Vec<Request> {
        let computes = self.computes(random);
        let deliveries = self.deliveries(random);
        let mut round = match self.order {
            Order::LateMessages if self.second_phase => requests(&[], &deliveries),
            Order::LateMessages => requests(&computes, &[]),
            Order::OneAhead => self.round_of_one(&computes, &deliveries),
            _ => requests(&computes, &deliveries),
        };
        match self.order {
            Order::Backward => round.reverse(),
            Order::Shuffled => random.shuffle(&mut round),
            Order::Twice => round = round.into_iter().flat_map(twice).collect(),
            _ => (),
        }
        round
    }

    /// A round of the processor that is ahead: its messages, then computes until it is stuck. In
    /// the second phase a round of the others.
    fn round_of_one(&self, computes: &[usize], deliveries: &[Message]) -> Vec<Request> {
        let is_ahead = |message: &&Message| self.places.held[message.rank] == self.ahead;
        let (to_one, to_others): (Vec<&Message>, Vec<&Message>) =
            deliveries.iter().partition(is_ahead);
        let copied = |list: Vec<&Message>| list.into_iter().copied().collect::<Vec<Message>>();
        if self.second_phase {
            let others: Vec<usize> =
                computes.iter().copied().filter(|&number| number != self.ahead).collect();
            requests(&others, &copied(to_others))
        } else {
            let mut round = requests(&[], &copied(to_one));
            round.extend([Request::compute(self.ahead); 4]);
            round
        }
    }

    /// Every move that there is.
    fn all_moves(&self) -> Vec<Request> {
        let computes = (0..self.places.processors).map(Request::compute);
        let deliveries = (0..self.places.iterations).flat_map(|rank| {
            (0..self.places.dependences).map(move |dependence| Request::deliver(rank, dependence))
        });
        computes.chain(deliveries).collect()
    }

    /// Begins a round. The first phase goes on while it allows anything, the second is one round.
    /// After two rounds without an allowed move comes the last round, which asks everything.
    fn begin_round(&mut self, random: &mut Random) {
        self.rounds_without = if self.allowed_in_round { 0 } else { self.rounds_without + 1 };
        if self.rounds_without == 2 {
            self.round = self.all_moves().into();
            return;
        }
        self.second_phase = !self.second_phase && !self.allowed_in_round;
        self.allowed_in_round = false;
        self.round = self.next_round(random).into();
    }
}

/// Computes and then deliveries.
fn requests(computes: &[usize], deliveries: &[Message]) -> Vec<Request> {
    let computes = computes.iter().map(|&number| Request::compute(number));
    let deliveries =
        deliveries.iter().map(|message| Request::deliver(message.rank, message.dependence));
    computes.chain(deliveries).collect()
}

/// A move twice; a delivery also to neighbouring places.
fn twice(request: Request) -> Vec<Request> {
    let Request { first, second, .. } = request;
    if request.kind == COMPUTE {
        return vec![request; 2];
    }
    vec![Request::deliver(first + 1, second), request, request, Request::deliver(first, second + 1)]
}

impl Pace for CompleteRun<'_> {
    fn next(&mut self, random: &mut Random) -> Option<Request> {
        if self.rounds_without < 2 && random.once_in(16) {
            return Some(self.places.any(random));
        }
        while self.round.is_empty() {
            if self.rounds_without == 2 {
                return None;
            }
            self.begin_round(random);
        }
        let request = self.round.pop_front()?;
        Some(disguised(random, request))
    }

    fn learn(&mut self, request: Request, answer: Answer) {
        let number = u32::from(answer.number);
        self.allowed_in_round |= number == DONE;
        match (request.kind, number) {
            (COMPUTE, IDLE_PROCESSOR) => self.busy[request.first] = false,
            (COMPUTE, DONE) => {
                let rank = answer.made[0];
                self.computed[rank] = true;
                if self.order == Order::EarlyMessages {
                    let from = self.messages.iter().filter(|message| message.source == rank);
                    let asked: Vec<Message> = from.copied().collect();
                    requests(&[], &asked).into_iter().for_each(|r| self.round.push_front(r));
                }
            }
            (_, DONE) => {
                self.delivered.insert((request.first, request.second));
            }
            _ => (),
        }
    }
}
