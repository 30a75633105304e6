//! The rules of a move written once more, to test the comparison with: as they are, and with a
//! fault; some faults are in the plan that a run begins on.

use second::nest::{inner_product, LoopNest};
use second::plan::Plan;
use second::rational::greatest_common_divisor;
use sheets::wrong::{chosen_by, dealt_by, WRONG_CHOICES, WRONG_DEALINGS};

use crate::entry::{Answer, Entry, Lent, Numbers, Planned, Request, COMPUTE, DELIVER};
use crate::nests::{BOUNDARIES, DEPENDENCES, LOWER, ROW, TIME, UPPER, WEIGHTS};

/// What a wrong entry does.
#[derive(Clone, Copy, Debug, PartialEq, Eq)]
pub enum Fault {
    EmptyStepsNumbered,
    StepsDividedByCommonFactor,
    /// The dealing of bits that has this number among the wrong ones.
    BitsDealtWrongly(usize),
    /// The choice of auxiliary vectors that has this number among the wrong ones.
    VectorsChosenWrongly(usize),
    LaterRankAtEqualSteps,
    StepsCompared16Bits,
    StepsComparedSigned,
    DoneByteOfTwo,
    DoneOnlyIfOne,
    DoneBeforeSourcesAreTested,
    UndeliveredMessageIgnored,
    SourceOnSameProcessorIgnored,
    OwnMessagesNeeded,
    WaitingAlthoughAllIsThere,
    IdleWithIterationsLeft,
    FirstComputeFillsTheTable,
    ValueOfUncomputedTaken,
    BoundaryValueIgnored,
    FirstBoundaryValueForAll,
    BoundaryValuesInTurn,
    RankLeftOutOfValue,
    ValueWrittenWhenWaiting,
    NeighbourValueWritten,
    SecondBitSet,
    OtherBitsCleared,
    StrayBitsCleared,
    DeliveredTwice,
    DeliveredBeforeSource,
    DeliveredWithoutMessage,
    DeliveredAcrossBoundary,
    DeliveryMarksSource,
    ProcessorAsByte,
    ProcessorAs32Bits,
    ProcessorOneTooGreat,
    ProcessorsOf64,
    RankAs16Bits,
    RankAs32Bits,
    RankOneTooGreat,
    DependenceModulo8,
    DependenceModulo64,
    DependenceOneTooGreat,
    PlaceBeforeShortBuffer,
    IdleBeforePlace,
    WaitingBeforeIdle,
    StepsLengthUntested,
    ProcessorsLengthUntested,
    ValuesLengthUntested,
    DoneLengthUntested,
    DeliveredLengthUntested,
    ShortBufferBeforeNest,
    LengthsAreIterations,
    FourthLoopRefused,
    FifthLoopAccepted,
    FourthLoopUnread,
    DependencesInRowsOfThree,
    UnusedLoopPlacesRead,
    UnusedPlacesRead,
    UnusedBoundaryPlacesRead,
    WeightsUntested,
    OnlyFirstBoundaryValueTested,
    LastBoundaryValueUntested,
    NestAs32Bits,
    KindZeroComputes,
    KindsSwapped,
    OtherKindsDeliver,
    KindAsByte,
    KindAs32Bits,
    KindBeforeShortBuffer,
    SecondNumberOfComputeRead,
    MadeKeptWhenRefused,
    MadeWithoutValue,
    MadeWithoutRank,
    EntryBehindWritten,
    EntriesBehindSearched,
    SourceOfMessageMustBeDone,
}

use Fault::*;

/// An entry by the rules, with a fault or none.
pub struct Rules {
    pub fault: Option<Fault>,
}

/// A nest and the number of its iterations.
struct Known {
    nest: LoopNest,
    count: usize,
}

impl Known {
    /// The rank of an iteration's source, found by arithmetic on ranks and limits.
    fn source(&self, rank: usize, dependence: &[i64]) -> Option<usize> {
        let (mut left, mut stride, mut source) = (rank as i64, 1, 0);
        for loop_number in (0..dependence.len()).rev() {
            let extent = self.nest.upper[loop_number] - self.nest.lower[loop_number] + 1;
            let index = left % extent - dependence[loop_number];
            if index < 0 || index >= extent {
                return None;
            }
            source += index * stride;
            left /= extent;
            stride *= extent;
        }
        Some(source as usize)
    }
}

/// The entry at a place, 0 where there is none.
fn at<T: Copy + Default>(list: &[T], place: usize) -> T {
    list.get(place).copied().unwrap_or_default()
}

/// Writes an entry, if there is one at the place.
fn put<T>(list: &mut [T], place: usize, entry: T) {
    if let Some(old) = list.get_mut(place) {
        *old = entry;
    }
}

impl Rules {
    fn has(&self, fault: Fault) -> bool {
        self.fault == Some(fault)
    }

    /// The kind that a kind is taken for.
    fn kind_taken(&self, kind: usize) -> usize {
        match kind {
            COMPUTE | DELIVER if self.has(KindsSwapped) => COMPUTE + DELIVER - kind,
            COMPUTE | DELIVER => kind,
            0 if self.has(KindZeroComputes) => COMPUTE,
            _ if self.has(OtherKindsDeliver) => DELIVER,
            _ if self.has(KindAsByte) => usize::from(kind as u8),
            _ if self.has(KindAs32Bits) => kind as u32 as usize,
            _ => kind,
        }
    }

    /// The nest that the numbers are, as far as they are read.
    fn nest_in(&self, numbers: &Numbers) -> LoopNest {
        let mut numbers = *numbers;
        if self.has(NestAs32Bits) {
            numbers.iter_mut().for_each(|number| *number = i64::from(*number as i32));
        }
        let depth = self.loops_read(numbers[0]);
        let count = numbers[1].clamp(0, 8) as usize;
        let read = |fault: Fault| if self.has(fault) { 8 } else { count };
        let row = if self.has(DependencesInRowsOfThree) { 3 } else { ROW };
        let part = |from: usize, length: usize| numbers[from..from + length].to_vec();
        LoopNest {
            depth: numbers[0],
            dependence_count: numbers[1],
            cube_dimension: numbers[2],
            lower: part(LOWER, depth),
            upper: part(UPPER, depth),
            time_vector: part(TIME, depth),
            dependences: (0..count).map(|i| part(DEPENDENCES + row * i, depth)).collect(),
            boundary_values: part(BOUNDARIES, read(UnusedBoundaryPlacesRead)),
            weights: part(WEIGHTS, read(UnusedPlacesRead)),
        }
    }

    /// How many loops are read of a nest of the given depth.
    fn loops_read(&self, depth: i64) -> usize {
        match self.fault {
            Some(UnusedLoopPlacesRead) => ROW,
            Some(FourthLoopUnread) => depth.clamp(0, 3) as usize,
            _ => depth.clamp(0, ROW as i64) as usize,
        }
    }

    /// The refusal of the nest or of the buffers' lengths, if there is one.
    fn refusal(&self, nest: &LoopNest, lent: &Lent) -> Option<u8> {
        let refusal = self
            .as_tested(nest)
            .refusal()
            .filter(|&number| !(number == 13 && self.has(WeightsUntested)));
        let is_short = if refusal.is_none() {
            self.is_short(nest.iteration_count() as usize, lent)
        } else {
            self.has(ShortBufferBeforeNest) && lent.values.is_empty()
        };
        match refusal {
            Some(number) if !is_short => Some(number as u8),
            _ => is_short.then_some(14),
        }
    }

    /// The nest as it is judged, with values in span in the places that are not tested.
    fn as_tested(&self, nest: &LoopNest) -> LoopNest {
        let mut tested = nest.clone();
        match (self.fault, &mut tested.boundary_values[..]) {
            (Some(OnlyFirstBoundaryValueTested), [_, others @ ..]) => others.fill(0),
            (Some(LastBoundaryValueUntested), [_, .., last]) => *last = 0,
            (Some(FourthLoopRefused), _) if nest.depth == 4 => tested.depth = 5,
            (Some(FifthLoopAccepted), _) if nest.depth == 5 => tested.depth = 4,
            _ => {}
        }
        tested
    }

    fn is_short(&self, count: usize, lent: &Lent) -> bool {
        let lengths = [
            (lent.steps.len(), StepsLengthUntested),
            (lent.processors.len(), ProcessorsLengthUntested),
            (lent.values.len(), ValuesLengthUntested),
            (lent.done.len(), DoneLengthUntested),
            (lent.delivered.len(), DeliveredLengthUntested),
        ];
        let exact = self.has(LengthsAreIterations);
        lengths.iter().any(|&(length, untested)| {
            !self.has(untested) && (length < count || exact && length > count)
        })
    }

    fn compute(&self, known: &Known, processor: usize, lent: &mut Lent) -> Answer {
        let processor = match self.fault {
            Some(ProcessorAsByte) => processor % 256,
            Some(ProcessorAs32Bits) => processor % (1 << 32),
            _ => processor,
        };
        let end = known.nest.processor_count() + usize::from(self.has(ProcessorOneTooGreat));
        let end = if self.has(ProcessorsOf64) { 64 } else { end };
        let next = self.next_iteration(known, processor, lent);
        if self.has(IdleBeforePlace) && next.is_none() {
            return Answer::refused(17);
        }
        if processor >= end {
            return Answer::refused(18);
        }
        let Some(rank) = next else {
            return Answer::refused(if self.has(WaitingBeforeIdle) { 15 } else { 17 });
        };
        if self.has(DoneBeforeSourcesAreTested) {
            put(lent.done, rank, 1);
        }
        let mut dependences = 0..known.nest.dependences.len();
        if !dependences.all(|number| self.is_there(known, rank, number, processor, lent)) {
            if self.has(ValueWrittenWhenWaiting) {
                put(lent.values, rank, 0);
            }
            return Answer::refused(15);
        }
        self.write(known, rank, lent)
    }

    /// The processor's iteration that is not done, least in step, then in rank.
    fn next_iteration(&self, known: &Known, processor: usize, lent: &Lent) -> Option<usize> {
        let count = known.count;
        let shortest = lent.steps.len().min(lent.processors.len()).min(lent.done.len());
        let end = if self.has(EntriesBehindSearched) { shortest } else { count.min(shortest) };
        let is_done = |rank: usize| self.is_done(lent, rank);
        let key = |rank: usize| match self.fault {
            Some(StepsCompared16Bits) => i64::from(at(lent.steps, rank) as u16),
            Some(StepsComparedSigned) => i64::from(at(lent.steps, rank) as i32),
            _ => i64::from(at(lent.steps, rank)),
        };
        let left =
            (0..end).filter(|&k| usize::from(at(lent.processors, k)) == processor && !is_done(k));
        match self.fault {
            Some(LaterRankAtEqualSteps) => left.rev().min_by_key(|&rank| key(rank)),
            Some(IdleWithIterationsLeft) if left.clone().count() == 1 && end > 1 => None,
            _ => left.min_by_key(|&rank| key(rank)),
        }
    }

    fn is_done(&self, lent: &Lent, rank: usize) -> bool {
        if self.has(DoneOnlyIfOne) {
            at(lent.done, rank) == 1
        } else {
            at(lent.done, rank) != 0
        }
    }

    fn is_there(&self, known: &Known, rank: usize, k: usize, p: usize, lent: &Lent) -> bool {
        if rank >= known.count {
            return true;
        }
        let Some(source) = known.source(rank, &known.nest.dependences[k]) else {
            return !self.has(WaitingAlthoughAllIsThere) || k == 0;
        };
        let delivered = at(lent.delivered, rank) >> k & 1 == 1;
        let on_same = usize::from(at(lent.processors, source)) == p;
        match self.fault {
            Some(UndeliveredMessageIgnored) if !on_same => true,
            Some(SourceOfMessageMustBeDone) if !on_same => delivered && at(lent.done, source) != 0,
            Some(SourceOnSameProcessorIgnored) if on_same => true,
            Some(OwnMessagesNeeded) => delivered,
            _ if on_same => self.is_done(lent, source),
            _ => delivered,
        }
    }

    /// Writes the value of an iteration and its done byte.
    fn write(&self, known: &Known, rank: usize, lent: &mut Lent) -> Answer {
        if self.has(FirstComputeFillsTheTable) {
            for other in 0..known.count {
                lent.values[other] = self.value(known, other, lent);
            }
        }
        let value = self.value(known, rank, lent);
        put(lent.values, rank, value);
        if self.has(NeighbourValueWritten) && rank + 1 < known.count {
            lent.values[rank + 1] = value;
        }
        put(lent.done, rank, if self.has(DoneByteOfTwo) { 2 } else { 1 });
        if self.has(EntryBehindWritten) {
            lent.values[known.count..].fill(value);
        }
        match self.fault {
            Some(MadeWithoutValue) => Answer { number: 0, made: [rank, 0] },
            Some(MadeWithoutRank) => Answer { number: 0, made: [0, value.into()] },
            _ => Answer { number: 0, made: [rank, value.into()] },
        }
    }

    fn value(&self, known: &Known, rank: usize, lent: &Lent) -> u16 {
        let nest = &known.nest;
        let mut sum = if self.has(RankLeftOutOfValue) { 0 } else { rank as i64 };
        if rank >= known.count {
            return sum as u16;
        }
        let mut outside = 0;
        for (number, (dependence, weight)) in nest.dependences.iter().zip(&nest.weights).enumerate()
        {
            let value = match known.source(rank, dependence) {
                None => {
                    outside += 1;
                    self.value_outside(&nest.boundary_values, number, outside - 1)
                }
                Some(source) if self.has(ValueOfUncomputedTaken) && at(lent.done, source) != 1 => 0,
                Some(source) => at(lent.values, source).into(),
            };
            sum = (sum + weight * value) % 65536;
        }
        sum as u16
    }

    /// The value of a source outside the nest that was reached by the dependence of the given
    /// number; so many of the iteration's sources were outside before it.
    fn value_outside(&self, values: &[i64], number: usize, before: usize) -> i64 {
        match self.fault {
            Some(BoundaryValueIgnored) => 0,
            Some(FirstBoundaryValueForAll) => values[0],
            Some(BoundaryValuesInTurn) => values[before],
            _ => values[number],
        }
    }

    fn deliver(&self, known: &Known, rank: usize, number: usize, lent: &mut Lent) -> Answer {
        let (rank, number) = match self.fault {
            Some(RankAs16Bits) => (rank % 65536, number),
            Some(RankAs32Bits) => (rank % (1 << 32), number),
            Some(DependenceModulo8) => (rank, number % 8),
            Some(DependenceModulo64) => (rank, number % 64),
            _ => (rank, number),
        };
        let rank_end = known.count + usize::from(self.has(RankOneTooGreat));
        let number_end =
            known.nest.dependences.len() + usize::from(self.has(DependenceOneTooGreat));
        if rank >= rank_end || number >= number_end {
            return Answer::refused(18);
        }
        if rank == known.count || number == known.nest.dependences.len() {
            return Answer::refused(16);
        }
        let source = known.source(rank, &known.nest.dependences[number]);
        if !self.may_deliver(rank, number, source, lent) {
            return Answer::refused(16);
        }
        self.mark(known, rank, number, source, lent);
        Answer { number: 0, made: [rank, number] }
    }

    fn may_deliver(&self, rank: usize, number: usize, source: Option<usize>, lent: &Lent) -> bool {
        let Some(source) = source else {
            return self.has(DeliveredAcrossBoundary);
        };
        let is_message = at(lent.processors, source) != at(lent.processors, rank);
        let is_delivered = at(lent.delivered, rank) >> number & 1 == 1;
        (is_message || self.has(DeliveredWithoutMessage))
            && (self.is_done(lent, source) || self.has(DeliveredBeforeSource))
            && (!is_delivered || self.has(DeliveredTwice))
    }

    fn mark(&self, known: &Known, rank: usize, k: usize, source: Option<usize>, lent: &mut Lent) {
        let own_bits = ((1_u32 << known.nest.dependences.len()) - 1) as u8;
        let place = if self.has(DeliveryMarksSource) { source.unwrap_or(rank) } else { rank };
        let byte = at(lent.delivered, place);
        let marked = match self.fault {
            Some(SecondBitSet) => byte | (3_u32 << k) as u8,
            Some(OtherBitsCleared) => 1 << k,
            Some(StrayBitsCleared) => (byte | 1 << k) & own_bits,
            _ => byte | 1 << k,
        };
        put(lent.delivered, place, marked);
    }
}

/// How far the time of each iteration is from the earliest.
fn times_from_first(nest: &LoopNest, plan: &Plan) -> Vec<i64> {
    let points = plan.iterations.points.iter();
    let times: Vec<i64> = points.map(|point| inner_product(&nest.time_vector, point)).collect();
    let first = *times.iter().min().expect("at least one iteration");
    times.iter().map(|time| time - first).collect()
}

/// The greatest number that divides all of a list; 1 if all are 0.
fn common_factor(numbers: &[i64]) -> i64 {
    let divisor = |divisor, &number| greatest_common_divisor(divisor, i128::from(number));
    numbers.iter().fold(0, divisor).max(1) as i64
}

impl Rules {
    /// The plan of an accepted nest, but for its steps.
    fn planned(&self, nest: &LoopNest) -> Plan {
        let mut plan = Plan::new(nest);
        match self.fault {
            Some(BitsDealtWrongly(number)) => {
                plan.mapping = dealt_by(nest, &plan, WRONG_DEALINGS[number].1);
            }
            Some(VectorsChosenWrongly(number)) => {
                (plan.partition, plan.mapping) = chosen_by(nest, &plan, WRONG_CHOICES[number].1);
            }
            _ => {}
        }
        plan
    }

    /// The step of each iteration.
    fn steps(&self, nest: &LoopNest, plan: &Plan) -> Vec<i64> {
        let times = times_from_first(nest, plan);
        match self.fault {
            Some(EmptyStepsNumbered) => times,
            Some(StepsDividedByCommonFactor) => {
                let factor = common_factor(&times);
                times.iter().map(|time| time / factor).collect()
            }
            _ => plan.partition.steps.clone(),
        }
    }
}

impl Entry for Rules {
    fn plan(&self, numbers: &Numbers, tables: Planned) -> u8 {
        let nest = Rules { fault: None }.nest_in(numbers);
        let plan = self.planned(&nest);
        for (rank, &step) in self.steps(&nest, &plan).iter().enumerate() {
            tables.steps[rank] = step as u32;
            tables.blocks[rank] = plan.partition.blocks[rank] as u16;
            tables.processors[rank] = plan.mapping.processors[rank] as u8;
            tables.values[rank] = plan.values[rank] as u16;
        }
        tables.counts[4] = plan.mapping.messages.len();
        0
    }

    fn make_move(&self, numbers: &Numbers, request: Request, mut lent: Lent) -> Answer {
        let nest = self.nest_in(numbers);
        let Request { kind, mut first, second } = request;
        if self.has(PlaceBeforeShortBuffer) && first == usize::MAX && nest.refusal().is_none() {
            return Answer::refused(18);
        }
        if self.has(KindBeforeShortBuffer)
            && ![COMPUTE, DELIVER].contains(&kind)
            && nest.refusal().is_none()
        {
            return Answer::refused(18);
        }
        if let Some(number) = self.refusal(&nest, &lent) {
            let made = if self.has(MadeKeptWhenRefused) { [first, second] } else { [0, 0] };
            return Answer { number, made };
        }
        let known = Known { count: nest.iteration_count() as usize, nest };
        if self.has(SecondNumberOfComputeRead) && kind == COMPUTE && second == usize::MAX {
            first = second;
        }
        match self.kind_taken(kind) {
            COMPUTE => self.compute(&known, first, &mut lent),
            DELIVER => self.deliver(&known, first, second, &mut lent),
            _ => Answer::refused(18),
        }
    }
}
