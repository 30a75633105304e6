//! What is drawn: a nest, as its sheet says, with the plan that its listing gives.

use std::collections::HashSet;

use second::nest::{Iterations, LoopNest};
use second::text;

/// Why a sheet and a listing cannot be drawn, in words for the user.
pub type Complaint = String;

/// The numbers in each line of a listing.
const LINE_FIELDS: usize = 5;

/// What a listing says of one iteration.
#[derive(Clone, Copy, Debug, PartialEq, Eq)]
pub struct Entry {
    pub step: i64,
    pub block: i64,
    pub processor: i64,
    pub value: i64,
}

/// An iteration that reads a source: both ranks, and the number of the dependence between them.
#[derive(Clone, Copy, Debug, PartialEq, Eq)]
pub struct Link {
    pub source: usize,
    pub target: usize,
    pub dependence: usize,
}

/// A nest and its plan. Sources come from the sheet, all else from the listing: nothing is planned
/// here.
#[derive(Clone, Debug)]
pub struct Plan {
    pub name: String,
    pub nest: LoopNest,
    pub iterations: Iterations,
    /// Iterations, steps, blocks, processors that hold an iteration, messages.
    pub counts: [i64; LINE_FIELDS],
    pub entries: Vec<Entry>,
}

impl Plan {
    /// Reads a sheet and its listing, or says why they are no plan. Each of the five counts must
    /// fit the lines below it, so that the listing of another sheet is not drawn by mistake.
    pub fn read(name: &str, sheet: &[u8], listing: &[u8]) -> Result<Plan, Complaint> {
        let refused = |number| format!("the sheet is refused with number {number}");
        let nest = text::read(sheet).map_err(refused)?;
        let (counts, lines) = read_listing(listing)?;
        let iterations = Iterations::new(&nest);
        let entries = entries_in_order(&lines, iterations.count())?;
        let plan = Plan { name: name.to_string(), nest, iterations, counts, entries };
        plan.check_numbers()?;
        plan.check_counts()?;
        plan.check_blocks()?;
        Ok(plan)
    }

    /// Every iteration with every source that is an iteration too, in loop order of the iterations.
    pub fn links(&self) -> Vec<Link> {
        (0..self.iterations.count()).flat_map(|target| self.links_to(target)).collect()
    }

    fn links_to(&self, target: usize) -> Vec<Link> {
        let numbered = self.nest.dependences.iter().enumerate();
        let link = |(dependence, vector): (usize, &Vec<i64>)| {
            let source = self.iterations.source(target, vector)?;
            Some(Link { source, target, dependence })
        };
        numbered.filter_map(link).collect()
    }

    /// Whether a value goes from one processor to another along this link.
    pub fn is_message(&self, link: &Link) -> bool {
        self.entries[link.source].processor != self.entries[link.target].processor
    }

    /// The ranks of each block's iterations. None is empty.
    pub fn blocks(&self) -> Vec<Vec<usize>> {
        let mut blocks = vec![Vec::new(); self.counts[2] as usize];
        for (rank, entry) in self.entries.iter().enumerate() {
            blocks[entry.block as usize].push(rank);
        }
        blocks
    }

    /// Steps and blocks are among those that are counted, processors among those of the cube.
    fn check_numbers(&self) -> Result<(), Complaint> {
        let [_, steps, blocks, _, _] = self.counts;
        let processors = self.nest.processor_count() as i64;
        let fits = |entry: &Entry| {
            (0..steps).contains(&entry.step)
                && (0..blocks).contains(&entry.block)
                && (0..processors).contains(&entry.processor)
        };
        match self.entries.iter().position(|entry| !fits(entry)) {
            None => Ok(()),
            Some(rank) => Err(format!("rank {rank} has a step, block or processor out of range")),
        }
    }

    /// All iterations of a block are on one processor.
    fn check_blocks(&self) -> Result<(), Complaint> {
        let processor = |rank: usize| self.entries[rank].processor;
        let divided =
            |ranks: &Vec<usize>| ranks.iter().any(|&rank| processor(rank) != processor(ranks[0]));
        match self.blocks().iter().position(divided) {
            None => Ok(()),
            Some(block) => Err(format!("block {block} is on several processors")),
        }
    }

    /// The counts are those of the lines below: iterations, different steps, blocks and processors,
    /// and messages.
    fn check_counts(&self) -> Result<(), Complaint> {
        let different = |number: fn(&Entry) -> i64| {
            self.entries.iter().map(number).collect::<HashSet<i64>>().len() as i64
        };
        let messages = self.links().iter().filter(|link| self.is_message(link)).count() as i64;
        let found = [
            ("iterations", self.entries.len() as i64),
            ("steps", different(|entry| entry.step)),
            ("blocks", different(|entry| entry.block)),
            ("processors", different(|entry| entry.processor)),
            ("messages", messages),
        ];
        for ((name, number), count) in found.iter().zip(self.counts) {
            if *number != count {
                return Err(format!("the listing counts {count} {name}, and has {number}"));
            }
        }
        Ok(())
    }
}

/// The line of counts and the lines of iterations, as numbers.
fn read_listing(listing: &[u8]) -> Result<([i64; LINE_FIELDS], Vec<Vec<i64>>), Complaint> {
    let lines = text::split_lines(listing).ok_or("the listing's last line has no end")?;
    if let [line] = lines[..] {
        if let Some(number) = text::read_fields(line, 1) {
            return Err(format!("the listing is a refusal, number {}, and no plan", number[0]));
        }
    }
    let mut numbers = Vec::new();
    for (place, line) in lines.iter().enumerate() {
        let fields = text::read_fields(line, LINE_FIELDS);
        numbers.push(fields.ok_or_else(|| {
            format!("line {} of the listing is not {LINE_FIELDS} numbers in columns", place + 1)
        })?);
    }
    let counts = numbers.first().ok_or("the listing is empty")?;
    let counts = [counts[0], counts[1], counts[2], counts[3], counts[4]];
    Ok((counts, numbers.split_off(1)))
}

/// The iterations' entries: as many lines as the sheet has iterations, with the ranks in order.
fn entries_in_order(lines: &[Vec<i64>], count: usize) -> Result<Vec<Entry>, Complaint> {
    if lines.len() != count {
        let listed = lines.len();
        return Err(format!("the listing is of {listed} iterations, and the sheet of {count}"));
    }
    let in_order = |(rank, line): (usize, &Vec<i64>)| match line[0] == rank as i64 {
        true => Ok(Entry { step: line[1], block: line[2], processor: line[3], value: line[4] }),
        false => Err(format!("the listing has rank {} where rank {rank} belongs", line[0])),
    };
    lines.iter().enumerate().map(in_order).collect()
}
