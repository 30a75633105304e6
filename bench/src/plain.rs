//! A planner as one would write it in plain Rust for speed: machine integers, few passes over the
//! tables, nothing proved. It follows document 01, its source document 000, and document 02, U1 for
//! boundary values, U2 for steps and U11 for the fourth loop. It is compiled for N loops, N being 4
//! for nests of four and 3 for all others, which have loops of one iteration behind those that they
//! have: taken as nests of four they would take longer.

use std::array;
use std::collections::HashMap;
use std::ops::RangeInclusive;

use crate::nest::{Nest, Tables};

/// The number of loops that a nest of the greatest depth is taken to have, and the number for all
/// others.
pub const DEEPEST: usize = Nest::MAX_DEPTH;
pub const OTHERS: usize = DEEPEST - 1;

/// Whether an accepted nest is of the greatest depth.
pub fn is_deepest(nest: &Nest) -> bool {
    nest.depth as usize == DEEPEST
}

pub type Vector<const N: usize> = [i64; N];

/// How the class of a projected point is found.
#[derive(Clone, Copy, PartialEq, Eq)]
pub enum Lookup {
    /// It is compared with the seed of each class in turn, as the documents say.
    Search,
    /// Its coordinates modulo the lattice of the chosen vectors are looked up in a hash table.
    Hash,
}

#[inline(always)]
pub fn dot<const N: usize>(a: Vector<N>, b: Vector<N>) -> i64 {
    (0..N).map(|k| a[k] * b[k]).sum()
}

fn gcd(a: i64, b: i64) -> i64 {
    if b == 0 {
        a.abs()
    } else {
        gcd(b, a % b)
    }
}

/// The number of the first refusal, 2 to 13, or the number of iterations.
pub fn check(nest: &Nest) -> Result<usize, u8> {
    let shape = [
        (1, Nest::MAX_DEPTH as i64, nest.depth),
        (1, Nest::MAX_DEPENDENCES as i64, nest.count),
        (0, 6, nest.cube),
    ];
    if let Some(k) = shape.iter().position(|(low, high, x)| !(low..=high).contains(&x)) {
        return Err(2 + k as u8);
    }
    let n = nest.depth as usize;
    let m = nest.count as usize;
    let span = -1000..=1000;
    if (0..n).any(|k| {
        !span.contains(&nest.lower[k])
            || !span.contains(&nest.upper[k])
            || nest.lower[k] > nest.upper[k]
    }) {
        return Err(5);
    }
    let iterations: i64 = (0..n).map(|k| nest.upper[k] - nest.lower[k] + 1).product();
    if iterations > 4096 {
        return Err(6);
    }
    check_vectors(nest, n, m)?;
    if nest.boundaries[..m].iter().any(|value| !(0..=65535).contains(value))
        || nest.weights[..m].iter().any(|w| !(0..=255).contains(w))
    {
        return Err(13);
    }
    Ok(iterations as usize)
}

/// The refusals 7 to 11, of n loops and m dependences.
fn check_vectors(nest: &Nest, n: usize, m: usize) -> Result<(), u8> {
    let span = -16..=16;
    let time = &nest.time[..n];
    if time.iter().any(|x| !span.contains(x)) {
        return Err(7);
    }
    let dependence = |i: usize| &nest.dependences[i * Nest::MAX_DEPTH..][..n];
    if (0..m).any(|i| dependence(i).iter().any(|x| !span.contains(x))) {
        return Err(8);
    }
    if (0..m).any(|i| dependence(i).iter().find(|x| **x != 0).is_none_or(|x| *x < 0)) {
        return Err(9);
    }
    if (0..m).any(|j| (0..j).any(|i| dependence(i) == dependence(j))) {
        return Err(10);
    }
    if (0..m).any(|i| dependence(i).iter().zip(time).map(|(a, b)| a * b).sum::<i64>() < 1) {
        return Err(11);
    }
    Ok(())
}

/// An accepted nest with N loops.
pub struct Loops<const N: usize> {
    lower: Vector<N>,
    upper: Vector<N>,
    /// How much the rank grows with each index.
    pub stride: Vector<N>,
    time: Vector<N>,
    pub dependences: Vec<Vector<N>>,
}

impl<const N: usize> Loops<N> {
    pub fn new(nest: &Nest) -> Loops<N> {
        let n = nest.depth as usize;
        let first = |xs: &[i64]| {
            let mut v = [0; N];
            v[..n].copy_from_slice(&xs[..n]);
            v
        };
        let lower = first(&nest.lower);
        let upper = first(&nest.upper);
        let mut stride = [1; N];
        for k in (1..N).rev() {
            stride[k - 1] = stride[k] * (upper[k] - lower[k] + 1);
        }
        let dependences = nest.dependences.chunks(Nest::MAX_DEPTH).take(nest.count as usize);
        Loops {
            lower,
            upper,
            stride,
            time: first(&nest.time),
            dependences: dependences.map(first).collect(),
        }
    }

    /// The indices of the loop at a place among so many as there are at most. Where N is less, the
    /// first places have a loop of one index.
    #[inline(always)]
    fn indices(&self, place: usize) -> RangeInclusive<i64> {
        match (place + N).checked_sub(DEEPEST) {
            Some(k) => self.lower[k]..=self.upper[k],
            None => 0..=0,
        }
    }

    /// Calls f with each rank and index point, in loop order.
    #[inline(always)]
    fn each(&self, mut f: impl FnMut(usize, Vector<N>)) {
        let mut rank = 0;
        for a in self.indices(0) {
            for b in self.indices(1) {
                for c in self.indices(2) {
                    for d in self.indices(3) {
                        let point: Vector<DEEPEST> = [a, b, c, d];
                        f(rank, array::from_fn(|k| point[DEEPEST - N + k]));
                        rank += 1;
                    }
                }
            }
        }
    }

    /// The index point of a rank.
    #[inline(always)]
    pub fn point(&self, rank: usize) -> Vector<N> {
        let mut left = rank as i64;
        array::from_fn(|k| {
            let index = self.lower[k] + left / self.stride[k];
            left %= self.stride[k];
            index
        })
    }

    /// The rank of the point j - d, where j has this rank, if it is an iteration; `back` is d's
    /// product with the strides.
    #[inline(always)]
    pub fn source(&self, rank: usize, j: Vector<N>, d: Vector<N>, back: i64) -> Option<usize> {
        let inside = |k: usize| (self.lower[k]..=self.upper[k]).contains(&(j[k] - d[k]));
        if (0..N).all(inside) {
            Some((rank as i64 - back) as usize)
        } else {
            None
        }
    }

    /// The values of the sequential loop.
    fn fill(&self, nest: &Nest, values: &mut [u16]) {
        let sources: Vec<(Vector<N>, i64, u32, u32)> = self
            .dependences
            .iter()
            .zip(nest.boundaries.iter().zip(&nest.weights))
            .map(|(d, (b, w))| (*d, dot(*d, self.stride), *b as u32, *w as u32))
            .collect();
        self.each(|rank, j| {
            let mut sum = rank as u32;
            for (d, back, boundary, weight) in &sources {
                let value = self
                    .source(rank, j, *d, *back)
                    .map_or(*boundary, |source| values[source] as u32);
                sum += weight * value;
            }
            values[rank] = sum as u16;
        });
    }

    /// The steps, and how many there are. Each value of the time between the least and the greatest
    /// gets a flag if an iteration has it; counted up, the flags before it are its step.
    fn steps(&self, steps: &mut [u32]) -> usize {
        let end = |k: usize, least: bool| {
            let (a, b) = (self.time[k] * self.lower[k], self.time[k] * self.upper[k]);
            if least {
                a.min(b)
            } else {
                a.max(b)
            }
        };
        let least: i64 = (0..N).map(|k| end(k, true)).sum();
        let greatest: i64 = (0..N).map(|k| end(k, false)).sum();
        let mut places = vec![0; (greatest - least) as usize + 1];
        self.each(|rank, j| {
            let offset = dot(self.time, j) - least;
            steps[rank] = offset as u32;
            places[offset as usize] = 1;
        });
        let mut count = 0;
        for place in &mut places {
            let flag = *place;
            *place = count;
            count += flag;
        }
        for step in steps {
            *step = places[*step as usize];
        }
        count as usize
    }

    /// r_i: the smallest positive number by which the projection of d becomes whole.
    fn multiplier(&self, d: Vector<N>) -> i64 {
        let s = dot(self.time, self.time);
        let t = dot(self.time, d);
        s / self.time.iter().fold(s, |g, x| gcd(g, t * x))
    }

    /// The shortest way along a projection line that leads to a later iteration.
    fn line(&self) -> Vector<N> {
        let divisor = self.time.iter().fold(0, |g, x| gcd(g, *x));
        let line = self.time.map(|x| x / divisor);
        if line < [0; N] {
            line.map(|x| -x)
        } else {
            line
        }
    }

    /// How many messages there are.
    fn messages(&self, processors: &[u8]) -> usize {
        let mut number = 0;
        let sources: Vec<(Vector<N>, i64)> =
            self.dependences.iter().map(|d| (*d, dot(*d, self.stride))).collect();
        self.each(|rank, j| {
            for (d, back) in &sources {
                if let Some(source) = self.source(rank, j, *d, *back) {
                    number += (processors[source] != processors[rank]) as usize;
                }
            }
        });
        number
    }
}

/// (q, b .., class): the group that makes a block.
type Group<const N: usize> = Vector<N>;

/// The time vector and the chosen vectors, as what gives the coordinates of a point along them,
/// with N normals. The first one is the time vector's own, the next ones are the chosen vectors' in
/// order, and the others are no vector's. Each but the first is orthogonal to all these vectors but
/// its own. So a point's product with a normal, divided by the determinant, is its coordinate along
/// the normal's own vector; and points differ by a combination of the vectors only if their
/// products with the other normals are equal. The first normal serves for the choice alone: a
/// projection has no part along the time vector.
struct Frame<const N: usize> {
    group_size: i64,
    normals: [Vector<N>; N],
    /// How many normals have a vector of their own.
    owned: usize,
    /// The product of each of these with its own vector.
    determinant: i64,
}

impl<const N: usize> Frame<N> {
    fn new(loops: &Loops<N>) -> Frame<N> {
        let multipliers: Vec<i64> =
            loops.dependences.iter().map(|d| loops.multiplier(*d)).collect();
        let group_size = *multipliers.iter().max().expect("a nest has a dependence");
        let units = array::from_fn(|k| array::from_fn(|c| (c == k) as i64));
        let mut frame = Frame { group_size, normals: units, owned: 0, determinant: 1 };
        frame.extend(loops.time);
        let grouping = (0..multipliers.len()).find(|i| {
            multipliers[*i] == group_size && frame.free_normal(loops.dependences[*i]).is_some()
        });
        if let Some(i) = grouping {
            frame.extend(loops.dependences[i]);
        }
        for d in &loops.dependences {
            frame.extend(*d);
        }
        frame
    }

    /// A normal without a vector of its own that is not orthogonal to v. There is none exactly if v
    /// depends on the vectors that are there.
    fn free_normal(&self, v: Vector<N>) -> Option<usize> {
        (self.owned..N).find(|k| dot(self.normals[*k], v) != 0)
    }

    /// Takes v to the vectors if it is independent of them: one of the free normals becomes its
    /// own, and of that one so much is added to each other normal that it is orthogonal to v. The
    /// numbers stay small, since the division leaves no rest: they are minors of the matrix of the
    /// vectors (Bareiss).
    fn extend(&mut self, v: Vector<N>) {
        let Some(free) = self.free_normal(v) else { return };
        self.normals.swap(self.owned, free);
        let own = self.normals[self.owned];
        let product = dot(own, v);
        for k in (1..N).filter(|k| *k != self.owned) {
            let other = dot(self.normals[k], v);
            self.normals[k] = array::from_fn(|c| {
                (product * self.normals[k][c] - other * own[c]) / self.determinant
            });
        }
        self.owned += 1;
        self.determinant = product;
    }

    /// How many vectors are chosen, grouping vector included.
    fn chosen(&self) -> usize {
        self.owned - 1
    }

    /// The products of a point with all normals but the first, for which 0 stands.
    #[inline(always)]
    fn place(&self, j: Vector<N>) -> Vector<N> {
        array::from_fn(|k| if k == 0 { 0 } else { dot(self.normals[k], j) })
    }

    /// Whether two places are in one class.
    #[inline(always)]
    fn in_one_class(&self, a: Vector<N>, b: Vector<N>) -> bool {
        (1..N).all(|k| {
            if k < self.owned {
                (a[k] - b[k]) % self.determinant == 0
            } else {
                a[k] == b[k]
            }
        })
    }

    /// What all places of a class have in common.
    #[inline(always)]
    fn residue(&self, a: Vector<N>) -> Vector<N> {
        array::from_fn(|k| if k < self.owned { a[k].rem_euclid(self.determinant) } else { a[k] })
    }

    /// The group of a place, of whose class the seed is given.
    #[inline(always)]
    fn group(&self, place: Vector<N>, seed: Vector<N>, class: usize) -> Group<N> {
        let mut group: Group<N> = array::from_fn(|k| match k + 1 {
            next if next < self.owned => (place[next] - seed[next]) / self.determinant,
            _ => 0,
        });
        group[0] = group[0].div_euclid(self.group_size);
        group[N - 1] = class as i64;
        group
    }
}

/// The blocks of all iterations into the table; answers the group of each block.
fn blocks<const N: usize>(loops: &Loops<N>, lookup: Lookup, blocks: &mut [u16]) -> Vec<Group<N>> {
    let frame = Frame::new(loops);
    let line = loops.line();
    let back = dot(line, loops.stride);
    let mut seeds: Vec<Vector<N>> = Vec::new();
    let mut classes: HashMap<Vector<N>, usize> = HashMap::new();
    let mut groups: Vec<Group<N>> = Vec::new();
    let mut numbers: HashMap<Group<N>, u16> = HashMap::new();
    loops.each(|rank, j| {
        if let Some(earlier) = loops.source(rank, j, line, back) {
            blocks[rank] = blocks[earlier];
            return;
        }
        let place = frame.place(j);
        let class = match lookup {
            Lookup::Search => seeds
                .iter()
                .position(|seed| frame.in_one_class(*seed, place))
                .unwrap_or(seeds.len()),
            Lookup::Hash => *classes.entry(frame.residue(place)).or_insert(seeds.len()),
        };
        if class == seeds.len() {
            seeds.push(place);
        }
        let group = frame.group(place, seeds[class], class);
        blocks[rank] = *numbers.entry(group).or_insert_with(|| {
            groups.push(group);
            (groups.len() - 1) as u16
        });
    });
    groups
}

/// The processor of each block.
fn processors<const N: usize>(groups: &[Group<N>], cube: i64) -> Vec<u8> {
    let mut least = groups[0];
    let mut greatest = groups[0];
    for group in groups {
        for k in 0..N {
            least[k] = least[k].min(group[k]);
            greatest[k] = greatest[k].max(group[k]);
        }
    }
    let width: Vector<N> = array::from_fn(|k| greatest[k] - least[k] + 1);
    let mut bits = [0; N];
    let mut turn = 0;
    for _ in 0..cube {
        let Some(k) = (turn..turn + N).map(|k| k % N).find(|k| 1 << (bits[*k] + 1) <= width[*k])
        else {
            break;
        };
        bits[k] += 1;
        turn = k + 1;
    }
    let code = |group: &Group<N>, k: usize| {
        let part = ((group[k] - least[k]) << bits[k]) / width[k];
        part ^ (part >> 1)
    };
    let join = |group: &Group<N>| (0..N).fold(0, |all, k| all << bits[k] | code(group, k)) as u8;
    groups.iter().map(join).collect()
}

/// The values of the sequential loop; answers 0 or the number of a refusal.
pub fn fill(nest: &Nest, values: &mut [u16]) -> u8 {
    match check(nest) {
        Err(refusal) => return refusal,
        Ok(n) if values.len() < n => return 14,
        Ok(_) if is_deepest(nest) => Loops::<DEEPEST>::new(nest).fill(nest, values),
        Ok(_) => Loops::<OTHERS>::new(nest).fill(nest, values),
    }
    0
}

/// To how many other blocks a block may send; answers 0 or the number of a refusal.
pub fn most_receivers(nest: &Nest, most: &mut usize) -> u8 {
    *most = 0;
    let chosen = match check(nest) {
        Err(refusal) => return refusal,
        Ok(_) if is_deepest(nest) => Frame::<DEEPEST>::new(&Loops::new(nest)).chosen(),
        Ok(_) => Frame::<OTHERS>::new(&Loops::new(nest)).chosen(),
    };
    *most = 2 * nest.count as usize - chosen;
    0
}

/// The plan of a nest; answers 0 or the number of a refusal.
pub fn plan(nest: &Nest, tables: &mut Tables, lookup: Lookup) -> u8 {
    tables.counts = [0; 5];
    let n = match check(nest) {
        Err(refusal) => return refusal,
        Ok(n) => n,
    };
    if tables.steps.len() < n
        || tables.blocks.len() < n
        || tables.processors.len() < n
        || tables.values.len() < n
    {
        return 14;
    }
    if is_deepest(nest) {
        plan_loops(&Loops::<DEEPEST>::new(nest), nest, n, tables, lookup);
    } else {
        plan_loops(&Loops::<OTHERS>::new(nest), nest, n, tables, lookup);
    }
    0
}

/// The plan of an accepted nest of n iterations, in tables that have room for it.
fn plan_loops<const N: usize>(
    loops: &Loops<N>,
    nest: &Nest,
    n: usize,
    tables: &mut Tables,
    lookup: Lookup,
) {
    let steps = loops.steps(&mut tables.steps[..n]);
    let groups = blocks(loops, lookup, &mut tables.blocks);
    let of_blocks = processors(&groups, nest.cube);
    let mut seen = [false; 64];
    for k in 0..n {
        let processor = of_blocks[tables.blocks[k] as usize];
        tables.processors[k] = processor;
        seen[processor as usize] = true;
    }
    let held = seen.iter().filter(|x| **x).count();
    let messages = loops.messages(&tables.processors);
    loops.fill(nest, &mut tables.values);
    tables.counts = [n, steps, groups.len(), held, messages];
}
