//! Nests whose blocks, and the other blocks that each sends to, are worked out by hand (document
//! 02, U3), and the listing of a sheet of four loops (U11). Tests compare planners with them, and
//! no number here is a planner's.
//!
//! In all of them but `L2` and `FOUR` the time vector is (1,1) or (1,0). With (1,1) the projection
//! of (x,y) is y - x times (-1/2,1/2), with (1,0) it is y times (0,1). Below it is called by that
//! number, and a dependence is said to lead from number to number.

use crate::nest::LoopNest;

/// A nest with what is worked out of it. All lower limits are 0, all boundary values and weights 1.
#[derive(Clone, Copy, Debug)]
pub struct Worked {
    pub name: &'static str,
    pub upper: &'static [i64],
    pub time_vector: &'static [i64],
    pub dependences: &'static [&'static [i64]],
    /// β, the number of chosen vectors.
    pub beta: usize,
    /// 2m - β.
    pub bound: usize,
    /// The block of each iteration, in loop order.
    pub blocks: &'static [usize],
    /// For each block the other blocks that it sends to, in rising order.
    pub receivers: &'static [&'static [usize]],
}

impl Worked {
    /// The nest in the second planner's form.
    pub fn nest(&self) -> LoopNest {
        LoopNest {
            depth: self.upper.len() as i64,
            dependence_count: self.dependences.len() as i64,
            cube_dimension: 0,
            lower: vec![0; self.upper.len()],
            upper: self.upper.to_vec(),
            time_vector: self.time_vector.to_vec(),
            dependences: self.dependences.iter().map(|dependence| dependence.to_vec()).collect(),
            boundary_values: vec![1; self.dependences.len()],
            weights: vec![1; self.dependences.len()],
        }
    }
}

pub const ALL: &[Worked] = &[L2, NO_CHOSEN, P6, ONE, LEAVING, LEAVING_AND_REACHED, FOUR];

/// 000's loop L2. The projections of the dependences are g, a and -g - a, so (i,j,k) is projected
/// to u g + b a with u = j - k and b = i - k, in one class. r is 3, g is the grouping vector and a
/// the auxiliary one: β = 2 and the bound is 6 - 2 = 4. The block (q,b) has u = 3q, 3q + 1, 3q + 2.
///
/// A projected point is there if u, b and 0 are within 3 of each other, so u runs from -3 to 0 at
/// b = -3, to 1 at -2, to 2 at -1, to 3 at 0, and from -2 at 1, -1 at 2, 0 at 3, always to 3. Where
/// two such points are one dependence apart, so are two iterations. (0,1,0) leads from u to u + 1:
/// from (q,b) to itself and to (q + 1,b). (1,0,0) leads from b to b + 1, so to (q,b + 1). (0,0,1)
/// leads from u, b to u - 1, b - 1: to (q,b - 1), and from u = 3q to (q - 1,b - 1). That is four
/// blocks at most, and (0,0) has them all. Behind each block stand its q and b.
pub const L2: Worked = Worked {
    name: "loop L2",
    upper: &[3, 3, 3],
    time_vector: &[1, 1, 1],
    dependences: &[&[0, 1, 0], &[1, 0, 0], &[0, 0, 1]],
    beta: 2,
    bound: 4,
    blocks: &[
        0, 1, 2, 3, 0, 4, 2, 3, 0, 4, 5, 3, 6, 4, 5, 7, // i = 0
        8, 9, 1, 2, 8, 0, 1, 2, 8, 0, 4, 2, 10, 0, 4, 5, // i = 1
        11, 12, 9, 1, 11, 8, 9, 1, 11, 8, 0, 1, 13, 8, 0, 4, // i = 2
        14, 15, 12, 9, 14, 11, 12, 9, 14, 11, 8, 9, 16, 11, 8, 0, // i = 3
    ],
    receivers: &[
        &[1, 4, 6, 8],    // 0,0
        &[2, 4, 9],       // -1,-1
        &[1, 3, 5],       // -1,-2
        &[2, 7],          // -1,-3
        &[0, 2, 5],       // 0,-1
        &[3, 4, 7],       // 0,-2
        &[4, 10],         // 1,0
        &[5],             // 0,-3
        &[0, 9, 10, 11],  // 0,1
        &[0, 1, 12],      // -1,0
        &[0, 13],         // 1,1
        &[8, 12, 13, 14], // 0,2
        &[8, 9, 15],      // -1,1
        &[8, 16],         // 1,2
        &[11, 15, 16],    // 0,3
        &[11, 12],        // -1,2
        &[11],            // 1,3
    ],
};

/// The dependence has projection zero: β = 0, each column is a block, and the bound is 2 - 0 = 2.
/// Nothing leads out of a column.
pub const NO_CHOSEN: Worked = Worked {
    name: "no chosen vector",
    upper: &[3, 3],
    time_vector: &[1, 0],
    dependences: &[&[1, 0]],
    beta: 0,
    bound: 2,
    blocks: &[0, 1, 2, 3, 0, 1, 2, 3, 0, 1, 2, 3, 0, 1, 2, 3],
    receivers: &[&[], &[], &[], &[]],
};

/// Document 01's P6: (1,0) has projection zero, (1,1) has 1 and is the grouping vector, r is 1. So
/// β = 1, the bound is 4 - 1 = 3, and each column is a block. (1,0) leads from a column to itself,
/// (1,1) to the next one.
pub const P6: Worked = Worked {
    name: "P6",
    upper: &[3, 3],
    time_vector: &[1, 0],
    dependences: &[&[1, 0], &[1, 1]],
    beta: 1,
    bound: 3,
    blocks: &[0, 1, 2, 3, 0, 1, 2, 3, 0, 1, 2, 3, 0, 1, 2, 3],
    receivers: &[&[1], &[2], &[3], &[]],
};

/// One dependence, whose projection is 1 and the grouping vector, with r = 2: β = 1, and the bound
/// is 2 - 1 = 1. The blocks by first iteration are 0 and 1; 2 and 3; -2 and -1; -3. The dependence
/// leads from each number to the next, so from 1 to 2, from -1 to 0 and from -3 to -2.
pub const ONE: Worked = Worked {
    name: "one dependence",
    upper: &[3, 3],
    time_vector: &[1, 1],
    dependences: &[&[0, 1]],
    beta: 1,
    bound: 1,
    blocks: &[0, 0, 1, 1, 2, 0, 0, 1, 2, 2, 0, 0, 3, 2, 2, 0],
    receivers: &[&[1], &[], &[0], &[2]],
};

/// Document 01's P5: (0,3) has projection 3 and is the grouping vector, r is 2; (0,1) has 1, which
/// is no whole multiple of 3. So β = 1, the bound is 4 - 1 = 3, and there are three classes, with
/// seeds 0, 1 and 2. u of -3, 0, 3 is -1, 0, 1, and so on: the blocks by first iteration are 0 and
/// 3; 1; 2; -1; -2; -3.
///
/// (0,3) leads from column 0 to column 3 alone: from 0 to 3, which is the same block, -1 to 2, -2
/// to 1, -3 to 0. (0,1) leads from each number to the next, always into another class: from -3 to
/// -2, to -1, to 0, to 1, to 2, to 3.
pub const LEAVING: Worked = Worked {
    name: "P5",
    upper: &[3, 3],
    time_vector: &[1, 1],
    dependences: &[&[0, 3], &[0, 1]],
    beta: 1,
    bound: 3,
    blocks: &[0, 1, 2, 0, 3, 0, 1, 2, 4, 3, 0, 1, 5, 4, 3, 0],
    receivers: &[&[1], &[2], &[0], &[0, 2], &[1, 3], &[0, 4]],
};

/// P5 on one row of nine. The numbers are 0 to 8, the blocks 0 and 3; 1 and 4; 2 and 5; 6; 7; 8.
/// (0,3) leads from 3 to 6, 4 to 7, 5 to 8, and otherwise to the same block. (0,1) leads from each
/// number to the next: from 2 to 3 and from 5 to 6, so from the third block to two blocks of the
/// first class. With 8 these are three, as many as the bound allows.
pub const LEAVING_AND_REACHED: Worked = Worked {
    name: "P5 on one row",
    upper: &[0, 8],
    time_vector: &[1, 1],
    dependences: &[&[0, 3], &[0, 1]],
    beta: 1,
    bound: 3,
    blocks: &[0, 1, 2, 0, 1, 2, 3, 4, 5],
    receivers: &[&[1, 3], &[2, 4], &[0, 3, 5], &[4], &[5], &[]],
};

/// Four loops, each moved by one dependence, the innermost first (document 02, U11). s is 4, so the
/// projections of the dependences are g, a, a' and -g - a - a', and each becomes whole by 4: r is
/// 4, g is the grouping vector, a and a' are the auxiliary ones, and the fourth depends on all
/// three. So β = 3, the bound is 8 - 3 = 5, and (i,j,k,l) is projected to u g + b a + b' a' with u
/// = l - i, b = k - i and b' = j - i, in one class. The block (q,b,b') has u = 4q to 4q + 3.
///
/// At i = 0, u runs from 0 to 4: q is 0 0 0 0 1. At i = 1 it runs from -1 to 3: q is -1 0 0 0 0.
/// (0,0,0,1) leads to q + 1, from 3 to 4 and from -1 to 0 alone; (0,0,1,0) to b + 1; (0,1,0,0) to
/// b' + 1; (1,0,0,0) from i = 0 to i = 1, where u, b and b' are 1 less: to (q - 1,b - 1,b' - 1)
/// from l = 0 and l = 4, to (q,b - 1,b' - 1) from the others. So (0,0,0) sends to five others.
/// Behind each block stand its q, b and b'.
pub const FOUR: Worked = Worked {
    name: "four loops",
    upper: &[1, 1, 1, 4],
    time_vector: &[1, 1, 1, 1],
    dependences: &[&[0, 0, 0, 1], &[0, 0, 1, 0], &[0, 1, 0, 0], &[1, 0, 0, 0]],
    beta: 3,
    bound: 5,
    blocks: &[
        0, 0, 0, 0, 1, 2, 2, 2, 2, 3, // i = 0, j = 0
        4, 4, 4, 4, 5, 6, 6, 6, 6, 7, // i = 0, j = 1
        8, 9, 9, 9, 9, 10, 11, 11, 11, 11, // i = 1, j = 0
        12, 13, 13, 13, 13, 14, 0, 0, 0, 0, // i = 1, j = 1
    ],
    receivers: &[
        &[1, 2, 4, 8, 9], // 0,0,0
        &[3, 5, 9],       // 1,0,0
        &[3, 6, 10, 11],  // 0,1,0
        &[7, 11],         // 1,1,0
        &[5, 6, 12, 13],  // 0,0,1
        &[7, 13],         // 1,0,1
        &[0, 7, 14],      // 0,1,1
        &[0],             // 1,1,1
        &[9, 10, 12],     // -1,-1,-1
        &[11, 13],        // 0,-1,-1
        &[11, 14],        // -1,0,-1
        &[0],             // 0,0,-1
        &[13, 14],        // -1,-1,0
        &[0],             // 0,-1,0
        &[0],             // -1,0,0
    ],
};

/// The listing of examples/U11-four-loops.txt, line by line, and how it comes about.
///
/// Sixteen iterations (i,j,k,l), all indices 0 or 1, and a dependence for each loop, the innermost
/// first: (0,0,0,1), (0,0,1,0), (0,1,0,0), (1,0,0,0). The times are i + j + k + l, five of them,
/// and that is the step. s is 4, and a unit vector is projected to itself less a quarter of
/// (1,1,1,1): each r_i is 4, so r is 4, and the first dependence is the grouping vector. The second
/// and the third are auxiliary, and the fourth is projected to minus the sum of the other three. So
/// β is 3, u is l - i, the first b is k - i, the second is j - i, and there is one class. q is u /
/// 4 rounded down: 0, or -1 where u is -1. By rank, q and the two b, and the block by first
/// iteration:
///
/// ```text
///  0  0000   0  0  0  block 0      8  1000  -1 -1 -1  block 4
///  1  0001   0  0  0  block 0      9  1001   0 -1 -1  block 5
///  2  0010   0  1  0  block 1     10  1010  -1  0 -1  block 6
///  3  0011   0  1  0  block 1     11  1011   0  0 -1  block 7
///  4  0100   0  0  1  block 2     12  1100  -1 -1  0  block 8
///  5  0101   0  0  1  block 2     13  1101   0 -1  0  block 9
///  6  0110   0  1  1  block 3     14  1110  -1  0  0  block 10
///  7  0111   0  1  1  block 3     15  1111   0  0  0  block 0
/// ```
///
/// q runs from -1 to 0, each b from -1 to 1: the widths are 2, 3, 3 and 1. With c = 2, q takes a
/// bit and then the first b. The part of q is q + 1; of the parts (b + 1) * 2 / 3 only that of b =
/// 1 is 1. So the processor is 2(q + 1), and one more where the first b is 1: 0, 2 or 3.
///
/// Messages: along (0,0,0,1) where i is 1, since q is -1 at l = 0 and 0 at l = 1: four. Along
/// (0,0,1,0) where i is 0, since b is 1 at k = 1: four. None along (0,1,0,0). Along (1,0,0,0) from
/// 0 to 8 and 4 to 12 (2 to 0), 2 to 10 and 6 to 14 (3 to 0), 3 to 11 and 7 to 15 (3 to 2): six.
///
/// A value is the rank and its four sources, 1 for each outside. In rank order: 0 + 4 = 4,
/// 1 + 4 + 3 = 8, 2 + 4 + 3 = 9, 3 + 9 + 8 + 2 = 22, 4 + 4 + 3 = 11, 5 + 11 + 8 + 2 = 26,
/// 6 + 11 + 9 + 2 = 28, 7 + 28 + 26 + 22 + 1 = 84, 8 + 4 + 3 = 15, 9 + 15 + 8 + 2 = 34,
/// 10 + 15 + 9 + 2 = 36, 11 + 36 + 34 + 22 + 1 = 104, 12 + 15 + 11 + 2 = 40,
/// 13 + 40 + 34 + 26 + 1 = 114, 14 + 40 + 36 + 28 + 1 = 119, 15 + 119 + 114 + 104 + 84 = 436.
pub const FOUR_LISTED: [[i64; 5]; 17] = [
    [16, 5, 11, 3, 14],
    [0, 0, 0, 2, 4],
    [1, 1, 0, 2, 8],
    [2, 1, 1, 3, 9],
    [3, 2, 1, 3, 22],
    [4, 1, 2, 2, 11],
    [5, 2, 2, 2, 26],
    [6, 2, 3, 3, 28],
    [7, 3, 3, 3, 84],
    [8, 1, 4, 0, 15],
    [9, 2, 5, 2, 34],
    [10, 2, 6, 0, 36],
    [11, 3, 7, 2, 104],
    [12, 2, 8, 0, 40],
    [13, 3, 9, 2, 114],
    [14, 3, 10, 0, 119],
    [15, 4, 0, 2, 436],
];

/// The processors of its blocks with c = 3: the second b takes a bit too, so the processor is
/// 4(q + 1), with 2 more where the first b is 1 and 1 more where the second is. No direction takes
/// another bit, since 4 parts are more than a width of 3, and the class has a width of 1. So they
/// are the same with any larger c.
pub const FOUR_ON_EIGHT: [usize; 11] = [4, 6, 5, 7, 0, 4, 0, 4, 0, 4, 0];
