//! How the line from a source to the iteration that reads it runs.

use crate::grid::{Grid, Point};
use crate::svg::short;

/// A line from one square to another: straight, bent towards one or two points, or through more points
/// than that, straight from each to the next.
#[derive(Clone, Debug, PartialEq)]
pub struct Route {
    pub from: Point,
    pub bends: Vec<Point>,
    pub to: Point,
}

impl Route {
    /// The line from a source to a target. Inside a layer it is straight, unless other iterations
    /// stand exactly between the two; then it bows around them. From layer to layer it is an arch
    /// over the row, or a sweep from row to row; from band to band of layers it takes the lanes between
    /// them.
    pub fn new(grid: &Grid, source: usize, target: usize) -> Route {
        let (one, other) = (grid.place(source), grid.place(target));
        let (from, to) = (grid.centre(source), grid.centre(target));
        if one.layer == other.layer {
            let rows = one.row.abs_diff(other.row);
            let columns = one.column.abs_diff(other.column);
            return bow(grid, from, to, common_divisor(rows, columns) > 1);
        }
        if grid.band(one.layer) != grid.band(other.layer) {
            let lanes = [grid.lanes(one.layer), grid.lanes(other.layer)];
            return detour(grid, from, to, lanes, aside(grid, one.row));
        }
        if from.y == to.y {
            // Arches of one row rise to different heights, so that they can be told apart.
            let share = one.column as f64 / grid.extents[3] as f64;
            return arch(grid, from, to, share);
        }
        sweep(grid, from, to)
    }

    /// The line as the data of an SVG path.
    pub fn written(&self) -> String {
        let curve = ["L", "Q", "C"].get(self.bends.len()).unwrap_or(&"L");
        let points = self.bends.iter().chain([&self.to]);
        let points: Vec<String> = points.map(|&point| written_point(point)).collect();
        format!("M{} {curve}{}", written_point(self.from), points.join(" "))
    }
}

fn written_point(point: Point) -> String {
    format!("{} {}", short(point.x), short(point.y))
}

fn common_divisor(one: usize, other: usize) -> usize {
    if other == 0 {
        one
    } else {
        common_divisor(other, one % other)
    }
}

/// The reach of a bow, as a share of the distance between rows and columns: its middle then runs
/// between two rows or columns.
const BOW: f64 = 0.8;

/// A line between two squares of a layer; one that bows passes above the squares of a row, and on
/// the right of those of a column.
fn bow(grid: &Grid, from: Point, to: Point, bows: bool) -> Route {
    let middle = Point { x: (from.x + to.x) / 2.0, y: (from.y + to.y) / 2.0 };
    let (right, down) = (to.x - from.x, to.y - from.y);
    let length = (right * right + down * down).sqrt();
    let bend = Point {
        x: middle.x + BOW * grid.across * down / length,
        y: middle.y - BOW * grid.down * right / length,
    };
    if bows {
        let (from, to) = (outside(grid, from, bend), outside(grid, to, bend));
        return Route { from, bends: vec![bend], to };
    }
    Route { from: outside(grid, from, to), bends: Vec::new(), to: outside(grid, to, from) }
}

/// Where a line from the middle of a square towards a point leaves the square.
fn outside(grid: &Grid, centre: Point, towards: Point) -> Point {
    let (right, down) = (towards.x - centre.x, towards.y - centre.y);
    let length = (right * right + down * down).sqrt();
    let half = grid.side / 2.0;
    // The corners are round, so they are nearer than those of a square.
    let reach = (half * length / right.abs().max(down.abs())).min(1.25 * half) + clearance(grid);
    Point { x: centre.x + right / length * reach, y: centre.y + down / length * reach }
}

/// The room between a square and the lines that end at it.
fn clearance(grid: &Grid) -> f64 {
    grid.side / 16.0
}

/// A line from the top of one square to the top of another at the same height, in the room above
/// their row.
fn arch(grid: &Grid, from: Point, to: Point, share: f64) -> Route {
    let top = from.y - grid.side / 2.0 - clearance(grid);
    let beside = grid.side / 4.0;
    let from = Point { x: from.x + beside, y: top };
    let to = Point { x: to.x - beside, y: top };
    // A curve rises to three quarters of the height of its bends.
    let rise = (grid.down - grid.side) * (0.35 + 0.55 * share) / 0.75;
    // The slant at the ends leads the eye into the arrow's head.
    let slant = rise.min((to.x - from.x) / 3.0);
    let bends =
        vec![Point { x: from.x + slant, y: top - rise }, Point { x: to.x - slant, y: top - rise }];
    Route { from, bends, to }
}

/// A line from a square to one in a higher or lower row of another layer, upright at both ends.
fn sweep(grid: &Grid, from: Point, to: Point) -> Route {
    let downwards = if to.y > from.y { 1.0 } else { -1.0 };
    let edge = downwards * (grid.side / 2.0 + clearance(grid));
    let beside = grid.side / 4.0;
    let from = Point { x: from.x + beside, y: from.y + edge };
    let to = Point { x: to.x - beside, y: to.y - edge };
    let bend = downwards * (to.y - from.y).abs().max(grid.down - grid.side) / 2.0;
    let bends = vec![Point { x: from.x, y: from.y + bend }, Point { x: to.x, y: to.y - bend }];
    Route { from, bends, to }
}

/// How far from the middle of its lanes the line from a row runs. Where there is a fourth loop many
/// lines lead from band to band, and those of different rows can be told apart.
fn aside(grid: &Grid, row: usize) -> f64 {
    let share = (row as f64 + 0.5) / grid.extents[2] as f64 - 0.5;
    if grid.banded {
        share * 0.75 * (grid.across - grid.side)
    } else {
        0.0
    }
}

/// A line from a square down to one in a later band: between the columns to the lane below its layer,
/// along that to the lane on the right of the target's layer, and from there over the target's row.
fn detour(grid: &Grid, from: Point, to: Point, lanes: [Point; 2], aside: f64) -> Route {
    let edge = grid.side / 2.0 + clearance(grid);
    let beside = grid.side / 4.0;
    let (below, above) = (from.y + grid.down / 2.0, to.y - grid.down / 2.0);
    let start = Point { x: from.x + beside, y: from.y + edge };
    let end = Point { x: to.x + beside, y: to.y - edge };
    let between_columns = from.x + grid.across / 2.0 - aside;
    let [below_source, right_of_target] = [lanes[0].y + aside, lanes[1].x - aside];
    let bends = vec![
        Point { x: start.x, y: below },
        Point { x: between_columns, y: below },
        Point { x: between_columns, y: below_source },
        Point { x: right_of_target, y: below_source },
        Point { x: right_of_target, y: above },
        Point { x: end.x, y: above },
    ];
    Route { from: start, bends, to: end }
}
