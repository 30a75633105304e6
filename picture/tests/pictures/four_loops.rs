//! What is drawn of plans of four loops: a band for each outermost index, and in it a layer for
//! each index of the second loop.

use crate::drawn::{joined, points, runs_over_a_square, sides, squares, with_unit_dependences};
use crate::xml::Node;
use crate::{drawn, plan, second_plan, text};

/// The picture of the second planner's plan of a nest of these limits.
fn picture_of(limits: &[[i64; 2]; 4]) -> Node {
    drawn(&[second_plan("four", &with_unit_dependences(limits, 3))])
}

fn extents(limits: &[[i64; 2]; 4]) -> [usize; 4] {
    limits.map(|[lower, upper]| (upper - lower + 1) as usize)
}

/// Left, top, right and bottom of each square, by outermost index, layer, row and column.
struct Squares {
    extents: [usize; 4],
    sides: Vec<[f64; 4]>,
}

impl Squares {
    fn of(picture: &Node, limits: &[[i64; 2]; 4]) -> Squares {
        let sides: Vec<[f64; 4]> = squares(picture).into_iter().map(sides).collect();
        let extents = extents(limits);
        assert_eq!(sides.len(), extents.iter().product::<usize>());
        Squares { extents, sides }
    }

    fn at(&self, [outermost, layer, row, column]: [usize; 4]) -> [f64; 4] {
        let [_, layers, rows, columns] = self.extents;
        self.sides[((outermost * layers + layer) * rows + row) * columns + column]
    }

    /// Left, top, right and bottom of a layer: of its first square, and of its last one.
    fn layer(&self, outermost: usize, layer: usize) -> [f64; 4] {
        let [_, _, rows, columns] = self.extents;
        let [left, top, _, _] = self.at([outermost, layer, 0, 0]);
        let [_, _, right, bottom] = self.at([outermost, layer, rows - 1, columns - 1]);
        [left, top, right, bottom]
    }

    /// Stops unless in every layer the rows go down and the columns to the right, as far apart in
    /// each layer.
    fn assert_rows_and_columns(&self) {
        let [outermost_indices, layers, rows, columns] = self.extents;
        let across = self.at([0, 0, 0, 1])[0] - self.at([0, 0, 0, 0])[0];
        let down = self.at([0, 0, 1, 0])[1] - self.at([0, 0, 0, 0])[1];
        for (outermost, layer) in pairs(outermost_indices, layers) {
            let [left, top, _, _] = self.layer(outermost, layer);
            for (row, column) in pairs(rows, columns) {
                let [x, y, _, _] = self.at([outermost, layer, row, column]);
                let expected = (left + across * column as f64, top + down * row as f64);
                assert!((x - expected.0).abs() < 0.2 && (y - expected.1).abs() < 0.2);
            }
        }
    }
}

/// All pairs of two numbers below these.
fn pairs(firsts: usize, seconds: usize) -> impl Iterator<Item = (usize, usize)> {
    (0..firsts).flat_map(move |first| (0..seconds).map(move |second| (first, second)))
}

/// The titles of layers or of bands, with their places.
fn titles<'a>(picture: &'a Node, name: &str) -> Vec<(&'a str, f64, f64)> {
    let texts = picture.classed("axes")[0].tagged("text");
    let titles = texts.into_iter().filter(|text| text.text.starts_with(&format!("{name} = ")));
    titles.map(|text| (text.text.as_str(), text.number("x"), text.number("y"))).collect()
}

/// What the titles of layers or of bands say.
fn said<'a>(picture: &'a Node, name: &str) -> Vec<&'a str> {
    titles(picture, name).into_iter().map(|(said, _, _)| said).collect()
}

const THREE_BANDS: [[i64; 2]; 4] = [[-1, 1], [3, 4], [0, 3], [7, 11]];

/// Nine layers of an outermost index are too many for one band.
const LONG_BANDS: [[i64; 2]; 4] = [[0, 1], [0, 8], [0, 1], [0, 2]];

/// A hundred bands one below the other are too many.
const MANY_BANDS: [[i64; 2]; 4] = [[0, 99], [0, 1], [0, 1], [0, 1]];

#[test]
fn bands_stand_one_below_the_other_and_their_layers_side_by_side() {
    let squares = Squares::of(&picture_of(&THREE_BANDS), &THREE_BANDS);
    squares.assert_rows_and_columns();
    for outermost in 0..3 {
        let [first, second] = [squares.layer(outermost, 0), squares.layer(outermost, 1)];
        assert!(second[0] > first[2] && second[1] == first[1]);
        for layer in 0..2 {
            let [here, top] = [squares.layer(outermost, layer), squares.layer(0, layer)];
            assert_eq!(here[0], top[0]);
            assert!(outermost == 0 || here[1] > squares.layer(outermost - 1, layer)[3]);
        }
    }
}

#[test]
fn bands_and_layers_have_titles_above_their_squares() {
    let picture = picture_of(&THREE_BANDS);
    let squares = Squares::of(&picture, &THREE_BANDS);
    assert_eq!(said(&picture, "i1"), ["i1 = -1", "i1 = 0", "i1 = 1"]);
    assert_eq!(said(&picture, "i2"), ["i2 = 3", "i2 = 4"].repeat(3));
    let (bands, layers) = (titles(&picture, "i1"), titles(&picture, "i2"));
    for (outermost, layer) in pairs(3, 2) {
        let [left, top, right, _] = squares.layer(outermost, layer);
        let (_, x, y) = layers[2 * outermost + layer];
        let (_, band_x, band_y) = bands[outermost];
        assert!(x == (left + right) / 2.0 && y < top);
        assert!(band_y < y && band_x < squares.layer(outermost, 0)[0]);
        assert!(outermost == 0 || band_y > squares.layer(outermost - 1, layer)[3]);
    }
    // The names and indices of rows and columns, at the first layer of each band and at all layers.
    let axes = picture.classed("axes")[0].texts("text");
    let times = |said: &str| axes.iter().filter(|text| **text == said).count();
    assert_eq!((times("i3 ↓"), times("i4 →")), (3, 3));
    assert_eq!((times("11"), times("3")), (6, 6));
}

#[test]
fn tooltips_and_places_are_of_the_same_iteration() {
    let picture = picture_of(&THREE_BANDS);
    let told: Vec<&str> =
        picture.classed("iteration").iter().map(|node| node.texts("title")[0]).collect();
    for (rank, point) in [(0, "(-1, 3, 0, 7)"), (19, "(-1, 3, 3, 11)"), (20, "(-1, 4, 0, 7)")] {
        let expected = format!("rank {rank}, index point {point}, ");
        assert_eq!(told.iter().filter(|said| said.starts_with(&expected)).count(), 1);
    }
    let heading = picture.classed("heading")[0].texts("text");
    let nest = "depth 4: i1 = -1..1, i2 = 3..4, i3 = 0..3, i4 = 7..11; time vector (1, 1, 1, 1)";
    assert!(heading[1].starts_with(nest));
}

#[test]
fn an_outermost_index_begins_a_new_band_after_one_that_took_two() {
    let picture = picture_of(&LONG_BANDS);
    let squares = Squares::of(&picture, &LONG_BANDS);
    squares.assert_rows_and_columns();
    assert_eq!(said(&picture, "i1"), ["i1 = 0", "i1 = 0", "i1 = 1", "i1 = 1"]);
    let below = |one: [f64; 4], other: [f64; 4]| one[0] == other[0] && one[1] > other[3];
    let [first, next] = [squares.layer(0, 0), squares.layer(1, 0)];
    let wrapped = (0..9).find(|&layer| below(squares.layer(0, layer), first));
    let wrapped = squares.layer(0, wrapped.expect("a layer in a band below"));
    assert!(below(next, wrapped));
    let picture_width = picture.number("width");
    assert!((0..9).all(|layer| squares.layer(0, layer)[2] < picture_width));
}

#[test]
fn very_many_bands_stand_side_by_side() {
    let picture = picture_of(&MANY_BANDS);
    let squares = Squares::of(&picture, &MANY_BANDS);
    squares.assert_rows_and_columns();
    let [first, next] = [squares.layer(0, 1), squares.layer(1, 0)];
    assert!(next[0] > first[2] && next[1] == first[1]);
    let expected: Vec<String> = (0..100).map(|index| format!("i1 = {index}")).collect();
    assert_eq!(said(&picture, "i1"), expected);
    assert!(picture.number("width") < 2000.0 && picture.number("height") < 4000.0);
}

#[test]
fn no_two_squares_overlap() {
    for limits in [THREE_BANDS, LONG_BANDS, MANY_BANDS, [[0, 7]; 4]] {
        let picture = picture_of(&limits);
        let mut sides = Squares::of(&picture, &limits).sides;
        sides.sort_by(|one, other| one[0].total_cmp(&other[0]));
        for (place, one) in sides.iter().enumerate() {
            let beside = sides[place + 1..].iter().take_while(|other| other[0] < one[2]);
            for other in beside {
                assert!(other[1] >= one[3] || one[1] >= other[3], "{one:?} and {other:?}");
            }
        }
    }
}

/// Two bands, the first on processor 0 and the second on processor 1. Rank 0 is (0,0,0,0), and the
/// indices weigh 8, 4, 2 and 1. So (1,0,0,0) leads from each rank below 8 to that of 8 more,
/// (1,1,-1,0) from 2 to 12 and from 3 to 13, and (1,0,0,-1) from each odd rank to that of 7 more.
fn two_bands() -> Node {
    let sheet = text(&[
        &[4, 3, 1],
        &[0, 1],
        &[0, 1],
        &[0, 1],
        &[0, 1],
        &[2, 1, 1, 1],
        &[1, 0, 0, 0],
        &[1, 1, -1, 0],
        &[1, 0, 0, -1],
        &[1, 1, 1, 1],
    ]);
    let mut lines = vec![vec![16, 1, 2, 2, 14]];
    lines.extend((0..16).map(|rank| vec![rank, 0, rank / 8, rank / 8, 0]));
    let lines: Vec<&[i64]> = lines.iter().map(|line| &line[..]).collect();
    drawn(&[plan("two bands", &sheet, &text(&lines))])
}

#[test]
fn messages_between_bands_end_at_their_iterations() {
    let picture = two_bands();
    let mut found = joined(&picture, "messages");
    found.sort();
    let straight = (0..8).map(|rank| (rank, rank + 8));
    let back = [1, 3, 5, 7].map(|rank| (rank, rank + 7));
    let mut expected: Vec<(usize, usize)> =
        straight.chain([(2, 12), (3, 13)]).chain(back).collect();
    expected.sort();
    assert_eq!(found, expected);
    assert_eq!(joined(&picture, "inner"), []);
    let lines = picture.classed("messages")[0].tagged("path");
    assert!(lines.iter().all(|line| !runs_over_a_square(&picture, line)));
}

/// A line from the first layer of the upper band to the second one of the lower band goes down on
/// the right of that one, as one from the layer above it does.
#[test]
fn messages_between_bands_come_down_on_the_right_of_their_layer() {
    let picture = two_bands();
    let squares = Squares::of(&picture, &[[0, 1]; 4]);
    for from_to in [(2, 12), (3, 13), (4, 12), (5, 13)] {
        assert!(line(&picture, from_to)[4].0 > squares.layer(1, 1)[2], "{from_to:?}");
    }
}

/// The points of the message from one rank to another.
fn line(picture: &Node, from_to: (usize, usize)) -> Vec<(f64, f64)> {
    let place = joined(picture, "messages").iter().position(|ends| *ends == from_to);
    points(picture.classed("messages")[0].tagged("path")[place.expect("a line")])
}

/// The lines from rank 1 to 9 and from 3 to 11 start in one column, and so do their ends: they
/// differ by their rows, and run beside each other all the way.
#[test]
fn lines_from_different_rows_can_be_told_apart() {
    let picture = two_bands();
    let (upper, lower) = (line(&picture, (1, 9)), line(&picture, (3, 11)));
    assert_eq!((upper.len(), lower.len()), (8, 8));
    // Down between the columns, along the lane below the layer, down the lane beside the target's.
    for (place, is_upright) in [(3, true), (3, false), (4, true)] {
        let [one, other] = [upper[place], lower[place]];
        let distance = if is_upright { one.0 - other.0 } else { one.1 - other.1 };
        assert!(distance.abs() >= 3.0, "{one:?} and {other:?}");
    }
}
