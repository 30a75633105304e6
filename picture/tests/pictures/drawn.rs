//! What is drawn of plans of one, two and three loops, small and large, and what holds of the lines
//! of any plan.

use crate::xml::{self, Node};
use crate::{drawn, plan, second_plan, text, P2_LISTING, P2_SHEET};

const P1_SHEET: &str = include_str!("../../../examples/P1.txt");
const P4_SHEET: &str = include_str!("../../../examples/P4-cube-2.txt");

/// The squares of a picture, in the order of their ranks.
pub fn squares(picture: &Node) -> Vec<&Node> {
    let mut iterations = picture.classed("iteration");
    let rank = |node: &&Node| {
        let said = node.texts("title")[0];
        let said = said.strip_prefix("rank ").and_then(|said| said.split(',').next());
        said.and_then(|rank| rank.parse::<usize>().ok()).expect("a tooltip that starts with a rank")
    };
    iterations.sort_by_key(rank);
    iterations.iter().map(|node| node.tagged("rect")[0]).collect()
}

/// Left, top, right and bottom of a square.
pub fn sides(square: &Node) -> [f64; 4] {
    let (x, y) = (square.number("x"), square.number("y"));
    [x, y, x + square.number("width"), y + square.number("height")]
}

/// The points that a path's data names: its start, its bends, its end.
pub fn points(path: &Node) -> Vec<(f64, f64)> {
    let numbers: Vec<f64> = path
        .get("d")
        .split(|c: char| c.is_ascii_alphabetic() || c == ' ')
        .filter_map(|number| number.parse().ok())
        .collect();
    numbers.chunks(2).map(|pair| (pair[0], pair[1])).collect()
}

/// The point of a curve at a time from 0 to 1.
fn on_curve(points: &[(f64, f64)], time: f64) -> (f64, f64) {
    if let [point] = points {
        return *point;
    }
    let one = on_curve(&points[..points.len() - 1], time);
    let other = on_curve(&points[1..], time);
    (one.0 + time * (other.0 - one.0), one.1 + time * (other.1 - one.1))
}

/// A hundred points of a line: of a curve, or of a line that is straight from point to point.
fn along(line: &Node) -> Vec<(f64, f64)> {
    let points = points(line);
    let times = (0..=100).map(|time| f64::from(time) / 100.0);
    if points.len() <= 4 {
        return times.map(|time| on_curve(&points, time)).collect();
    }
    let times: Vec<f64> = times.collect();
    points.windows(2).flat_map(|pair| times.iter().map(|&time| on_curve(pair, time))).collect()
}

/// Whether a point is in the box of a text of the axes, with the usual widths of characters.
fn is_in_text(text: &Node, (x, y): (f64, f64)) -> bool {
    let size = if text.get("font-size").is_empty() { 12.0 } else { text.number("font-size") };
    let width = 0.62 * size * text.text.chars().count() as f64;
    let behind = match text.get("text-anchor") {
        "end" => 0.0,
        "start" => width,
        _ => width / 2.0,
    };
    let right = text.number("x") + behind;
    let base = text.number("y");
    right - width < x && x < right && base - size < y && y < base
}

/// Whether a point is in a square that is made larger, or smaller, by some room on all sides.
fn is_in(square: &Node, room: f64, (x, y): (f64, f64)) -> bool {
    let [left, top, right, bottom] = sides(square);
    left - room < x && x < right + room && top - room < y && y < bottom + room
}

/// Whether a point is beside a square: no more than 6 away, and not in it (its corners are round).
fn beside(square: &Node, point: (f64, f64)) -> bool {
    is_in(square, 6.0, point) && !is_in(square, -5.0, point)
}

/// Whether a line runs over a square, its own ends' squares included.
pub fn runs_over_a_square(picture: &Node, line: &Node) -> bool {
    let squares = squares(picture);
    let is_covered = |point| squares.iter().any(|square| is_in(square, -5.0, point));
    along(line).into_iter().any(is_covered)
}

/// The ranks of the squares that each line of a class leads from and to.
pub fn joined(picture: &Node, class: &str) -> Vec<(usize, usize)> {
    let squares = squares(picture);
    let rank_beside = |point| {
        let found: Vec<usize> =
            (0..squares.len()).filter(|&rank| beside(squares[rank], point)).collect();
        assert_eq!(found.len(), 1, "a line ends at {point:?}");
        found[0]
    };
    let ends = |line: &&Node| {
        let points = points(line);
        (rank_beside(points[0]), rank_beside(points[points.len() - 1]))
    };
    picture.classed(class)[0].tagged("path").iter().map(ends).collect()
}

/// What stands in front of each text of the legend: the colours of the blocks.
fn legend(picture: &Node) -> Vec<(&str, &str)> {
    let entries = &picture.classed("legend")[0].children;
    entries
        .iter()
        .map(|entry| (entry.texts("text")[0], entry.tagged("rect")[0].get("fill")))
        .collect()
}

#[test]
fn p2_has_six_iterations_in_the_colours_of_their_blocks() {
    let picture = drawn(&[plan("P2", P2_SHEET, P2_LISTING)]);
    assert_eq!(squares(&picture).len(), 6);
    let by_block: Vec<Vec<&str>> =
        picture.classed("block").iter().map(|block| block.texts("title")).collect();
    assert_eq!(
        by_block,
        [
            vec![
                "rank 0, index point (0, 0), step 0, block 0, processor 0, value 5",
                "rank 1, index point (0, 1), step 1, block 0, processor 0, value 14",
                "rank 4, index point (1, 1), step 2, block 0, processor 0, value 86",
                "rank 5, index point (1, 2), step 3, block 0, processor 0, value 276",
            ],
            vec!["rank 2, index point (0, 2), step 2, block 1, processor 1, value 33"],
            vec!["rank 3, index point (1, 0), step 1, block 2, processor 0, value 20"],
        ]
    );
    let colours: Vec<&str> =
        picture.classed("block").iter().map(|block| block.get("fill")).collect();
    assert_eq!(
        legend(&picture),
        [
            ("block 0: 4 iterations, processor 0", colours[0]),
            ("block 1: 1 iteration, processor 1", colours[1]),
            ("block 2: 1 iteration, processor 0", colours[2]),
        ]
    );
    assert!(colours[0] != colours[1] && colours[1] != colours[2] && colours[2] != colours[0]);
}

#[test]
fn p2_is_labelled_with_steps_blocks_and_processors() {
    let picture = drawn(&[plan("P2", P2_SHEET, P2_LISTING)]);
    let labels: Vec<Vec<&str>> =
        picture.classed("iteration").iter().map(|iteration| iteration.texts("text")).collect();
    assert_eq!(
        labels,
        [
            ["0", "b0 p0"],
            ["1", "b0 p0"],
            ["2", "b0 p0"],
            ["3", "b0 p0"],
            ["2", "b1 p1"],
            ["1", "b2 p0"],
        ]
    );
    let heading = picture.classed("heading")[0].texts("text");
    assert_eq!(
        heading,
        [
            "P2",
            "depth 2: i1 = 0..1, i2 = 0..2; time vector (1, 1); cube of dimension 1",
            "dependences (0, 1), (1, 0)",
            "6 iterations, 4 steps, 3 blocks, 2 processors, 2 messages",
        ]
    );
}

#[test]
fn p2_has_two_arrows_and_a_faint_line_for_every_other_dependence() {
    let picture = drawn(&[plan("P2", P2_SHEET, P2_LISTING)]);
    let messages = picture.classed("messages")[0];
    assert_eq!(
        messages.texts("title"),
        [
            "message from (0, 1) to (0, 2) along (0, 1)",
            "message from (0, 2) to (1, 2) along (1, 0)",
        ]
    );
    assert!(messages.tagged("path").iter().all(|path| path.get("marker-end") == "url(#head)"));
    assert_eq!(joined(&picture, "messages"), [(1, 2), (2, 5)]);
    assert_eq!(joined(&picture, "inner"), [(0, 1), (0, 3), (3, 4), (1, 4), (4, 5)]);
    assert!(picture.classed("inner")[0].all().iter().all(|path| path.get("marker-end").is_empty()));
}

#[test]
fn the_outermost_index_grows_downwards_and_the_innermost_to_the_right() {
    let picture = drawn(&[plan("P2", P2_SHEET, P2_LISTING)]);
    let sides: Vec<[f64; 4]> = squares(&picture).into_iter().map(sides).collect();
    let right_of = |one: usize, other: usize| {
        sides[one][0] > sides[other][2] && sides[one][1] == sides[other][1]
    };
    let below = |one: usize, other: usize| {
        sides[one][1] > sides[other][3] && sides[one][0] == sides[other][0]
    };
    assert!(right_of(1, 0) && right_of(2, 1) && right_of(4, 3) && right_of(5, 4));
    assert!(below(3, 0) && below(4, 1) && below(5, 2));
    let axes = picture.classed("axes")[0].texts("text");
    assert_eq!(axes, ["0", "1", "2", "0", "1", "i2 →", "i1 ↓"]);
}

#[test]
fn p1_as_document_01_has_it() {
    let picture = drawn(&[second_plan("P1", P1_SHEET)]);
    assert_eq!(squares(&picture).len(), 16);
    let said: Vec<&str> = legend(&picture).into_iter().map(|(text, _)| text).collect();
    assert_eq!(
        said,
        [
            "block 0: 7 iterations, processor 3",
            "block 1: 3 iterations, processor 2",
            "block 2: 5 iterations, processor 1",
            "block 3: 1 iteration, processor 0",
        ]
    );
    assert_eq!(joined(&picture, "messages").len(), 12);
    assert_eq!(joined(&picture, "inner").len(), 33 - 12);
}

#[test]
fn p4_has_a_layer_for_each_outermost_index() {
    let picture = drawn(&[second_plan("P4", P4_SHEET)]);
    let sides: Vec<[f64; 4]> = squares(&picture).into_iter().map(sides).collect();
    assert_eq!(sides.len(), 48);
    assert_eq!(picture.classed("block").len(), 12);
    let axes = picture.classed("axes")[0].texts("text");
    let titles: Vec<&&str> = axes.iter().filter(|text| text.starts_with("i1")).collect();
    assert_eq!(titles, [&"i1 = 0", &"i1 = 1", &"i1 = 2", &"i1 = 3"]);
    // Ranks 0, 12, 24 and 36 are the first of their layers, and 11 is the last of the first layer.
    for (first, next) in [(0, 12), (12, 24), (24, 36)] {
        assert!(sides[next][0] > sides[first + 11][2] && sides[next][1] == sides[first][1]);
    }
}

#[test]
fn one_loop_is_a_row_and_shows_what_the_listing_says() {
    // The listing is not the planner's: the picture must not know better.
    let sheet = text(&[&[1, 2, 1], &[-1, 2], &[1], &[1], &[2], &[1, 1, 1]]);
    let listing = text(&[
        &[4, 4, 3, 2, 4],
        &[0, 0, 0, 0, 2],
        &[1, 1, 1, 1, 4],
        &[2, 2, 1, 1, 8],
        &[3, 3, 2, 0, 15],
    ]);
    let picture = drawn(&[plan("row", &sheet, &listing)]);
    let tops: Vec<f64> = squares(&picture).into_iter().map(|square| square.number("y")).collect();
    assert!(tops.iter().all(|&top| top == tops[0]));
    assert_eq!(joined(&picture, "messages"), [(0, 1), (0, 2), (2, 3), (1, 3)]);
    assert_eq!(joined(&picture, "inner"), [(1, 2)]);
    let lines = picture.classed("messages")[0].tagged("path");
    assert!(lines.iter().all(|line| !runs_over_a_square(&picture, line)));
    assert_eq!(picture.classed("axes")[0].texts("text"), ["-1", "0", "1", "2", "i1 →"]);
}

#[test]
fn messages_between_layers_end_at_their_iterations() {
    let sheet = text(&[
        &[3, 2, 1],
        &[0, 1],
        &[0, 1],
        &[0, 1],
        &[1, 1, 0],
        &[1, 0, 0],
        &[1, 1, -1],
        &[1, 1, 1],
    ]);
    // Processor 0 has layer 0, processor 1 has layer 1.
    let mut lines: Vec<Vec<i64>> =
        (0..8).map(|rank| vec![rank, 0, rank / 4, rank / 4, 0]).collect();
    lines.insert(0, vec![8, 1, 2, 2, 5]);
    let lines: Vec<&[i64]> = lines.iter().map(|line| &line[..]).collect();
    let picture = drawn(&[plan("layers", &sheet, &text(&lines))]);
    assert_eq!(joined(&picture, "messages"), [(0, 4), (1, 5), (2, 6), (1, 6), (3, 7)]);
    assert_eq!(joined(&picture, "inner"), []);
    let lines = picture.classed("messages")[0].tagged("path");
    assert!(lines.iter().all(|line| !runs_over_a_square(&picture, line)));
}

#[test]
fn lines_of_the_examples_run_over_no_square() {
    for picture in [drawn(&[second_plan("P1", P1_SHEET)]), drawn(&[second_plan("P4", P4_SHEET)])] {
        for class in ["messages", "inner"] {
            let lines = picture.classed(class)[0].tagged("path");
            assert!(lines.iter().all(|line| !runs_over_a_square(&picture, line)));
        }
    }
}

#[test]
fn one_iteration_alone() {
    let sheet = text(&[&[1, 1, 0], &[0, 0], &[1], &[1], &[1, 1]]);
    let picture = drawn(&[plan(
        "P3",
        &sheet,
        "     1     1     1     1     0\n     0     0     0     0     1\n",
    )]);
    assert_eq!(squares(&picture).len(), 1);
    assert_eq!(joined(&picture, "messages"), []);
    assert_eq!(legend(&picture)[0].0, "block 0: 1 iteration, processor 0");
}

#[test]
fn many_iterations_are_drawn_without_labels() {
    for limits in [&[[0, 63]; 2][..], &[[0, 15]; 3], &[[0, 7]; 4]] {
        let depth = limits.len();
        let mut innermost = vec![0; depth];
        innermost[depth - 1] = 1;
        let ones = vec![1; depth];
        let mut lines = vec![vec![depth as i64, 1, 6]];
        lines.extend(limits.iter().map(|limits| limits.to_vec()));
        lines.extend([ones, innermost, vec![1, 1]]);
        let lines: Vec<&[i64]> = lines.iter().map(|line| &line[..]).collect();
        let picture = drawn(&[second_plan("large", &text(&lines))]);
        let iterations = picture.classed("iterations")[0];
        assert_eq!(iterations.tagged("rect").len(), 4096);
        assert_eq!(iterations.tagged("title").len(), 4096);
        assert_eq!(iterations.tagged("text").len(), 0);
        assert!(picture.number("width") < 2000.0 && picture.number("height") < 4000.0);
    }
}

/// A nest of these limits with dependences of one step in each loop.
pub fn with_unit_dependences(limits: &[[i64; 2]], cube: i64) -> String {
    let depth = limits.len();
    let mut lines = vec![vec![depth as i64, depth as i64, cube]];
    lines.extend(limits.iter().map(|limits| limits.to_vec()));
    lines.push(vec![1; depth]);
    lines.extend((0..depth).map(|k| (0..depth).map(|other| i64::from(k == other)).collect()));
    lines.push(vec![1; depth + 1]);
    let lines: Vec<&[i64]> = lines.iter().map(|line| &line[..]).collect();
    text(&lines)
}

#[test]
fn labels_stay_as_long_as_they_fit() {
    let labels = |limits: &[[i64; 2]]| {
        let picture = drawn(&[second_plan("labels", &with_unit_dependences(limits, 2))]);
        picture.classed("iterations")[0].tagged("text").len()
    };
    assert_eq!(labels(&[[0, 1], [0, 20]]), 2 * 42);
    assert_eq!(labels(&[[0, 20], [0, 1]]), 2 * 42);
    assert_eq!(labels(&[[0, 36]]), 2 * 37);
    assert_eq!(labels(&[[0, 37]]), 0);
    assert_eq!(labels(&[[0, 3], [0, 24], [0, 3]]), 2 * 400);
    assert_eq!(labels(&[[0, 3], [0, 25], [0, 3]]), 0);
    assert_eq!(labels(&[[0, 3], [0, 3], [0, 4], [0, 4]]), 2 * 400);
    assert_eq!(labels(&[[0, 3], [0, 3], [0, 4], [0, 5]]), 0);
}

#[test]
fn lines_from_band_to_band_cross_no_title_and_no_index() {
    let bands: [&[[i64; 2]]; 8] = [
        &[[0, 11], [0, 3], [0, 3]],
        &[[-7, 22], [0, 4], [0, 0]],
        &[[0, 63], [0, 7], [0, 7]],
        &[[0, 1]; 4],
        &[[-1000, -998], [-1000, -999], [-1000, -997], [-1000, -996]],
        &[[0, 1], [0, 8], [0, 1], [0, 2]],
        &[[0, 199], [0, 1], [0, 1], [0, 1]],
        &[[0, 1], [0, 7], [0, 7], [0, 7]],
    ];
    for limits in bands {
        let picture = drawn(&[second_plan("bands", &with_unit_dependences(limits, 3))]);
        let texts = picture.classed("axes")[0].tagged("text");
        let lines = picture.classed("messages")[0].tagged("path");
        let between: Vec<&&Node> = lines.iter().filter(|line| points(line).len() > 4).collect();
        assert!(!between.is_empty(), "{limits:?}");
        for line in between {
            let crossed = |point| texts.iter().any(|text| is_in_text(text, point));
            assert!(!along(line).into_iter().any(crossed), "{limits:?}: {}", line.get("d"));
        }
    }
}

#[test]
fn lines_from_band_to_band_end_at_their_iterations_and_run_over_no_other() {
    let bands: [&[[i64; 2]]; 3] = [
        &[[0, 11], [0, 3], [0, 3]],
        &[[0, 2], [0, 1], [0, 3], [0, 4]],
        &[[0, 1], [0, 8], [0, 1], [0, 2]],
    ];
    for limits in bands {
        let picture = drawn(&[second_plan("bands", &with_unit_dependences(limits, 3))]);
        let lines = picture.classed("messages")[0].tagged("path");
        assert_eq!(joined(&picture, "messages").len(), lines.len());
        for line in lines {
            assert!(!runs_over_a_square(&picture, line), "{limits:?}: {}", line.get("d"));
        }
    }
}

#[test]
fn plans_stand_one_below_the_other() {
    let p2 = plan("P2", P2_SHEET, P2_LISTING);
    let alone = drawn(std::slice::from_ref(&p2));
    let both = drawn(&[p2, second_plan("P4", P4_SHEET)]);
    let panels = both.classed("panel");
    assert_eq!(panels.len(), 2);
    assert_eq!(panels[0], alone.classed("panel")[0]);
    let top = |panel: &Node| {
        let place = panel.get("transform").trim_end_matches(')').split(' ').next_back();
        place.and_then(|down| down.parse::<f64>().ok()).expect("a place")
    };
    assert!(top(panels[0]) < top(panels[1]) && top(panels[1]) < both.number("height"));
    assert!(alone.number("height") < both.number("height"));
    let names: Vec<&str> = both.all().into_iter().map(|node| node.get("id")).collect();
    let names: Vec<&&str> = names.iter().filter(|name| !name.is_empty()).collect();
    assert_eq!(names, [&"title", &"desc", &"head"]);
}

#[test]
fn a_picture_needs_nothing_else() {
    let picture = drawn(&[second_plan("P4", P4_SHEET)]);
    assert_eq!(picture.tag, "svg");
    assert_eq!(
        (picture.children[0].tag.as_str(), picture.children[1].tag.as_str()),
        ("title", "desc")
    );
    for node in picture.all() {
        assert!(!["script", "style", "image", "use", "a"].contains(&node.tag.as_str()));
        for (name, value) in &node.attributes {
            assert!(name != "href" && !name.starts_with("on"));
            assert!(!value.contains("url(") || value == "url(#head)");
        }
    }
    let background = picture.tagged("rect")[0];
    assert_eq!((background.get("width"), background.get("fill")), ("100%", "#ffffff"));
}

#[test]
fn names_are_escaped() {
    let name = "a<b>&\"c\"";
    let picture = drawn(&[plan(name, P2_SHEET, P2_LISTING)]);
    assert_eq!(picture.classed("heading")[0].texts("text")[0], name);
}

#[test]
fn the_reader_of_these_tests_refuses_what_is_not_well_formed() {
    let wrong = [
        "",
        "<a>",
        "<a></b>",
        "<a><b></a></b>",
        "<a/><b/>",
        "<a x=1/>",
        "<a x=\"1\" x=\"2\"/>",
        "<a x=\"<\"/>",
        "<a>&</a>",
        "<a>&nbsp;</a>",
        "<a>\u{1}</a>",
    ];
    for text in wrong {
        assert!(xml::read(text).is_err(), "{text:?}");
    }
    let node = xml::read("<a x=\"1\"><b/>&lt;&amp;lt;</a>").expect("a well-formed text");
    assert_eq!((node.get("x"), node.text.as_str(), node.children.len()), ("1", "<&lt;", 1));
}
