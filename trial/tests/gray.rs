//! The printed list of Gray codes, docs/GRAY.md, beside what the proved planner answers. No code is
//! worked out here.

use rowlock::{plan, read};

const PAGE: &str = include_str!("../../docs/GRAY.md");

/// A sheet of 64 blocks in one direction that has all six bits: iteration p is part p of it, so its
/// processor is that part's code.
const SHEET: &[u8] = include_bytes!("../../examples/gray.txt");

/// The page's table: part, code and binary of each entry, in the order in which columns are read.
fn printed(page: &str) -> Vec<Vec<&str>> {
    let table = page.lines().filter(|line| line.starts_with('|')).skip(2);
    let rows: Vec<Vec<&str>> =
        table.map(|row| row.trim_matches('|').split('|').map(str::trim).collect()).collect();
    let width = rows.first().map_or(0, Vec::len);
    let column = |at: usize| rows.iter().map(move |row| row[at..at + 3].to_vec());
    (0..width).step_by(3).flat_map(column).collect()
}

/// What the page has to print for these codes of parts 0, 1, ..
fn due(codes: &[u8]) -> Vec<[String; 3]> {
    let row =
        |(part, code): (usize, &u8)| [part.to_string(), code.to_string(), format!("{code:06b}")];
    codes.iter().enumerate().map(row).collect()
}

/// The processors of the sheet's 64 iterations.
fn answered() -> [u8; 64] {
    let nest = read(SHEET).expect("a sheet");
    let (mut steps, mut blocks, mut processors, mut values) = ([0; 64], [0; 64], [0; 64], [0; 64]);
    let counts = plan(&nest, &mut steps, &mut blocks, &mut processors, &mut values);
    let counts = counts.expect("an accepted nest");
    assert_eq!((counts.iterations, counts.blocks, counts.processors), (64, 64, 64));
    processors
}

#[test]
fn the_page_has_the_codes_that_the_planner_answers() {
    assert_eq!(printed(PAGE), due(&answered()));
}

/// The page with one text in place of another, which stands in it.
fn altered(from: &str, to: &str) -> String {
    assert!(PAGE.contains(from), "{from}");
    PAGE.replacen(from, to, 1)
}

#[test]
fn another_page_is_not_taken_for_it() {
    let codes = due(&answered());
    let last_row = PAGE.lines().rfind(|line| line.starts_with('|')).expect("a table");
    let pages = [
        // a code exchanged, one repeated, another digit, a digit short
        altered("| 2 | 3 | 000011 |", "| 2 | 2 | 000010 |"),
        altered("| 63 | 32 | 100000 |", "| 63 | 33 | 100001 |"),
        altered("| 2 | 3 | 000011 |", "| 2 | 3 | 000010 |"),
        altered("| 0 | 0 | 000000 |", "| 0 | 0 | 00000 |"),
        // another part, a row left out, one too many, no table
        altered("| 63 | 32 | 100000 |", "| 64 | 32 | 100000 |"),
        altered(&format!("{last_row}\n"), ""),
        altered(last_row, &format!("{last_row}\n{last_row}")),
        String::new(),
    ];
    for page in pages {
        assert_ne!(printed(&page), codes, "{page}");
    }
}
