//! Sheets and listings that are no plan: each is refused, and the user is told why.

use picture::plan::Plan;

use crate::{text, P2_LISTING, P2_SHEET};

/// What is said of a sheet and a listing that are refused.
fn complaint(sheet: &str, listing: &str) -> String {
    Plan::read("refused", sheet.as_bytes(), listing.as_bytes()).expect_err("a refusal")
}

/// P2's listing with one text in the place of another, which is there.
fn p2_with(old: &str, new: &str) -> String {
    assert_eq!(P2_LISTING.matches(old).count(), 1);
    P2_LISTING.replace(old, new)
}

#[test]
fn a_sheet_that_is_refused() {
    let malformed = P2_SHEET.replace("     2     2     1\n", "     2     2    1\n");
    assert_eq!(complaint(&malformed, P2_LISTING), "the sheet is refused with number 1");
    let backward = text(&[&[2, 1, 0], &[0, 3], &[0, 3], &[1, 1], &[-1, 2], &[1, 1]]);
    assert_eq!(complaint(&backward, "     9\n"), "the sheet is refused with number 9");
}

#[test]
fn a_listing_that_is_a_refusal() {
    let said = "the listing is a refusal, number 11, and no plan";
    assert_eq!(complaint(P2_SHEET, "    11\n"), said);
}

#[test]
fn a_listing_of_another_length() {
    let short = p2_with("     5     3     0     0   276\n", "");
    let said = "the listing is of 5 iterations, and the sheet of 6";
    assert_eq!(complaint(P2_SHEET, &short), said);
    let long = P2_LISTING.to_string() + "     6     3     0     0   276\n";
    let said = "the listing is of 7 iterations, and the sheet of 6";
    assert_eq!(complaint(P2_SHEET, &long), said);
    assert_eq!(complaint(P2_SHEET, ""), "the listing is empty");
}

#[test]
fn a_listing_with_ranks_out_of_order() {
    let listing = p2_with("     1     1     0     0    14\n", "     2     1     0     0    14\n");
    assert_eq!(complaint(P2_SHEET, &listing), "the listing has rank 2 where rank 1 belongs");
}

#[test]
fn a_listing_out_of_columns() {
    let unended = P2_LISTING.trim_end();
    assert_eq!(complaint(P2_SHEET, unended), "the listing's last line has no end");
    let narrow = p2_with("    86\n", "   86\n");
    let said = "line 6 of the listing is not 5 numbers in columns";
    assert_eq!(complaint(P2_SHEET, &narrow), said);
    let few = p2_with("     4     3     2     2\n", "     4     3     2\n");
    assert!(complaint(P2_SHEET, &few).starts_with("line 1 of the listing"));
}

#[test]
fn a_listing_whose_counts_are_not_its_own() {
    let counts = "     6     4     3     2     2\n";
    let wrong = [
        ("     7     4     3     2     2\n", "the listing counts 7 iterations, and has 6"),
        ("     6     5     3     2     2\n", "the listing counts 5 steps, and has 4"),
        ("     6     4     4     2     2\n", "the listing counts 4 blocks, and has 3"),
        ("     6     4     3     1     2\n", "the listing counts 1 processors, and has 2"),
        ("     6     4     3     2     3\n", "the listing counts 3 messages, and has 2"),
    ];
    for (line, said) in wrong {
        assert_eq!(complaint(P2_SHEET, &p2_with(counts, line)), said);
    }
}

#[test]
fn a_listing_with_a_step_that_no_iteration_has() {
    // Ranks 2 and 4 at step 3: then steps 0, 1 and 3 are there, and 2 is not.
    let listing = P2_LISTING
        .replace("     2     2     1     1    33\n", "     2     3     1     1    33\n")
        .replace("     4     2     0     0    86\n", "     4     3     0     0    86\n");
    assert_eq!(complaint(P2_SHEET, &listing), "the listing counts 4 steps, and has 3");
}

#[test]
fn a_listing_with_numbers_that_are_not_there() {
    let line = "     2     2     1     1    33\n";
    let wrong = [
        "     2    -1     1     1    33\n",
        "     2     4     1     1    33\n",
        "     2     2    -1     1    33\n",
        "     2     2     3     1    33\n",
        "     2     2     1    -1    33\n",
        "     2     2     1     2    33\n",
    ];
    let said = "rank 2 has a step, block or processor out of range";
    for wrong_line in wrong {
        assert_eq!(complaint(P2_SHEET, &p2_with(line, wrong_line)), said);
    }
}

#[test]
fn a_block_on_several_processors() {
    // Ranks 0 and 1 on processor 1: then (0, 0) to (1, 0) and (0, 1) to (1, 1) are messages.
    let listing = P2_LISTING
        .replace("     0     0     0     0     5\n", "     0     0     0     1     5\n")
        .replace("     1     1     0     0    14\n", "     1     1     0     1    14\n")
        .replace("     6     4     3     2     2\n", "     6     4     3     2     3\n");
    assert_eq!(complaint(P2_SHEET, &listing), "block 0 is on several processors");
}
