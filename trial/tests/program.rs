//! The command `./plan`: what it prints, says and ends with, on sheets and on what is no sheet. The
//! listings themselves are compared with the second planner's.

use std::fs;
use std::io::Write;
use std::os::unix::fs::symlink;
use std::path::{Path, PathBuf};
use std::process::{Command, Output, Stdio};
use std::sync::Once;

use second::listing::listing;

fn root() -> PathBuf {
    Path::new(env!("CARGO_MANIFEST_DIR")).join("..")
}

/// A place for a test's own files.
fn place(name: &str) -> PathBuf {
    Path::new(env!("CARGO_TARGET_TMPDIR")).join(name)
}

/// Builds the program, once, so that no test meets what is said of building it.
fn build() {
    static BUILT: Once = Once::new();
    BUILT.call_once(|| {
        let output = Command::new("./plan").arg("examples/P2.txt").current_dir(root()).output();
        let output = output.expect("./plan starts");
        assert!(output.status.success(), "{}", said(&output));
    });
}

/// `./plan` with these arguments, called in the repository's folder, with a text as its input.
fn plan(arguments: &[&str], input: &[u8]) -> Output {
    build();
    let mut command = Command::new("./plan");
    command.args(arguments).current_dir(root());
    command.stdin(Stdio::piped()).stdout(Stdio::piped()).stderr(Stdio::piped());
    let mut child = command.spawn().expect("./plan starts");
    // a call that does not read its input may end before it is given
    let _ = child.stdin.take().expect("it is piped").write_all(input);
    child.wait_with_output().expect("./plan ends")
}

/// A line of a shell, called in the repository's folder.
fn shell(line: &str) -> Output {
    build();
    Command::new("bash").args(["-c", line]).current_dir(root()).output().expect("bash starts")
}

fn said(output: &Output) -> String {
    String::from_utf8_lossy(&output.stderr).into_owned()
}

/// The answer to a text: the second planner's listing, and status 0; or 1 and a line that says so.
fn assert_planned(output: &Output, text: &[u8], name: &str) {
    let expected = listing(text);
    assert_eq!(String::from_utf8_lossy(&output.stdout), expected, "{name}");
    if expected.len() == 7 {
        assert_eq!(output.status.code(), Some(1), "{name}");
        let start = format!("plan: refused with {}, ", expected.trim());
        assert!(said(output).starts_with(&start), "{name}: {}", said(output));
        assert_eq!(said(output).lines().count(), 1, "{name}: {}", said(output));
    } else {
        assert_eq!(output.status.code(), Some(0), "{name}: {}", said(output));
        assert_eq!(said(output), "", "{name}");
    }
}

/// A call that could not be done: nothing that looks like a listing, a reason, status 2.
fn assert_failed(output: &Output, reason: &str) {
    assert_eq!(output.status.code(), Some(2), "{}", said(output));
    assert!(said(output).contains(reason), "{}", said(output));
}

#[test]
fn every_sheet_of_examples_as_a_file_and_as_input() {
    for entry in fs::read_dir(root().join("examples")).expect("examples") {
        let path = entry.expect("a file").path();
        let name = path.file_name().expect("a name").to_string_lossy().into_owned();
        let text = fs::read(&path).expect("a sheet");
        assert_planned(&plan(&[&format!("examples/{name}")], b""), &text, &name);
        assert_planned(&plan(&[], &text), &text, &name);
        assert_planned(&plan(&["-"], &text), &text, &name);
    }
}

#[test]
fn the_line_where_a_malformed_sheet_stops_fitting() {
    let whole = fs::read_to_string(root().join("examples/P2.txt")).expect("a sheet");
    let changed = |from: &str, to: &str| whole.replacen(from, to, 1).into_bytes();
    let not = |line: usize, fields: &str| {
        format!("line {line} is not {fields} numbers, each right-justified in six columns")
    };
    let hint = "it has carriage returns: take them out, as with tr -d '\\r'";
    let header = "     2     2     1\n";
    let last = "     1     2     3\n";
    let cases: Vec<(Vec<u8>, String)> = vec![
        (Vec::new(), "it is empty".into()),
        (changed(header, "     2     2    1\n"), not(1, "3")),
        (changed(header, "     2     2     1"), not(1, "3")),
        (changed("     0     2\n", "     0     2 \n"), not(3, "2")),
        (changed("     1     0\n", "     1    -0\n"), not(6, "2")),
        (changed("     1     0\n", "     1\t    0\n"), not(6, "2")),
        (changed(last, "     1     2\n"), not(7, "3 or 4")),
        (changed(last, "     1     1     2     3     4\n"), not(7, "3 or 4")),
        (changed(last, "     1     1     2    -0\n"), not(7, "3 or 4")),
        (changed(last, last.trim_end()), "line 7 does not end in a line feed".into()),
        (changed(last, ""), "line 7 is missing".into()),
        ([whole.as_bytes(), b"\n"].concat(), "line 8 is one too many".into()),
        ([whole.as_bytes(), &b"     0\n".repeat(99)].concat(), "line 8 is one too many".into()),
        (changed("     0     1\n", "\0    0     1\n"), not(2, "2")),
        (whole.replace('\n', "\r\n").into_bytes(), format!("{}; {hint}", not(1, "3"))),
    ];
    for (text, expected) in cases {
        assert_misfit(&text, &expected);
    }
}

/// Stops unless a text is refused as malformed, and the line says where it stops fitting.
fn assert_misfit(text: &[u8], expected: &str) {
    let output = plan(&[], text);
    assert_planned(&output, text, expected);
    let said = said(&output);
    assert!(said.contains("1, MALFORMED_TEXT: "), "{said}");
    assert!(said.trim_end().ends_with(&format!("; {expected}")), "{said}");
}

/// Of four loops with four dependences: line 6 is the time vector, 7 to 10 are the dependences, 11
/// is the last, of 4 + 1 fields or 2 * 4.
#[test]
fn the_line_where_a_sheet_of_four_loops_stops_fitting() {
    let whole = fs::read_to_string(root().join("examples/U11-four-loops.txt")).expect("a sheet");
    let lines: Vec<&str> = whole.split_inclusive('\n').collect();
    let with = |number: usize, line: &str| {
        let mut lines = lines.clone();
        lines[number - 1] = line;
        lines.concat().into_bytes()
    };
    let not = |number: usize, fields: &str| {
        format!("line {number} is not {fields} numbers, each right-justified in six columns")
    };
    assert_misfit(&with(5, "     0     1     1\n"), &not(5, "2"));
    for number in 6..=10 {
        assert_misfit(&with(number, "     1     1     1\n"), &not(number, "4"));
        assert_misfit(&with(number, &line(&[1; 5])), &not(number, "4"));
    }
    assert_misfit(&with(11, &line(&[1; 4])), &not(11, "5 or 8"));
    assert_misfit(&with(11, &line(&[1; 9])), &not(11, "5 or 8"));
    assert_misfit(&with(11, ""), "line 11 is missing");
    assert_misfit(format!("{whole}     1\n").as_bytes(), "line 12 is one too many");
}

/// A line of a sheet with these numbers.
fn line(numbers: &[i64]) -> String {
    second::text::write_line(numbers)
}

/// A sheet of eight dependences in four loops, with a boundary value for each: 393 bytes, as many
/// as a sheet can have. Then some with a byte more or many, one with one boundary value for all,
/// and one of which a byte is missing.
#[test]
fn the_longest_sheet() {
    let counts_and_limits = line(&[4, 8, 2]) + &line(&[0, 2]).repeat(4);
    let units = [[0, 0, 0, 1], [0, 0, 1, 0], [0, 1, 0, 0], [1, 0, 0, 0]];
    let others = [[0, 1, 1, 0], [1, 0, 0, 1], [1, 1, 1, 1], [1, 0, 0, 2]];
    let dependences = [units, others].concat().iter().map(|d| line(d)).collect::<String>();
    let lines = counts_and_limits + &line(&[1; 4]) + &dependences;
    let weights = line(&[1, 2, 3, 4, 5, 6, 7, 8]);
    let values = "     9    10    11    12    13    14    15 65535";
    let long = format!("{lines}{values}{weights}");
    assert_eq!(long.len(), 393);
    let short = format!("{lines}     9{weights}");
    let longer = [" ", "\n", "     0\n", &"7".repeat(9999)].map(|more| format!("{long}{more}"));
    assert!(longer.iter().all(|text| listing(text.as_bytes()) == "     1\n"));
    let cut = long[..392].to_string();
    for text in [vec![long, short, cut], longer.to_vec()].concat() {
        assert_planned(&plan(&[], text.as_bytes()), text.as_bytes(), &text);
    }
}

#[test]
fn what_cannot_be_read_is_said() {
    assert_failed(&plan(&["examples"], b""), "Is a directory");
    assert_failed(&plan(&["examples/no_such_sheet"], b""), "No such file");
    assert_failed(&shell("./plan <examples"), "Is a directory");
    assert_failed(&shell("./plan <&-"), "could not be read");
    assert_failed(&shell("./plan 0>target/written_only"), "could not be read");
    for output in [plan(&["examples"], b""), shell("./plan <&-"), shell("./plan <examples")] {
        assert_eq!(output.stdout, b"");
    }
}

#[test]
fn what_cannot_be_written_is_said() {
    assert_failed(&shell("./plan examples/P2.txt >/dev/full"), "could not be written");
    assert_failed(&shell("./plan examples/P2.txt >&-"), "could not be written");
    assert_failed(&shell("./plan examples/refused.txt >/dev/full"), "could not be written");
    let late = "set -o pipefail; trap '' PIPE; ./plan examples/P9.txt | true";
    assert_failed(&shell(late), "could not be written");
}

#[test]
fn help_version_and_calls_that_are_wrong() {
    let help = plan(&["--help"], b"");
    assert!(help.status.success() && help.stdout.starts_with(b"usage: ./plan [FILE]\n"));
    let version = plan(&["--version"], b"");
    let expected = concat!("plan ", env!("CARGO_PKG_VERSION"), "\n");
    assert!(version.status.success() && version.stdout == expected.as_bytes());
    for arguments in [&["--no-such"][..], &["examples/P1.txt", "examples/P2.txt"]] {
        let output = plan(arguments, b"");
        assert_eq!(output.status.code(), Some(2));
        assert!(output.stdout.is_empty() && said(&output).starts_with("usage: "));
    }
}

#[test]
fn through_a_symbolic_link_from_another_folder() {
    build();
    let folder = place("linked");
    fs::create_dir_all(&folder).expect("a folder");
    let [link, sheet] = [folder.join("plan"), folder.join("a sheet.txt")];
    let _ = fs::remove_file(&link);
    symlink(fs::canonicalize(root().join("plan")).expect("./plan"), &link).expect("a link");
    fs::copy(root().join("examples/P2.txt"), &sheet).expect("a copy");
    let output = Command::new("./plan").arg("a sheet.txt").current_dir(&folder).output();
    // `rt ci` refuses a checkout with a link in it, so the next run of the gate would
    fs::remove_file(&link).expect("the link goes");
    assert_planned(&output.expect("./plan starts"), &fs::read(&sheet).expect("it"), "linked");
}

/// The program has 640 KiB, of which its listing takes 124; 16 are for what the system puts on a
/// stack: arguments, an environment, and the place, taken by chance, where it begins.
#[test]
fn the_program_runs_on_a_stack_of_640_kib() {
    // 16 x 16 x 16 iterations with hardly two on one projection line
    let lines =
        "     3     1     6\n     0    15\n     0    15\n     0    15\n    16    15    13\n";
    let scattered = format!("{lines}     0     0     1\n     1     1\n");
    let square = fs::read_to_string(root().join("examples/P9.txt")).expect("a sheet");
    // the same with 8 x 8 x 8 x 8
    let lines = line(&[4, 1, 6]) + &line(&[0, 7]).repeat(4) + &line(&[16, 15, 13, 11]);
    let four = lines + &line(&[0, 0, 0, 1]) + &line(&[1, 1]);
    // 2 x 2001 iterations whose times are as far apart as can be, by 32016
    let lines = "     2     1     6\n     0     1\n -1000  1000\n   -16    16\n";
    let wide = format!("{lines}     0     1\n     1     1\n");
    for text in [scattered, square, four, wide] {
        assert_planned(&plan(&[], text.as_bytes()), text.as_bytes(), "on the usual stack");
        let sheet = place("stack.txt");
        fs::write(&sheet, &text).expect("a copy");
        let line = format!("ulimit -s 656; env -i target/bin/plan <'{}'", sheet.display());
        let output = shell(&line);
        assert!(output.status.success(), "{:?}", output.status);
        assert_eq!(String::from_utf8_lossy(&output.stdout), listing(text.as_bytes()));
    }
}
