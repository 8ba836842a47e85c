//! What the tests of the program share.

// Each test file uses some of these.
#![allow(dead_code)]

/// The rules of the sample of document 01, up to the `%`.
pub const SAMPLE_RULES: &str =
    "events lock take free . lock take -> held . held free -> #epsilon . take -> #fail . ";

/// The sample's lines.
pub const SAMPLE_LINES: &str = "\
lock quiet 1 0 lock
take quiet 2 1 held
free quiet 1 1 -
take #fail 1 1 -
";

/// The sample.
pub fn sample() -> String {
    format!("{SAMPLE_RULES}% lock take free take")
}

/// Expects the same bytes. Otherwise it shows the first line that differs, and the input as far as the
/// program may read it.
#[track_caller]
pub fn expect_same(input: &[u8], found: &[u8], expected: &[u8]) {
    if found == expected {
        return;
    }
    let lines = |output: &[u8]| -> Vec<String> {
        let lines = output.split_inclusive(|&byte| byte == b'\n');
        lines.map(|line| line.escape_ascii().to_string()).collect()
    };
    let (found, expected) = (lines(found), lines(expected));
    let same = found.iter().zip(&expected);
    let place = same.take_while(|(one, other)| one == other).count();
    panic!(
        "line {place}\n   found: {:?}\nexpected: {:?}\nof {} and {} lines, for this input:\n{}",
        found.get(place),
        expected.get(place),
        found.len(),
        expected.len(),
        input[..input.len().min(20_481)].escape_ascii(),
    );
}
