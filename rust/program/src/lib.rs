/*!
The program `watch`, run as its users run it: a process that is handed bytes on its standard input.

[`watch`] gives all that it wrote. The program is looked for in `crates/watch/out` at the repository's
root, where `rt run` in `crates/watch` puts it, or at the path that the environment variable `WATCH` holds.
*/

#![forbid(unsafe_code)]
#![deny(missing_docs)]

use std::env;
use std::io::Write;
use std::path::PathBuf;
use std::process::{Command, Stdio};
use std::thread;

/// The path of the built program.
pub fn path() -> PathBuf {
    match env::var_os("WATCH") {
        Some(path) => PathBuf::from(path),
        None => PathBuf::from(env!("CARGO_MANIFEST_DIR")).join("../../crates/watch/out/watch"),
    }
}

/// What `watch` writes to standard output for this input.
///
/// # Panics
///
/// Where the program is missing, ends with another status than 0, or writes to standard error.
pub fn watch(input: &[u8]) -> Vec<u8> {
    let mut child = Command::new(path())
        .stdin(Stdio::piped())
        .stdout(Stdio::piped())
        .stderr(Stdio::piped())
        .spawn()
        .unwrap_or_else(|error| {
            panic!("{}: {error}: run `rt run` in `crates/watch` first", path().display())
        });
    let mut stdin = child.stdin.take().expect("a pipe");
    let bytes = input.to_vec();
    // The program may stop reading before all is written: then the write fails, as it may.
    let writer = thread::spawn(move || drop(stdin.write_all(&bytes)));
    let output = child.wait_with_output().expect("it ends");
    writer.join().expect("the writer ends");
    assert!(output.status.success(), "{}", output.status);
    assert_eq!(output.stderr, b"", "standard error");
    output.stdout
}
