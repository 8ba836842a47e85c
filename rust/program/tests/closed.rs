//! Standard input and output that are closed, slow, endless, files, or in pieces. The program ends in each
//! case, and writes the same lines however its input comes and its output goes.

mod common;

use common::{expect_same, sample, SAMPLE_LINES};
use std::fs::{self, File};
use std::io::{ErrorKind, Read, Write};
use std::os::unix::process::ExitStatusExt;
use std::path::PathBuf;
use std::process::{Child, ChildStdin, ChildStdout, Command, ExitStatus, Stdio};
use std::thread;
use std::time::{Duration, Instant};

/// The signal that ends a process that writes where nobody reads.
const SIGPIPE: i32 = 13;

/// How the process ended. It is ended here, and the test fails, if it is still there after a minute.
#[track_caller]
fn end(child: &mut Child) -> ExitStatus {
    let begin = Instant::now();
    loop {
        if let Some(status) = child.try_wait().expect("a status") {
            return status;
        }
        if begin.elapsed() > Duration::from_secs(60) {
            child.kill().expect("it is ended");
            child.wait().expect("a status");
            panic!("it hangs");
        }
        thread::sleep(Duration::from_millis(2));
    }
}

/// The program, with pipes.
fn piped() -> Command {
    let mut command = Command::new(program::path());
    command.stdin(Stdio::piped()).stdout(Stdio::piped());
    command
}

/// The program, with pipes, run by a shell that first runs these commands.
fn after(first: &str) -> Command {
    let mut command = Command::new("sh");
    command
        .args(["-c", &format!("{first}exec \"$0\"")])
        .arg(program::path());
    command.stdin(Stdio::piped()).stdout(Stdio::piped());
    command
}

/// The program, run by a shell that first redirects its streams.
fn redirected(redirections: &str) -> Command {
    after(&format!("exec {redirections}; "))
}

fn spawn(command: &mut Command) -> (Child, ChildStdin, ChildStdout) {
    let mut child = command.spawn().expect("the program");
    let stdin = child.stdin.take().expect("a pipe");
    let stdout = child.stdout.take().expect("a pipe");
    (child, stdin, stdout)
}

/// Writes the pieces in a thread of its own, with pauses of some milliseconds between them, and closes
/// the pipe. A pipe that nobody reads is no failure.
fn feed(mut stdin: ChildStdin, pieces: Vec<Vec<u8>>, pause: u64) -> thread::JoinHandle<()> {
    thread::spawn(move || {
        for (number, piece) in pieces.iter().enumerate() {
            if number > 0 {
                thread::sleep(Duration::from_millis(pause));
            }
            match stdin.write_all(piece) {
                Err(error) if error.kind() == ErrorKind::BrokenPipe => return,
                result => result.expect("the pipe takes it"),
            }
        }
    })
}

/// Reads all that comes in a thread of its own.
fn take(mut stdout: ChildStdout) -> thread::JoinHandle<Vec<u8>> {
    thread::spawn(move || {
        let mut output = Vec::new();
        stdout.read_to_end(&mut output).expect("the pipe gives it");
        output
    })
}

/// Runs the program on an input that comes in pieces, and expects this output.
#[track_caller]
fn expect_in_pieces(pieces: Vec<Vec<u8>>, pause: u64, output: impl AsRef<[u8]>) {
    let input = pieces.concat();
    let (mut child, stdin, stdout) = spawn(&mut piped());
    let writer = feed(stdin, pieces, pause);
    let reader = take(stdout);
    assert!(end(&mut child).success());
    expect_same(&input, &reader.join().expect("an output"), output.as_ref());
    writer.join().expect("the writer ends");
}

/// An input with a long output: 2,048 lines of up to 4,106 bytes.
fn long_output() -> Vec<u8> {
    let mut input = b"events a .%".to_vec();
    input.extend(b" a".repeat(3_000));
    input
}

/// A file of its own for a test.
fn file(name: &str) -> PathBuf {
    PathBuf::from(env!("CARGO_TARGET_TMPDIR")).join(name)
}

/// Inputs that lead to a line, to many, to a refused text, and to the line of an input that is too long.
fn inputs() -> [Vec<u8>; 4] {
    [
        sample().into_bytes(),
        long_output(),
        b"events".to_vec(),
        vec![b' '; 20_481],
    ]
}

/// The reader goes away before anything is written. The process is ended by the signal for that, or ends
/// on its own.
#[test]
fn a_reader_that_is_gone() {
    for input in inputs() {
        let (mut child, stdin, stdout) = spawn(&mut piped());
        drop(stdout);
        let writer = feed(stdin, vec![input], 0);
        let status = end(&mut child);
        assert!(
            status.success() || status.signal() == Some(SIGPIPE),
            "{status}"
        );
        writer.join().expect("the writer ends");
    }
}

/// The same without the signal: the write fails, and the process ends on its own.
#[test]
fn a_reader_that_is_gone_without_the_signal() {
    for input in inputs() {
        let (mut child, stdin, stdout) = spawn(&mut after("trap '' PIPE; "));
        drop(stdout);
        let writer = feed(stdin, vec![input], 0);
        let status = end(&mut child);
        assert!(status.success(), "{status}");
        writer.join().expect("the writer ends");
    }
}

/// The reader takes some bytes, which are the right ones, and goes away.
#[test]
fn a_reader_that_goes_away() {
    for (first, ends_itself) in [("", false), ("trap '' PIPE; ", true)] {
        for count in [1, 20, 5_000, 70_000, 200_000] {
            let input = long_output();
            let expected = reference::watch::watch(&input);
            let (mut child, stdin, mut stdout) = spawn(&mut after(first));
            let writer = feed(stdin, vec![input.clone()], 0);
            let mut output = vec![0; count];
            stdout.read_exact(&mut output).expect("some output");
            drop(stdout);
            let status = end(&mut child);
            let by_signal = status.signal() == Some(SIGPIPE) && !ends_itself;
            assert!(status.success() || by_signal, "{status}");
            expect_same(&input, &output, &expected[..count]);
            writer.join().expect("the writer ends");
        }
    }
}

/// Standard output is closed from the beginning, or a device on which there is never room.
#[test]
fn no_output() {
    for redirections in [">&-", ">/dev/full"] {
        for input in inputs() {
            let (mut child, stdin, stdout) = spawn(&mut redirected(redirections));
            let writer = feed(stdin, vec![input.clone()], 0);
            let status = end(&mut child);
            assert!(status.success(), "{status}");
            expect_same(&input, &take(stdout).join().expect("nothing"), b"");
            writer.join().expect("the writer ends");
        }
    }
}

/// Standard input is closed from the beginning: there is nothing to read, as in an empty input.
#[test]
fn no_input() {
    for redirections in ["<&-", "</dev/null"] {
        let (mut child, stdin, stdout) = spawn(&mut redirected(redirections));
        let reader = take(stdout);
        let status = end(&mut child);
        assert!(status.success(), "{status}");
        let output = reader.join().expect("an output");
        expect_same(b"", &output, b"rules refused 4 0\n");
        drop(stdin);
    }
}

/// All three streams are closed.
#[test]
fn neither_input_nor_output() {
    let (mut child, stdin, stdout) = spawn(&mut redirected("<&- >&- 2>&-"));
    let status = end(&mut child);
    assert!(status.success(), "{status}");
    drop((stdin, stdout));
}

/// The sample in pieces of every small length, with pauses between.
#[test]
fn input_in_small_pieces() {
    let input = sample().into_bytes();
    for length in 1..=9 {
        let pieces = input.chunks(length).map(<[u8]>::to_vec).collect();
        expect_in_pieces(pieces, 2, SAMPLE_LINES);
    }
    // In two pieces, cut at every byte.
    for place in 0..=input.len() {
        let pieces = vec![input[..place].to_vec(), input[place..].to_vec()];
        expect_in_pieces(pieces, 3, SAMPLE_LINES);
    }
}

/// A long input in pieces, and the last byte late.
#[test]
fn long_input_in_pieces() {
    let mut input = b"events a .%".to_vec();
    input.resize(20_479, b' ');
    input.push(b'a');
    let output = b"a quiet 1 0 a\n";
    for length in [100, 1_000, 4_096, 10_240, 20_479, 20_480] {
        let pieces: Vec<Vec<u8>> = input.chunks(length).map(<[u8]>::to_vec).collect();
        expect_in_pieces(pieces.clone(), 2, output);
        for more in [" ", "  ", &" ".repeat(100_000)] {
            let mut pieces = pieces.clone();
            pieces.push(more.into());
            expect_in_pieces(pieces, 2, b"input too long\n");
        }
    }
}

/// Nothing for a while, and then the end or an input.
#[test]
fn input_that_comes_late() {
    expect_in_pieces(vec![vec![], vec![]], 300, b"rules refused 4 0\n");
    expect_in_pieces(vec![vec![], sample().into_bytes()], 300, SAMPLE_LINES);
    let pieces = vec![sample().into_bytes(), b" lock".to_vec(), b"".to_vec()];
    let output = SAMPLE_LINES.to_string() + "lock refused 14\n";
    expect_in_pieces(pieces, 300, output);
}

/// Inputs far over the limit.
#[test]
fn very_long_inputs() {
    for length in [65_536, 65_537, 1_000_000, 20_000_000] {
        for byte in [b' ', b'%', b'a', 0] {
            let mut input = b"events a .% a ".to_vec();
            input.resize(length, byte);
            expect_in_pieces(vec![input], 0, b"input too long\n");
        }
    }
}

/// An input that is too long and never ends: the program does not wait for its end.
#[test]
fn endless_input() {
    for length in [100_000, 1_000_000] {
        let (mut child, mut stdin, stdout) = spawn(&mut piped());
        let writer = thread::spawn(move || {
            // The write fails where the program has ended before it has read all. The pipe stays open.
            drop(stdin.write_all(&vec![b' '; length]));
            stdin
        });
        let reader = take(stdout);
        assert!(end(&mut child).success());
        let output = reader.join().expect("an output");
        expect_same(b"spaces without end", &output, b"input too long\n");
        drop(writer.join().expect("the writer ends"));
    }
}

/// A reader that is slow, and takes little at a time. The pipe is full meanwhile.
#[test]
fn output_that_is_read_slowly() {
    let input = long_output();
    let expected = reference::watch::watch(&input);
    let (mut child, stdin, mut stdout) = spawn(&mut piped());
    let writer = feed(stdin, vec![input.clone()], 0);
    let mut output = Vec::new();
    let mut piece = vec![0; 777];
    loop {
        // A pause now and then.
        if output.len() % 50 == 0 {
            thread::sleep(Duration::from_millis(3));
        }
        let count = stdout.read(&mut piece).expect("the pipe gives it");
        if count == 0 {
            break;
        }
        output.extend(&piece[..count]);
    }
    assert!(end(&mut child).success());
    expect_same(&input, &output, &expected);
    writer.join().expect("the writer ends");
}

/// Files in the place of pipes.
#[test]
fn files() {
    for (number, input) in inputs().into_iter().enumerate() {
        let expected = reference::watch::watch(&input);
        let (from, to) = (file(&format!("in{number}")), file(&format!("out{number}")));
        fs::write(&from, &input).expect("a file");
        let mut child = Command::new(program::path())
            .stdin(File::open(&from).expect("a file"))
            .stdout(File::create(&to).expect("a file"))
            .spawn()
            .expect("the program");
        assert!(end(&mut child).success());
        expect_same(&input, &fs::read(&to).expect("a file"), &expected);
    }
}

/// Arguments and the environment change nothing.
#[test]
fn arguments() {
    let input = sample();
    for arguments in [&["-"][..], &["--help"], &["a", "b", "", "%"]] {
        let (mut child, stdin, stdout) = spawn(piped().args(arguments).env_clear());
        let writer = feed(stdin, vec![input.clone().into_bytes()], 0);
        let reader = take(stdout);
        assert!(end(&mut child).success());
        let output = reader.join().expect("an output");
        expect_same(input.as_bytes(), &output, SAMPLE_LINES.as_bytes());
        writer.join().expect("the writer ends");
    }
}
