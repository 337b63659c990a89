//! The program that the proof tool builds: `target/bin/listing` at the root of
//! the repository, or the file that the environment variable
//! `LAGUNEDO_LISTING` names by its absolute path.

use std::env;
use std::fs::File;
use std::io::{ErrorKind, Write};
use std::path::{Path, PathBuf};
use std::process::{Child, Command, Stdio};
use std::thread::sleep;
use std::time::Duration;

/// What the program prints of this input, given to it through a pipe.
#[must_use]
pub fn listed(input: &[u8]) -> String {
    listed_in_pieces(&[input], Duration::ZERO)
}

/// The same of an input that comes in pieces with a pause after each.
#[must_use]
pub fn listed_in_pieces(pieces: &[&[u8]], pause: Duration) -> String {
    let mut child = start(Stdio::piped());
    let mut input = child.stdin.take().expect("a pipe");
    for piece in pieces {
        match input.write_all(piece) {
            // the program has seen that the input is too long, and is gone
            Err(error) if error.kind() == ErrorKind::BrokenPipe => break,
            written => written.expect("the input is taken"),
        }
        sleep(pause);
    }
    drop(input);
    printed(child)
}

/// The same of a file, by its path from the root of the repository.
#[must_use]
pub fn listed_from_file(path: &str) -> String {
    let file = File::open(root().join(path)).expect("an input");
    printed(start(file.into()))
}

fn start(input: Stdio) -> Child {
    let program = program();
    assert!(
        program.is_file(),
        "{} is missing: run `make listing` at the root of the repository",
        program.display()
    );
    Command::new(program)
        .stdin(input)
        .stdout(Stdio::piped())
        .stderr(Stdio::piped())
        .spawn()
        .expect("the program starts")
}

/// All that is printed to standard output. It is less than a pipe holds, so
/// that the program never waits for it to be taken.
fn printed(child: Child) -> String {
    let output = child.wait_with_output().expect("the program ends");
    assert!(output.status.success(), "{}", output.status);
    assert!(output.stderr.is_empty(), "{:?}", output.stderr);
    String::from_utf8(output.stdout).expect("text")
}

fn program() -> PathBuf {
    let named = env::var_os("LAGUNEDO_LISTING").map(PathBuf::from);
    named.unwrap_or_else(|| root().join("target/bin/listing"))
}

fn root() -> PathBuf {
    Path::new(env!("CARGO_MANIFEST_DIR")).join("../../..")
}
