//! A built program, run on an input.

use std::io::{ErrorKind, Write};
use std::path::Path;
use std::process::{ChildStdin, Command, Output, Stdio};
use std::thread::sleep;
use std::time::Duration;

/// The program has read what it wants when its input is closed to us.
fn send(input: &mut ChildStdin, bytes: &[u8]) {
    if let Err(error) = input.write_all(bytes) {
        assert_eq!(error.kind(), ErrorKind::BrokenPipe);
    }
}

/// Runs the program, its input in pieces of `piece` bytes with a pause after
/// each.
pub fn run(program: &Path, input: &[u8], piece: usize, pause: Duration) -> Output {
    let mut child = Command::new(program)
        .stdin(Stdio::piped())
        .stdout(Stdio::piped())
        .stderr(Stdio::piped())
        .spawn()
        .expect("the program runs");
    let mut stdin = child.stdin.take().expect("it is piped");
    for bytes in input.chunks(piece) {
        send(&mut stdin, bytes);
        sleep(pause);
    }
    drop(stdin);
    child.wait_with_output().expect("the program ends")
}
