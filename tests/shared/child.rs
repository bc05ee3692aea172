//! A program run through pipes.

use std::io::{self, Write};
use std::process::{Command, Stdio};
use std::thread;

/// What a program prints on this standard input.
pub fn printed(program: &str, text: &[u8]) -> io::Result<Vec<u8>> {
    let mut child = Command::new(program)
        .stdin(Stdio::piped())
        .stdout(Stdio::piped())
        .spawn()?;
    let mut input = child.stdin.take().expect("a piped standard input");
    let (written, output) = thread::scope(|scope| {
        let writer = scope.spawn(move || input.write_all(text));
        let output = child.wait_with_output();
        (writer.join().expect("a writer that ended"), output)
    });
    // A program may stop before the end of its input, so that the rest finds no reader.
    if let Err(error) = written {
        if error.kind() != io::ErrorKind::BrokenPipe {
            return Err(error);
        }
    }
    let output = output?;
    if !output.status.success() {
        return Err(io::Error::other(format!(
            "{program} ended with {}",
            output.status
        )));
    }
    Ok(output.stdout)
}
