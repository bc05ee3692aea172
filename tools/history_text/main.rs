//! Turns a readable text into a history for `replay`, or a history into a text or into the line that it
//! recorded.
//!
//!     history_text write <case.txt >case.history
//!     history_text read <case.history >case.txt
//!     history_text line <case.history >case.capture
//!
//! The line is the received bytes alone, as the example reads them: it tells where each frame broke.
//!
//! A line of the text is `name h1`, `bytes 7e 01 00`, `tick` or `tick 30`. Blank lines and what
//! stands behind a # are passed over.

mod text;

use std::env;
use std::io::{self, Read, Write};
use std::process::ExitCode;

fn main() -> ExitCode {
    let words: Vec<String> = env::args().skip(1).collect();
    let turn: fn(&[u8]) -> Result<Vec<u8>, String> = match words.as_slice() {
        [word] if word == "write" => text::to_history,
        [word] if word == "read" => text::from_history,
        [word] if word == "line" => text::line_in,
        _ => {
            eprintln!("usage: history_text write|read|line <input >output");
            return ExitCode::from(2);
        }
    };
    let mut input = Vec::new();
    let turned = io::stdin()
        .read_to_end(&mut input)
        .map_err(|error| error.to_string())
        .and_then(|_| turn(&input))
        .and_then(|output| print(&output).map_err(|error| error.to_string()));
    match turned {
        Ok(()) => ExitCode::SUCCESS,
        Err(fault) => {
            eprintln!("history_text: {fault}");
            ExitCode::FAILURE
        }
    }
}

/// Standard output keeps bytes back, and what it could not write at the end of the program is told to
/// nobody: so it is flushed here.
fn print(output: &[u8]) -> io::Result<()> {
    let mut stdout = io::stdout();
    stdout.write_all(output)?;
    stdout.flush()
}
