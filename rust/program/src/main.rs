//! Runs the decode program over many texts and compares what it prints with what it should print.
//!
//! The program's path is the argument. Each text is written to its standard input whole or, so that
//! its reads come back short, in small pieces.

mod texts;

use std::io::{self, ErrorKind, Write};
use std::process::{Command, ExitCode, Stdio};

use reference::program::output;
use texts::Texts;

fn main() -> ExitCode {
    let Some(program) = std::env::args().nth(1) else {
        eprintln!("the path of the decode program is missing");
        return ExitCode::FAILURE;
    };
    for Texts { what, list, piece } in texts::all() {
        for text in &list {
            if let Err(message) = compare(&program, text, piece) {
                eprintln!("decode program, {what}: {message}");
                return ExitCode::FAILURE;
            }
        }
        println!("{:>6} texts agree: {what}", list.len());
    }
    ExitCode::SUCCESS
}

fn compare(program: &str, text: &[u8], piece: usize) -> Result<(), String> {
    let printed = run(program, text, piece).map_err(|error| format!("{program}: {error}"))?;
    let expected = output(text);
    if printed == expected {
        return Ok(());
    }
    let start = String::from_utf8_lossy(&text[..text.len().min(400)]);
    let [printed, expected] = [&printed, &expected].map(|lines| String::from_utf8_lossy(lines));
    Err(format!("{} bytes {start:?} print {printed:?}, not {expected:?}", text.len()))
}

/// What the program prints when this text is written to it in pieces of so many bytes.
fn run(program: &str, text: &[u8], piece: usize) -> io::Result<Vec<u8>> {
    let mut child = Command::new(program).stdin(Stdio::piped()).stdout(Stdio::piped()).spawn()?;
    if let Some(mut input) = child.stdin.take() {
        for part in text.chunks(piece) {
            match input.write_all(part) {
                // The program may stop reading once the text is longer than the limit.
                Err(error) if error.kind() == ErrorKind::BrokenPipe => break,
                written => written?,
            }
        }
    }
    let output = child.wait_with_output()?;
    if output.status.success() {
        Ok(output.stdout)
    } else {
        Err(io::Error::other(output.status.to_string()))
    }
}
