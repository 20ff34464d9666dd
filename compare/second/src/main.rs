//! The runner program: "reads standard input, uses W = 1,024 and prints one
//! line".
#![forbid(unsafe_code)]

use std::io::{self, Read, Write};
use std::process::ExitCode;

const RUNNER_WORDS: usize = 1_024;

fn main() -> ExitCode {
    match run() {
        Ok(()) => ExitCode::SUCCESS,
        Err(error) => {
            // Not a part of the answer: the input can't be read or the line
            // can't be written.
            let _ = writeln!(io::stderr(), "second: {error}");
            ExitCode::FAILURE
        }
    }
}

fn run() -> io::Result<()> {
    let image = input()?;
    let (answer, _) = second::answer(&image, RUNNER_WORDS, second::DEFAULT_LIMIT);
    writeln!(io::stdout(), "{}", second::line(&answer))
}

/// The input, cut behind the first byte that is too many: a longer one answers
/// the same.
fn input() -> io::Result<Vec<u8>> {
    let most = second::MOST_BYTES as u64 + 1;
    let mut image = Vec::new();
    io::stdin().lock().take(most).read_to_end(&mut image)?;
    Ok(image)
}
