//! `reference < RUN`: the lines that the paper gives for a run of calls.

use reference::calls::Calls;
use reference::replay::Held;
use std::io::{self, Read, Write};
use std::process::ExitCode;

/// Writes one line for each call, and `bad call` where the input is no call.
fn replay(input: &[u8], output: &mut impl Write) -> io::Result<()> {
    let mut held = Held::new();
    for call in Calls::new(input) {
        let Ok((_, call)) = call else {
            return writeln!(output, "bad call");
        };
        writeln!(output, "{}", held.line(call))?;
    }
    Ok(())
}

/// All of standard input, through the rules, to standard output.
fn run() -> io::Result<()> {
    let mut input = Vec::new();
    io::stdin().lock().read_to_end(&mut input)?;
    let mut output = io::BufWriter::new(io::stdout().lock());
    replay(&input, &mut output)?;
    output.flush()
}

/// A failure to read or write is the only one, and is said on standard error.
fn main() -> ExitCode {
    match run() {
        Ok(()) => ExitCode::SUCCESS,
        Err(error) => {
            eprintln!("reference: {error}");
            ExitCode::FAILURE
        }
    }
}
