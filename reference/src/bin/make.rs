//! The reference's making program: a setup line and rehearsal lines on standard
//! input, a datagram for each on standard output, what is wrong with a line on
//! standard error.

use std::io::{self, stderr, stdin, stdout, Read, Write};
use std::process::ExitCode;

use stim_reference::make_program::made_for;

fn main() -> ExitCode {
    match make() {
        Ok(()) => ExitCode::SUCCESS,
        Err(error) => {
            eprintln!("make: {error}");
            ExitCode::FAILURE
        }
    }
}

fn make() -> io::Result<()> {
    let mut input = Vec::new();
    stdin().lock().read_to_end(&mut input)?;
    let made = made_for(&input);
    stdout().lock().write_all(&made.datagrams)?;
    stdout().lock().flush()?;
    stderr().lock().write_all(&made.messages)
}
