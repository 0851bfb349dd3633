//! The reference's receiving program: a setup line and a stream on standard
//! input, a text line for each datagram on standard output.

use std::io::{stdin, stdout};
use std::process::ExitCode;

use stim_reference::{fast, STREAM_LIMIT};

fn main() -> ExitCode {
    match fast::receive(&mut stdin().lock(), &mut stdout().lock(), STREAM_LIMIT) {
        Ok(()) => ExitCode::SUCCESS,
        Err(error) => {
            eprintln!("receive: {error}");
            ExitCode::FAILURE
        }
    }
}
