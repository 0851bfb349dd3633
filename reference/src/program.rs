//! What the receiving program prints, from the plain parts: 01, "The text
//! line", and the readings of the open points around it.

use crate::line::{line_of, write_line};
use crate::session::{feed, open_session, Outcome};
use crate::setup::read_setup_line;
use crate::{Refusal, PIECE_LIMIT};

/// No line is longer than this.
pub const LINE_ROOM: usize = 320;

/// What stands before the first 0x0A, and what stands behind it. Without a
/// 0x0A all of the input is the setup line.
pub fn split_input(input: &[u8]) -> (&[u8], &[u8]) {
    match input.iter().position(|&byte| byte == 0x0A) {
        Some(line_end) => (&input[..line_end], &input[line_end + 1..]),
        None => (input, &[]),
    }
}

/// Everything that the program prints for a whole input. The stream's limit is
/// [`crate::STREAM_LIMIT`], or a smaller one for trials of what happens there.
pub fn output_for(input: &[u8], stream_limit: u64) -> Vec<u8> {
    let (setup_line, stream) = split_input(input);
    let setup = match read_setup_line(setup_line) {
        Ok(setup) => setup,
        Err(refusal) => return refusal_text(refusal),
    };
    let mut session = match open_session(&setup) {
        Ok(session) => session,
        Err(refusal) => return refusal_text(refusal),
    };
    // Everything within the limit is fed, and one more byte is refused.
    let within_limit = stream
        .len()
        .min(usize::try_from(stream_limit).unwrap_or(usize::MAX));
    let mut output = Vec::new();
    for piece in stream[..within_limit].chunks(PIECE_LIMIT) {
        let mut rest = piece;
        loop {
            let answer = feed(&session, rest);
            session = answer.session;
            rest = &rest[answer.taken..];
            match answer.outcome {
                Outcome::Waiting => break,
                Outcome::Refused(refusal) => {
                    output.extend(refusal_text(refusal));
                    return output;
                }
                Outcome::Datagram => {
                    let mut buffer = [0; LINE_ROOM];
                    let line = line_of(&session, &answer.datagram);
                    let length = write_line(&line, &mut buffer)
                        .expect("a datagram that was handed out has a line");
                    output.extend_from_slice(&buffer[..length]);
                }
            }
        }
    }
    if within_limit < stream.len() {
        output.extend(refusal_text(12));
    }
    output
}

/// What the program prints for a refusal.
pub fn refusal_text(refusal: Refusal) -> Vec<u8> {
    format!("refused {refusal}\n").into_bytes()
}
