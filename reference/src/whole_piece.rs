//! A whole piece at once (docs/DECISIONS.md 29 and 30): it is fed to its end,
//! and the text line of each datagram that comes out stands in a lent buffer.

use crate::line::{judge_line, line_of, text_of};
use crate::session::{feed, Outcome, Session};
use crate::Refusal;

/// A buffer of so many bytes has room for the lines of any piece: 231 datagrams
/// at most are completed by 4,096 bytes and 64 held ones, and no line is longer
/// than 307 bytes.
pub const ROOM_FOR_LINES: usize = 72_000;

/// What came of a whole piece.
#[derive(Clone, Copy, Debug, PartialEq, Eq)]
pub struct Received {
    /// How many bytes of lines stand at the front of the buffer.
    pub outcome: Result<usize, Refusal>,
    /// The new session; after a refusal the session as given.
    pub session: Session,
}

/// Feeds a piece to its end and writes the line of each datagram behind the one
/// before. Refusals 10, 11 and 12 as for feeding, then 14 for a buffer that is
/// shorter than the lines; a refusal leaves the buffer untouched.
pub fn receive_lines(session: &Session, piece: &[u8], buffer: &mut [u8]) -> Received {
    match write_lines(session, piece, buffer) {
        Ok(received) => received,
        Err(refusal) => Received {
            outcome: Err(refusal),
            session: *session,
        },
    }
}

fn write_lines(session: &Session, piece: &[u8], buffer: &mut [u8]) -> Result<Received, Refusal> {
    let (lines, session) = lines_of(session, piece)?;
    if buffer.len() < lines.len() {
        return Err(14);
    }
    buffer[..lines.len()].copy_from_slice(&lines);
    Ok(Received {
        outcome: Ok(lines.len()),
        session,
    })
}

/// The lines of a piece and the session behind it, or the refusal of feeding it.
pub fn lines_of(session: &Session, piece: &[u8]) -> Result<(Vec<u8>, Session), Refusal> {
    let mut lines = Vec::new();
    let mut session = *session;
    let mut rest = piece;
    loop {
        let answer = feed(&session, rest);
        session = answer.session;
        rest = &rest[answer.taken..];
        match answer.outcome {
            Outcome::Datagram => {
                let line = line_of(&session, &answer.datagram);
                judge_line(&line)?;
                lines.extend(text_of(&line).bytes());
            }
            Outcome::Waiting => return Ok((lines, session)),
            Outcome::Refused(refusal) => return Err(refusal),
        }
    }
}
