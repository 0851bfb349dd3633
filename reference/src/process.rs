//! What the comparing programs share: giving a program its input in chunks, and
//! showing inputs and outputs in a report.

use std::fmt::Write as _;
use std::io::Write;
use std::process::ChildStdin;
use std::thread;
use std::time::Duration;

use crate::random::Random;

/// In a report no more bytes than this are shown of an input or output.
const SHOWN_BYTES: usize = 2000;

/// Writes the input in up to some dozens of chunks, most of them small, so that
/// short reads happen. A program may end before it has read everything, so a
/// failed write is no difference by itself.
pub fn write_in_chunks(mut child_input: ChildStdin, input: &[u8], random: &mut Random) {
    let usual_chunk = random.pick(&[1, 7, 30, 100]).max(input.len() / 40 + 1);
    let mut rest = input;
    while !rest.is_empty() {
        let length = random.between(1, 2 * usual_chunk).min(rest.len());
        let (chunk, behind) = rest.split_at(length);
        if child_input
            .write_all(chunk)
            .and_then(|()| child_input.flush())
            .is_err()
        {
            return;
        }
        rest = behind;
        if random.one_in(2) {
            thread::sleep(Duration::from_micros(30));
        } else {
            thread::yield_now();
        }
    }
}

pub fn hexadecimal(bytes: &[u8]) -> String {
    let mut text = String::new();
    for byte in bytes.iter().take(SHOWN_BYTES) {
        write!(text, "{byte:02x}").expect("a String takes everything");
    }
    if bytes.len() > SHOWN_BYTES {
        text.push_str(" and more");
    }
    text
}

/// An output, from its beginning or from shortly before the first difference.
pub fn printable(bytes: &[u8], same_count: usize) -> String {
    let start = if bytes.len() > SHOWN_BYTES {
        same_count.saturating_sub(SHOWN_BYTES / 2)
    } else {
        0
    };
    let shown = &bytes[start..bytes.len().min(start + SHOWN_BYTES)];
    let text = shown.escape_ascii().to_string().replace("\\n", "\\n\n");
    if shown.len() < bytes.len() {
        format!("(from byte {start}) {text} and more")
    } else {
        text
    }
}
