//! What the making program writes: datagrams for a setup line and rehearsal
//! lines.

use crate::layout::LONGEST_DATAGRAM;
use crate::make::write_datagram;
use crate::program::{refusal_text, split_input};
use crate::rehearsal::{read_rehearsal_line, Fault};
use crate::setup::{read_setup_line, Setup};

/// What the program writes for a whole input.
#[derive(Clone, Debug, PartialEq, Eq)]
pub struct Made {
    /// On standard output, one behind the other.
    pub datagrams: Vec<u8>,
    /// On standard error, a line for each bad line.
    pub messages: Vec<u8>,
}

/// Everything that the program writes for a whole input. Lines are counted from
/// 1, and the setup line is the first. A line that is refused makes nothing; the
/// program ends with a refused setup line, and else goes on with the next line.
pub fn made_for(input: &[u8]) -> Made {
    let mut made = Made {
        datagrams: Vec::new(),
        messages: Vec::new(),
    };
    let (first, rest) = split_input(input);
    let setup = match read_setup_line(first) {
        Ok(setup) => setup,
        Err(refusal) => {
            made.messages.extend(message(1, &refusal_text(refusal)));
            return made;
        }
    };
    for (place, line) in lines_of(rest).into_iter().enumerate() {
        match make_line(&setup, line) {
            Ok(datagram) => made.datagrams.extend(datagram),
            Err(complaint) => made.messages.extend(message(place + 2, &complaint)),
        }
    }
    made
}

/// The lines of what stands behind the setup line: each ended by 0x0A, the last
/// also by the end of the input if it has a byte.
fn lines_of(rest: &[u8]) -> Vec<&[u8]> {
    let mut lines: Vec<&[u8]> = rest.split(|&byte| byte == 0x0A).collect();
    if lines.last().is_some_and(|last| last.is_empty()) {
        lines.pop();
    }
    lines
}

/// The datagram of a rehearsal line, or what is to say of it, with 0x0A.
fn make_line(setup: &Setup, line: &[u8]) -> Result<Vec<u8>, Vec<u8>> {
    let values = read_rehearsal_line(line).map_err(|fault| fault_text(fault).to_vec())?;
    let mut buffer = [0; LONGEST_DATAGRAM];
    let length = write_datagram(setup, &values, &mut buffer).map_err(refusal_text)?;
    Ok(buffer[..length].to_vec())
}

fn fault_text(fault: Fault) -> &'static [u8] {
    match fault {
        Fault::TooLong => b"longer than 512 bytes\n",
        Fault::OtherCount => b"neither 25 nor 39 fields\n",
        Fault::NoNumber => b"a field is no whole number\n",
    }
}

fn message(number: usize, complaint: &[u8]) -> Vec<u8> {
    let mut message = format!("line {number}: ").into_bytes();
    message.extend_from_slice(complaint);
    message
}
