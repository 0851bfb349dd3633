//! 01, "The text line" and refusals 13 and 14.

use crate::datagram::{Datagram, Gap, Readings};
use crate::layout::layout_of;
use crate::session::{keeps_totals, Session};
use crate::setup::{judge_setup, Setup};
use crate::{Refusal, HIGHEST_READING, LOWEST_READING};

/// Everything that a text line is written from.
#[derive(Clone, Copy, Debug, PartialEq, Eq)]
pub struct Line {
    pub setup: Setup,
    /// Which datagram of the session it is, from 1.
    pub ordinal: u64,
    pub counter: u8,
    pub latency: u16,
    pub gap: Gap,
    pub readings: Readings,
    pub statuses: [u8; 3],
    pub totals: [[i64; 3]; 3],
    pub begun: [[bool; 3]; 3],
}

/// The line of a datagram and the session that came back with it.
pub fn line_of(session: &Session, datagram: &Datagram) -> Line {
    Line {
        setup: session.setup,
        ordinal: session.datagrams,
        counter: datagram.fields.counter,
        latency: datagram.fields.latency,
        gap: datagram.gap,
        readings: datagram.fields.readings,
        statuses: datagram.fields.statuses,
        totals: datagram.totals.map(|group| group.map(|total| total.steps)),
        begun: datagram.totals.map(|group| group.map(|total| total.begun)),
    }
}

/// Writes the line into the front of a lent buffer and returns how many bytes
/// it has. Refusals 4 to 9 for the setup, then 13, then 14; a refusal leaves
/// the buffer untouched.
pub fn write_line(line: &Line, buffer: &mut [u8]) -> Result<usize, Refusal> {
    judge_line(line)?;
    let text = text_of(line);
    // 14. The lent buffer is shorter than the line.
    if buffer.len() < text.len() {
        return Err(14);
    }
    buffer[..text.len()].copy_from_slice(text.as_bytes());
    Ok(text.len())
}

/// Refusals 4 to 9 for the line's setup, then 13, which looks at all nine
/// readings and all nine totals, also those whose field is empty.
pub fn judge_line(line: &Line) -> Result<(), Refusal> {
    judge_setup(&line.setup)?;
    let largest_total = 1_u64 << 53;
    for group in 0..3 {
        for axis in 0..3 {
            let reading = line.readings[group][axis];
            if reading < LOWEST_READING || reading > HIGHEST_READING {
                return Err(13);
            }
            if line.totals[group][axis].unsigned_abs() > largest_total {
                return Err(13);
            }
        }
    }
    if line.ordinal == 0 {
        return Err(13);
    }
    Ok(())
}

/// The 25 fields of a line that isn't refused, and the line end.
pub fn text_of(line: &Line) -> String {
    let mut fields = vec![
        line.ordinal.to_string(),
        line.counter.to_string(),
        line.latency.to_string(),
    ];
    fields.push(match line.gap {
        Gap::Missed(missed) => missed.to_string(),
        Gap::OffStep => "?".to_string(),
    });
    let layout = layout_of(line.setup.identifier).expect("the setup was judged");
    for group in 0..3 {
        let carried = layout.carries[group];
        for axis in 0..3 {
            fields.push(text_if(carried, line.readings[group][axis].into()));
        }
        fields.push(text_if(carried, line.statuses[group].into()));
        for axis in 0..3 {
            let shown = keeps_totals(&line.setup, group) && line.begun[group][axis];
            fields.push(text_if(shown, line.totals[group][axis]));
        }
    }
    fields.join(",") + "\n"
}

/// A number's text, or an empty field.
fn text_if(shown: bool, number: i64) -> String {
    if shown {
        number.to_string()
    } else {
        String::new()
    }
}
