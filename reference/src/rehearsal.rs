//! The rehearsal line: the fields of a text line (01), and if wanted those that
//! it lacks, from which a datagram is made (02, 2.1).
//!
//! 25 fields parted by commas, as in the text line, or 39: behind them for gyro,
//! accelerometer, inclinometer the temperatures X, Y, Z and their status, then
//! AUX and AUX status. Each is empty, which stands for 0, or a whole number;
//! missed may be `?`. Ordinal, missed and the totals are otherwise ignored.

use crate::make::Values;

/// A rehearsal line has at most this many bytes, the line end not counted.
pub const LONGEST_REHEARSAL_LINE: usize = 512;

/// The fields of a text line, and with temperatures and AUX.
pub const FEWER_FIELDS: usize = 25;
pub const MORE_FIELDS: usize = 39;

/// The place of the field that may be `?`.
pub const MISSED: usize = 3;

/// What is wrong with a line, in checking order.
#[derive(Clone, Copy, Debug, PartialEq, Eq)]
pub enum Fault {
    TooLong,
    OtherCount,
    NoNumber,
}

/// The values of a line, which is given without its line end.
pub fn read_rehearsal_line(line: &[u8]) -> Result<Values, Fault> {
    if line.len() > LONGEST_REHEARSAL_LINE {
        return Err(Fault::TooLong);
    }
    // n commas make n + 1 fields.
    let fields: Vec<&[u8]> = line.split(|&byte| byte == b',').collect();
    if fields.len() != FEWER_FIELDS && fields.len() != MORE_FIELDS {
        return Err(Fault::OtherCount);
    }
    let numbers = read_numbers(&fields).ok_or(Fault::NoNumber)?;
    Ok(values_of(&numbers))
}

/// The number in each field, 0 for a `?` in its place.
fn read_numbers(fields: &[&[u8]]) -> Option<Vec<i32>> {
    fields
        .iter()
        .enumerate()
        .map(|(place, field)| match (place, *field) {
            (MISSED, b"?") => Some(0),
            _ => read_number(field),
        })
        .collect()
}

/// An empty field stands for 0. Else `0`, or digits of which the first is 1 to
/// 9, with or without `-` before them; of what an i32 doesn't hold, the nearest
/// number that it does.
pub fn read_number(field: &[u8]) -> Option<i32> {
    if field.is_empty() || field == b"0" {
        return Some(0);
    }
    let (sign, digits) = match field.strip_prefix(b"-") {
        Some(digits) => (-1, digits),
        None => (1, field),
    };
    if !matches!(digits.first(), Some(b'1'..=b'9')) || !digits.iter().all(u8::is_ascii_digit) {
        return None;
    }
    let beyond = 1_i64 << 40;
    let size = digits.iter().fold(0, |size, &digit| {
        beyond.min(size * 10 + i64::from(digit - b'0'))
    });
    let nearest = (sign * size).clamp(i32::MIN.into(), i32::MAX.into());
    Some(nearest as i32)
}

/// The values among the numbers of 25 or 39 fields.
fn values_of(numbers: &[i32]) -> Values {
    let mut values = Values {
        counter: numbers[1],
        latency: numbers[2],
        ..Values::ZEROS
    };
    // Behind ordinal, counter, latency and missed each group has seven fields.
    for group in 0..3 {
        let of_group = &numbers[4 + 7 * group..];
        values.readings[group] = [of_group[0], of_group[1], of_group[2]];
        values.statuses[group] = of_group[3];
    }
    if numbers.len() == MORE_FIELDS {
        for group in 0..3 {
            let of_group = &numbers[FEWER_FIELDS + 4 * group..];
            values.temperatures[group] = [of_group[0], of_group[1], of_group[2]];
            values.temperature_statuses[group] = of_group[3];
        }
        values.aux = numbers[MORE_FIELDS - 2];
        values.aux_status = numbers[MORE_FIELDS - 1];
    }
    values
}
