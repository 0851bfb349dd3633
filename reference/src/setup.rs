//! 01, "The setup line" and refusals 1 to 9.

use crate::layout::layout_of;
use crate::Refusal;

/// The unit number of a group whose values are integrated.
pub const INTEGRATED: u32 = 3;

/// A setup line has at most this many bytes, the line end not counted.
pub const LONGEST_SETUP_LINE: usize = 64;

/// The nine fields of a setup. The arrays are in the order gyro,
/// accelerometer, inclinometer.
#[derive(Clone, Copy, Debug, PartialEq, Eq)]
pub struct Setup {
    /// Datagrams a second; 0 is external trigger.
    pub rate: u32,
    pub identifier: u32,
    /// 1 if each datagram ends in 0x0D 0x0A, else 0.
    pub termination: u32,
    /// 0 instantaneous, 1 incremental, 2 average, 3 integrated.
    pub units: [u32; 3],
    /// A value is its reading / 2^shift.
    pub shifts: [u32; 3],
}

impl Setup {
    /// What a refused setup line gives back.
    pub const ZEROS: Setup = Setup {
        rate: 0,
        identifier: 0,
        termination: 0,
        units: [0; 3],
        shifts: [0; 3],
    };
}

/// Judges a whole setup line, without its line end: refusals 1 to 9. Each
/// number is judged over the whole line before the next.
pub fn read_setup_line(line: &[u8]) -> Result<Setup, Refusal> {
    // 1. The line is empty or over 64 bytes.
    if line.is_empty() || line.len() > LONGEST_SETUP_LINE {
        return Err(1);
    }
    // 2. It hasn't exactly nine fields; n commas make n + 1 fields.
    let fields: Vec<&[u8]> = line.split(|&byte| byte == b',').collect();
    if fields.len() != 9 {
        return Err(2);
    }
    // 3. A field isn't written as the paper says.
    let mut numbers = [0; 9];
    for (position, field) in fields.iter().enumerate() {
        let number = if position == 1 {
            read_identifier(field)
        } else {
            read_decimal(field)
        };
        numbers[position] = number.ok_or(3)?;
    }
    let setup = Setup {
        rate: numbers[0],
        identifier: numbers[1],
        termination: numbers[2],
        units: [numbers[3], numbers[4], numbers[5]],
        shifts: [numbers[6], numbers[7], numbers[8]],
    };
    judge_setup(&setup)?;
    Ok(setup)
}

/// Judges a setup given as values: refusals 4 to 9.
pub fn judge_setup(setup: &Setup) -> Result<(), Refusal> {
    // 4. The rate is none of these.
    if ![0, 125, 250, 500, 1000, 2000].contains(&setup.rate) {
        return Err(4);
    }
    // 5. The identifier isn't in the table.
    let layout = layout_of(setup.identifier).ok_or(5)?;
    // 6. The termination isn't 0 or 1.
    if setup.termination > 1 {
        return Err(6);
    }
    // 7. A unit is above 3, of a group carried or not.
    if setup.units.iter().any(|&unit| unit > 3) {
        return Err(7);
    }
    // 8. A shift is above 31, of a group carried or not.
    if setup.shifts.iter().any(|&shift| shift > 31) {
        return Err(8);
    }
    // 9. A group not carried has a unit or shift other than 0.
    for group in 0..3 {
        if !layout.carries[group] && (setup.units[group] != 0 || setup.shifts[group] != 0) {
            return Err(9);
        }
    }
    Ok(())
}

/// The setup line of a setup, without a line end.
pub fn setup_line(setup: &Setup) -> String {
    let [gyro_unit, accelerometer_unit, inclinometer_unit] = setup.units;
    let [gyro_shift, accelerometer_shift, inclinometer_shift] = setup.shifts;
    format!(
        "{},{:02X},{},{gyro_unit},{accelerometer_unit},{inclinometer_unit},\
         {gyro_shift},{accelerometer_shift},{inclinometer_shift}",
        setup.rate, setup.identifier, setup.termination
    )
}

/// Two digits 0-9 or A-F.
fn read_identifier(field: &[u8]) -> Option<u32> {
    if field.len() != 2 {
        return None;
    }
    let mut number = 0;
    for &byte in field {
        let digit = match byte {
            b'0'..=b'9' => byte - b'0',
            b'A'..=b'F' => byte - b'A' + 10,
            _ => return None,
        };
        number = number * 16 + u32::from(digit);
    }
    Some(number)
}

/// 1 to 4 decimal digits without a leading zero, except `0` itself.
fn read_decimal(field: &[u8]) -> Option<u32> {
    if field.is_empty() || field.len() > 4 {
        return None;
    }
    if field.len() > 1 && field[0] == b'0' {
        return None;
    }
    let mut number = 0;
    for &byte in field {
        if !byte.is_ascii_digit() {
            return None;
        }
        number = number * 10 + u32::from(byte - b'0');
    }
    Some(number)
}
