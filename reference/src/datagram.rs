//! One datagram: whether bytes make one up, its fields, and 01, "Status,
//! doubles, gaps" and "Totals", with 02, 2.2, 2.3 and 2.5.

use crate::check::check_of;
use crate::layout::{datagram_length, layout_of};
use crate::setup::Setup;

/// The readings of one datagram: three groups by three axes.
pub type Readings = [[i32; 3]; 3];

/// What a datagram carries on the wire. A part that the identifier doesn't
/// carry is 0.
#[derive(Clone, Copy, Debug, PartialEq, Eq)]
pub struct Fields {
    pub readings: Readings,
    pub statuses: [u8; 3],
    pub temperatures: [[i16; 3]; 3],
    pub temperature_statuses: [u8; 3],
    pub auxiliary: i32,
    pub auxiliary_status: u8,
    pub counter: u8,
    /// In microseconds.
    pub latency: u16,
}

impl Fields {
    pub const ZEROS: Fields = Fields {
        readings: [[0; 3]; 3],
        statuses: [0; 3],
        temperatures: [[0; 3]; 3],
        temperature_statuses: [0; 3],
        auxiliary: 0,
        auxiliary_status: 0,
        counter: 0,
        latency: 0,
    };
}

/// The three values of a group, by its unit.
#[derive(Clone, Copy, Debug, PartialEq)]
pub enum GroupValues {
    Instantaneous([f64; 3]),
    Incremental([f64; 3]),
    Average([f64; 3]),
    Integrated([f64; 3]),
}

/// The judgement of an axis (02, 2.3). The first that applies, of those behind
/// fit, is named.
#[derive(Clone, Copy, Debug, PartialEq, Eq)]
pub enum Judgement {
    Fit,
    Integrity,
    StartUp,
    Error,
    Overload,
}

/// What the counter tells since the datagram before.
#[derive(Clone, Copy, Debug, PartialEq, Eq)]
pub enum Gap {
    /// So many datagrams were missed.
    Missed(u64),
    OffStep,
}

/// A total as it comes back with a datagram; 0 while it hasn't begun.
#[derive(Clone, Copy, Debug, PartialEq)]
pub struct Total {
    pub begun: bool,
    /// In output steps.
    pub steps: i64,
    /// steps / 2^shift
    pub double: f64,
}

impl Total {
    pub const NOT_BEGUN: Total = Total {
        begun: false,
        steps: 0,
        double: 0.0,
    };
}

/// A datagram as it is handed out.
#[derive(Clone, Copy, Debug, PartialEq)]
pub struct Datagram {
    pub fields: Fields,
    pub values: [GroupValues; 3],
    pub flagged_channels: [u32; 3],
    /// Of each axis of each group; fit in a group that isn't carried.
    pub judgements: [[Judgement; 3]; 3],
    pub gap: Gap,
    pub totals: [[Total; 3]; 3],
    /// Whether the totals of gyro X, Y and Z are marked as doubtful (02, 2.5); not so
    /// while a total hasn't begun or where none is kept.
    pub doubtful: [bool; 3],
}

impl Datagram {
    /// What stands in an answer that hands out no datagram: zeros, unit 0, every axis
    /// fit and no mark.
    pub const ZEROS: Datagram = Datagram {
        fields: Fields::ZEROS,
        values: [GroupValues::Instantaneous([0.0; 3]); 3],
        flagged_channels: [0; 3],
        judgements: [[Judgement::Fit; 3]; 3],
        gap: Gap::Missed(0),
        totals: [[Total::NOT_BEGUN; 3]; 3],
        doubtful: [false; 3],
    };
}

/// Whether exactly these bytes make up an acceptable datagram of an accepted
/// setup: length, identifier, check and termination are right (01, "The scan").
pub fn is_acceptable(setup: &Setup, bytes: &[u8]) -> bool {
    let (Some(layout), Some(length)) = (layout_of(setup.identifier), datagram_length(setup)) else {
        return false;
    };
    if bytes.len() != length || u32::from(bytes[0]) != setup.identifier {
        return false;
    }
    let (before_check, rest) = bytes.split_at(layout.bytes_before_check);
    let (sent_check, sent_termination) = rest.split_at(4);
    let termination: &[u8] = if setup.termination == 1 {
        &[0x0D, 0x0A]
    } else {
        &[]
    };
    sent_check == check_of(before_check).to_be_bytes() && sent_termination == termination
}

/// The fields of an acceptable datagram, in the order of 01, "Layout by
/// identifier": identifier, groups, temperatures, AUX, counter, latency.
pub fn decode(setup: &Setup, bytes: &[u8]) -> Fields {
    let layout = layout_of(setup.identifier).expect("only accepted setups are decoded");
    let mut fields = Fields::ZEROS;
    let mut unread = bytes[1..].iter().copied();
    let mut next = || {
        unread
            .next()
            .expect("an acceptable datagram is long enough")
    };
    for group in 0..3 {
        if layout.carries[group] {
            for axis in 0..3 {
                fields.readings[group][axis] = reading_of([next(), next(), next()]);
            }
            fields.statuses[group] = next();
        }
    }
    if layout.temperatures {
        for group in 0..3 {
            if layout.carries[group] {
                for axis in 0..3 {
                    fields.temperatures[group][axis] = i16::from_be_bytes([next(), next()]);
                }
                fields.temperature_statuses[group] = next();
            }
        }
    }
    if layout.auxiliary {
        fields.auxiliary = reading_of([next(), next(), next()]);
        fields.auxiliary_status = next();
    }
    fields.counter = next();
    fields.latency = u16::from_be_bytes([next(), next()]);
    fields
}

/// The bytes of the acceptable datagram with these fields. Fields that the
/// identifier doesn't carry are left out.
pub fn encode(setup: &Setup, fields: &Fields) -> Vec<u8> {
    let layout = layout_of(setup.identifier).expect("only accepted setups are encoded");
    let mut bytes = vec![setup.identifier as u8];
    for group in 0..3 {
        if layout.carries[group] {
            for reading in fields.readings[group] {
                bytes.extend_from_slice(&reading.to_be_bytes()[1..]);
            }
            bytes.push(fields.statuses[group]);
        }
    }
    if layout.temperatures {
        for group in 0..3 {
            if layout.carries[group] {
                for temperature in fields.temperatures[group] {
                    bytes.extend_from_slice(&temperature.to_be_bytes());
                }
                bytes.push(fields.temperature_statuses[group]);
            }
        }
    }
    if layout.auxiliary {
        bytes.extend_from_slice(&fields.auxiliary.to_be_bytes()[1..]);
        bytes.push(fields.auxiliary_status);
    }
    bytes.push(fields.counter);
    bytes.extend_from_slice(&fields.latency.to_be_bytes());
    let check = check_of(&bytes);
    bytes.extend_from_slice(&check.to_be_bytes());
    if setup.termination == 1 {
        bytes.extend_from_slice(&[0x0D, 0x0A]);
    }
    bytes
}

/// A reading of 3 bytes, the most significant first, two's complement.
pub fn reading_of(bytes: [u8; 3]) -> i32 {
    let unsigned = i32::from(bytes[0]) * 65_536 + i32::from(bytes[1]) * 256 + i32::from(bytes[2]);
    if unsigned >= 8_388_608 {
        unsigned - 16_777_216
    } else {
        unsigned
    }
}

/// An axis (0 X, 1 Y, 2 Z) is unfit if bit 7 or 6 is set, or if bit 3 or 4 is
/// set and the axis is named; else fit. Bits 0 to 2 name their axes, and bit 3
/// or 4 with all three clear names all three (01, Status; 02, 2.2).
pub fn is_fit(status: u8, axis: usize) -> bool {
    let bit = |number: usize| status >> number & 1 == 1;
    let none_named = !bit(0) && !bit(1) && !bit(2);
    let is_named = bit(axis) || none_named;
    let unfit = bit(7) || bit(6) || ((bit(3) || bit(4)) && is_named);
    !unfit
}

/// What a group's status says of an axis (0 X, 1 Y, 2 Z). Bit 7 is integrity and
/// bit 6 start-up, of every axis; bit 3 is error and bit 4 overload, of the axes
/// named: those whose bit of 0 to 2 is set, or all three if none is. If several
/// apply, it is the first of integrity, start-up, error, overload; if none does,
/// fit (001, Table 5-23; 02, 2.2 and 2.3).
pub fn judgement_of(status: u8, axis: usize) -> Judgement {
    let names_axis = match status % 8 {
        0 => true,
        named => named >> axis & 1 == 1,
    };
    if status & 0b1000_0000 != 0 {
        Judgement::Integrity
    } else if status & 0b0100_0000 != 0 {
        Judgement::StartUp
    } else if status & 0b0000_1000 != 0 && names_axis {
        Judgement::Error
    } else if status & 0b0001_0000 != 0 && names_axis {
        Judgement::Overload
    } else {
        Judgement::Fit
    }
}

/// How many of bits 0 to 2 are one.
pub fn flagged_channels(status: u8) -> u32 {
    (status & 0b111).count_ones()
}

/// The double of a reading or a total: exactly number / 2^shift. Both a number
/// up to 2^53 and the power of two are doubles without rounding.
pub fn double_of(number: i64, shift: u32) -> f64 {
    number as f64 / (1_u64 << shift) as f64
}

/// The values of a group, of the kind that its unit names.
pub fn group_values(unit: u32, shift: u32, readings: [i32; 3]) -> GroupValues {
    let doubles = readings.map(|reading| double_of(i64::from(reading), shift));
    match unit {
        0 => GroupValues::Instantaneous(doubles),
        1 => GroupValues::Incremental(doubles),
        2 => GroupValues::Average(doubles),
        3 => GroupValues::Integrated(doubles),
        _ => panic!("an accepted setup has no unit above 3"),
    }
}

/// The internal samples d between two counters: new minus previous, modulo 256, a
/// d of 0 read as 256.
pub fn samples_between(previous_counter: u8, new_counter: u8) -> u32 {
    match (256 + u32::from(new_counter) - u32::from(previous_counter)) % 256 {
        0 => 256,
        samples => samples,
    }
}

/// The gap between two counters: with step s = 2000 / rate, missed is d / s - 1 if
/// s divides d. External trigger (rate 0) gives missed 0.
pub fn gap_between(rate: u32, previous_counter: u8, new_counter: u8) -> Gap {
    if rate == 0 {
        return Gap::Missed(0);
    }
    let step = 2000 / u64::from(rate);
    let samples = u64::from(samples_between(previous_counter, new_counter));
    if samples % step == 0 {
        Gap::Missed(samples / step - 1)
    } else {
        Gap::OffStep
    }
}

/// The difference between two readings, taken modulo 2^24 into
/// -8388608 .. 8388607.
pub fn folded_difference(new_reading: i32, last_reading: i32) -> i64 {
    let difference = i64::from(new_reading) - i64::from(last_reading);
    let modulo = difference.rem_euclid(16_777_216);
    if modulo >= 8_388_608 {
        modulo - 16_777_216
    } else {
        modulo
    }
}
