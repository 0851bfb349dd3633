//! 01, "Layout by identifier" (001, 5.5.6 and Table 5-22).

use crate::setup::Setup;

/// What the datagrams of one identifier carry.
#[derive(Clone, Copy, Debug, PartialEq, Eq)]
pub struct Layout {
    /// Whether the gyro, accelerometer and inclinometer groups are carried.
    pub carries: [bool; 3],
    /// Whether each carried group has its temperatures too.
    pub temperatures: bool,
    /// Whether the auxiliary voltage (AUX) is carried.
    pub auxiliary: bool,
    /// How many bytes stand before the check, as the paper's table lists them.
    pub bytes_before_check: usize,
}

/// The sixteen identifiers of the table.
pub const IDENTIFIERS: [u8; 16] = [
    0x90, 0x91, 0x92, 0x93, 0x94, 0xA5, 0xA6, 0xA7, 0x98, 0x99, 0x9A, 0x9B, 0x9C, 0xAD, 0xAE, 0xAF,
];

/// The length of the longest datagram.
pub const LONGEST_DATAGRAM: usize = 65;

/// The table: letters for what is carried, and the bytes before the check.
/// R rate, A acceleration, I inclination, T temperature, U AUX.
pub fn layout_of(identifier: u32) -> Option<Layout> {
    let (letters, bytes_before_check) = match identifier {
        0x90 => ("R", 14),
        0x91 => ("RA", 24),
        0x92 => ("RI", 24),
        0x93 => ("RAI", 34),
        0x94 => ("RT", 21),
        0xA5 => ("RAT", 38),
        0xA6 => ("RIT", 38),
        0xA7 => ("RAIT", 55),
        0x98 => ("RU", 18),
        0x99 => ("RAU", 28),
        0x9A => ("RIU", 28),
        0x9B => ("RAIU", 38),
        0x9C => ("RTU", 25),
        0xAD => ("RATU", 42),
        0xAE => ("RITU", 42),
        0xAF => ("RAITU", 59),
        _ => return None,
    };
    Some(Layout {
        carries: [
            letters.contains('R'),
            letters.contains('A'),
            letters.contains('I'),
        ],
        temperatures: letters.contains('T'),
        auxiliary: letters.contains('U'),
        bytes_before_check,
    })
}

/// The length L of a datagram: the bytes before the check, the check, and with
/// termination two more. `None` if the identifier isn't in the table.
pub fn datagram_length(setup: &Setup) -> Option<usize> {
    let layout = layout_of(setup.identifier)?;
    let termination_bytes = if setup.termination == 1 { 2 } else { 0 };
    Some(layout.bytes_before_check + 4 + termination_bytes)
}
