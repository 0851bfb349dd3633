//! 01, "The check" (001, 5.5.7): width 32, most significant bit first, no
//! reflection, no final inversion. Here one bit at a time; the table version
//! is in [`crate::fast`].

pub const POLYNOMIAL: u32 = 0x04C1_1DB7;
pub const START_VALUE: u32 = 0xFFFF_FFFF;

/// The check of these bytes as they are, without padding.
pub fn check_unpadded(bytes: &[u8]) -> u32 {
    let mut remainder = START_VALUE;
    for &byte in bytes {
        remainder ^= u32::from(byte) << 24;
        for _ in 0..8 {
            let top_bit_set = remainder & 0x8000_0000 != 0;
            remainder <<= 1;
            if top_bit_set {
                remainder ^= POLYNOMIAL;
            }
        }
    }
    remainder
}

/// The check of the bytes before a check: followed by as many zero bytes as
/// bring them to a multiple of 4.
pub fn check_of(bytes_before_check: &[u8]) -> u32 {
    let mut padded = bytes_before_check.to_vec();
    while padded.len() % 4 != 0 {
        padded.push(0);
    }
    check_unpadded(&padded)
}
