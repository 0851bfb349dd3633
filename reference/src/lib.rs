//! A reference implementation of the STIM300 bench receiver, written from the
//! scope paper (document 01), its change requests (document 02) and the sensor's
//! datasheet (document 001) alone.
//!
//! The plain version, straight from the paper's sentences:
//!
//! * [`setup`]: the setup line and the setup given as values (refusals 1 to 9)
//! * [`layout`]: what each identifier carries and how long a datagram is
//! * [`check`]: the 32 bit check, one bit at a time
//! * [`datagram`]: decoding, status, doubles, gaps, totals of one datagram
//! * [`session`]: opening and feeding a session (refusals 10 to 12)
//! * [`line`]: the text line (refusals 4 to 9, 13 and 14)
//! * [`whole_piece`]: the lines of a whole piece at once (refusals 10 to 12, 14)
//! * [`program`]: what the receiving program prints for a whole input
//! * [`make`]: writing a datagram (refusals 4 to 9, 15 and 16)
//! * [`rehearsal`]: the line that a datagram is made from
//! * [`make_program`]: what the making program writes for a whole input
//! * [`value`]: a total or a reading in decimal digits (refusals 17 to 19)
//!
//! Beside it:
//!
//! * [`fast`]: the same program written for speed
//! * [`random`], [`generate`], [`generate_make`], [`generate_call`],
//!   [`generate_sums`], [`generate_value`]: adversarial inputs from a seed
//! * [`call`]: single calls of the library as records, with their answers as text
//! * [`listed`], [`listed_sums`], [`listed_values`]: calls written by hand, and at
//!   their edges
//! * [`process`]: giving a program its input, and showing what it printed

pub mod call;
pub mod check;
pub mod datagram;
pub mod fast;
pub mod generate;
pub mod generate_call;
pub mod generate_make;
pub mod generate_sums;
pub mod generate_value;
pub mod layout;
pub mod line;
pub mod listed;
pub mod listed_sums;
pub mod listed_values;
pub mod make;
pub mod make_program;
pub mod process;
pub mod program;
pub mod random;
pub mod rehearsal;
pub mod session;
pub mod setup;
pub mod value;
pub mod whole_piece;

/// The number of a refusal, as listed in 01, "What is turned down", and in 02.
pub type Refusal = u8;

/// The three groups, in the order in which a datagram carries them.
pub const GYRO: usize = 0;
pub const ACCELEROMETER: usize = 1;
pub const INCLINOMETER: usize = 2;

/// A stream, and with it a session, holds at most 2^34 bytes.
pub const STREAM_LIMIT: u64 = 1 << 34;

/// A piece holds at most 4,096 bytes.
pub const PIECE_LIMIT: usize = 4096;

/// The ends of a 24 bit reading.
pub const LOWEST_READING: i32 = -8_388_608;
pub const HIGHEST_READING: i32 = 8_388_607;
