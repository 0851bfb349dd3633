//! The receiving program written for speed. Datagrams are judged in place in
//! the read buffer, the check goes by words through tables, decimals are made
//! eight digits at a time, and nothing is allocated per datagram. It prints
//! what [`crate::program::output_for`] prints.

use std::io::{self, ErrorKind, Read, Write};

use crate::check::{POLYNOMIAL, START_VALUE};
use crate::layout::{datagram_length, layout_of};
use crate::program::{refusal_text, LINE_ROOM};
use crate::session::{keeps_totals, MOST_HELD};
use crate::setup::{read_setup_line, Setup, LONGEST_SETUP_LINE};

/// How much is read at once.
const READ_SIZE: usize = 65_536;

/// The lines are written out when less than a line's room is left.
const OUTPUT_SIZE: usize = 65_536;

/// Receives a whole input: the setup line, then the stream. Ends at the end of
/// the input, or after a refusal.
pub fn receive(
    input: &mut impl Read,
    output: &mut impl Write,
    stream_limit: u64,
) -> io::Result<()> {
    // What is held from one read to the next is moved to just before the place
    // where the next read begins.
    let mut buffer = vec![0; MOST_HELD + READ_SIZE];
    let mut end = MOST_HELD;

    // The setup line comes in any number of reads.
    let line_end = loop {
        if let Some(line_length) = find_byte(&buffer[MOST_HELD..end], 0x0A) {
            break MOST_HELD + line_length;
        }
        if end - MOST_HELD > LONGEST_SETUP_LINE {
            return refuse(output, 1);
        }
        let count = read_some(input, &mut buffer[end..])?;
        if count == 0 {
            // All of the input is the setup line.
            return match read_setup_line(&buffer[MOST_HELD..end]) {
                Ok(_) => Ok(()),
                Err(refusal) => refuse(output, refusal),
            };
        }
        end += count;
    };
    let setup = match read_setup_line(&buffer[MOST_HELD..line_end]) {
        Ok(setup) => setup,
        Err(refusal) => return refuse(output, refusal),
    };

    let mut receiver = Receiver::new(&setup);
    let mut lines = Lines::new();
    let mut still_allowed = stream_limit;
    let mut undecided_start = line_end + 1;
    let mut new_start = line_end + 1;
    loop {
        let new_count = end - new_start;
        let allowed_count = still_allowed.min(new_count as u64) as usize;
        let allowed_end = new_start + allowed_count;
        still_allowed -= allowed_count as u64;
        undecided_start +=
            receiver.scan(&buffer[undecided_start..allowed_end], &mut lines, output)?;
        lines.write_out(output)?;
        if allowed_count < new_count {
            return refuse(output, 12);
        }

        let held_count = allowed_end - undecided_start;
        buffer.copy_within(undecided_start..allowed_end, MOST_HELD - held_count);
        undecided_start = MOST_HELD - held_count;
        new_start = MOST_HELD;
        // At the limit one more byte decides between the end and a refusal.
        let read_size = still_allowed.clamp(1, READ_SIZE as u64) as usize;
        let count = read_some(input, &mut buffer[new_start..new_start + read_size])?;
        if count == 0 {
            return Ok(());
        }
        end = new_start + count;
    }
}

/// One read, tried again if it was interrupted. 0 is the end of the input.
fn read_some(input: &mut impl Read, room: &mut [u8]) -> io::Result<usize> {
    loop {
        match input.read(room) {
            Err(error) if error.kind() == ErrorKind::Interrupted => {}
            result => return result,
        }
    }
}

fn refuse(output: &mut impl Write, refusal: crate::Refusal) -> io::Result<()> {
    output.write_all(&refusal_text(refusal))?;
    output.flush()
}

/// What is kept of one axis between datagrams.
#[derive(Clone, Copy)]
struct Axis {
    begun: bool,
    last_fit_reading: i32,
    total: i64,
}

/// What is known of one group before any datagram comes.
#[derive(Clone, Copy)]
struct Group {
    carried: bool,
    keeps_totals: bool,
}

struct Receiver {
    identifier: u8,
    length: usize,
    bytes_before_check: usize,
    /// Cuts the bytes of the check off the last word before it.
    last_word_mask: u32,
    has_termination: bool,
    /// Internal samples from one datagram to the next; 0 at external trigger.
    step: u32,
    groups: [Group; 3],
    axes: [[Axis; 3]; 3],
    datagrams: u64,
    previous_counter: u8,
}

impl Receiver {
    /// A receiver of an accepted setup.
    fn new(setup: &Setup) -> Receiver {
        let layout = layout_of(setup.identifier).expect("the setup was accepted");
        let length = datagram_length(setup).expect("the setup was accepted");
        let padding = (4 - layout.bytes_before_check % 4) % 4;
        let group = |number: usize| Group {
            carried: layout.carries[number],
            keeps_totals: keeps_totals(setup, number),
        };
        Receiver {
            identifier: setup.identifier as u8,
            length,
            bytes_before_check: layout.bytes_before_check,
            last_word_mask: u32::MAX << (8 * padding),
            has_termination: setup.termination == 1,
            step: 2000_u32.checked_div(setup.rate).unwrap_or(0),
            groups: [group(0), group(1), group(2)],
            axes: [[Axis {
                begun: false,
                last_fit_reading: 0,
                total: 0,
            }; 3]; 3],
            datagrams: 0,
            previous_counter: 0,
        }
    }

    /// Scans the undecided bytes and prints each datagram among them. Returns
    /// how many bytes are decided; fewer than a datagram's length stay.
    fn scan(
        &mut self,
        undecided: &[u8],
        lines: &mut Lines,
        output: &mut impl Write,
    ) -> io::Result<usize> {
        let mut position = 0;
        loop {
            match find_byte(&undecided[position..], self.identifier) {
                Some(distance) => position += distance,
                None => return Ok(undecided.len()),
            }
            let Some(candidate) = undecided.get(position..position + self.length) else {
                return Ok(position);
            };
            if self.is_acceptable(candidate) {
                lines.used += self.print(candidate, lines.room(output)?);
                position += self.length;
            } else {
                position += 1;
            }
        }
    }

    #[inline]
    fn is_acceptable(&self, candidate: &[u8]) -> bool {
        if self.has_termination && !candidate.ends_with(&[0x0D, 0x0A]) {
            return false;
        }
        let sent_check = word_at(candidate, self.bytes_before_check);
        padded_check(candidate, self.bytes_before_check, self.last_word_mask) == sent_check
    }

    /// Adds an acceptable datagram to the totals and prints its line. Returns
    /// the length of the line.
    #[inline]
    fn print(&mut self, datagram: &[u8], room: &mut [u8; LINE_ROOM]) -> usize {
        let mut line = LineWriter {
            bytes: room,
            used: 0,
        };
        let counter = datagram[self.bytes_before_check - 3];
        let latency = u16::from_be_bytes([
            datagram[self.bytes_before_check - 2],
            datagram[self.bytes_before_check - 1],
        ]);
        self.datagrams += 1;
        line.number_and_comma(self.datagrams);
        line.small_number_and_comma(counter);
        line.number_and_comma(latency.into());
        self.print_gap(counter, &mut line);
        self.previous_counter = counter;

        let mut position = 1;
        for (group, axes) in self.groups.iter().zip(&mut self.axes) {
            if !group.carried {
                line.text(*b",,,,,,,");
                continue;
            }
            let bytes: &[u8; 10] = datagram[position..position + 10]
                .try_into()
                .expect("a group is ten bytes");
            position += 10;
            let [x1, x2, x3, y1, y2, y3, z1, z2, z3, status] = *bytes;
            let readings = [[x1, x2, x3], [y1, y2, y3], [z1, z2, z3]]
                .map(|[first, second, third]| i32::from_be_bytes([first, second, third, 0]) >> 8);
            for reading in readings {
                line.signed_and_comma(reading.into());
            }
            line.small_number_and_comma(status);
            if !group.keeps_totals {
                line.text(*b",,,");
                continue;
            }
            let unfit_axes = unfit_axes(status);
            for (number, axis) in axes.iter_mut().enumerate() {
                if unfit_axes >> number & 1 == 0 {
                    axis.add(readings[number]);
                }
                if axis.begun {
                    line.signed_and_comma(axis.total);
                } else {
                    line.text(*b",");
                }
            }
        }
        line.end();
        line.used
    }

    #[inline]
    fn print_gap(&self, counter: u8, line: &mut LineWriter) {
        if self.step == 0 || self.datagrams == 1 {
            return line.text(*b"0,");
        }
        // 1 to 256 internal samples: a difference of 0 is read as 256.
        let samples = u32::from(counter.wrapping_sub(self.previous_counter).wrapping_sub(1)) + 1;
        // Each step is a power of two.
        if samples & (self.step - 1) == 0 {
            let missed = (samples >> self.step.trailing_zeros()) - 1;
            line.small_number_and_comma(missed as u8);
        } else {
            line.text(*b"?,");
        }
    }
}

impl Axis {
    /// Adds a fit reading: its difference to the last one, folded to 24 bits.
    #[inline]
    fn add(&mut self, reading: i32) {
        if self.begun {
            let folded = (reading - self.last_fit_reading) << 8 >> 8;
            self.total += i64::from(folded);
        }
        self.begun = true;
        self.last_fit_reading = reading;
    }
}

/// Bits 0 to 2 of the answer: whether X, Y, Z are unfit by this status (01,
/// Status; 02, 2.2).
#[inline]
pub fn unfit_axes(status: u8) -> u8 {
    if status & 0b1100_0000 != 0 {
        return 0b111;
    }
    if status & 0b0001_1000 == 0 {
        return 0;
    }
    match status & 0b111 {
        // None named is all three.
        0 => 0b111,
        named => named,
    }
}

/// Where the byte stands first, eight bytes at a time.
#[inline]
fn find_byte(bytes: &[u8], wanted: u8) -> Option<usize> {
    if bytes.first() == Some(&wanted) {
        return Some(0);
    }
    const ONES: u64 = 0x0101_0101_0101_0101;
    const TOPS: u64 = 0x8080_8080_8080_8080;
    let pattern = ONES * u64::from(wanted);
    let mut chunks = bytes.chunks_exact(8);
    let mut position = 0;
    for chunk in &mut chunks {
        let eight = u64::from_le_bytes(chunk.try_into().expect("a chunk is eight bytes"));
        // The lowest byte that is zero here is the first that is wanted.
        let different = eight ^ pattern;
        let zero_bytes = different.wrapping_sub(ONES) & !different & TOPS;
        if zero_bytes != 0 {
            return Some(position + zero_bytes.trailing_zeros() as usize / 8);
        }
        position += 8;
    }
    let rest = chunks.remainder();
    rest.iter()
        .position(|&byte| byte == wanted)
        .map(|distance| position + distance)
}

/// `CHECK_TABLES[n][b]` is what a byte b followed by n zero bytes adds to a
/// check.
static CHECK_TABLES: [[u32; 256]; 16] = check_tables();

const fn check_tables() -> [[u32; 256]; 16] {
    let mut tables = [[0; 256]; 16];
    let mut byte = 0;
    while byte < 256 {
        let mut remainder = (byte as u32) << 24;
        let mut bit = 0;
        while bit < 8 {
            remainder = if remainder & 0x8000_0000 != 0 {
                remainder << 1 ^ POLYNOMIAL
            } else {
                remainder << 1
            };
            bit += 1;
        }
        tables[0][byte] = remainder;
        byte += 1;
    }
    let mut zeros = 1;
    while zeros < 16 {
        let mut byte = 0;
        while byte < 256 {
            let before = tables[zeros - 1][byte];
            tables[zeros][byte] = before << 8 ^ tables[0][(before >> 24) as usize];
            byte += 1;
        }
        zeros += 1;
    }
    tables
}

#[inline]
fn word_at(bytes: &[u8], position: usize) -> u32 {
    let four: [u8; 4] = bytes[position..position + 4]
        .try_into()
        .expect("a word is four bytes");
    u32::from_be_bytes(four)
}

/// What a word followed by so many zero words adds to a check.
#[inline(always)]
fn added_by_word(word: u32, zero_words: usize) -> u32 {
    let [first, second, third, fourth] = word.to_be_bytes();
    let after = 4 * zero_words;
    CHECK_TABLES[after + 3][first as usize]
        ^ CHECK_TABLES[after + 2][second as usize]
        ^ CHECK_TABLES[after + 1][third as usize]
        ^ CHECK_TABLES[after][fourth as usize]
}

/// The check of the first bytes of a datagram, padded with zeros to whole
/// words: four words at a time, then the one to four that are left. The last
/// word may reach into the check that follows; the mask makes that zero.
#[inline]
pub fn padded_check(datagram: &[u8], bytes_before_check: usize, last_word_mask: u32) -> u32 {
    let mut check = START_VALUE;
    let mut rest = &datagram[..bytes_before_check.next_multiple_of(4)];
    while rest.len() > 16 {
        check = added_by_word(word_at(rest, 0) ^ check, 3)
            ^ added_by_word(word_at(rest, 4), 2)
            ^ added_by_word(word_at(rest, 8), 1)
            ^ added_by_word(word_at(rest, 12), 0);
        rest = &rest[16..];
    }
    match rest.len() {
        16 => {
            added_by_word(word_at(rest, 0) ^ check, 3)
                ^ added_by_word(word_at(rest, 4), 2)
                ^ added_by_word(word_at(rest, 8), 1)
                ^ added_by_word(word_at(rest, 12) & last_word_mask, 0)
        }
        12 => {
            added_by_word(word_at(rest, 0) ^ check, 2)
                ^ added_by_word(word_at(rest, 4), 1)
                ^ added_by_word(word_at(rest, 8) & last_word_mask, 0)
        }
        8 => {
            added_by_word(word_at(rest, 0) ^ check, 1)
                ^ added_by_word(word_at(rest, 4) & last_word_mask, 0)
        }
        _ => added_by_word(word_at(rest, 0) & last_word_mask ^ check, 0),
    }
}

/// Lines on their way out, written from the front.
struct Lines {
    bytes: Box<[u8; OUTPUT_SIZE]>,
    used: usize,
}

impl Lines {
    fn new() -> Lines {
        Lines {
            bytes: Box::new([0; OUTPUT_SIZE]),
            used: 0,
        }
    }

    /// Room for one more line.
    #[inline]
    fn room(&mut self, output: &mut impl Write) -> io::Result<&mut [u8; LINE_ROOM]> {
        if self.used > OUTPUT_SIZE - LINE_ROOM {
            self.write_out(output)?;
        }
        let room = &mut self.bytes[self.used..self.used + LINE_ROOM];
        Ok(room.try_into().expect("it is a line's room"))
    }

    fn write_out(&mut self, output: &mut impl Write) -> io::Result<()> {
        if self.used > 0 {
            output.write_all(&self.bytes[..self.used])?;
            output.flush()?;
            self.used = 0;
        }
        Ok(())
    }
}

/// `SMALL_NUMBERS[n]`: the text of n and a comma, and how many bytes that is.
static SMALL_NUMBERS: [([u8; 4], u8); 256] = small_numbers();

const fn small_numbers() -> [([u8; 4], u8); 256] {
    let mut texts = [([0; 4], 0); 256];
    let mut number = 0;
    while number < 256 {
        let hundreds = b'0' + (number / 100) as u8;
        let tens = b'0' + (number / 10 % 10) as u8;
        let ones = b'0' + (number % 10) as u8;
        texts[number] = if number >= 100 {
            ([hundreds, tens, ones, b','], 4)
        } else if number >= 10 {
            ([tens, ones, b',', 0], 3)
        } else {
            ([ones, b',', 0, 0], 2)
        };
        number += 1;
    }
    texts
}

const EIGHT_DIGITS: u64 = 100_000_000;

/// One line as it is written.
struct LineWriter<'a> {
    bytes: &'a mut [u8; LINE_ROOM],
    used: usize,
}

impl LineWriter<'_> {
    /// Puts these bytes behind the others, and counts so many of them as used.
    #[inline]
    fn put<const SIZE: usize>(&mut self, bytes: [u8; SIZE], used: usize) {
        self.bytes[self.used..self.used + SIZE].copy_from_slice(&bytes);
        self.used += used;
    }

    #[inline]
    fn text<const SIZE: usize>(&mut self, text: [u8; SIZE]) {
        self.put(text, SIZE);
    }

    #[inline]
    fn small_number_and_comma(&mut self, number: u8) {
        let (text, length) = SMALL_NUMBERS[number as usize];
        self.put(text, length as usize);
    }

    #[inline(always)]
    fn signed_and_comma(&mut self, number: i64) {
        self.put([b'-'], (number < 0) as usize);
        self.number_and_comma(number.unsigned_abs());
    }

    /// A number below 10^16, which totals, below 2^53, and all others are.
    #[inline(always)]
    fn number_and_comma(&mut self, number: u64) {
        if number >= EIGHT_DIGITS {
            self.used = front_digits(self.bytes, self.used, number / EIGHT_DIGITS);
            let digits = eight_digits(number % EIGHT_DIGITS);
            self.put((digits | ASCII_ZEROS).to_le_bytes(), 8);
        } else {
            let (text, length) = up_to_eight_digits(number);
            self.put(text, length);
        }
        self.text(*b",");
    }

    /// The line end in place of the last comma.
    #[inline]
    fn end(&mut self) {
        self.bytes[self.used - 1] = b'\n';
    }
}

/// The digits before the last eight of a long number, written behind the used
/// bytes. Returns how many are used then.
#[inline(never)]
fn front_digits(bytes: &mut [u8; LINE_ROOM], used: usize, number: u64) -> usize {
    let (text, length) = up_to_eight_digits(number);
    bytes[used..used + 8].copy_from_slice(&text);
    used + length
}

/// The text of a number below 10^8 without leading zeros, except for 0 itself,
/// and its length.
#[inline(always)]
fn up_to_eight_digits(number: u64) -> ([u8; 8], usize) {
    let digits = eight_digits(number);
    // The last digit counts, even if it is 0.
    let leading_zeros = (digits | 1 << 56).trailing_zeros() / 8;
    let text = (digits | ASCII_ZEROS) >> (8 * leading_zeros);
    (text.to_le_bytes(), 8 - leading_zeros as usize)
}

/// The text of a number as it stands in a line, with its comma, for trials.
pub fn number_text(number: i64) -> Vec<u8> {
    let mut bytes = [0; LINE_ROOM];
    let mut line = LineWriter {
        bytes: &mut bytes,
        used: 0,
    };
    line.signed_and_comma(number);
    let used = line.used;
    bytes[..used].to_vec()
}

const ASCII_ZEROS: u64 = 0x3030_3030_3030_3030;

/// The eight digits of a number below 10^8, one to a byte, the first in the
/// lowest byte. Each step halves all fields at once: into four digits, two
/// digits, one digit. (n * 10486) >> 20 is n / 100 below 10,000, and
/// (n * 103) >> 10 is n / 10 below 100.
#[inline(always)]
fn eight_digits(number: u64) -> u64 {
    let fours = number / 10_000 | number % 10_000 << 32;
    let hundreds = (fours * 10_486 >> 20) & 0x0000_007F_0000_007F;
    let twos = hundreds | (fours - hundreds * 100) << 16;
    let tens = (twos * 103 >> 10) & 0x000F_000F_000F_000F;
    tens | (twos - tens * 10) << 8
}
