//! Adversarial inputs for the receiving program, from a seed: setup lines of
//! every refusal and just beside it, and streams that a careless scan gets
//! wrong.

use crate::check::{check_of, check_unpadded};
use crate::datagram::{encode, Fields};
use crate::layout::{datagram_length, layout_of, IDENTIFIERS};
use crate::random::Random;
use crate::setup::{judge_setup, setup_line, Setup, LONGEST_SETUP_LINE};
use crate::{Refusal, HIGHEST_READING, LOWEST_READING, PIECE_LIMIT};

/// The input of one numbered case of a seed: a setup line and a stream.
pub fn input_of_case(seed: u64, number: u64) -> Vec<u8> {
    let mut random = Random::for_case(seed, number);
    let setup = good_setup(&mut random);
    let size = stream_size(&mut random);
    if random.below(10) < 7 {
        let mut input = setup_line(&setup).into_bytes();
        // A good line may end at the end of the input, too.
        if !random.one_in(60) {
            input.push(0x0A);
            input.extend(stream(&mut random, &setup, size));
        }
        return input;
    }
    // A setup line that may be refused, before a stream of the good setup, so
    // that a program which doesn't refuse it prints something.
    let mut input = doubtful_setup_line(&mut random, &setup);
    match random.below(8) {
        // The line ends at the end of the input.
        0 | 1 => {}
        2 => input.push(0x0A),
        // No line end between the line and the stream.
        3 => input.extend(stream(&mut random, &setup, size)),
        _ => {
            input.push(0x0A);
            input.extend(stream(&mut random, &setup, size));
        }
    }
    input
}

/// A setup that isn't refused: every rate, identifier, termination, unit and
/// shift, integrated units and the ends of the shifts more often.
pub fn good_setup(random: &mut Random) -> Setup {
    let identifier = u32::from(random.pick(&IDENTIFIERS));
    let layout = layout_of(identifier).expect("each of these is in the table");
    let mut setup = Setup {
        rate: random.pick(&[0, 125, 250, 500, 1000, 2000]),
        identifier,
        termination: random.below(2) as u32,
        ..Setup::ZEROS
    };
    for group in 0..3 {
        if layout.carries[group] {
            setup.units[group] = random.pick(&[0, 1, 2, 3, 3, 3]);
            let any = random.below(32) as u32;
            setup.shifts[group] = random.pick(&[0, 14, 21, 31, any, any]);
        }
    }
    setup
}

/// A setup that isn't refused. Each 32 cases in a row have every identifier
/// with each termination.
pub fn setup_of_case(random: &mut Random, number: u64) -> Setup {
    let identifier = u32::from(IDENTIFIERS[(number % 16) as usize]);
    let termination = (number / 16 % 2) as u32;
    loop {
        let setup = good_setup(random);
        if setup.identifier == identifier && setup.termination == termination {
            return setup;
        }
    }
}

/// Many short, some around a piece's limit, a few long.
fn stream_size(random: &mut Random) -> usize {
    match random.below(1000) {
        0..=19 => 0,
        20..=739 => random.between(0, 300),
        740..=889 => random.between(300, 1500),
        890..=959 => random.between(PIECE_LIMIT - 6, PIECE_LIMIT + 6),
        960..=974 => random.between(2 * PIECE_LIMIT - 6, 2 * PIECE_LIMIT + 6),
        975..=996 => random.between(1500, 20_000),
        _ => random.between(65_536 - 80, 65_536 + 80),
    }
}

// ---------------------------------------------------------------- setup lines

/// A setup line with one fault of each of up to three refusal numbers, or with
/// a harmless oddity, without a line end.
pub fn doubtful_setup_line(random: &mut Random, good: &Setup) -> Vec<u8> {
    let mut setup = *good;
    let fault_count = random.pick(&[1, 1, 1, 2, 3]);
    let faults: Vec<usize> = (0..fault_count).map(|_| random.between(1, 9)).collect();
    for &fault in &faults {
        spoil_values(random, &mut setup, fault);
    }
    let mut fields: Vec<Vec<u8>> = setup_line(&setup)
        .into_bytes()
        .split(|&byte| byte == b',')
        .map(|field| field.to_vec())
        .collect();
    for &fault in &faults {
        match fault {
            2 => spoil_field_count(random, &mut fields),
            3 => spoil_writing(random, &mut fields),
            _ => {}
        }
    }
    let mut line = fields.join(&b',');
    if faults.contains(&1) {
        spoil_length(random, &mut line);
    }
    line
}

/// A setup that one of the numbers 4 to 9 refuses.
pub fn refused_setup(random: &mut Random, good: &Setup, refusal: Refusal) -> Setup {
    loop {
        let mut setup = *good;
        spoil_values(random, &mut setup, refusal.into());
        if judge_setup(&setup) == Err(refusal) {
            return setup;
        }
    }
}

/// Faults 4 to 9, and values just beside them.
fn spoil_values(random: &mut Random, setup: &mut Setup, fault: usize) {
    let group = random.below(3);
    match fault {
        4 => {
            setup.rate = random.pick(&[
                1, 124, 126, 249, 251, 499, 501, 999, 1001, 1999, 2001, 4000, 9999, 100, 200, 0,
            ]);
        }
        5 => {
            setup.identifier = random.pick(&[
                0x00, 0x09, 0x10, 0x80, 0x8F, 0x95, 0x96, 0x97, 0x9D, 0x9E, 0x9F, 0xA0, 0xA1, 0xA2,
                0xA3, 0xA4, 0xA8, 0xA9, 0xAA, 0xAB, 0xAC, 0xB0, 0xB1, 0xFF, 0x90, 0xAF,
            ]);
        }
        6 => setup.termination = random.pick(&[2, 2, 3, 10, 11, 256, 257, 9999]),
        7 => setup.units[group] = random.pick(&[3, 4, 4, 5, 10, 256, 259, 9999]),
        8 => setup.shifts[group] = random.pick(&[31, 32, 32, 33, 64, 256, 288, 9999]),
        9 => {
            let carries = layout_of(setup.identifier).map(|layout| layout.carries);
            if carries == Some([true; 3]) {
                setup.identifier = random.pick(&[0x90, 0x91, 0x92, 0x94, 0x98, 0xA5, 0xAE]);
            }
            let group = random.between(1, 2);
            if random.one_in(2) {
                setup.units[group] = random.between(1, 3) as u32;
            } else {
                setup.shifts[group] = random.between(1, 31) as u32;
            }
        }
        _ => {}
    }
}

/// Fault 2: other than nine fields.
fn spoil_field_count(random: &mut Random, fields: &mut Vec<Vec<u8>>) {
    match random.below(8) {
        0 | 1 if fields.len() > 1 => {
            let place = random.below(fields.len());
            fields.remove(place);
        }
        2 | 3 => {
            let place = random.below(fields.len() + 1);
            fields.insert(place, pick_text(random, &["0", "", "90"]));
        }
        // A comma behind the last field, or before the first.
        4 => fields.push(Vec::new()),
        5 => fields.insert(0, Vec::new()),
        // Other separators make fewer fields.
        6 => {
            let separator = random.pick(b"; .\t");
            *fields = vec![fields.join(&separator)];
        }
        _ => {
            let count = random.between(1, 20);
            *fields = vec![Vec::new(); count];
        }
    }
}

/// Fault 3: a field that isn't written as the paper says, or nearly so.
fn spoil_writing(random: &mut Random, fields: &mut Vec<Vec<u8>>) {
    let field_count = fields.len();
    let place = random.below(field_count);
    let field = &mut fields[place];
    match random.below(16) {
        0 => field.clear(),
        // A leading zero; two digits are right for the identifier.
        1 => field.insert(0, b'0'),
        2 => *field = b"00".to_vec(),
        3 => *field = b"0125".to_vec(),
        // Five digits, and four.
        4 => *field = pick_text(random, &["10000", "65536", "00000", "99999"]),
        5 => *field = pick_text(random, &["9999", "1000", "2000"]),
        6 => *field = pick_text(random, &["9", "090", "G0", "9g", "0x90", "A", "9 "]),
        7 => field.make_ascii_lowercase(),
        // The identifier in lower case.
        8 if field_count > 1 => {
            fields[1] = pick_text(random, &["9a", "a5", "aF", "Af", "9b"]);
        }
        9 => field.push(random.pick(b" \t\r+-.\0/:@GZ`")),
        10 => field.insert(0, random.pick(b" \t\r+-.\0/:@GZ`")),
        // Bytes above 127, also those that are a digit with the top bit set.
        11 => field.push(random.pick(&[0x80, 0xB0, 0xB9, 0xFF, 0xC1, 0xAC])),
        12 if !field.is_empty() => {
            let digit = random.below(field.len());
            field[digit] ^= 0x80;
        }
        13 if !field.is_empty() => {
            let digit = random.below(field.len());
            field[digit] = random.byte();
        }
        // 0x0D before the line end belongs to the last field.
        14 => fields.last_mut().expect("there are fields").push(0x0D),
        _ => fields[0].splice(0..0, [0xEF, 0xBB, 0xBF]).for_each(drop),
    }
}

fn pick_text(random: &mut Random, choices: &[&str]) -> Vec<u8> {
    random.pick(choices).as_bytes().to_vec()
}

/// Fault 1: empty, over 64 bytes, or just up to 64 bytes.
fn spoil_length(random: &mut Random, line: &mut Vec<u8>) {
    let filling = random.pick(b"0 1,9");
    let length = match random.below(10) {
        0 => 0,
        1..=3 => LONGEST_SETUP_LINE,
        4..=6 => LONGEST_SETUP_LINE + 1,
        7 => random.between(LONGEST_SETUP_LINE - 3, LONGEST_SETUP_LINE + 3),
        8 => random.between(66, 6000),
        _ => {
            // Binary noise.
            let length = random.between(1, 90);
            *line = random.bytes(length);
            return;
        }
    };
    if random.one_in(2) {
        line.resize(length, filling);
    } else {
        // The filling in front.
        while line.len() < length {
            line.insert(0, filling);
        }
        line.truncate(length);
    }
}

// -------------------------------------------------------------------- streams

/// A stream of exactly `size` bytes, so that it ends at any place of a
/// datagram.
pub fn stream(random: &mut Random, setup: &Setup, size: usize) -> Vec<u8> {
    let identifier = setup.identifier as u8;
    match random.below(40) {
        0 => return vec![identifier; size],
        1 => return random.bytes(size),
        _ => {}
    }
    let mut sensor = Sensor::new(random, setup);
    let mut bytes = Vec::new();
    // A well-behaved stream now and then, else with all sorts of trouble.
    let trouble = random.pick(&[0, 10, 30, 60]);
    while bytes.len() < size {
        if random.below(100) < trouble {
            sensor.add_trouble(random, &mut bytes);
        } else {
            let datagram = sensor.next_datagram(random);
            bytes.extend(datagram);
        }
    }
    // Some streams end with a whole datagram.
    if random.one_in(4) {
        let length = sensor.length;
        let last = sensor.next_datagram(random);
        bytes.truncate(size.saturating_sub(length));
        bytes.extend(last);
    }
    bytes.truncate(size);
    bytes
}

/// How the readings of a stream go on.
#[derive(Clone, Copy)]
enum Motion {
    /// Any 24 bits.
    Any,
    /// The ends of the range, the middle, and their neighbours.
    Boundary,
    /// A walk that runs off both ends.
    Walk,
    /// Jumps of half the range, and one more or less.
    HalfRange,
    /// Bytes of the identifier.
    Identifier,
}

/// A sensor that sends datagrams of a setup.
struct Sensor {
    setup: Setup,
    length: usize,
    bytes_before_check: usize,
    step: u8,
    fields: Fields,
    motion: Motion,
    /// One status in so many isn't 0.
    status_share: usize,
    /// So many more datagrams have start-up set in each group (02, 2.3).
    warming_up: usize,
    /// One counter in so many isn't the next.
    gap_share: usize,
}

impl Sensor {
    fn new(random: &mut Random, setup: &Setup) -> Sensor {
        let layout = layout_of(setup.identifier).expect("the setup is good");
        Sensor {
            setup: *setup,
            length: datagram_length(setup).expect("the setup is good"),
            bytes_before_check: layout.bytes_before_check,
            step: 2000_u32.checked_div(setup.rate).unwrap_or(1) as u8,
            fields: Fields {
                counter: random.byte(),
                ..Fields::ZEROS
            },
            motion: random.pick(&[
                Motion::Any,
                Motion::Boundary,
                Motion::Walk,
                Motion::Walk,
                Motion::HalfRange,
                Motion::Identifier,
            ]),
            status_share: random.pick(&[1, 2, 4, 4, 1000]),
            warming_up: random.pick(&[0, 0, 0, 0, 0, 3]),
            gap_share: random.pick(&[1, 3, 6, 6, 1000]),
        }
    }

    fn next_datagram(&mut self, random: &mut Random) -> Vec<u8> {
        self.advance(random);
        encode(&self.setup, &self.fields)
    }

    /// The fields of the next datagram.
    fn advance(&mut self, random: &mut Random) {
        for group in 0..3 {
            for axis in 0..3 {
                let last = self.fields.readings[group][axis];
                self.fields.readings[group][axis] = self.next_reading(random, last);
                self.fields.temperatures[group][axis] = random.next() as i16;
            }
            self.fields.statuses[group] = self.next_status(random);
            self.fields.temperature_statuses[group] = self.next_status(random);
        }
        if self.warming_up > 0 {
            self.warming_up -= 1;
            self.fields.statuses = self.fields.statuses.map(|status| status | 0x40);
        }
        self.fields.auxiliary = any_reading(random);
        self.fields.auxiliary_status = self.next_status(random);
        self.fields.latency = random.pick(&[0, 1, 9, 10, 255, 256, 999, 1000, 65_535, 0, 0]);
        if random.one_in(3) {
            self.fields.latency = random.next() as u16;
        }
        self.fields.counter = self.next_counter(random);
    }

    fn next_reading(&self, random: &mut Random, last: i32) -> i32 {
        match self.motion {
            Motion::Any => any_reading(random),
            Motion::Boundary => random.pick(&[
                LOWEST_READING,
                LOWEST_READING + 1,
                LOWEST_READING + 8,
                HIGHEST_READING,
                HIGHEST_READING - 1,
                HIGHEST_READING - 7,
                0,
                1,
                -1,
                9,
                -10,
                99_999,
                100_000,
                -1_000_000,
            ]),
            Motion::Walk => {
                let stride = random.pick(&[1, 100, 10_000, 1_000_000, 8_000_000]);
                folded(last + random.between(0, 2 * stride) as i32 - stride as i32)
            }
            Motion::HalfRange => {
                folded(last + random.pick(&[8_388_607, 8_388_608, 8_388_609, -8_388_607, 0]))
            }
            Motion::Identifier => {
                let identifier = self.setup.identifier as i32;
                let all = identifier << 16 | identifier << 8 | identifier;
                folded(random.pick(&[all, identifier, identifier << 8, identifier << 16]))
            }
        }
    }

    /// 0, but for one in `status_share`. Half of those are an `error_status`, a
    /// quarter a `several_status`; the others, a seventh each, 0, any byte, one
    /// bit, and any axes beside bit 3, bit 4, bit 5 and all three of these.
    fn next_status(&self, random: &mut Random) -> u8 {
        if !random.one_in(self.status_share) {
            return 0;
        }
        match random.below(4) {
            0 | 1 => return error_status(random),
            2 => return several_status(random),
            _ => {}
        }
        let any = random.byte();
        let one_bit = 1 << random.below(8);
        let axes = random.below(8) as u8;
        random.pick(&[
            0,
            any,
            one_bit,
            0x08 | axes,
            0x10 | axes,
            0x20 | axes,
            0x38 | axes,
        ])
    }

    fn next_counter(&self, random: &mut Random) -> u8 {
        let last = self.fields.counter;
        if !random.one_in(self.gap_share) {
            return last.wrapping_add(self.step);
        }
        match random.below(4) {
            // The same counter again: 256 internal samples.
            0 => last,
            // Any number of whole steps.
            1 | 2 => last.wrapping_add(self.step.wrapping_mul(random.byte())),
            // Most often off step.
            _ => random.byte(),
        }
    }

    /// Bytes that a careless scan gets wrong.
    fn add_trouble(&mut self, random: &mut Random, bytes: &mut Vec<u8>) {
        let identifier = self.setup.identifier as u8;
        match random.below(14) {
            0 => {
                let count = random.between(1, 40);
                bytes.extend(random.bytes(count));
            }
            // Junk full of identifiers.
            1 => {
                for _ in 0..random.between(1, 2 * self.length) {
                    let any = random.byte();
                    bytes.push(random.pick(&[identifier, identifier, any]));
                }
            }
            // A run of the identifier.
            2 => {
                let count = random.between(1, 2 * self.length);
                bytes.extend(vec![identifier; count]);
            }
            // A damaged bit anywhere.
            3 => {
                let mut datagram = self.next_datagram(random);
                let place = random.below(datagram.len());
                datagram[place] ^= 1 << random.below(8);
                bytes.extend(datagram);
            }
            // A damaged byte of check or termination.
            4 => {
                let mut datagram = self.next_datagram(random);
                let place = random.between(self.bytes_before_check, self.length - 1);
                datagram[place] = random.byte();
                bytes.extend(datagram);
            }
            // A check made in another way.
            5 => {
                let mut datagram = self.next_datagram(random);
                let check = self.other_check(random, &datagram[..self.bytes_before_check]);
                datagram[self.bytes_before_check..self.bytes_before_check + 4]
                    .copy_from_slice(&check.to_be_bytes());
                bytes.extend(datagram);
            }
            // A datagram cut short, with a true one behind it.
            6 | 7 => {
                let cut = random.between(1, self.length - 1);
                let mut datagram = self.next_datagram(random);
                datagram.truncate(cut);
                bytes.extend(datagram);
                bytes.extend(self.next_datagram(random));
            }
            // A true datagram inside a failed candidate.
            8 | 9 => {
                bytes.push(identifier);
                let between = random.below(self.length - 1);
                for _ in 0..between {
                    let any = random.byte();
                    bytes.push(random.pick(&[any, any, identifier]));
                }
                bytes.extend(self.next_datagram(random));
            }
            // Two that overlap; the first may be damaged.
            10 | 11 => self.add_overlapping(random, bytes),
            // A datagram of another setup.
            12 => {
                let other_setup = good_setup(random);
                let mut other = Sensor::new(random, &other_setup);
                bytes.extend(other.next_datagram(random));
            }
            // The bytes of the datagram's end come again, or are lacking.
            _ => {
                let mut datagram = self.next_datagram(random);
                if random.one_in(2) {
                    let end = random.between(1, self.length);
                    datagram.extend_from_within(self.length - end..);
                } else {
                    let place = random.below(self.length);
                    datagram.remove(place);
                }
                bytes.extend(datagram);
            }
        }
    }

    /// A check that the paper's rule doesn't give, in most cases.
    fn other_check(&self, random: &mut Random, before_check: &[u8]) -> u32 {
        let right = check_of(before_check);
        match random.below(6) {
            // Without padding.
            0 => check_unpadded(before_check),
            // Padding in front.
            1 => {
                let mut padded = vec![0; (4 - before_check.len() % 4) % 4];
                padded.extend_from_slice(before_check);
                check_unpadded(&padded)
            }
            2 => !right,
            3 => right.swap_bytes(),
            4 => right.reverse_bits(),
            // Without the identifier.
            _ => check_of(&before_check[1..]),
        }
    }

    /// A datagram inside whose bytes another one begins and goes on behind it.
    /// The scan hands out the first, and passes over what is left of the
    /// second. If the first is damaged, the second is handed out.
    fn add_overlapping(&mut self, random: &mut Random, bytes: &mut Vec<u8>) {
        let mut first = self.next_datagram(random);
        let termination_bytes = self.length - self.bytes_before_check - 4;
        let start = random.between(4 + termination_bytes, self.bytes_before_check - 1);
        first[start] = self.setup.identifier as u8;
        let check = check_of(&first[..self.bytes_before_check]);
        first[self.bytes_before_check..self.bytes_before_check + 4]
            .copy_from_slice(&check.to_be_bytes());

        let mut second = first[start..].to_vec();
        while second.len() < self.bytes_before_check {
            second.push(random.byte());
        }
        let check = check_of(&second);
        second.extend_from_slice(&check.to_be_bytes());
        if termination_bytes > 0 {
            second.extend_from_slice(&[0x0D, 0x0A]);
        }

        if random.one_in(2) {
            let place = random.below(start);
            first[place] ^= 1 << random.below(8);
        }
        bytes.extend_from_slice(&first[..start]);
        bytes.extend(second);
    }
}

/// A status with bit 3, bit 4 or both, a third each (01, Status; 02, 2.2). No
/// axis is named in 2 of 5, one, two and all three in 1 of 5 each. Bit 5 is
/// beside them in 1 of 3, and bit 7, bit 6 or both in 1 of 6.
pub fn error_status(random: &mut Random) -> u8 {
    let errors = random.pick(&[0x08, 0x10, 0x18]);
    let all_unfit = random.pick(&[0x40, 0x80, 0xC0]);
    let above = if random.one_in(6) { all_unfit } else { 0 };
    above | errors | axes_and_conditions(random)
}

/// A status in which several judgements may apply (02, 2.3): two, three or all of
/// bits 7, 6, 4 and 3, each such set alike. Axes and bit 5 as in `error_status`.
pub fn several_status(random: &mut Random) -> u8 {
    let several = random.pick(&[
        0xC0, 0x90, 0x88, 0x50, 0x48, 0x18, 0xD0, 0xC8, 0x98, 0x58, 0xD8,
    ]);
    several | axes_and_conditions(random)
}

/// Bits 0 to 2 and 5: none, one, two or three axes, and outside conditions or not.
fn axes_and_conditions(random: &mut Random) -> u8 {
    let one_axis = 1 << random.below(3);
    let axes = random.pick(&[0, 0, one_axis, 0b111 ^ one_axis, 0b111]);
    let conditions = random.pick(&[0x20, 0, 0]);
    conditions | axes
}

/// Each of the 2^24 readings as often as any other.
pub fn any_reading(random: &mut Random) -> i32 {
    random.next() as i32 >> 8
}

/// Brings a number into the range of a reading, modulo 2^24.
pub fn folded(number: i32) -> i32 {
    number << 8 >> 8
}
