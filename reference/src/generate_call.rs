//! Single calls for `probe`, of every kind, from a seed; calls of feed with a pair of
//! readings on each axis, from a seed; and the calls that crates/probe keeps.

use std::collections::HashSet;

use crate::call::{record_of, Call};
use crate::datagram::{encode, Fields, Gap};
use crate::generate::{
    any_reading, doubtful_setup_line, error_status, folded, setup_of_case, several_status, stream,
};
use crate::generate_make;
use crate::generate_sums;
use crate::generate_value;
use crate::layout::{datagram_length, layout_of};
use crate::line::{judge_line, text_of, Line};
use crate::listed;
use crate::listed_sums;
use crate::listed_values;
use crate::random::Random;
use crate::session::{
    feed, keeps_totals, open_session, Axis, Doubt, Session, MOST_HELD, MOST_SAMPLES,
};
use crate::setup::{setup_line, Setup, INTEGRATED};
use crate::whole_piece::{lines_of, ROOM_FOR_LINES};
use crate::{GYRO, HIGHEST_READING, LOWEST_READING, PIECE_LIMIT, STREAM_LIMIT};

/// The longest buffer that a record of a line or of a value lends.
pub const LONGEST_BUFFER: usize = 400;

/// The generated records that crates/probe keeps.
const STORED_SEED: u64 = generate_make::STORED_SEED;
const STORED_SINGLE: usize = 660;
const STORED_LINES: usize = 120;

/// The calls that crates/probe keeps, each listed one once.
pub fn stored_calls() -> Vec<Call> {
    let mut stored = first_calls(STORED_SINGLE, |number, calls| {
        add_single_case(STORED_SEED, number, calls);
    });
    let listed_cases = listed::cases().into_iter().map(|(call, _)| call);
    let listed_streams = [
        listed::whole_pieces(),
        listed::pieces_of_statuses(),
        listed::feeds_of_every_status(),
        listed::judged_feeds(),
        listed::feeds_of_extreme_pairs(),
        listed_sums::calls(),
    ];
    let mut seen = HashSet::new();
    for call in listed_cases.chain(listed_streams.into_iter().flatten()) {
        if seen.insert(record_of(&call)) {
            stored.push(call);
        }
    }
    stored.extend(first_calls(STORED_LINES, |number, calls| {
        add_lines_case(STORED_SEED, number, calls);
    }));
    stored.extend(generate_make::stored_calls());
    stored.extend(listed_values::calls());
    stored
}

/// The first `count` calls of a seed, of every kind: a value to print behind each seven
/// cases of a setup.
pub fn calls(seed: u64, count: usize) -> Vec<Call> {
    first_calls(count, |number, calls| match (number / 8, number % 8) {
        (turn, 7) => calls.push(generate_value::value_call(seed, turn)),
        (turn, place) => add_case_of_setup(seed, 7 * turn + place, calls),
    })
}

/// One numbered case of any call that has a setup. Seven in turn: no divisor of 32, so
/// that each kind has every setup of the cases.
fn add_case_of_setup(seed: u64, number: u64, calls: &mut Vec<Call>) {
    match number % 7 {
        3 => add_make_case(seed, number / 7, calls),
        4 => add_lines_case(seed, number, calls),
        5 => generate_sums::add_case(seed, 2 * (number / 7), calls),
        6 => generate_sums::add_case(seed, 2 * (number / 7) + 1, calls),
        _ => add_single_case(seed, number, calls),
    }
}

/// The first `count` calls of the cases 0, 1 and so on.
fn first_calls(count: usize, add_case: impl Fn(u64, &mut Vec<Call>)) -> Vec<Call> {
    let mut calls = Vec::new();
    let mut number = 0;
    while calls.len() < count {
        add_case(number, &mut calls);
        number += 1;
    }
    calls.truncate(count);
    calls
}

/// One numbered datagram to write, and every other time a rehearsal line.
fn add_make_case(seed: u64, number: u64, calls: &mut Vec<Call>) {
    calls.push(generate_make::datagram_call(seed, number));
    if number % 2 == 0 {
        calls.push(generate_make::line_call(seed, number / 2));
    }
}

/// One numbered case of reading a setup line or of whole pieces.
fn add_lines_case(seed: u64, number: u64, calls: &mut Vec<Call>) {
    let random = &mut Random::for_case(!seed, number);
    let setup = setup_of_case(random, number);
    match random.below(10) {
        0 => calls.push(Call::SetupLine(setup_line(&setup).into_bytes())),
        1..=4 => {
            // A record has room for so many bytes.
            let mut line = doubtful_setup_line(random, &setup);
            line.truncate(5000);
            calls.push(Call::SetupLine(line));
        }
        5 | 6 => add_stream_of_lines(random, &setup, calls),
        kind => {
            let size = whole_piece_size(random);
            let (mut session, piece) = far_session(random, &setup, size);
            if kind == 9 {
                forge(random, &mut session);
            }
            calls.push(whole_piece(random, session, piece));
        }
    }
}

/// Whole pieces in a row on the way through a generated stream, cut anywhere.
fn add_stream_of_lines(random: &mut Random, setup: &Setup, calls: &mut Vec<Call>) {
    let mut session = open_session(setup).expect("the setup is good");
    for _ in 0..random.between(1, 4) {
        let size = whole_piece_size(random);
        let piece = stream(random, setup, size);
        let after = lines_of(&session, &piece).map_or(session, |(_, after)| after);
        calls.push(whole_piece(random, session, piece));
        session = after;
    }
}

/// A whole piece in a buffer that is long enough for any lines, about as long
/// as these, or far shorter.
pub fn whole_piece(random: &mut Random, session: Session, piece: Vec<u8>) -> Call {
    let exact = lines_of(&session, &piece).map_or(0, |(lines, _)| lines.len());
    let room = match random.below(12) {
        0..=2 => random.between(ROOM_FOR_LINES - 1, ROOM_FOR_LINES + 1),
        3..=4 => exact,
        5..=6 => exact.saturating_sub(1),
        7 => exact + 1,
        8..=9 => random.below(exact + 1),
        10 => random.between(exact, 4 * exact + 400),
        _ => random.below(ROOM_FOR_LINES + 2),
    };
    let room = room.min(ROOM_FOR_LINES + 1);
    Call::WholePiece(Box::new(session), piece, room, random.byte())
}

fn whole_piece_size(random: &mut Random) -> usize {
    match random.below(30) {
        0 => random.between(PIECE_LIMIT - 1, PIECE_LIMIT + 1),
        1 => random.between(300, PIECE_LIMIT),
        2..=5 => random.between(0, 3),
        6..=12 => random.between(17, 66),
        _ => random.between(50, 300),
    }
}

/// One numbered case of judging, opening, feeding or writing: mostly one call,
/// for a stream several in a row.
fn add_single_case(seed: u64, number: u64, calls: &mut Vec<Call>) {
    let random = &mut Random::for_case(seed, number);
    let setup = setup_of_case(random, number);
    let size = piece_size(random);
    match random.below(60) {
        0..=8 => calls.push(Call::Setup(doubtful_setup(random, &setup))),
        9..=23 => calls.push(line_call(random, &setup)),
        24..=32 => add_stream(random, &setup, calls),
        33..=42 => {
            let (session, piece) = far_session(random, &setup, size);
            calls.push(Call::Feed(Box::new(session), piece));
        }
        // A piece about the limit.
        43 => {
            let size = random.between(PIECE_LIMIT - 1, PIECE_LIMIT + 1);
            let (session, piece) = far_session(random, &setup, size);
            calls.push(Call::Feed(Box::new(session), piece));
        }
        _ => {
            let (mut session, piece) = far_session(random, &setup, size);
            forge(random, &mut session);
            if random.one_in(3) {
                forge(random, &mut session);
            }
            calls.push(Call::Feed(Box::new(session), piece));
        }
    }
}

// --------------------------------------------------------------------- setups

/// A good setup, one with up to three faults or values just beside them, or one
/// of any numbers.
fn doubtful_setup(random: &mut Random, good: &Setup) -> Setup {
    let mut setup = *good;
    match random.below(10) {
        0 | 1 => {}
        2 => {
            setup = Setup {
                rate: any_u16(random),
                identifier: u32::from(random.byte()),
                termination: any_u16(random),
                units: [any_u16(random), any_u16(random), any_u16(random)],
                shifts: [any_u16(random), any_u16(random), any_u16(random)],
            };
        }
        _ => {
            for _ in 0..random.pick(&[1, 1, 1, 2, 3]) {
                spoil_setup(random, &mut setup);
            }
        }
    }
    setup
}

fn any_u16(random: &mut Random) -> u32 {
    let any = u32::from(random.next() as u16);
    random.pick(&[0, 0, 1, 2, 3, 4, 31, 32, 125, 250, 256, 2000, 65_535, any])
}

/// A fault of 4 to 9, or a value just beside it.
fn spoil_setup(random: &mut Random, setup: &mut Setup) {
    let group = random.below(3);
    let any = u32::from(random.next() as u16);
    match random.below(6) {
        0 => {
            setup.rate = random.pick(&[
                1, 124, 125, 126, 249, 251, 499, 501, 999, 1001, 1999, 2001, 4000, 256, 381,
                32_768, 65_535, any,
            ]);
        }
        1 => setup.identifier = u32::from(random.byte()),
        2 => setup.termination = random.pick(&[1, 2, 2, 3, 255, 256, 257, 65_535, any]),
        3 => setup.units[group] = random.pick(&[3, 4, 4, 5, 255, 256, 259, 65_535, any]),
        4 => setup.shifts[group] = random.pick(&[31, 32, 32, 33, 64, 255, 256, 287, 65_535, any]),
        _ => {
            let carries = layout_of(setup.identifier).map_or([true; 3], |layout| layout.carries);
            let group = if carries[1] { 2 } else { 1 };
            if random.one_in(2) {
                setup.units[group] = random.between(0, 3) as u32;
            } else {
                setup.shifts[group] = random.pick(&[0, 1, 31]);
            }
        }
    }
}

// ------------------------------------------------------------------- sessions

/// Calls in a row on the way through a generated stream, cut anywhere.
fn add_stream(random: &mut Random, setup: &Setup, calls: &mut Vec<Call>) {
    let size = random.pick(&[100, 300, 600, 1500, 5000]);
    let bytes = stream(random, setup, size);
    let mut session = open_session(setup).expect("the setup is good");
    let skipped = random.pick(&[0, 0, 3, 10, 30]);
    let wanted = random.between(1, 5);
    let mut from = 0;
    for number in 0..skipped + wanted {
        let end = bytes.len().min(from + piece_size(random));
        let piece = &bytes[from..end];
        if number >= skipped {
            calls.push(Call::Feed(Box::new(session), piece.to_vec()));
        }
        let answer = feed(&session, piece);
        session = answer.session;
        from += answer.taken;
    }
}

fn piece_size(random: &mut Random) -> usize {
    match random.below(60) {
        0 => random.between(PIECE_LIMIT - 1, PIECE_LIMIT + 1),
        1 => random.between(300, PIECE_LIMIT),
        2..=11 => random.between(0, 3),
        12..=21 => random.between(0, 30),
        22..=39 => random.between(17, 66),
        _ => random.between(50, 300),
    }
}

/// A session that feeding doesn't turn down by 10, with counts and totals that
/// no short stream reaches, and a piece of so many bytes that often completes
/// what is held.
fn far_session(random: &mut Random, setup: &Setup, size: usize) -> (Session, Vec<u8>) {
    let length = datagram_length(setup).expect("the setup is good");
    let candidate = datagram_bytes(random, setup);
    let any = random.below(length);
    let held_count = random.pick(&[0, 0, 1, length - 1, any]);
    let mut piece = candidate[held_count..].to_vec();
    if random.one_in(4) {
        piece.clear();
    }
    piece.extend(stream(random, setup, size));
    piece.truncate(size);

    let mut session = open_session(setup).expect("the setup is good");
    session.held[..held_count].copy_from_slice(&candidate[..held_count]);
    session.held_count = held_count as u64;
    session.previous_counter = random.byte();
    let wide = random.next() >> random.between(30, 63);
    let room = STREAM_LIMIT - held_count as u64;
    let most = room / length as u64;
    session.datagrams = random
        .pick(&[0, 1, 2, wide, wide, most, most - 1])
        .min(most);
    let left = room - session.datagrams * length as u64;
    // So many bytes lack to the limit: about as many as the piece has, or any.
    let lacking = match random.below(4) {
        0 => (piece.len() + random.between(0, 2)).saturating_sub(1) as u64,
        1 => random.below(PIECE_LIMIT + 3) as u64,
        _ => left - (random.next() >> random.between(30, 63)).min(left),
    };
    session.passed_over = left.saturating_sub(lacking);
    session.bytes_fed = byte_sum(&session);
    // No axis begins before the first datagram.
    if session.datagrams > 0 {
        begin_axes(random, &mut session);
    }
    (session, piece)
}

/// Most of the axes that keep totals have begun; those of the gyro have any sums and
/// marks (02, 2.5).
fn begin_axes(random: &mut Random, session: &mut Session) {
    for group in (0..3).filter(|&group| keeps_totals(&session.setup, group)) {
        for axis in 0..3 {
            if random.one_in(4) {
                continue;
            }
            session.axes[group][axis] = begun_axis(random, session.datagrams);
            if group == GYRO {
                session.doubts[axis] = generate_sums::any_doubt(random);
            }
        }
    }
}

/// L * datagrams + passed over + held, wrapped.
pub fn byte_sum(session: &Session) -> u64 {
    let length = datagram_length(&session.setup).unwrap_or(0) as u64;
    length
        .wrapping_mul(session.datagrams)
        .wrapping_add(session.passed_over)
        .wrapping_add(session.held_count)
}

/// An axis that so many datagrams can leave.
pub fn begun_axis(random: &mut Random, datagrams: u64) -> Axis {
    let most = (datagrams as i64) << 23;
    let any = (random.next() >> random.between(1, 63)) as i64;
    let total = random.pick(&[0, most, most - 1, any, any]).clamp(0, most);
    Axis {
        begun: true,
        last_fit_reading: reading(random),
        total: random.pick(&[total, -total]),
    }
}

/// A reading, the ends more often.
fn reading(random: &mut Random) -> i32 {
    let any = random.next() as i32 >> 8;
    random.pick(&[
        LOWEST_READING,
        LOWEST_READING + 1,
        HIGHEST_READING,
        HIGHEST_READING - 1,
        0,
        1,
        -1,
        any,
        any,
        any,
    ])
}

/// An acceptable datagram, or one that is nearly so.
fn datagram_bytes(random: &mut Random, setup: &Setup) -> Vec<u8> {
    let mut fields = Fields::ZEROS;
    for group in 0..3 {
        for axis in 0..3 {
            fields.readings[group][axis] = reading(random);
            fields.temperatures[group][axis] = random.next() as i16;
        }
        fields.statuses[group] = any_status(random);
        fields.temperature_statuses[group] = random.byte();
    }
    fields.auxiliary = reading(random);
    fields.auxiliary_status = random.byte();
    fields.counter = random.byte();
    fields.latency = random.next() as u16;
    let mut bytes = encode(setup, &fields);
    if random.one_in(8) {
        let place = random.below(bytes.len());
        bytes[place] ^= 1 << random.below(8);
        bytes[0] = setup.identifier as u8;
    }
    bytes
}

/// Any status: fit, errors with and without axes named, several bits at once.
pub fn any_status(random: &mut Random) -> u8 {
    let any = random.byte();
    let axes = random.below(8) as u8;
    let error = error_status(random);
    let several = several_status(random);
    random.pick(&[
        0,
        0,
        any,
        error,
        error,
        several,
        several,
        0x08 | axes,
        0x10 | axes,
        0x20 | axes,
        0x40,
        0x80,
    ])
}

/// Breaks one clause of refusal 10, or goes just up to it.
fn forge(random: &mut Random, session: &mut Session) {
    let length = datagram_length(&session.setup).unwrap_or(18) as u64;
    let any = random.next();
    let end_of_u64 = random.pick(&[1 << 32, 1 << 63, u64::MAX, u64::MAX - 1, any]);
    // More often a group that keeps totals, where there is one.
    let mut group = random.below(3);
    if !keeps_totals(&session.setup, group) && !random.one_in(4) {
        group = (0..3)
            .find(|&other| keeps_totals(&session.setup, other))
            .unwrap_or(group);
    }
    let axis = random.below(3);
    match random.below(16) {
        // The setup would be refused.
        0 => {
            spoil_setup(random, &mut session.setup);
            if random.one_in(2) {
                session.bytes_fed = byte_sum(session);
            }
        }
        // The held bytes don't begin with the identifier.
        1 => {
            if session.held_count == 0 {
                session.held_count = 1;
                session.bytes_fed = session.bytes_fed.wrapping_add(1);
            }
            session.held[0] = session.setup.identifier as u8 ^ (1 << random.below(8));
        }
        // They number L or more, or a few less.
        2 => {
            let any = random.below(70) as u64;
            session.held_count = random.pick(&[
                length - 1,
                length,
                length,
                length + 1,
                63,
                64,
                65,
                any,
                end_of_u64,
            ]);
            let shown = session.held_count.min(MOST_HELD as u64) as usize;
            if !random.one_in(4) {
                session.held[..shown].fill(session.setup.identifier as u8);
                session.held[shown..].fill(0);
            }
            if !random.one_in(4) {
                session.bytes_fed = byte_sum(session);
            }
        }
        // They aren't zero beyond their count.
        3 => {
            let first = session.held_count.min(MOST_HELD as u64 - 1) as usize;
            let any = random.between(first, MOST_HELD - 1);
            let place = random.pick(&[first, MOST_HELD - 1, any]);
            session.held[place] = random.pick(&[1, 0x80, session.setup.identifier as u8]);
        }
        // The sum isn't bytes fed, by one or by far.
        4 => session.bytes_fed = session.bytes_fed.wrapping_add(random.pick(&[1, u64::MAX])),
        5 => {
            session.passed_over = session
                .passed_over
                .wrapping_add(random.pick(&[1, u64::MAX]))
        }
        6 => session.datagrams = session.datagrams.wrapping_add(random.pick(&[1, u64::MAX])),
        7 => match random.below(3) {
            0 => session.bytes_fed = end_of_u64,
            1 => session.passed_over = end_of_u64,
            _ => session.datagrams = end_of_u64,
        },
        // A sum that is right in 64 bits only.
        8 => {
            match random.below(4) {
                0 => session.datagrams = session.datagrams.wrapping_add(1 << 63),
                1 => session.datagrams = end_of_u64 / length + random.below(3) as u64,
                2 => session.passed_over = end_of_u64,
                _ => session.datagrams = end_of_u64,
            }
            session.bytes_fed = byte_sum(session);
        }
        // The sum is right and about 2^34, or well above it.
        9 => {
            let over = random.pick(&[0, 0, 1, 1, 2, 18, 4096, 1 << 20, 1 << 34, 1 << 62]);
            let other = byte_sum(session).wrapping_sub(session.passed_over);
            session.passed_over = (STREAM_LIMIT + over).wrapping_sub(other);
            session.bytes_fed = byte_sum(session);
        }
        // A total is datagrams * 2^23 in size, or exceeds it.
        10 => {
            let most = i64::try_from(u128::from(session.datagrams) << 23).unwrap_or(i64::MAX);
            let total = random.pick(&[most, most.saturating_add(1), -most, -most - 1]);
            let axis = &mut session.axes[group][axis];
            axis.total = random.pick(&[total, total, total, i64::MIN, i64::MIN + 1, i64::MAX]);
            axis.begun |= !random.one_in(4);
        }
        // A kept reading is at the end of 24 bits, or outside.
        11 => {
            let axis = &mut session.axes[group][axis];
            axis.last_fit_reading = random.pick(&[
                HIGHEST_READING,
                HIGHEST_READING + 1,
                LOWEST_READING,
                LOWEST_READING - 1,
                i32::MAX,
                i32::MIN,
                1 << 24,
            ]);
            axis.begun |= !random.one_in(4);
        }
        // An axis not begun, or keeping no total, isn't all zero.
        12 => {
            let kept = &mut session.axes[group][axis];
            match random.below(4) {
                0 => kept.begun = !kept.begun,
                1 => kept.last_fit_reading = random.pick(&[1, -1, HIGHEST_READING]),
                2 => kept.total = random.pick(&[1, -1, 8_388_608]),
                _ => {
                    *kept = Axis::ZEROS;
                    if group == GYRO {
                        session.doubts[axis] = Doubt::NONE;
                    }
                }
            }
        }
        _ => forge_doubt(random, session, axis),
    }
}

/// Breaks a clause of 02, 2.5, or goes just up to it.
fn forge_doubt(random: &mut Random, session: &mut Session, axis: usize) {
    let doubt = &mut session.doubts[axis];
    match random.below(4) {
        // A sum is 65,535, or above it.
        0 => {
            let any = random.next() as u32;
            doubt.sum = random.pick(&[MOST_SAMPLES, MOST_SAMPLES + 1, 1 << 31, u32::MAX, any]);
        }
        // A gyro axis, begun or not, has a sum or a mark.
        1 => doubt.sum = random.pick(&[1, 16, 17]),
        2 => doubt.marked = !doubt.marked,
        // The next datagram counts as a first one, whatever has begun.
        _ => {
            session.datagrams = 0;
            session.bytes_fed = byte_sum(session);
            for axis in session.axes.iter_mut().flatten() {
                axis.total = 0;
            }
        }
    }
}

// ---------------------------------------------------------------------- steps

/// Steps at which a careless fold goes wrong: half the range, one less, one more, and
/// a short one that leaves the lower 16 bits as they are, as half the range does.
const EDGE_STEPS: [i32; 4] = [8_388_607, 8_388_608, 8_388_609, 65_536];

/// Calls of feed for the step from one reading to the next (02, 2.4), as many as
/// `count`. On eight of the nine axes the last and the new reading are any of all
/// 2^24; on the other one, each in turn, the new one is an edge step further.
pub fn feeds_of_reading_pairs(seed: u64, count: u64) -> impl Iterator<Item = Call> {
    (0..count).map(move |number| feed_of_reading_pairs(seed, number))
}

/// A session that holds no bytes and whose nine axes have begun, and as its piece a
/// whole datagram in which all is fit.
fn feed_of_reading_pairs(seed: u64, number: u64) -> Call {
    let random = &mut Random::for_case(seed.rotate_left(8), number);
    let setup = integrated_setup(random);
    let mut session = open_session(&setup).expect("the setup is good");
    count_datagrams(random, &mut session);
    session.previous_counter = random.byte();
    for axis in session.axes.iter_mut().flatten() {
        *axis = Axis {
            last_fit_reading: any_reading(random),
            ..begun_axis(random, session.datagrams)
        };
    }
    session.doubts = [0; 3].map(|_| generate_sums::any_doubt(random));
    let mut fields = fit_fields(random);
    let place = number as usize % 9;
    let last = session.axes[place / 3][place % 3].last_fit_reading;
    fields.readings[place / 3][place % 3] = folded(last + random.pick(&EDGE_STEPS));
    let piece = encode(&setup, &fields);
    Call::Feed(Box::new(session), piece)
}

/// A setup in which every group is carried and integrated.
fn integrated_setup(random: &mut Random) -> Setup {
    Setup {
        rate: random.pick(&[0, 125, 250, 500, 1000, 2000]),
        identifier: random.pick(&[0x93, 0xA7, 0x9B, 0xAF]),
        termination: random.below(2) as u32,
        units: [INTEGRATED; 3],
        shifts: [0; 3].map(|_| random.below(32) as u32),
    }
}

/// Datagrams, one at least, and bytes passed over, so that another datagram has
/// room in the stream.
pub fn count_datagrams(random: &mut Random, session: &mut Session) {
    let length = datagram_length(&session.setup).expect("the setup is good") as u64;
    let most = STREAM_LIMIT / length - 1;
    let wide = random.next() >> random.between(30, 63);
    session.datagrams = random.pick(&[1, 2, wide, wide, wide, most]).clamp(1, most);
    let left = STREAM_LIMIT - length * (session.datagrams + 1);
    let wide = random.next() >> random.between(30, 63);
    session.passed_over = random.pick(&[0, wide, left]).min(left);
    session.bytes_fed = byte_sum(session);
}

/// Any fields, but every status is 0.
pub fn fit_fields(random: &mut Random) -> Fields {
    let mut fields = Fields::ZEROS;
    for group in 0..3 {
        for axis in 0..3 {
            fields.readings[group][axis] = any_reading(random);
            fields.temperatures[group][axis] = random.next() as i16;
        }
    }
    fields.auxiliary = any_reading(random);
    fields.counter = random.byte();
    fields.latency = random.next() as u16;
    fields
}

// ---------------------------------------------------------------------- lines

/// A line with up to two faults, in a buffer about as long as it.
fn line_call(random: &mut Random, good: &Setup) -> Call {
    let any = random.next() >> random.below(64);
    let any_byte = random.byte();
    let any_latency = random.next() as u16;
    let mut line = Line {
        setup: *good,
        ordinal: random
            .pick(&[1, 9, 10, 999, 1_000_000_000, u64::MAX, any, any])
            .max(1),
        counter: random.pick(&[0, 9, 10, 99, 100, 255, any_byte]),
        latency: random.pick(&[0, 9, 10, 65_535, any_latency]),
        gap: Gap::Missed(random.pick(&[0, 0, 1, 15, 255, u64::MAX, any])),
        readings: [[0; 3]; 3],
        statuses: [any_status(random), any_status(random), random.byte()],
        totals: [[0; 3]; 3],
        begun: [[false; 3]; 3],
    };
    if random.one_in(5) {
        line.gap = Gap::OffStep;
    }
    for group in 0..3 {
        for axis in 0..3 {
            line.readings[group][axis] = reading(random);
            let most = 1 << 53;
            let any = (random.next() >> random.between(11, 63)) as i64;
            let size = random.pick(&[0, most, most - 1, any.min(most), any.min(most)]);
            line.totals[group][axis] = random.pick(&[size, -size]);
            line.begun[group][axis] = !random.one_in(4);
        }
    }
    // The widest line of all, now and then.
    if random.one_in(20) {
        line.ordinal = u64::MAX;
        line.counter = 255;
        line.latency = 65_535;
        line.gap = Gap::Missed(u64::MAX);
        line.readings = [[LOWEST_READING; 3]; 3];
        line.statuses = [255; 3];
        line.totals = [[-(1 << 53); 3]; 3];
        line.begun = [[true; 3]; 3];
    }
    for _ in 0..random.pick(&[0, 0, 0, 1, 1, 2]) {
        spoil_line(random, &mut line);
    }
    let any = random.below(LONGEST_BUFFER + 1);
    let length = match judge_line(&line) {
        Ok(()) => text_of(&line).len(),
        Err(_) => any,
    };
    let room = random.pick(&[
        length,
        length,
        length,
        length.saturating_sub(1),
        length.saturating_sub(1),
        LONGEST_BUFFER.min(length + 1),
        any,
        any,
        306,
        307,
        LONGEST_BUFFER,
        0,
    ]);
    let any_byte = random.byte();
    let fill = random.pick(&[0, 0x0A, 0x2C, 0x30, 0xEE, 0xFF, any_byte]);
    Call::Line(Box::new(line), room, fill)
}

fn spoil_line(random: &mut Random, line: &mut Line) {
    let group = random.below(3);
    let axis = random.below(3);
    match random.below(6) {
        0..=2 => spoil_setup(random, &mut line.setup),
        3 => {
            line.readings[group][axis] = random.pick(&[
                HIGHEST_READING + 1,
                LOWEST_READING - 1,
                1 << 24,
                i32::MAX,
                i32::MIN,
            ]);
        }
        4 => {
            line.totals[group][axis] = random.pick(&[
                (1 << 53) + 1,
                -(1 << 53) - 1,
                1 << 54,
                i64::MAX,
                i64::MIN,
                i64::MIN + 1,
            ]);
        }
        _ => line.ordinal = 0,
    }
}
