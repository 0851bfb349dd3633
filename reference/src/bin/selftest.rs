//! The reference against the paper's examples and bench cases, each refusal
//! clause, and the fast program against the plain one. `selftest SEED COUNT`
//! compares those two on COUNT generated cases of a seed, instead of the usual
//! ones.

#[path = "selftest/sums.rs"]
mod sums;
#[path = "selftest/values.rs"]
mod values;

use std::collections::HashSet;
use std::env;
use std::io::{self, Read};
use std::ops::Range;

use stim_reference::call::{answer_text, feed_text, Call};
use stim_reference::check::{check_of, check_unpadded};
use stim_reference::datagram::Judgement::{self, Error, Fit, Integrity, Overload, StartUp};
use stim_reference::datagram::{
    decode, double_of, encode, flagged_channels, folded_difference, gap_between, group_values,
    is_acceptable, is_fit, judgement_of, reading_of, Datagram, Fields, Gap, GroupValues,
};
use stim_reference::fast;
use stim_reference::generate::{good_setup, input_of_case, setup_of_case, stream};
use stim_reference::generate_call;
use stim_reference::generate_make;
use stim_reference::layout::{datagram_length, layout_of, IDENTIFIERS};
use stim_reference::line::{write_line, Line};
use stim_reference::listed;
use stim_reference::make::{write_datagram, Values};
use stim_reference::make_program::made_for;
use stim_reference::program::{output_for, split_input};
use stim_reference::random::Random;
use stim_reference::rehearsal::{read_number, read_rehearsal_line, Fault, LONGEST_REHEARSAL_LINE};
use stim_reference::session::{
    add_fit_reading, feed, judge_session, keeps_totals, open_session, Answer, Axis, Outcome,
    Session,
};
use stim_reference::setup::{judge_setup, read_setup_line, setup_line, Setup};
use stim_reference::whole_piece::{lines_of, receive_lines, ROOM_FOR_LINES};
use stim_reference::{Refusal, PIECE_LIMIT, STREAM_LIMIT};

const EXAMPLE_LINE: &[u8] = b"1000,90,0,3,0,0,21,0,0";

const EXAMPLE: Setup = Setup {
    rate: 1000,
    identifier: 0x90,
    termination: 0,
    units: [3, 0, 0],
    shifts: [21, 0, 0],
};

const USUAL_SEED: u64 = 1;
const USUAL_COUNT: u64 = 5000;

fn main() {
    let number_of = |place: usize| env::args().nth(place).and_then(|text| text.parse().ok());
    let seed = number_of(1).unwrap_or(USUAL_SEED);
    let count = number_of(2).unwrap_or(USUAL_COUNT);
    setup_lines();
    layouts();
    checks();
    bench_cases();
    paper_example();
    feeding_refusals();
    line_refusals();
    fitness();
    judgements();
    groups_not_carried();
    listed_cases();
    listed_errors();
    every_listed_status();
    listed_judgements();
    every_listed_judgement();
    whole_pieces();
    made_example();
    made_round_trips();
    made_refusals();
    rehearsals_of_streams();
    making_program();
    wrong_makers();
    wrong_line_readers();
    wrong_statuses();
    wrong_judgements();
    generated_judgements();
    listed_steps();
    printed_steps();
    generated_steps();
    wrong_steps();
    sums::check_all();
    values::check_all();
    fast_decimals();
    sessions_along_streams();
    plain_against_fast(seed, count);
    smaller_limits(seed, count / 5);
    println!("selftest passed");
}

fn setup_lines() {
    assert_eq!(read_setup_line(EXAMPLE_LINE), Ok(EXAMPLE));
    assert_eq!(setup_line(&EXAMPLE).as_bytes(), EXAMPLE_LINE);
    let sixty_four = [b"1000,90,0,3,0,0,21,0,".to_vec(), vec![b'1'; 43]].concat();
    let cases: &[(&[u8], u8)] = &[
        (b"", 1),
        (&[b','; 65], 1),
        (&[b','; 64], 2),
        (&sixty_four, 3),
        (b"1000,90,0,3,0,0,21,0", 2),
        (b"1000,90,0,3,0,0,21,0,0,", 2),
        (b",,,,,,,,", 3),
        (b"1000,90,0,3,0,0,21,0,0\r", 3),
        (b"0125,90,0,3,0,0,21,0,0", 3),
        (b"10000,90,0,3,0,0,21,0,0", 3),
        (b"1000,9a,0,3,0,0,21,0,0", 3),
        (b"1000,9,0,3,0,0,21,0,0", 3),
        (b"1000,090,0,3,0,0,21,0,0", 3),
        (b"1000,90,00,3,0,0,21,0,0", 3),
        (b"1000,90,,3,0,0,21,0,0", 3),
        (b"1000,90,0,3,0,0,21,0,\xB0", 3),
        (b"1000,90,0,3,0,0,21,\0,0", 3),
        (b"1001,00,9,9,9,9,99,99,99", 4),
        (b"2000,95,9,9,9,9,99,99,99", 5),
        (b"125,90,2,9,9,9,99,99,99", 6),
        (b"250,90,1,0,0,4,99,99,99", 7),
        (b"500,90,1,3,0,0,21,0,32", 8),
        (b"500,90,1,3,0,0,32,0,0", 8),
        (b"500,90,1,3,0,0,31,0,1", 9),
        (b"500,91,1,3,0,1,31,0,0", 9),
    ];
    for (line, refusal) in cases {
        assert_eq!(
            read_setup_line(line),
            Err(*refusal),
            "{}",
            line.escape_ascii()
        );
    }
    // Shift 31 passes, 32 gets 8.
    let with_shift = |shift: u32| Setup {
        shifts: [shift, 0, 0],
        ..EXAMPLE
    };
    assert_eq!(judge_setup(&with_shift(31)), Ok(()));
    assert_eq!(judge_setup(&with_shift(32)), Err(8));
    assert_eq!(judge_setup(&Setup::ZEROS), Err(5));
}

fn layouts() {
    for identifier in 0..=256 {
        let in_table = u8::try_from(identifier).is_ok_and(|byte| IDENTIFIERS.contains(&byte));
        assert_eq!(layout_of(identifier).is_some(), in_table);
    }
    // The table's lengths are the sums of their parts.
    for identifier in IDENTIFIERS.map(u32::from) {
        let layout = layout_of(identifier).unwrap();
        let groups = layout.carries.iter().filter(|&&carried| carried).count();
        let group_bytes = if layout.temperatures { 10 + 7 } else { 10 };
        let auxiliary_bytes = if layout.auxiliary { 4 } else { 0 };
        let sum = 1 + groups * group_bytes + auxiliary_bytes + 1 + 2;
        assert_eq!(layout.bytes_before_check, sum);
        assert!(layout.carries[0]);
    }
    assert_eq!(datagram_length(&EXAMPLE), Some(18));
    let longest = Setup {
        identifier: 0xAF,
        termination: 1,
        ..EXAMPLE
    };
    assert_eq!(datagram_length(&longest), Some(65));
}

fn checks() {
    // The published value of this check.
    assert_eq!(check_unpadded(b"123456789"), 0x0376_E6E7);
    assert_eq!(check_of(b"123456789"), check_unpadded(b"123456789\0\0\0"));
    assert_ne!(check_of(b"123456789"), check_unpadded(b"\0\0\0123456789"));
    let mut random = Random::new(7);
    for length in 14..60 {
        let bytes = random.bytes(64);
        let padding = (4 - length % 4) % 4;
        let by_tables = fast::padded_check(&bytes, length, u32::MAX << (8 * padding));
        assert_eq!(by_tables, check_of(&bytes[..length]));
    }
}

fn bench_cases() {
    assert_eq!(reading_of([0x7F, 0xFF, 0xFF]), 8_388_607);
    assert_eq!(reading_of([0x80, 0x00, 0x00]), -8_388_608);
    assert_eq!(reading_of([0xFF, 0xFF, 0xFF]), -1);

    assert_eq!(folded_difference(-8_388_600, 8_388_600), 16);
    assert_eq!(folded_difference(-8_388_608, 0), -8_388_608);
    assert_eq!(folded_difference(0, -8_388_608), -8_388_608);
    assert_eq!(folded_difference(8_388_607, -8_388_608), -1);

    assert_eq!(gap_between(500, 254, 2), Gap::Missed(0));
    assert_eq!(gap_between(125, 2, 2), Gap::Missed(15));
    assert_eq!(gap_between(1000, 0, 3), Gap::OffStep);
    assert_eq!(gap_between(2000, 5, 5), Gap::Missed(255));
    assert_eq!(gap_between(0, 5, 77), Gap::Missed(0));

    assert_eq!(double_of(16_384, 14), 1.0);
    assert_eq!(double_of(-8_388_608, 21), -4.0);
    assert_eq!(double_of(0, 31).to_bits(), 0.0_f64.to_bits());
    let values = group_values(2, 14, [16_384, 0, -8192]);
    assert_eq!(values, GroupValues::Average([1.0, 0.0, -0.5]));

    assert_eq!(
        [0, 1, 2].map(|axis| is_fit(0x0A, axis)),
        [true, false, true]
    );
    assert_eq!([0, 1, 2].map(|axis| is_fit(0x20, axis)), [true; 3]);
    assert_eq!([0, 1, 2].map(|axis| is_fit(0x08, axis)), [false; 3]);
    assert_eq!(
        [0, 1, 2].map(|axis| is_fit(0x14, axis)),
        [true, true, false]
    );
    assert_eq!([0, 1, 2].map(|axis| is_fit(0x40, axis)), [false; 3]);
    assert_eq!([0, 1, 2].map(|axis| is_fit(0x80, axis)), [false; 3]);
    assert_eq!([0x00, 0x07, 0xF8, 0x0D].map(flagged_channels), [0, 3, 0, 2]);
}

/// 01, Status, and 02, 2.2: whether X, Y and Z are fit, and the count of flagged
/// channels; then the two rules of the reference on every status.
fn fitness() {
    let cases = [
        (0x00, [true, true, true], 0),
        (0x01, [true, true, true], 1),
        (0x07, [true, true, true], 3),
        (0x08, [false, false, false], 0),
        (0x10, [false, false, false], 0),
        (0x18, [false, false, false], 0),
        (0x28, [false, false, false], 0),
        (0x09, [false, true, true], 1),
        (0x0A, [true, false, true], 1),
        (0x48, [false, false, false], 0),
        (0x20, [true, true, true], 0),
        (0x30, [false, false, false], 0),
        (0x1F, [false, false, false], 3),
        (0x80, [false, false, false], 0),
    ];
    for (status, fit, flagged) in cases {
        assert_eq!([0, 1, 2].map(|axis| is_fit(status, axis)), fit);
        assert_eq!(flagged_channels(status), flagged);
    }
    for axis in 0..3 {
        for status in 0..=255 {
            let unfit = fast::unfit_axes(status) >> axis & 1 == 1;
            assert_eq!(is_fit(status, axis), !unfit, "status {status}, axis {axis}");
        }
        // Of the 64 without bits 7 and 6, the 16 without bits 3 and 4; of the 48
        // others, the 24 that don't name this axis, but for the 6 that name none.
        let fit = (0..=255).filter(|&status| is_fit(status, axis)).count();
        assert_eq!(fit, 16 + 24 - 6);
    }
}

/// 02, 2.3: the judgements of X, Y and Z by a status; then, by every status, that
/// they are fit where the rule of fitness says so, and how often each is named.
fn judgements() {
    let cases = [
        (0x00, [Fit, Fit, Fit]),
        (0x07, [Fit, Fit, Fit]),
        (0x20, [Fit, Fit, Fit]),
        (0x27, [Fit, Fit, Fit]),
        (0x08, [Error, Error, Error]),
        (0x10, [Overload, Overload, Overload]),
        (0x18, [Error, Error, Error]),
        (0x09, [Error, Fit, Fit]),
        (0x0A, [Fit, Error, Fit]),
        (0x0C, [Fit, Fit, Error]),
        (0x11, [Overload, Fit, Fit]),
        (0x12, [Fit, Overload, Fit]),
        (0x14, [Fit, Fit, Overload]),
        (0x15, [Overload, Fit, Overload]),
        (0x1C, [Fit, Fit, Error]),
        (0x1B, [Error, Error, Fit]),
        (0x1F, [Error, Error, Error]),
        (0x28, [Error, Error, Error]),
        (0x30, [Overload, Overload, Overload]),
        (0x40, [StartUp, StartUp, StartUp]),
        (0x47, [StartUp, StartUp, StartUp]),
        (0x48, [StartUp, StartUp, StartUp]),
        (0x51, [StartUp, StartUp, StartUp]),
        (0x80, [Integrity, Integrity, Integrity]),
        (0x9A, [Integrity, Integrity, Integrity]),
        (0xC0, [Integrity, Integrity, Integrity]),
        (0xC8, [Integrity, Integrity, Integrity]),
        (0xD7, [Integrity, Integrity, Integrity]),
        (0xFF, [Integrity, Integrity, Integrity]),
    ];
    for (status, judged) in cases {
        let judgements = [0, 1, 2].map(|axis| judgement_of(status, axis));
        assert_eq!(judgements, judged, "status {status}");
    }
    // Of 256 statuses 128 have bit 7, 64 others bit 6; of the 64 left, 32 have bit
    // 3, 16 others bit 4, and 5 in 8 of either name an axis: 20 and 10. 34 are fit.
    let mut times = [0; 5];
    for axis in 0..3 {
        for status in 0..=255 {
            let judgement = judgement_of(status, axis);
            assert_eq!(judgement == Fit, is_fit(status, axis), "status {status}");
            times[judgement as usize] += 1;
        }
    }
    assert_eq!(times, [3 * 34, 3 * 128, 3 * 64, 3 * 20, 3 * 10]);
}

/// The judgements of a group that the identifier doesn't carry are fit, and those
/// of the others go by their own status byte, with every identifier.
fn groups_not_carried() {
    for identifier in IDENTIFIERS.map(u32::from) {
        let setup = Setup {
            identifier,
            ..EXAMPLE
        };
        let judged_by = |statuses: [u8; 3]| {
            let fields = Fields {
                statuses,
                temperature_statuses: [0xC8; 3],
                auxiliary_status: 0xC8,
                ..Fields::ZEROS
            };
            let answer = feed(&open_session(&setup).unwrap(), &encode(&setup, &fields));
            assert_eq!(answer.outcome, Outcome::Datagram);
            answer.datagram.judgements
        };
        let carries = layout_of(identifier).unwrap().carries;
        let expected = [Integrity, StartUp, Error];
        let judged = [0, 1, 2].map(|group| if carries[group] { expected[group] } else { Fit });
        assert_eq!(
            judged_by([0xFF, 0x7F, 0x3F]),
            judged.map(|judgement| [judgement; 3])
        );
        assert_eq!(judged_by([0; 3]), [[Fit; 3]; 3]);
    }
    assert_eq!(Datagram::ZEROS.judgements, [[Fit; 3]; 3]);
}

/// A datagram of the example setup.
fn example_datagram(gyro_x: i32, counter: u8) -> Vec<u8> {
    let mut fields = Fields {
        counter,
        ..Fields::ZEROS
    };
    fields.readings[0][0] = gyro_x;
    encode(&EXAMPLE, &fields)
}

fn paper_example() {
    let mut input = EXAMPLE_LINE.to_vec();
    input.push(0x0A);
    input.extend(example_datagram(8_388_600, 2));
    input.extend(example_datagram(-8_388_600, 4));
    let expected = b"1,2,0,0,8388600,0,0,0,0,0,0,,,,,,,,,,,,,,\n\
                     2,4,0,0,-8388600,0,0,0,16,0,0,,,,,,,,,,,,,,\n";
    assert_eq!(output_for(&input, STREAM_LIMIT), expected);
    assert_eq!(
        fast_output(&input, STREAM_LIMIT, &mut Random::new(1)),
        expected
    );
    assert_eq!(output_for(b"", STREAM_LIMIT), b"refused 1\n");
    assert_eq!(output_for(EXAMPLE_LINE, STREAM_LIMIT), b"");
}

fn feeding_refusals() {
    let fresh = open_session(&EXAMPLE).unwrap();
    assert_eq!(open_session(&Setup::ZEROS), Err(5));
    assert_eq!(judge_session(&Session::ZEROS), Err(10));
    let outcome = |session: &Session, length: usize| {
        let answer = feed(session, &vec![0; length]);
        if let Outcome::Refused(_) = answer.outcome {
            assert_eq!(answer.session, *session);
            assert_eq!(answer.taken, 0);
        }
        if answer.outcome != Outcome::Datagram {
            assert_eq!(answer.datagram, Datagram::ZEROS);
        }
        answer.outcome
    };
    assert_eq!(outcome(&fresh, 0), Outcome::Waiting);
    // A piece of 4,096 bytes passes, 4,097 gets 11.
    assert_eq!(outcome(&fresh, 4096), Outcome::Waiting);
    assert_eq!(outcome(&fresh, 4097), Outcome::Refused(11));
    // Bytes fed plus the piece up to 2^34 pass, one more gets 12, after 11.
    let nearly_full = Session {
        bytes_fed: STREAM_LIMIT - 5,
        passed_over: STREAM_LIMIT - 5,
        ..fresh
    };
    assert_eq!(outcome(&nearly_full, 5), Outcome::Waiting);
    assert_eq!(outcome(&nearly_full, 6), Outcome::Refused(12));
    assert_eq!(outcome(&nearly_full, 4097), Outcome::Refused(11));

    // Refusal 10: each clause broken alone, beside a session that passes.
    let mut good = Session {
        held_count: 3,
        bytes_fed: 2 * 18 + 7 + 3,
        datagrams: 2,
        passed_over: 7,
        previous_counter: 200,
        ..fresh
    };
    good.held[..3].copy_from_slice(&[0x90, 1, 2]);
    good.axes[0][0] = Axis {
        begun: true,
        last_fit_reading: -8_388_608,
        total: 2 << 23,
    };
    assert_eq!(judge_session(&good), Ok(()));
    let refused = |change: &dyn Fn(&mut Session)| {
        let mut session = good;
        change(&mut session);
        assert_eq!(outcome(&session, 4097), Outcome::Refused(10));
    };
    refused(&|session| session.setup.rate = 1);
    refused(&|session| session.setup.shifts[1] = 1);
    refused(&|session| session.held[0] = 0x91);
    refused(&|session| session.held[3] = 1);
    refused(&|session| session.held[63] = 1);
    refused(&|session| session.held_count = 2);
    refused(&|session| {
        session.held_count = 18;
        session.bytes_fed = 2 * 18 + 7 + 18;
    });
    refused(&|session| {
        session.held_count = u64::MAX;
        session.bytes_fed = session.bytes_fed.wrapping_sub(4);
    });
    refused(&|session| session.bytes_fed += 1);
    refused(&|session| session.passed_over += 1);
    refused(&|session| {
        // L * datagrams would come out right modulo 2^64.
        session.datagrams += 1 << 63;
    });
    refused(&|session| {
        session.passed_over = STREAM_LIMIT + 1 - 2 * 18 - 3;
        session.bytes_fed = STREAM_LIMIT + 1;
    });
    refused(&|session| session.axes[0][0].total = (2 << 23) + 1);
    refused(&|session| session.axes[0][0].total = -(2 << 23) - 1);
    refused(&|session| session.axes[0][0].total = i64::MIN);
    refused(&|session| session.axes[0][0].last_fit_reading = -8_388_609);
    refused(&|session| session.axes[0][0].last_fit_reading = 8_388_608);
    refused(&|session| session.axes[0][0].begun = false);
    refused(&|session| session.axes[0][1].total = 1);
    refused(&|session| session.axes[0][1].last_fit_reading = 1);
    refused(&|session| session.axes[1][2].begun = true);
    refused(&|session| session.setup.units[0] = 2);
    // A full session still passes the sum.
    let full = Session {
        passed_over: STREAM_LIMIT - 2 * 18 - 3,
        bytes_fed: STREAM_LIMIT,
        ..good
    };
    assert_eq!(outcome(&full, 0), Outcome::Waiting);
    assert_eq!(outcome(&full, 1), Outcome::Refused(12));
}

fn line_refusals() {
    let good = Line {
        setup: EXAMPLE,
        ordinal: 1,
        counter: 255,
        latency: 65_535,
        gap: Gap::OffStep,
        readings: [[-8_388_608, 8_388_607, 0]; 3],
        statuses: [255; 3],
        totals: [[-(1 << 53), 1 << 53, 7]; 3],
        begun: [[true, true, false]; 3],
    };
    let expected: &[u8] = b"1,255,65535,?,-8388608,8388607,0,255,\
        -9007199254740992,9007199254740992,,,,,,,,,,,,,,,\n";
    let mut buffer = [0xEE; 100];
    assert_eq!(write_line(&good, &mut buffer), Ok(expected.len()));
    assert_eq!(&buffer[..expected.len()], expected);
    assert!(buffer[expected.len()..].iter().all(|&byte| byte == 0xEE));

    let refused = |line: &Line, room: usize, refusal: u8| {
        let mut buffer = vec![0xEE; room];
        assert_eq!(write_line(line, &mut buffer), Err(refusal));
        assert!(buffer.iter().all(|&byte| byte == 0xEE));
    };
    refused(&good, expected.len() - 1, 14);
    refused(&good, 0, 14);
    let with = |change: &dyn Fn(&mut Line)| {
        let mut line = good;
        change(&mut line);
        line
    };
    refused(&with(&|line| line.ordinal = 0), 0, 13);
    refused(&with(&|line| line.readings[2][2] = 8_388_608), 100, 13);
    refused(&with(&|line| line.readings[0][0] = -8_388_609), 0, 13);
    refused(&with(&|line| line.totals[2][2] = (1 << 53) + 1), 100, 13);
    refused(&with(&|line| line.totals[0][2] = i64::MIN), 100, 13);
    refused(&with(&|line| line.setup = Setup::ZEROS), 0, 5);
    refused(&with(&|line| line.setup.units[1] = 1), 0, 9);
    let longest = with(&|line| {
        line.setup = Setup {
            identifier: 0xAF,
            units: [3; 3],
            shifts: [31; 3],
            ..EXAMPLE
        };
        line.ordinal = u64::MAX;
        line.begun = [[true; 3]; 3];
        line.totals = [[-(1 << 53); 3]; 3];
        line.readings = [[-8_388_608; 3]; 3];
        line.gap = Gap::Missed(255);
    });
    let mut buffer = [0; 320];
    // Digits and signs 20 + 3 + 5 + 3 + 9 * 8 + 3 * 3 + 9 * 17, and 25 for
    // commas and line end.
    assert_eq!(write_line(&longest, &mut buffer), Ok(290));
}

fn fast_decimals() {
    let same = |number: i64| {
        let expected = format!("{number},").into_bytes();
        assert_eq!(fast::number_text(number), expected);
    };
    // Every reading, and totals around each power of ten and of two.
    for reading in -8_388_608..=8_388_607 {
        same(reading);
    }
    for beside in -3..=3 {
        for exponent in 0..16 {
            same(10_i64.pow(exponent) + beside);
            same(-10_i64.pow(exponent) + beside);
        }
        for exponent in 0..53 {
            same((1 << exponent) + beside);
            same(-(1 << exponent) + beside);
        }
    }
    same(1 << 53);
    same(-(1 << 53));
}

/// Along generated streams: every session passes, the sum of bytes holds, the
/// pieces don't matter, and what is handed out are acceptable datagrams whose
/// fields come back when encoded again.
fn sessions_along_streams() {
    let mut random = Random::new(3);
    let mut handed_out = 0;
    for _ in 0..300 {
        let setup = good_setup(&mut random);
        let length = datagram_length(&setup).unwrap();
        let bytes = stream(&mut random, &setup, 600);
        let mut session = open_session(&setup).unwrap();
        let mut position = 0;
        while position < bytes.len() {
            let piece_end = random.between(position, (position + 90).min(bytes.len()));
            let answer = feed(&session, &bytes[position..piece_end]);
            assert_eq!(judge_session(&answer.session), Ok(()));
            position += answer.taken;
            assert_eq!(answer.session.bytes_fed, position as u64);
            match answer.outcome {
                Outcome::Datagram => {
                    handed_out += 1;
                    let datagram = &bytes[position - length..position];
                    assert!(is_acceptable(&setup, datagram));
                    assert_eq!(decode(&setup, datagram), answer.datagram.fields);
                    assert_eq!(encode(&setup, &answer.datagram.fields), datagram);
                }
                Outcome::Waiting => assert_eq!(position, piece_end),
                Outcome::Refused(_) => panic!("nothing here is refused"),
            }
            session = answer.session;
        }
    }
    assert!(handed_out > 1000);
    println!("{handed_out} datagrams handed out along 300 streams");
}

/// The listed cases: what they say must come out is answered.
fn listed_cases() {
    let mut cases = listed::cases();
    cases.extend(listed::make_cases());
    for (call, expected) in &cases {
        let answer = answer_text(call);
        assert!(
            answer.contains(expected),
            "expected {expected}but got {answer}"
        );
    }
    println!("{} listed calls", cases.len());
}

/// The listed stream of statuses between fit ones. What is unfit leaves its
/// totals as they were, and the next fit datagram catches up.
fn listed_errors() {
    let lines = [
        "1,0,0,0,0,0,0,0,0,0,0",
        "2,2,0,0,1,10,100,8,0,0,0",
        "3,4,0,0,2,20,200,0,2,20,200",
        "4,6,0,0,3,30,300,16,2,20,200",
        "5,8,0,0,4,40,400,0,4,40,400",
        "6,10,0,0,5,50,500,24,4,40,400",
        "7,12,0,0,6,60,600,0,6,60,600",
        "8,14,0,0,7,70,700,40,6,60,600",
        "9,16,0,0,8,80,800,0,8,80,800",
        "10,18,0,0,9,90,900,9,8,90,900",
        "11,20,0,0,10,100,1000,0,10,100,1000",
        "12,22,0,0,11,110,1100,72,10,100,1000",
        "13,24,0,0,12,120,1200,0,12,120,1200",
    ];
    let expected: String = lines
        .iter()
        .map(|line| format!("{line},,,,,,,,,,,,,,\n"))
        .collect();
    let calls = listed::pieces_of_statuses();
    let answer = answer_text(calls.last().unwrap());
    assert!(answer.contains(&expected), "{answer}");
}

/// In the listed stream of every status each group has all 256, and each total
/// moves with the datagrams that are fit, and with no other.
fn every_listed_status() {
    let mut times = [[0; 256]; 3];
    let mut before: Totals = [[None; 3]; 3];
    for run in listed_runs().iter().filter(|run| keeps_all_totals(run)) {
        for (fields, totals) in run.fields.iter().zip(&run.totals) {
            for (group, &status) in fields.statuses.iter().enumerate() {
                times[group][usize::from(status)] += 1;
                for axis in 0..3 {
                    let has_moved = totals[group][axis] != before[group][axis];
                    assert_eq!(has_moved, is_fit(status, axis), "status {status}");
                }
            }
            before = *totals;
        }
    }
    // All is fit in one more, at the front.
    let mut expected = [1; 256];
    expected[0] = 2;
    assert_eq!(times, [expected; 3]);
}

/// The listed calls of 02, 2.3: what each answers, the statuses of its groups and
/// the judgements of gyro, accelerometer and inclinometer, a letter for a word.
fn listed_judgements() {
    let expected = [
        ("datagram", [0x40, 0x40, 0x40], "SSS SSS SSS"),
        ("datagram", [0x40, 0x40, 0x40], "SSS SSS SSS"),
        ("datagram", [0x40, 0x40, 0x00], "SSS SSS FFF"),
        ("datagram", [0x00, 0x00, 0x00], "FFF FFF FFF"),
        ("datagram", [0xC0, 0x80, 0x40], "III III SSS"),
        ("datagram", [0xC8, 0x48, 0x18], "III SSS EEE"),
        ("datagram", [0x19, 0x11, 0x0A], "EFF OFF FEF"),
        ("datagram", [0x1A, 0x1C, 0x1F], "FEF FFE EEE"),
        ("datagram", [0x10, 0x08, 0x20], "OOO EEE FFF"),
        ("datagram", [0x16, 0x0D, 0x07], "FOO EFE FFF"),
        ("datagram", [0x50, 0x90, 0x88], "SSS III III"),
        ("datagram", [0x58, 0x98, 0xD8], "SSS III III"),
        ("datagram", [0xD0, 0x30, 0x28], "III OOO EEE"),
        ("datagram", [0x4A, 0x94, 0xC1], "SSS III III"),
        ("datagram", [0x38, 0xD7, 0x59], "EEE III SSS"),
        ("datagram", [0x14, 0x00, 0x12], "FFO FFF FOF"),
        ("datagram", [0xFF, 0x3F, 0x27], "III EEE FFF"),
        ("datagram", [0x00, 0x00, 0x00], "FFF FFF FFF"),
        // Gyro only.
        ("datagram", [0x40, 0x00, 0x00], "SSS FFF FFF"),
        ("datagram", [0x00, 0x00, 0x00], "FFF FFF FFF"),
        ("datagram", [0xC8, 0x00, 0x00], "III FFF FFF"),
        ("datagram", [0x12, 0x00, 0x00], "FOF FFF FFF"),
        ("datagram", [0x18, 0x00, 0x00], "EEE FFF FFF"),
        ("datagram", [0x10, 0x00, 0x00], "OOO FFF FFF"),
        // Gyro and inclinometer, gyro and accelerometer.
        ("datagram", [0x80, 0x00, 0x1A], "III FFF FEF"),
        ("datagram", [0x19, 0x40, 0x00], "EFF SSS FFF"),
        // No datagram, but for the third.
        ("waiting", [0x00, 0x00, 0x00], "FFF FFF FFF"),
        ("refused 11", [0x00, 0x00, 0x00], "FFF FFF FFF"),
        ("datagram", [0xFF, 0xFF, 0xFF], "III III III"),
        ("waiting", [0x00, 0x00, 0x00], "FFF FFF FFF"),
    ];
    let calls = listed::judged_feeds();
    assert_eq!(calls.len(), expected.len());
    for (call, (outcome, statuses, letters)) in calls.iter().zip(expected) {
        let answer = answer_text(call);
        assert!(answer.starts_with(&format!("feed {outcome} ")), "{answer}");
        let words = datagram_words(&answer);
        assert_eq!(words[10..13], statuses.map(|status: u8| status.to_string()));
        assert_eq!(words[32..41].join(" "), words_of(letters), "{statuses:?}");
        assert_eq!(words.len(), 84);
    }
    // Where they stand: behind the flagged channels, before the gyro's unit.
    let words = " 1 0 0 fit overload fit fit fit fit fit fit fit 3 ";
    assert!(answer_text(&calls[21]).contains(words));
}

/// The words of an answer's datagram. The judgements are from 32 to 40.
fn datagram_words(answer: &str) -> Vec<&str> {
    let mut lines = answer.lines();
    let line = lines.find(|line| line.starts_with("datagram "));
    line.expect("every answer has one").split(' ').collect()
}

fn words_of(letters: &str) -> String {
    let letters = letters.chars().filter(|&letter| letter != ' ');
    let words = letters.map(|letter| match letter {
        'F' => "fit",
        'I' => "integrity",
        'S' => "start-up",
        'E' => "error",
        'O' => "overload",
        _ => panic!("{letter} stands for no word"),
    });
    words.collect::<Vec<_>>().join(" ")
}

/// In the listed calls of every status each group has all 256, each judgement that
/// comes back is the first that applies, and a total moves if it is fit, else not.
fn every_listed_judgement() {
    let mut times = [[0; 256]; 3];
    let mut times_named = [[0; 5]; 3];
    let answers = answers_of(&listed::feeds_of_every_status());
    for (before, answer) in answers.iter().zip(&answers[1..]) {
        let text = feed_text(answer);
        let words = datagram_words(&text);
        for group in 0..3 {
            let status = status_of(answer, group);
            times[group][usize::from(status)] += 1;
            for axis in 0..3 {
                let judgement = first_in(PAPER_ORDER, status, axis);
                times_named[group][judgement as usize] += 1;
                let letter = ["F", "I", "S", "E", "O"][judgement as usize];
                assert_eq!(words[32 + 3 * group + axis], words_of(letter));
                let steps = |answer: &Answer| answer.datagram.totals[group][axis].steps;
                assert_eq!(steps(answer) != steps(before), judgement == Fit);
            }
        }
    }
    assert_eq!(times, [[1; 256]; 3]);
    assert_eq!(times_named, [[102, 384, 192, 60, 30]; 3]);
}

fn keeps_all_totals(run: &Run) -> bool {
    (0..3).all(|group| keeps_totals(&run.session.setup, group))
}

/// Whole pieces, however they are cut: the lines are those that the program
/// prints, the session is the one that feeding leaves, and nothing else of the
/// buffer is touched.
fn whole_pieces() {
    let mut random = Random::new(4);
    let mut refusals = 0;
    for _ in 0..300 {
        let setup = good_setup(&mut random);
        let bytes = stream(&mut random, &setup, 3000);
        let mut session = open_session(&setup).unwrap();
        let mut lines: Vec<u8> = Vec::new();
        let mut rest = &bytes[..];
        while !rest.is_empty() {
            let (piece, behind) = rest.split_at(random.between(0, rest.len().min(PIECE_LIMIT)));
            let fill = random.byte();
            let (whole, _) = lines_of(&session, piece).unwrap();
            assert!(whole.len() <= ROOM_FOR_LINES);
            let room = match random.below(4) {
                0 => ROOM_FOR_LINES,
                1 => whole.len(),
                2 => whole.len().saturating_sub(1),
                _ => random.below(whole.len() + 1),
            };
            let mut buffer = vec![fill; room];
            let received = receive_lines(&session, piece, &mut buffer);
            match received.outcome {
                Ok(length) => {
                    assert_eq!(length, whole.len());
                    lines.extend(&buffer[..length]);
                    assert!(buffer[length..].iter().all(|&byte| byte == fill));
                    rest = behind;
                }
                Err(refusal) => {
                    assert_eq!(refusal, 14);
                    assert!(room < whole.len());
                    assert!(buffer.iter().all(|&byte| byte == fill));
                    assert_eq!(received.session, session);
                    refusals += 1;
                }
            }
            session = received.session;
        }
        let mut input = setup_line(&setup).into_bytes();
        input.push(0x0A);
        input.extend(&bytes);
        assert_eq!(lines, output_for(&input, STREAM_LIMIT));
        let mut fed = open_session(&setup).unwrap();
        let mut position = 0;
        while fed.bytes_fed < bytes.len() as u64 {
            let answer = feed(&fed, &bytes[position..]);
            fed = answer.session;
            position += answer.taken;
        }
        assert_eq!(session, fed);
    }
    assert!(refusals > 100);
}

// ------------------------------------------------------------ made datagrams

/// The two datagrams of the paper's example, made from its lines.
fn made_example() {
    let input = b"1000,90,0,3,0,0,21,0,0\n\
                  1,2,0,0,8388600,0,0,0,0,0,0,,,,,,,,,,,,,,\n\
                  2,4,0,0,-8388600,0,0,0,16,0,0,,,,,,,,,,,,,,\n";
    let made = made_for(input);
    let expected = [
        example_datagram(8_388_600, 2),
        example_datagram(-8_388_600, 4),
    ];
    assert_eq!(made.datagrams, expected.concat());
    assert_eq!(made.messages, b"");
}

/// For every identifier and termination: what is written is accepted and read as
/// the same fields, behind it nothing is touched, and an accepted datagram
/// written again has the same bytes.
fn made_round_trips() {
    let mut written = 0;
    let mut again = 0;
    for number in 0..9 * 32 * 4 {
        let Call::Make(setup, values, room, fill) = generate_make::datagram_call(11, number) else {
            panic!("it makes datagrams");
        };
        let mut buffer = vec![fill; room];
        let Ok(length) = write_datagram(&setup, &values, &mut buffer) else {
            assert!(buffer.iter().all(|&byte| byte == fill));
            continue;
        };
        written += 1;
        let (datagram, behind) = buffer.split_at(length);
        assert_eq!(Some(length), datagram_length(&setup));
        assert!(is_acceptable(&setup, datagram));
        assert!(behind.iter().all(|&byte| byte == fill));
        let answer = feed(&open_session(&setup).unwrap(), datagram);
        assert_eq!(answer.outcome, Outcome::Datagram);
        assert_eq!(Values::of_fields(&answer.datagram.fields), *values);
    }
    let mut random = Random::new(12);
    for number in 0..320 {
        let setup = setup_of_case(&mut random, number);
        let length = datagram_length(&setup).unwrap();
        let bytes = stream(&mut random, &setup, 500);
        for datagram in bytes.windows(length) {
            if is_acceptable(&setup, datagram) {
                again += 1;
                let values = Values::of_fields(&decode(&setup, datagram));
                let mut buffer = vec![0; length];
                assert_eq!(write_datagram(&setup, &values, &mut buffer), Ok(length));
                assert_eq!(buffer, datagram);
            }
        }
    }
    assert!(written > 400 && again > 1000);
    println!("{written} datagrams made, {again} accepted ones made again");
}

fn made_refusals() {
    let good = Values {
        counter: 255,
        latency: 65_535,
        ..Values::ZEROS
    };
    let refused = |setup: &Setup, values: &Values, room: usize, refusal: Refusal| {
        let mut buffer = vec![0xEE; room];
        assert_eq!(write_datagram(setup, values, &mut buffer), Err(refusal));
        assert!(buffer.iter().all(|&byte| byte == 0xEE));
    };
    let with = |change: &dyn Fn(&mut Values)| {
        let mut values = good;
        change(&mut values);
        values
    };
    assert_eq!(write_datagram(&EXAMPLE, &good, &mut [0; 18]), Ok(18));
    refused(&EXAMPLE, &good, 17, 16);
    refused(&EXAMPLE, &with(&|values| values.counter = 256), 0, 15);
    refused(&EXAMPLE, &with(&|values| values.counter = -1), 18, 15);
    refused(&EXAMPLE, &with(&|values| values.latency = 65_536), 18, 15);
    refused(&EXAMPLE, &with(&|values| values.latency = -1), 18, 15);
    refused(&EXAMPLE, &with(&|values| values.statuses[0] = 256), 18, 15);
    refused(&EXAMPLE, &with(&|values| values.statuses[1] = 1), 18, 15);
    refused(&EXAMPLE, &with(&|values| values.readings[2][2] = 1), 18, 15);
    refused(&EXAMPLE, &with(&|values| values.aux_status = 1), 18, 15);
    refused(
        &EXAMPLE,
        &with(&|values| values.temperature_statuses[0] = 1),
        18,
        15,
    );
    refused(&Setup::ZEROS, &with(&|values| values.counter = 256), 0, 5);
    // A list of values keeps each in its place.
    let list = std::array::from_fn(|place| place as i32);
    let values = Values::of_list(&list);
    assert_eq!(values.list(), list);
    assert_eq!(values.readings[2], [6, 7, 8]);
    assert_eq!(values.statuses, [9, 10, 11]);
    assert_eq!(values.temperatures[1], [15, 16, 17]);
    assert_eq!(values.temperature_statuses, [21, 22, 23]);
    assert_eq!([values.aux, values.aux_status], [24, 25]);
    assert_eq!([values.counter, values.latency], [26, 27]);
}

/// What the receiving program prints of a stream makes datagrams of which it
/// prints the same; without temperatures and AUX these are the stream's own.
fn rehearsals_of_streams() {
    let mut random = Random::new(13);
    for number in 0..320 {
        let setup = setup_of_case(&mut random, number);
        let layout = layout_of(setup.identifier).unwrap();
        let head = setup_line(&setup) + "\n";
        let bytes = stream(&mut random, &setup, 500);
        let printed = output_for(&[head.as_bytes(), &bytes].concat(), STREAM_LIMIT);
        let made = made_for(&[head.as_bytes(), &printed].concat());
        assert_eq!(made.messages, b"");
        let printed_again = output_for(&[head.as_bytes(), &made.datagrams].concat(), STREAM_LIMIT);
        assert_eq!(printed, printed_again);
        if !layout.temperatures && !layout.auxiliary {
            assert_eq!(made.datagrams, handed_out(&setup, &bytes));
        }
    }
}

/// The bytes of the datagrams that are handed out of a stream.
fn handed_out(setup: &Setup, bytes: &[u8]) -> Vec<u8> {
    let length = datagram_length(setup).unwrap();
    let mut session = open_session(setup).unwrap();
    let mut position = 0;
    let mut datagrams = Vec::new();
    loop {
        let answer = feed(&session, &bytes[position..]);
        session = answer.session;
        position += answer.taken;
        if answer.outcome != Outcome::Datagram {
            return datagrams;
        }
        datagrams.extend_from_slice(&bytes[position - length..position]);
    }
}

/// Lines and their numbers, and how an input may end.
fn making_program() {
    let good = "1,2,0,0,8388600,0,0,0,0,0,0,,,,,,,,,,,,,,";
    let datagram = example_datagram(8_388_600, 2);
    let made = |text: &str, count: usize, messages: &str| {
        let made = made_for(text.as_bytes());
        assert_eq!(made.datagrams, datagram.repeat(count), "{text}");
        assert_eq!(String::from_utf8_lossy(&made.messages), messages, "{text}");
    };
    let head = "1000,90,0,3,0,0,21,0,0";
    made("", 0, "line 1: refused 1\n");
    made("\n", 0, "line 1: refused 1\n");
    made(
        &format!("{}\n{good}\n", "1".repeat(65)),
        0,
        "line 1: refused 1\n",
    );
    made(&format!("1001,{head}\n{good}\n"), 0, "line 1: refused 2\n");
    made(
        &format!("1001{}\n{good}", &head[4..]),
        0,
        "line 1: refused 4\n",
    );
    made(head, 0, "");
    made(&format!("{head}\n"), 0, "");
    made(&format!("{head}\n{good}"), 1, "");
    made(&format!("{head}\n{good}\n"), 1, "");
    made(
        &format!("{head}\n\n{good}\n\n"),
        1,
        "line 2: neither 25 nor 39 fields\nline 4: neither 25 nor 39 fields\n",
    );
    made(
        &format!(
            "{head}\n{good},\n{good}\r\n{good}\n,256{}\n{}",
            ",".repeat(23),
            "x".repeat(513)
        ),
        1,
        "line 2: neither 25 nor 39 fields\nline 3: a field is no whole number\n\
         line 5: refused 15\nline 6: longer than 512 bytes\n",
    );
}

// ------------------------------------------------------------- wrong versions

type Maker = fn(&Setup, &Values, &mut [u8]) -> Result<usize, Refusal>;

/// Writers that a careless reading of 2.1 gives. The stored records, and 400
/// generated ones of three seeds, tell each from the right one.
const WRONG_MAKERS: [(&str, Maker); 15] = [
    ("a check without its zero bytes", |setup, values, buffer| {
        alter_check(setup, values, buffer, check_unpadded)
    }),
    (
        "a check with its zero bytes in front",
        |setup, values, buffer| {
            alter_check(setup, values, buffer, |bytes| {
                let zeros = vec![0; (4 - bytes.len() % 4) % 4];
                check_unpadded(&[&zeros, bytes].concat())
            })
        },
    ),
    (
        "a check with its lowest byte first",
        |setup, values, buffer| {
            alter_check(setup, values, buffer, |bytes| check_of(bytes).swap_bytes())
        },
    ),
    (
        "accelerometer and inclinometer swapped",
        |setup, values, buffer| {
            alter_values(setup, values, buffer, |values| {
                values.readings.swap(1, 2);
                values.statuses.swap(1, 2);
            })
        },
    ),
    (
        "temperatures of two groups swapped",
        |setup, values, buffer| {
            alter_values(setup, values, buffer, |values| {
                values.temperatures.swap(0, 1)
            })
        },
    ),
    ("counter cut modulo 256", |setup, values, buffer| {
        alter_values(setup, values, buffer, |values| {
            values.counter = values.counter.rem_euclid(256);
        })
    }),
    ("latency cut modulo 65536", |setup, values, buffer| {
        alter_values(setup, values, buffer, |values| {
            values.latency = values.latency.rem_euclid(65_536);
        })
    }),
    ("AUX cut modulo 2^24", |setup, values, buffer| {
        alter_values(setup, values, buffer, |values| {
            values.aux = values.aux << 8 >> 8
        })
    }),
    (
        "temperatures of 17 bits brought to the nearest",
        |setup, values, buffer| {
            alter_values(setup, values, buffer, |values| {
                for temperature in values.temperatures.iter_mut().flatten() {
                    *temperature = (*temperature).clamp(-32_768, 32_767);
                }
            })
        },
    ),
    (
        "statuses of groups not carried ignored",
        |setup, values, buffer| {
            let carries = layout_of(setup.identifier).map_or([true; 3], |layout| layout.carries);
            let mut altered = *values;
            for group in 0..3 {
                if !carries[group] {
                    altered.statuses[group] = 0;
                }
            }
            write_datagram(setup, &altered, buffer)
        },
    ),
    (
        "temperatures of groups not carried ignored",
        |setup, values, buffer| {
            let carries = layout_of(setup.identifier).map_or([true; 3], |layout| layout.carries);
            let mut altered = *values;
            for group in 0..3 {
                if !carries[group] {
                    altered.temperatures[group] = [0; 3];
                }
            }
            write_datagram(setup, &altered, buffer)
        },
    ),
    ("16 before 15", |setup, values, buffer| {
        if judge_setup(setup).is_ok() && Some(buffer.len()) < datagram_length(setup) {
            return Err(16);
        }
        write_datagram(setup, values, buffer)
    }),
    ("15 before 4 to 9", |setup, values, buffer| {
        let everything = Setup {
            identifier: 0xAF,
            ..EXAMPLE
        };
        if write_datagram(&everything, values, &mut [0; 65]) == Err(15) {
            return Err(15);
        }
        write_datagram(setup, values, buffer)
    }),
    (
        "a refusal that clears the buffer",
        |setup, values, buffer| {
            let written = write_datagram(setup, values, buffer);
            if written.is_err() {
                buffer.fill(0);
            }
            written
        },
    ),
    (
        "what is behind the datagram cleared",
        |setup, values, buffer| {
            let length = write_datagram(setup, values, buffer)?;
            buffer[length..].fill(0);
            Ok(length)
        },
    ),
];

/// Writes other values.
fn alter_values(
    setup: &Setup,
    values: &Values,
    buffer: &mut [u8],
    change: fn(&mut Values),
) -> Result<usize, Refusal> {
    let mut altered = *values;
    change(&mut altered);
    write_datagram(setup, &altered, buffer)
}

/// Writes the datagram with another check.
fn alter_check(
    setup: &Setup,
    values: &Values,
    buffer: &mut [u8],
    check: fn(&[u8]) -> u32,
) -> Result<usize, Refusal> {
    let length = write_datagram(setup, values, buffer)?;
    let before_check = layout_of(setup.identifier).unwrap().bytes_before_check;
    let other = check(&buffer[..before_check]);
    buffer[before_check..before_check + 4].copy_from_slice(&other.to_be_bytes());
    Ok(length)
}

fn wrong_makers() {
    let stored = generate_make::stored_calls();
    for (name, wrong) in WRONG_MAKERS {
        let told_apart = |calls: &[Call]| {
            let differs = |call: &&Call| {
                let Call::Make(setup, values, room, fill) = call else {
                    return false;
                };
                let mut buffer = vec![*fill; *room];
                let mut other = buffer.clone();
                let answer = write_datagram(setup, values, &mut buffer);
                (answer, buffer) != (wrong(setup, values, &mut other), other)
            };
            calls.iter().filter(differs).count()
        };
        assert!(told_apart(&stored) > 0, "stored: {name}");
        for seed in 1..=3 {
            let calls: Vec<Call> = (0..400)
                .map(|number| generate_make::datagram_call(seed, number))
                .collect();
            assert!(told_apart(&calls) > 0, "seed {seed}: {name}");
        }
    }
    println!("{} wrong makers told apart", WRONG_MAKERS.len());
}

type LineReader = fn(&[u8]) -> Result<Values, Fault>;

/// Readers of rehearsal lines that a careless reading gives. The stored records,
/// and 900 generated ones of three seeds, tell each from the right one.
const WRONG_LINE_READERS: [(&str, LineReader); 14] = [
    ("-0 is a number", |line| {
        alter_fields(line, |_, field| (field == b"-0").then(|| b"0".to_vec()))
    }),
    ("+ before a number", |line| {
        alter_fields(line, |_, field| {
            field
                .strip_prefix(b"+")
                .filter(|rest| !rest.is_empty())
                .map(<[u8]>::to_vec)
        })
    }),
    ("zeros before a number", |line| {
        alter_fields(line, |_, field| {
            let digits = field.iter().position(|&byte| byte != b'0')?;
            Some(field[digits..].to_vec())
        })
    }),
    ("spaces around a number", |line| {
        alter_fields(line, |_, field| Some(field.trim_ascii().to_vec()))
    }),
    ("? anywhere", |line| {
        alter_fields(line, |_, field| (field == b"?").then(Vec::new))
    }),
    ("? nowhere", |line| {
        alter_fields(line, |_, field| (field == b"?").then(|| b"x".to_vec()))
    }),
    ("an empty field is none", |line| {
        alter_fields(line, |_, field| field.is_empty().then(|| b"x".to_vec()))
    }),
    ("ignored fields may be anything", |line| {
        alter_fields(line, |place, _| {
            let is_total = (4..25).contains(&place) && (place - 4) % 7 > 3;
            (place == 0 || is_total).then(Vec::new)
        })
    }),
    ("numbers cut to 32 bits", |line| {
        alter_fields(line, |_, field| {
            read_number(field)?;
            let number: i128 = std::str::from_utf8(field).ok()?.parse().ok()?;
            Some((number as i32).to_string().into_bytes())
        })
    }),
    ("a number of more than 10 digits is none", |line| {
        alter_fields(line, |_, field| (field.len() > 11).then(|| b"x".to_vec()))
    }),
    ("0x0D at the end left out", |line| {
        read_rehearsal_line(line.strip_suffix(b"\r").unwrap_or(line))
    }),
    ("511 bytes at most", |line| {
        if line.len() >= LONGEST_REHEARSAL_LINE {
            return Err(Fault::TooLong);
        }
        read_rehearsal_line(line)
    }),
    ("the count before the length", |line| {
        let count = line.split(|&byte| byte == b',').count();
        if count != 25 && count != 39 {
            return Err(Fault::OtherCount);
        }
        read_rehearsal_line(line)
    }),
    ("the numbers before the count", |line| {
        let mut fields = line.split(|&byte| byte == b',');
        let is_short = line.len() <= LONGEST_REHEARSAL_LINE;
        if is_short && fields.any(|field| field != b"?" && read_number(field).is_none()) {
            return Err(Fault::NoNumber);
        }
        read_rehearsal_line(line)
    }),
];

/// Reads a line in which some fields are others; only a line of the right length
/// and count is altered.
fn alter_fields(line: &[u8], change: fn(usize, &[u8]) -> Option<Vec<u8>>) -> Result<Values, Fault> {
    match read_rehearsal_line(line) {
        Err(Fault::TooLong) => Err(Fault::TooLong),
        Err(Fault::OtherCount) => Err(Fault::OtherCount),
        _ => {
            let fields = line.split(|&byte| byte == b',').enumerate();
            let altered: Vec<Vec<u8>> = fields
                .map(|(place, field)| change(place, field).unwrap_or_else(|| field.to_vec()))
                .collect();
            read_rehearsal_line(&altered.join(&b','))
        }
    }
}

fn wrong_line_readers() {
    let stored = generate_make::stored_calls();
    for (name, wrong) in WRONG_LINE_READERS {
        let told_apart = |calls: &[Call]| {
            let differs = |call: &&Call| match call {
                Call::RehearsalLine(line) => read_rehearsal_line(line) != wrong(line),
                _ => false,
            };
            calls.iter().filter(differs).count()
        };
        assert!(told_apart(&stored) > 0, "stored: {name}");
        for seed in 1..=3 {
            let calls: Vec<Call> = (0..900)
                .map(|number| generate_make::line_call(seed, number))
                .collect();
            assert!(told_apart(&calls) > 0, "seed {seed}: {name}");
        }
    }
    println!(
        "{} wrong readers of lines told apart",
        WRONG_LINE_READERS.len()
    );
}

/// What a group's status is taken for when its axes are judged.
type StatusReader = fn(usize, u8) -> u8;

/// Rules of fitness that a careless reading of 2.2 gives. The totals of the listed
/// pieces, and of 400 generated inputs of three seeds, tell each from the right one.
const WRONG_STATUSES: [(&str, StatusReader); 13] = [
    ("no axis named is none", |_, status| {
        if_none_named(status, status & !0x18)
    }),
    ("no axis named is none for bit 3", |_, status| {
        if_none_named(status, status & !0x08)
    }),
    ("no axis named is none for bit 4", |_, status| {
        if_none_named(status, status & !0x10)
    }),
    (
        "no axis named is all only for bits 3 and 4 together",
        |_, status| {
            let has_both = status & 0x18 == 0x18;
            if_none_named(status, if has_both { status } else { status & !0x18 })
        },
    ),
    ("no axis named is X", |_, status| {
        if_none_named(status, status | 1)
    }),
    ("one axis named is all", |_, status| {
        if flagged_channels(status) == 1 {
            status | 7
        } else {
            status
        }
    }),
    ("no axis named is all without bits 3 and 4", |_, status| {
        if_none_named(status, status | 0x08)
    }),
    ("no axis named is all for bit 5", |_, status| {
        if_none_named(status, status | status >> 2 & 0x08)
    }),
    ("no axis named is none beside bit 5", |_, status| {
        let has_bit_5 = status & 0x20 != 0;
        if_none_named(status, if has_bit_5 { status & !0x18 } else { status })
    }),
    ("bits 7 and 6 are for the axes named", |_, status| {
        if status & 0xC0 != 0 {
            status & 0x3F | 0x08
        } else {
            status
        }
    }),
    (
        "no axis named is none in the gyro group",
        |group, status| none_named_in(0, group, status),
    ),
    (
        "no axis named is none in the accelerometer group",
        |group, status| none_named_in(1, group, status),
    ),
    (
        "no axis named is none in the inclinometer group",
        |group, status| none_named_in(2, group, status),
    ),
];

/// Another status if bits 0 to 2 are clear.
fn if_none_named(status: u8, other: u8) -> u8 {
    if status & 7 == 0 {
        other
    } else {
        status
    }
}

/// In one group, no axis named is none.
fn none_named_in(wrong_group: usize, group: usize, status: u8) -> u8 {
    if group == wrong_group {
        if_none_named(status, status & !0x18)
    } else {
        status
    }
}

/// The totals that come back with a datagram, where they have begun.
type Totals = [[Option<i64>; 3]; 3];

/// What is handed out along a stretch of a stream.
struct Run {
    /// The session before it.
    session: Session,
    fields: Vec<Fields>,
    totals: Vec<Totals>,
}

fn run_of(session: Session, bytes: &[u8]) -> Run {
    let mut run = Run {
        session,
        fields: Vec::new(),
        totals: Vec::new(),
    };
    let mut session = session;
    for mut rest in bytes.chunks(PIECE_LIMIT) {
        while !rest.is_empty() {
            let answer = feed(&session, rest);
            session = answer.session;
            rest = &rest[answer.taken..];
            if answer.outcome == Outcome::Datagram {
                let totals = answer.datagram.totals;
                run.fields.push(answer.datagram.fields);
                run.totals.push(
                    totals.map(|group| group.map(|total| total.begun.then_some(total.steps))),
                );
            }
        }
    }
    run
}

/// The listed pieces of statuses.
fn listed_runs() -> Vec<Run> {
    let calls = listed::pieces_of_statuses();
    let runs = calls.iter().map(|call| match call {
        Call::WholePiece(session, piece, _, _) => run_of(**session, piece),
        _ => panic!("these are whole pieces"),
    });
    runs.collect()
}

/// The generated inputs of a seed that have a good setup.
fn generated_runs(seed: u64, count: u64) -> Vec<Run> {
    let inputs = (0..count).map(|number| input_of_case(seed, number));
    let runs = inputs.filter_map(|input| {
        let (line, bytes) = split_input(&input);
        let session = open_session(&read_setup_line(line).ok()?).ok()?;
        Some(run_of(session, bytes))
    });
    runs.collect()
}

/// The totals along a run if statuses are taken for others.
fn totals_by(run: &Run, reader: StatusReader) -> Vec<Totals> {
    let setup = &run.session.setup;
    let mut axes = run.session.axes;
    let mut totals = Vec::new();
    for fields in &run.fields {
        for group in (0..3).filter(|&group| keeps_totals(setup, group)) {
            let status = reader(group, fields.statuses[group]);
            for axis in (0..3).filter(|&axis| is_fit(status, axis)) {
                add_fit_reading(&mut axes[group][axis], fields.readings[group][axis]);
            }
        }
        totals.push(axes.map(|group| group.map(|axis| axis.begun.then_some(axis.total))));
    }
    totals
}

fn wrong_statuses() {
    let mut sources = vec![("listed".to_string(), listed_runs())];
    for seed in 1..=3 {
        sources.push((format!("seed {seed}"), generated_runs(seed, 400)));
    }
    for (source, runs) in &sources {
        for run in runs {
            assert_eq!(totals_by(run, |_, status| status), run.totals);
        }
        for (name, wrong) in WRONG_STATUSES {
            let told_apart = |run: &Run| totals_by(run, wrong) != run.totals;
            assert!(runs.iter().any(told_apart), "{source}: {name}");
        }
    }
    println!("{} wrong rules of fitness told apart", WRONG_STATUSES.len());
}

// ----------------------------------------------------------------- judgements

/// How an axis of a group is judged by an answer.
type Judge = fn(&Answer, usize, usize) -> Judgement;

const PAPER_ORDER: [Judgement; 4] = [Integrity, StartUp, Error, Overload];

/// Rules of naming that a careless reading of 2.3 gives, beside `wrong_orders`.
/// What is printed of the datagrams that the listed calls hand out, the stored
/// ones, and 2,000 generated ones of three seeds, tells each from the right one.
const WRONG_JUDGES: [(&str, Judge); 19] = [
    ("error and overload swapped", |answer, group, axis| {
        swapped(Error, Overload, right(answer, group, axis))
    }),
    ("integrity and start-up swapped", |answer, group, axis| {
        swapped(Integrity, StartUp, right(answer, group, axis))
    }),
    ("start-up and error swapped", |answer, group, axis| {
        swapped(StartUp, Error, right(answer, group, axis))
    }),
    ("bits 3 and 4 swapped", |answer, group, axis| {
        let status = status_of(answer, group);
        judgement_of(
            status & 0xE7 | status << 1 & 0x10 | status >> 1 & 0x08,
            axis,
        )
    }),
    ("bits 7 and 6 swapped", |answer, group, axis| {
        let status = status_of(answer, group);
        judgement_of(
            status & 0x3F | status << 1 & 0x80 | status >> 1 & 0x40,
            axis,
        )
    }),
    ("no axis named is fit", |answer, group, axis| {
        let status = status_of(answer, group);
        judgement_of(if_none_named(status, status & !0x18), axis)
    }),
    ("no axis named is fit for bit 3", |answer, group, axis| {
        let status = status_of(answer, group);
        judgement_of(if_none_named(status, status & !0x08), axis)
    }),
    ("no axis named is fit for bit 4", |answer, group, axis| {
        let status = status_of(answer, group);
        judgement_of(if_none_named(status, status & !0x10), axis)
    }),
    ("one axis named is all", |answer, group, axis| {
        let status = status_of(answer, group);
        let is_one = flagged_channels(status) == 1;
        judgement_of(if is_one { status | 7 } else { status }, axis)
    }),
    ("the axis isn't looked at", |answer, group, axis| {
        judgement_of(status_of(answer, group) | 7, axis)
    }),
    ("named by the next axis's bit", |answer, group, axis| {
        right(answer, group, (axis + 1) % 3)
    }),
    (
        "X and Z named by each other's bit",
        |answer, group, axis| right(answer, group, 2 - axis),
    ),
    (
        "bits 7 and 6 are for the axes named",
        |answer, group, axis| {
            let status = status_of(answer, group);
            let is_named = status & 7 == 0 || status >> axis & 1 == 1;
            judgement_of(if is_named { status } else { status & 0x3F }, axis)
        },
    ),
    ("bit 5 is an error", |answer, group, axis| {
        let status = status_of(answer, group);
        judgement_of(status | status >> 2 & 0x08, axis)
    }),
    ("the gyro's status for every group", |answer, _, axis| {
        right(answer, 0, axis)
    }),
    ("the next group's status", |answer, group, axis| {
        right(answer, (group + 1) % 3, axis)
    }),
    ("the temperatures' status", |answer, group, axis| {
        judgement_of(answer.datagram.fields.temperature_statuses[group], axis)
    }),
    ("groups and axes swapped", |answer, group, axis| {
        right(answer, axis, group)
    }),
    ("fit where no total is kept", |answer, group, axis| {
        if keeps_totals(&answer.session.setup, group) {
            right(answer, group, axis)
        } else {
            Fit
        }
    }),
];

fn status_of(answer: &Answer, group: usize) -> u8 {
    answer.datagram.fields.statuses[group]
}

fn right(answer: &Answer, group: usize, axis: usize) -> Judgement {
    judgement_of(status_of(answer, group), axis)
}

fn swapped(one: Judgement, other: Judgement, judgement: Judgement) -> Judgement {
    match judgement {
        named if named == one => other,
        named if named == other => one,
        named => named,
    }
}

/// The first of an order that applies to an axis, or fit.
fn first_in(order: [Judgement; 4], status: u8, axis: usize) -> Judgement {
    let is_named = status & 7 == 0 || status >> axis & 1 == 1;
    let applies = |judgement: &Judgement| match judgement {
        Integrity => status & 0x80 != 0,
        StartUp => status & 0x40 != 0,
        Error => status & 0x08 != 0 && is_named,
        Overload => status & 0x10 != 0 && is_named,
        Fit => false,
    };
    order.into_iter().find(applies).unwrap_or(Fit)
}

/// The answers that hand out a datagram, of the calls of feed among these.
fn answers_of(calls: &[Call]) -> Vec<Answer> {
    let answers = calls.iter().filter_map(|call| match call {
        Call::Feed(session, piece) => Some(feed(session, piece)),
        _ => None,
    });
    answers
        .filter(|answer| answer.outcome == Outcome::Datagram)
        .collect()
}

/// The 23 orders of the four names that aren't the paper's.
fn wrong_orders() -> Vec<[Judgement; 4]> {
    let mut orders = Vec::new();
    for places in 0..256 {
        let order = [0, 2, 4, 6].map(|shift| PAPER_ORDER[places >> shift & 3]);
        let has_all = PAPER_ORDER.iter().all(|name| order.contains(name));
        if has_all && order != PAPER_ORDER {
            orders.push(order);
        }
    }
    assert_eq!(orders.len(), 23);
    orders
}

/// An answer with other judgements.
fn judged_by(answer: &Answer, judge: impl Fn(&Answer, usize, usize) -> Judgement) -> Answer {
    let mut other = *answer;
    for group in 0..3 {
        for axis in 0..3 {
            other.datagram.judgements[group][axis] = judge(answer, group, axis);
        }
    }
    other
}

/// Whether some answer is printed otherwise with the judgements of a rule.
fn is_told_apart(
    answers: &[Answer],
    rule: impl Fn(&Answer, usize, usize) -> Judgement + Copy,
) -> bool {
    let is_other = |answer: &Answer| feed_text(&judged_by(answer, rule)) != feed_text(answer);
    answers.iter().any(is_other)
}

fn wrong_judgements() {
    let mut listed = listed::feeds_of_every_status();
    listed.extend(listed::judged_feeds());
    let stored = generate_call::stored_calls();
    let mut sources = vec![
        ("listed".to_string(), answers_of(&listed)),
        ("stored".to_string(), answers_of(&stored)),
    ];
    for seed in 1..=3 {
        let calls = generate_call::calls(seed, 2000);
        sources.push((format!("seed {seed}"), answers_of(&calls)));
    }
    for (source, answers) in &sources {
        for answer in answers {
            assert_eq!(judged_by(answer, right), *answer);
        }
        for (name, wrong) in WRONG_JUDGES {
            assert!(is_told_apart(answers, wrong), "{source}: {name}");
        }
        for order in wrong_orders() {
            let wrong =
                |answer: &Answer, group, axis| first_in(order, status_of(answer, group), axis);
            assert!(is_told_apart(answers, wrong), "{source}: {order:?}");
        }
    }
    let wrong = WRONG_JUDGES.len() + wrong_orders().len();
    println!("{wrong} wrong rules of naming told apart");
}

/// Generated calls of feed have each judgement, and each set of bits 7, 6, 4 and
/// 3, often enough.
fn generated_judgements() {
    let mut times = [0; 5];
    let mut times_of_set = [0; 256];
    let mut statuses = 0;
    for answer in answers_of(&generate_call::calls(USUAL_SEED, 10_000)) {
        let layout = layout_of(answer.session.setup.identifier).unwrap();
        for group in (0..3).filter(|&group| layout.carries[group]) {
            statuses += 1;
            times_of_set[usize::from(status_of(&answer, group) & 0xD8)] += 1;
            for judgement in answer.datagram.judgements[group] {
                times[judgement as usize] += 1;
            }
        }
    }
    // 5 in 100 of each judgement, 1 in 100 of each of the sixteen sets.
    assert!(
        times.iter().all(|&count| 20 * count >= 3 * statuses),
        "{times:?}"
    );
    let sets = (0..=0xD8).filter(|set| set & !0xD8 == 0);
    for set in sets {
        assert!(100 * times_of_set[set] >= statuses, "bits {set:x}");
    }
    println!("{statuses} generated statuses; fit, integrity, start-up, error, overload: {times:?}");
}

// ---------------------------------------------------------------------- steps

/// The readings of which the listed calls have every pair.
const EXTREME_READINGS: [i32; 13] = [
    -8_388_608, -8_388_607, -8_388_600, -4_194_305, -4_194_304, -1, 0, 1, 4_194_303, 4_194_304,
    8_388_600, 8_388_606, 8_388_607,
];

/// A last reading, a new one, and by how much the total moves (01, Totals and
/// Bench cases).
const STEPS_BY_HAND: [(i32, i32, i64); 32] = [
    // Over the ends.
    (8_388_600, -8_388_600, 16),
    (-8_388_600, 8_388_600, -16),
    (8_388_607, -8_388_608, 1),
    (-8_388_608, 8_388_607, -1),
    (8_388_606, -8_388_607, 3),
    (-8_388_607, 8_388_606, -3),
    (8_388_607, -4_194_305, 4_194_304),
    (-8_388_608, 4_194_304, -4_194_304),
    // Half the range, up and down.
    (-8_388_608, 0, -8_388_608),
    (0, -8_388_608, -8_388_608),
    (-8_388_607, 1, -8_388_608),
    (1, -8_388_607, -8_388_608),
    (-4_194_305, 4_194_303, -8_388_608),
    (4_194_303, -4_194_305, -8_388_608),
    (-4_194_304, 4_194_304, -8_388_608),
    (4_194_304, -4_194_304, -8_388_608),
    (-1, 8_388_607, -8_388_608),
    (8_388_607, -1, -8_388_608),
    // One less than that, and one more.
    (0, 8_388_607, 8_388_607),
    (8_388_607, 0, -8_388_607),
    (-4_194_304, 4_194_303, 8_388_607),
    (4_194_303, -4_194_304, -8_388_607),
    (-8_388_608, 1, -8_388_607),
    (1, -8_388_608, 8_388_607),
    (-4_194_305, 4_194_304, -8_388_607),
    (4_194_304, -4_194_305, 8_388_607),
    // Near, and none.
    (1, -1, -2),
    (-1, 1, 2),
    (-8_388_608, -8_388_600, 8),
    (-8_388_608, -8_388_608, 0),
    (8_388_607, 8_388_607, 0),
    (0, 0, 0),
];

/// A call of feed whose nine axes have begun and are fit, and what it answers.
struct Fed {
    before: Session,
    /// The readings in the piece, which is a whole datagram of three groups.
    readings: [i32; 9],
    answer: Answer,
}

impl Fed {
    fn of(call: Call) -> Fed {
        let Call::Feed(session, piece) = call else {
            panic!("these are calls of feed");
        };
        let reading_at = |place: usize| {
            // The identifier, then groups of 10 bytes with 3 for each axis.
            let first = 1 + 10 * (place / 3) + 3 * (place % 3);
            i32::from_be_bytes([piece[first], piece[first + 1], piece[first + 2], 0]) >> 8
        };
        Fed {
            before: *session,
            readings: std::array::from_fn(reading_at),
            answer: feed(&session, &piece),
        }
    }

    /// The last reading of an axis and its new one.
    fn pair(&self, place: usize) -> (i32, i32) {
        let kept = &self.before.axes[place / 3][place % 3];
        (kept.last_fit_reading, self.readings[place])
    }

    /// By how much the total of an axis moves.
    fn step(&self, place: usize) -> i64 {
        let (group, axis) = (place / 3, place % 3);
        self.answer.session.axes[group][axis].total - self.before.axes[group][axis].total
    }
}

fn fed_listed() -> Vec<Fed> {
    let calls = listed::feeds_of_extreme_pairs();
    calls.into_iter().map(Fed::of).collect()
}

fn fed_generated(seed: u64, count: u64) -> Vec<Fed> {
    let calls = generate_call::feeds_of_reading_pairs(seed, count);
    calls.map(Fed::of).collect()
}

/// 01, Totals: a datagram is handed out, and each total moves by the one whole
/// number from -8388608 to 8388607 that differs from new - last by a multiple of
/// 2^24. It is so in the session and in the datagram, and the new reading is kept.
fn check_steps(fed: &Fed) {
    assert_eq!(fed.answer.outcome, Outcome::Datagram);
    assert_eq!(fed.answer.datagram.fields.statuses, [0; 3]);
    for place in 0..9 {
        let (group, axis) = (place / 3, place % 3);
        let (last, new) = fed.pair(place);
        let step = fed.step(place);
        assert!((-8_388_608..=8_388_607).contains(&step), "{last} to {new}");
        let difference = i64::from(new) - i64::from(last);
        assert_eq!((difference - step) % 16_777_216, 0, "{last} to {new}");
        assert!(fed.before.axes[group][axis].begun);
        let after = fed.answer.session.axes[group][axis];
        assert_eq!((after.begun, after.last_fit_reading), (true, new));
        let total = fed.answer.datagram.totals[group][axis];
        assert_eq!((total.begun, total.steps), (true, after.total));
        let power = 2.0_f64.powi(fed.answer.session.setup.shifts[group] as i32);
        assert_eq!(total.double * power, after.total as f64);
    }
}

/// The listed calls of 02, 2.4: each of the nine axes has each of the 169 pairs
/// once, and the totals move as they must, in those by hand by the number written.
fn listed_steps() {
    let listed = fed_listed();
    assert_eq!(listed.len(), 169);
    for fed in &listed {
        check_steps(fed);
        let pairs: HashSet<(i32, i32)> = (0..9).map(|place| fed.pair(place)).collect();
        assert_eq!(pairs.len(), 9);
    }
    for place in 0..9 {
        has_every_pair(&listed, place);
        moves_by_hand(&listed, place);
        has_far_totals(&listed, place);
    }
    println!("169 pairs of extreme readings on each of 9 axes");
}

fn has_every_pair(all_fed: &[Fed], place: usize) {
    for last in EXTREME_READINGS {
        for new in EXTREME_READINGS {
            let has_pair = |fed: &&Fed| fed.pair(place) == (last, new);
            let times = all_fed.iter().filter(has_pair).count();
            assert_eq!(times, 1, "{last} to {new}");
        }
    }
}

fn moves_by_hand(all_fed: &[Fed], place: usize) {
    for (last, new, expected) in STEPS_BY_HAND {
        let fed = all_fed.iter().find(|fed| fed.pair(place) == (last, new));
        let step = fed.map(|fed| fed.step(place));
        assert_eq!(step, Some(expected), "{last} to {new}");
    }
}

/// The totals before the steps: 0, at both ends of what the datagrams allow, and
/// far beyond 32 bits, to both sides.
fn has_far_totals(all_fed: &[Fed], place: usize) {
    let has = |is_wanted: fn(i64, i64) -> bool| {
        let is_so = |fed: &Fed| {
            let most = (fed.before.datagrams as i64) << 23;
            is_wanted(fed.before.axes[place / 3][place % 3].total, most)
        };
        assert!(all_fed.iter().any(is_so), "axis {place}");
    };
    has(|total, _| total == 0);
    has(|total, most| total == most);
    has(|total, most| total == -most);
    has(|total, _| total > 1 << 40);
    has(|total, _| total < -(1 << 40));
}

/// What both programs print of two datagrams with the pairs of extreme readings.
fn printed_steps() {
    for last in EXTREME_READINGS {
        for new in EXTREME_READINGS {
            let head = [EXAMPLE_LINE, b"\n"].concat();
            let datagrams = [example_datagram(last, 2), example_datagram(new, 4)].concat();
            let input = [head, datagrams].concat();
            let printed = output_for(&input, STREAM_LIMIT);
            let quick = fast_output(&input, STREAM_LIMIT, &mut Random::new(1));
            assert_eq!(printed, quick, "{last} to {new}");
            let step = step_by_paper(last, new);
            let line = format!("2,4,0,0,{new},0,0,0,{step},0,0,,,,,,,,,,,,,,\n");
            assert!(printed.ends_with(line.as_bytes()), "{last} to {new}");
        }
    }
}

/// The generated calls of 02, 2.4: the totals move as they must; setups, totals and
/// readings vary.
fn generated_steps() {
    let generated = fed_generated(USUAL_SEED, 4000);
    generated.iter().for_each(check_steps);
    (0..9).for_each(|place| has_far_totals(&generated, place));
    generated_setups(&generated);
    let pairs_of = |fed: &Fed| [0, 1, 2, 3, 4, 5, 6, 7, 8].map(|place| fed.pair(place));
    let pairs: Vec<(i32, i32)> = generated.iter().flat_map(pairs_of).collect();
    generated_readings(pairs.iter().map(|pair| pair.0));
    generated_readings(pairs.iter().map(|pair| pair.1));
    // A quarter of 32,000 and three eighths of the 4,000 edge steps are expected.
    let is_folded =
        |&&(last, new): &&(i32, i32)| !(-HALF_RANGE..HALF_RANGE).contains(&(new - last));
    let folded = pairs.iter().filter(is_folded).count();
    assert!((9_200..9_800).contains(&folded), "{folded}");
    // Half the range is a quarter of the edge steps, upwards as often as downwards.
    for half_range in [HALF_RANGE, -HALF_RANGE] {
        let is_half = |&&(last, new): &&(i32, i32)| new - last == half_range;
        let halves = pairs.iter().filter(is_half).count();
        assert!((400..600).contains(&halves), "{halves}");
    }
    println!("36000 generated pairs of readings, {folded} of them folded");
}

/// 6 rates, 4 identifiers and 2 terminations, and 32 shifts of each group.
fn generated_setups(all_fed: &[Fed]) {
    let mut setups = HashSet::new();
    let mut shifts = HashSet::new();
    for setup in all_fed.iter().map(|fed| fed.before.setup) {
        assert_eq!(setup.units, [3; 3]);
        setups.insert((setup.rate, setup.identifier, setup.termination));
        shifts.extend([0, 1, 2].map(|group| (group, setup.shifts[group])));
    }
    assert_eq!(setups.len(), 48);
    assert_eq!(shifts.len(), 96);
}

/// Of 36,000 readings 2,250 are expected in each sixteenth of the range.
fn generated_readings(readings: impl Iterator<Item = i32>) {
    let mut times = [0; 16];
    for reading in readings {
        times[(reading + HALF_RANGE) as usize / 1_048_576] += 1;
    }
    let is_even = |count: &u32| (2_050..2_450).contains(count);
    assert!(times.iter().all(is_even), "{times:?}");
}

/// The one number from -8388608 to 8388607 that differs from new - last by a
/// multiple of 2^24 (01, Totals). The difference itself is less than 2^24 in size.
fn step_by_paper(last: i32, new: i32) -> i32 {
    let nearest = [-1, 0, 1].map(|times| new - last + times * WHOLE_RANGE);
    let mut steps = nearest.into_iter();
    let in_range = |step: &i32| (-8_388_608..=8_388_607).contains(step);
    steps.find(in_range).expect("one of three is in the range")
}

/// 2^24.
const WHOLE_RANGE: i32 = 16_777_216;

/// 2^23.
const HALF_RANGE: i32 = 8_388_608;

/// The step from the last reading to the new one.
type Step = fn(i32, i32) -> i32;

/// Rules of the step that a careless writing of 2.4 gives. What is printed of the
/// listed calls tells each from the right one, on each of the nine axes alone, and
/// so does what is printed of 200 generated ones of three seeds.
const WRONG_STEPS: [(&str, Step); 33] = [
    // The remainder by 2^24 that keeps the sign is the same rule, and so is modulo 2^25.
    ("not folded", |last, new| new - last),
    ("modulo 2^25, brought in by 2^24", |last, new| {
        from_above((new - last).rem_euclid(2 * WHOLE_RANGE))
    }),
    ("modulo 2^23", |last, new| cut_to(23, new - last)),
    ("modulo 2^23 without a sign", |last, new| {
        (new - last).rem_euclid(HALF_RANGE)
    }),
    ("the remainder by 2^23 that keeps the sign", |last, new| {
        (new - last) % HALF_RANGE
    }),
    ("modulo 2^24 without a sign", |last, new| {
        (new - last).rem_euclid(WHOLE_RANGE)
    }),
    ("modulo 2^24 as sign and size", |last, new| {
        let modulo = (new - last).rem_euclid(WHOLE_RANGE);
        if modulo >= HALF_RANGE {
            HALF_RANGE - modulo
        } else {
            modulo
        }
    }),
    ("modulo 2^24 - 1", |last, new| {
        from_above((new - last).rem_euclid(WHOLE_RANGE - 1))
    }),
    ("modulo 2^16", |last, new| cut_to(16, new - last)),
    ("folded from above only", |last, new| from_above(new - last)),
    ("folded from below only", |last, new| from_below(new - last)),
    ("folded the wrong way", |last, new| {
        2 * (new - last) - step_by_paper(last, new)
    }),
    ("folded by half the range", |last, new| {
        (new - last + step_by_paper(last, new)) / 2
    }),
    ("folded by 2^24 - 1", |last, new| {
        match (new - last).rem_euclid(WHOLE_RANGE) {
            modulo if modulo >= HALF_RANGE => modulo - (WHOLE_RANGE - 1),
            modulo => modulo,
        }
    }),
    ("folded wherever the signs are unlike", |last, new| {
        let are_unlike = (new < 0) != (last < 0);
        let folding = if are_unlike { WHOLE_RANGE } else { 0 };
        new - last - folding * (new - last).signum()
    }),
    ("folded between the outer quarters only", |last, new| {
        let quarter = HALF_RANGE / 2;
        if last >= quarter && new < -quarter || last < -quarter && new >= quarter {
            step_by_paper(last, new)
        } else {
            new - last
        }
    }),
    ("no step where it is folded", |last, new| {
        let step = step_by_paper(last, new);
        if step == new - last {
            step
        } else {
            0
        }
    }),
    ("stops at the ends of 24 bits", |last, new| {
        (new - last).clamp(-HALF_RANGE, HALF_RANGE - 1)
    }),
    ("left in the upper 24 bits of 32", |last, new| {
        (new << 8).wrapping_sub(last << 8)
    }),
    ("the readings swapped", |last, new| step_by_paper(new, last)),
    ("the readings added", |last, new| cut_to(24, new + last)),
    ("the complement of the last added", |last, new| {
        cut_to(24, new + !last)
    }),
    ("the difference of the sizes", |last, new| {
        new.abs() - last.abs()
    }),
    ("the size of the step", |last, new| {
        step_by_paper(last, new).abs()
    }),
    ("the readings halved before", |last, new| {
        cut_to(24, 2 * ((new >> 1) - (last >> 1)))
    }),
    ("the new one without a sign, not folded", |last, new| {
        without_sign(new) - last
    }),
    ("the last one without a sign, not folded", |last, new| {
        new - without_sign(last)
    }),
    ("16-bit halves without a borrow", |last, new| {
        by_halves(last, new, 0)
    }),
    ("16-bit halves, the borrow added", |last, new| {
        by_halves(last, new, i32::from(new & 0xFFFF < last & 0xFFFF))
    }),
    ("16-bit halves, the lower with a sign", |last, new| {
        let low = i32::from(new as i16) - i32::from(last as i16);
        cut_to(24, (((new >> 16) - (last >> 16)) << 16) + low)
    }),
    ("bytes without a borrow", |last, new| {
        let (last, new) = (last.to_be_bytes(), new.to_be_bytes());
        let bytes = std::array::from_fn(|place| new[place].wrapping_sub(last[place]));
        cut_to(24, i32::from_be_bytes(bytes))
    }),
    ("the new reading", |_, new| new),
    ("none", |_, _| 0),
];

/// The same, but these go wrong at one of 2^24 steps only, the last one between equal
/// lower halves: the listed pairs and the edge steps of the generated ones are for them.
const SELDOM_WRONG_STEPS: [(&str, Step); 9] = [
    ("half the range is 8388608", |last, new| {
        at_difference(last, new, &[HALF_RANGE, -HALF_RANGE], HALF_RANGE)
    }),
    ("half the range stays above", |last, new| {
        at_difference(last, new, &[HALF_RANGE], HALF_RANGE)
    }),
    ("half the range is folded from below", |last, new| {
        at_difference(last, new, &[-HALF_RANGE], HALF_RANGE)
    }),
    ("half the range is no step", |last, new| {
        at_difference(last, new, &[HALF_RANGE, -HALF_RANGE], 0)
    }),
    ("half the range is -8388607", |last, new| {
        step_by_paper(last, new).max(-8_388_607)
    }),
    (
        "modulo 2^24, brought in from 8388607 on",
        |last, new| match (new - last).rem_euclid(WHOLE_RANGE) {
            modulo if modulo >= 8_388_607 => modulo - WHOLE_RANGE,
            modulo => modulo,
        },
    ),
    ("folded from 8388607 on", |last, new| {
        at_difference(last, new, &[8_388_607], 8_388_607 - WHOLE_RANGE)
    }),
    ("folded below -8388609", |last, new| {
        at_difference(last, new, &[-8_388_609], -8_388_609)
    }),
    ("16-bit halves, a borrow between equal ones", |last, new| {
        by_halves(last, new, -i32::from(new & 0xFFFF <= last & 0xFFFF))
    }),
];

/// The total behind the step, from the one before it.
type Sum = fn(i64, i32) -> i64;

/// Totals that a careless writing of 2.4 gives although the step is right. They are
/// told from the right ones as in `WRONG_STEPS`.
const WRONG_SUMS: [(&str, Sum); 7] = [
    ("a total of 32 bits", |total, step| {
        i64::from((total as i32).wrapping_add(step))
    }),
    (
        "a total that stops at the ends of 32 bits",
        |total, step| (total + i64::from(step)).clamp(i32::MIN.into(), i32::MAX.into()),
    ),
    ("a total that is folded, too", |total, step| {
        i64::from(cut_to(24, (total as i32).wrapping_add(step)))
    }),
    ("the step widened without its sign", |total, step| {
        total + i64::from(step as u32)
    }),
    ("no carry from the lower 32 bits", |total, step| {
        total >> 32 << 32 | i64::from((total as u32).wrapping_add(step as u32))
    }),
    ("the step taken away", |total, step| total - i64::from(step)),
    ("the step alone", |_, step| i64::from(step)),
];

/// The lowest bits of a number, the uppermost of them for its sign.
fn cut_to(bits: u32, number: i32) -> i32 {
    number << (32 - bits) >> (32 - bits)
}

fn from_above(number: i32) -> i32 {
    if number >= HALF_RANGE {
        number - WHOLE_RANGE
    } else {
        number
    }
}

fn from_below(number: i32) -> i32 {
    if number < -HALF_RANGE {
        number + WHOLE_RANGE
    } else {
        number
    }
}

/// The 24 bits of a reading as a number from 0 on.
fn without_sign(reading: i32) -> i32 {
    reading & 0xFF_FFFF
}

/// The lower 16 bits and the upper ones subtracted for themselves, and a borrow of
/// the upper ones.
fn by_halves(last: i32, new: i32, borrow: i32) -> i32 {
    let low = (new & 0xFFFF) - (last & 0xFFFF) & 0xFFFF;
    let high = (new >> 16) - (last >> 16) + borrow;
    cut_to(24, high << 16 | low)
}

/// The right step, but another one at some differences.
fn at_difference(last: i32, new: i32, differences: &[i32], other: i32) -> i32 {
    if differences.contains(&(new - last)) {
        other
    } else {
        step_by_paper(last, new)
    }
}

/// An answer in which the totals of some axes are moved by a rule.
fn moved_by(
    fed: &Fed,
    places: Range<usize>,
    step: impl Fn(i32, i32) -> i32,
    sum: impl Fn(i64, i32) -> i64,
) -> Answer {
    let mut other = fed.answer;
    for place in places {
        let (group, axis) = (place / 3, place % 3);
        let (last, new) = fed.pair(place);
        let total = sum(fed.before.axes[group][axis].total, step(last, new));
        let shift = fed.before.setup.shifts[group];
        other.session.axes[group][axis].total = total;
        other.datagram.totals[group][axis].steps = total;
        other.datagram.totals[group][axis].double = double_of(total, shift);
    }
    other
}

/// How many of these calls are printed otherwise if a rule moves some axes.
fn times_told_apart(all_fed: &[Fed], places: Range<usize>, step: Step, sum: Sum) -> usize {
    let is_other = |fed: &&Fed| {
        let other = moved_by(fed, places.clone(), step, sum);
        feed_text(&other) != feed_text(&fed.answer)
    };
    all_fed.iter().filter(is_other).count()
}

fn right_sum(total: i64, step: i32) -> i64 {
    total + i64::from(step)
}

fn wrong_steps() {
    let listed = fed_listed();
    let generated = [1, 2, 3].map(|seed| fed_generated(seed, 200));
    for fed in listed.iter().chain(generated.iter().flatten()) {
        assert_eq!(moved_by(fed, 0..9, step_by_paper, right_sum), fed.answer);
    }
    let by_listed = |name: &str, step: Step, sum: Sum| {
        for place in 0..9 {
            let times = times_told_apart(&listed, place..place + 1, step, sum);
            assert!(times > 0, "listed, axis {place}: {name}");
        }
    };
    let by_generated = |name: &str, step: Step, sum: Sum| {
        for fed in &generated {
            let times = times_told_apart(fed, 0..9, step, sum);
            assert!(times > 0, "generated: {name}");
        }
    };
    for (name, step) in WRONG_STEPS.into_iter().chain(SELDOM_WRONG_STEPS) {
        by_listed(name, step, right_sum);
        by_generated(name, step, right_sum);
    }
    for (name, sum) in WRONG_SUMS {
        by_listed(name, step_by_paper, sum);
        by_generated(name, step_by_paper, sum);
    }
    no_wrong_step_twice();
    let wrong = WRONG_STEPS.len() + SELDOM_WRONG_STEPS.len() + WRONG_SUMS.len();
    println!("{wrong} wrong rules of the step told apart");
}

/// No two of the wrong steps are the same between all extreme readings.
fn no_wrong_step_twice() {
    let mut seen = HashSet::new();
    for (name, step) in WRONG_STEPS.into_iter().chain(SELDOM_WRONG_STEPS) {
        let from = |last: i32| EXTREME_READINGS.map(|new| step(last, new));
        assert!(seen.insert(EXTREME_READINGS.map(from)), "twice: {name}");
    }
}

// ---------------------------------------------------------- plain against fast

/// Gives its bytes in irregular amounts.
struct IrregularReader<'a> {
    rest: &'a [u8],
    random: &'a mut Random,
    largest: usize,
}

impl Read for IrregularReader<'_> {
    fn read(&mut self, room: &mut [u8]) -> io::Result<usize> {
        let most = self.rest.len().min(room.len()).min(self.largest);
        if most == 0 {
            return Ok(0);
        }
        let count = self.random.between(1, most);
        let (given, rest) = self.rest.split_at(count);
        room[..count].copy_from_slice(given);
        self.rest = rest;
        Ok(count)
    }
}

fn fast_output(input: &[u8], stream_limit: u64, random: &mut Random) -> Vec<u8> {
    let largest = random.pick(&[1, 3, 20, 100, 5000, 100_000]);
    let mut reader = IrregularReader {
        rest: input,
        random,
        largest,
    };
    let mut output = Vec::new();
    fast::receive(&mut reader, &mut output, stream_limit).expect("nothing fails in memory");
    output
}

/// Compares the two programs, and makes sure that the generated cases reach
/// every refusal and every layout.
fn plain_against_fast(seed: u64, count: u64) {
    let mut random = Random::new(5);
    let mut refused = [0; 10];
    let mut printed_by_identifier = [[0; 2]; 16];
    let mut lines = 0;
    let mut off_step = 0;
    for number in 0..count {
        let input = input_of_case(seed, number);
        let plain = output_for(&input, STREAM_LIMIT);
        let quick = fast_output(&input, STREAM_LIMIT, &mut random);
        assert!(plain == quick, "plain and fast differ at case {number}");
        match read_setup_line(split_input(&input).0) {
            Err(refusal) => refused[refusal as usize] += 1,
            Ok(setup) => {
                let line_count = plain.iter().filter(|&&byte| byte == b'\n').count();
                let identifier = IDENTIFIERS
                    .iter()
                    .position(|&identifier| u32::from(identifier) == setup.identifier)
                    .unwrap();
                printed_by_identifier[identifier][setup.termination as usize] += line_count;
                lines += line_count;
                off_step += plain.iter().filter(|&&byte| byte == b'?').count();
            }
        }
    }
    if count >= USUAL_COUNT {
        assert!(refused[1..].iter().all(|&times| times > 20), "{refused:?}");
        let mut printed = printed_by_identifier.iter().flatten();
        assert!(
            printed.all(|&times| times > 200),
            "{printed_by_identifier:?}"
        );
    }
    println!("{count} generated cases, plain and fast agree, {lines} lines");
    println!(
        "off step {off_step} times, refused by 1 to 9: {:?}",
        &refused[1..]
    );
}

/// The end of the stream's room, with a limit that is reached soon.
fn smaller_limits(seed: u64, count: u64) {
    let mut random = Random::new(9);
    for number in 0..count {
        let input = input_of_case(!seed, number);
        let stream_length = split_input(&input).1.len();
        let limit = match random.below(4) {
            0 => stream_length,
            1 => stream_length.saturating_sub(1),
            _ => random.between(0, stream_length),
        };
        let plain = output_for(&input, limit as u64);
        let quick = fast_output(&input, limit as u64, &mut random);
        assert!(
            plain == quick,
            "plain and fast differ at case {number}, limit {limit}"
        );
        let is_refused = plain.ends_with(b"refused 12\n");
        let good_setup = read_setup_line(split_input(&input).0).is_ok();
        assert_eq!(is_refused, good_setup && limit < stream_length);
    }
    println!("{count} generated cases with a smaller limit, plain and fast agree");
}
