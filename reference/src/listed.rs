//! Listed calls: the cases of `cases.txt`, written by hand from 01, of
//! `line_cases.txt`, written by tools/cases.pl, and of `make_cases.txt`, from 02,
//! 2.1, with what each must answer; whole pieces at their edges; whole pieces in
//! which every status shows in the totals; calls of feed in which it shows in the
//! judgements; and calls of feed in which totals step between extreme readings.

use crate::call::{
    feed_text, line_text, made_text, opened_text, read_text, rehearsal_text, setup_text, Call,
};
use crate::datagram::{encode, Datagram, Fields, Gap};
use crate::layout::datagram_length;
use crate::line::Line;
use crate::make::{Values, VALUE_COUNT};
use crate::rehearsal::Fault;
use crate::session::{feed, Answer, Axis, Outcome, Session};
use crate::setup::Setup;
use crate::whole_piece::{lines_of, ROOM_FOR_LINES};
use crate::{Refusal, LOWEST_READING, PIECE_LIMIT, STREAM_LIMIT};

/// A line for each case; the head of the file says how they are written.
const CASES: &str = include_str!("cases.txt");

/// `write NUMBER SETUP ORDINAL COUNTER LATENCY MISSED READINGS STATUSES TOTALS
/// ROOM TEXT`: the number that refuses a text line in a buffer of ROOM bytes, or
/// 0 and the line without its end. A total is 1 or 0, for begun or not, and its
/// value.
const LINE_CASES: &str = include_str!("line_cases.txt");

/// Datagrams to write and rehearsal lines; the head of the file says how they
/// are written.
const MAKE_CASES: &str = include_str!("make_cases.txt");

/// The calls of the cases, each with what its answer must contain: all of it, or
/// one line of two for a setup line.
pub fn cases() -> Vec<(Call, String)> {
    let lines = CASES.lines().chain(LINE_CASES.lines());
    calls_of_cases(lines)
}

/// The same of the datagrams to write and the rehearsal lines.
pub fn make_cases() -> Vec<(Call, String)> {
    calls_of_cases(MAKE_CASES.lines())
}

fn calls_of_cases<'a>(lines: impl Iterator<Item = &'a str>) -> Vec<(Call, String)> {
    lines
        .filter(|line| !line.starts_with('#'))
        .flat_map(calls_of_case)
        .collect()
}

fn calls_of_case(case: &str) -> Vec<(Call, String)> {
    let words: Vec<&str> = case.split(' ').collect();
    // What stands behind so many words, spaces and all.
    let behind = |count: usize| case.splitn(count + 1, ' ').last().unwrap_or("");
    match words[0] {
        "line" => vec![line_case(behind(2).into(), number(words[1]))],
        "bytes" => vec![line_case(bytes_of(words[2]), number(words[1]))],
        "reads" => {
            let expected = setup_text(&setup_of(&words[1..10]));
            vec![(Call::SetupLine(behind(10).into()), expected)]
        }
        "setup" => vec![setup_case(setup_of(&words[2..11]), number(words[1]))],
        "open" => open_case(&words),
        "piece" => vec![piece_case(&words)],
        "write" => vec![write_case(&words, behind(46))],
        "made" => vec![made_case(&words)],
        "values" => {
            let values = values_of(&words[1..29]);
            vec![rehearsal_case(behind(29).into(), Ok(values))]
        }
        "too-long" => vec![rehearsal_case(behind(1).into(), Err(Fault::TooLong))],
        "other-count" => vec![rehearsal_case(behind(1).into(), Err(Fault::OtherCount))],
        "no-number" => vec![rehearsal_case(behind(1).into(), Err(Fault::NoNumber))],
        "other-count-bytes" => vec![rehearsal_case(bytes_of(words[1]), Err(Fault::OtherCount))],
        "no-number-bytes" => vec![rehearsal_case(bytes_of(words[1]), Err(Fault::NoNumber))],
        other => panic!("there is no case of the kind {other}"),
    }
}

/// A setup line that a number refuses; 0 if it is accepted.
fn line_case(line: Vec<u8>, refusal: Refusal) -> (Call, String) {
    let expected = match refusal {
        0 => "read accepted\n".to_string(),
        _ => read_text(&Err(refusal)),
    };
    (Call::SetupLine(line), expected)
}

fn setup_case(setup: Setup, refusal: Refusal) -> (Call, String) {
    let expected = match refusal {
        0 => opened_text(&Ok(()), &Ok(fresh(setup))),
        _ => opened_text(&Err(refusal), &Err(refusal)),
    };
    (Call::Setup(setup), expected)
}

fn open_case(words: &[&str]) -> Vec<(Call, String)> {
    let setup = setup_of(&words[4..13]);
    let opened = match number(words[1]) {
        0 => fresh(setup),
        _ => Session::ZEROS,
    };
    let length: u64 = number(words[3]);
    let after = Session {
        passed_over: length,
        bytes_fed: length,
        ..opened
    };
    vec![
        setup_case(setup, number(words[1])),
        feed_case(opened, vec![0; length as usize], number(words[2]), after),
    ]
}

fn piece_case(words: &[&str]) -> (Call, String) {
    let count = hexadecimal(words[14]);
    let mut session = Session {
        held: equal_bytes(count, number(words[15])),
        held_count: count,
        datagrams: hexadecimal(words[18]),
        passed_over: hexadecimal(words[19]),
        bytes_fed: hexadecimal(words[20]),
        previous_counter: number(words[21]),
        ..fresh(setup_of(&words[5..14]))
    };
    session.held[number::<usize>(words[16])] = number(words[17]);
    let axis: usize = number(words[22]);
    session.axes[axis / 3][axis % 3] = Axis {
        begun: words[23] == "1",
        last_fit_reading: number(words[24]),
        total: number(words[25]),
    };
    let count_after = hexadecimal(words[2]);
    let after = Session {
        held: equal_bytes(count_after, session.setup.identifier as u8),
        held_count: count_after,
        passed_over: hexadecimal(words[3]),
        bytes_fed: hexadecimal(words[4]),
        ..session
    };
    let piece = vec![number(words[27]); number(words[26])];
    feed_case(session, piece, number(words[1]), after)
}

/// A piece that a number refuses, or (0) that is taken whole and leaves a
/// session. No datagram is handed out.
fn feed_case(session: Session, piece: Vec<u8>, refusal: Refusal, after: Session) -> (Call, String) {
    let (outcome, taken, session_after) = match refusal {
        0 => (Outcome::Waiting, piece.len(), after),
        _ => (Outcome::Refused(refusal), 0, session),
    };
    let expected = feed_text(&Answer {
        outcome,
        taken,
        session: session_after,
        datagram: Datagram::ZEROS,
    });
    (Call::Feed(Box::new(session), piece), expected)
}

fn write_case(words: &[&str], text: &str) -> (Call, String) {
    let begun: [[u8; 3]; 3] = by_axis(&words[27..], 2);
    let line = Line {
        setup: setup_of(&words[2..11]),
        ordinal: number(words[11]),
        counter: number(words[12]),
        latency: number(words[13]),
        gap: match words[14] {
            "?" => Gap::OffStep,
            missed => Gap::Missed(number(missed)),
        },
        readings: by_axis(&words[15..], 1),
        statuses: [number(words[24]), number(words[25]), number(words[26])],
        totals: by_axis(&words[28..], 2),
        begun: begun.map(|group| group.map(|mark| mark == 1)),
    };
    let mut buffer = vec![0xEE; number(words[45])];
    let answer = match number(words[1]) {
        0 => {
            let written = format!("{text}\n");
            buffer[..written.len()].copy_from_slice(written.as_bytes());
            Ok(written.len())
        }
        refusal => Err(refusal),
    };
    let expected = line_text(&answer, &buffer);
    (Call::Line(Box::new(line), buffer.len(), 0xEE), expected)
}

fn made_case(words: &[&str]) -> (Call, String) {
    let setup = setup_of(&words[2..11]);
    let values = values_of(&words[11..39]);
    let mut buffer = vec![0xEE; number(words[39])];
    let answer = match number(words[1]) {
        0 => {
            let datagram = bytes_of(words[40]);
            buffer[..datagram.len()].copy_from_slice(&datagram);
            Ok(datagram.len())
        }
        refusal => Err(refusal),
    };
    let expected = made_text(&answer, &buffer);
    (
        Call::Make(setup, Box::new(values), buffer.len(), 0xEE),
        expected,
    )
}

fn rehearsal_case(line: Vec<u8>, read: Result<Values, Fault>) -> (Call, String) {
    (Call::RehearsalLine(line), rehearsal_text(&read))
}

fn values_of(words: &[&str]) -> Values {
    let list: [i32; VALUE_COUNT] = std::array::from_fn(|place| number(words[place]));
    Values::of_list(&list)
}

/// Nine numbers, so many words apart.
fn by_axis<T: std::str::FromStr>(words: &[&str], step: usize) -> [[T; 3]; 3] {
    std::array::from_fn(|group| {
        std::array::from_fn(|axis| number(words[step * (3 * group + axis)]))
    })
}

/// A session of a setup that holds nothing and was fed nothing.
pub fn fresh(setup: Setup) -> Session {
    Session {
        setup,
        ..Session::ZEROS
    }
}

/// So many equal bytes, zeros behind them.
fn equal_bytes<const SIZE: usize>(count: u64, byte: u8) -> [u8; SIZE] {
    std::array::from_fn(|place| if (place as u64) < count { byte } else { 0 })
}

fn number<T: std::str::FromStr>(word: &str) -> T {
    word.parse()
        .unwrap_or_else(|_| panic!("{word} is no number that fits here"))
}

fn hexadecimal(word: &str) -> u64 {
    u64::from_str_radix(word, 16).expect("a hexadecimal number")
}

fn bytes_of(digits: &str) -> Vec<u8> {
    let pairs = digits.as_bytes().chunks(2);
    pairs
        .map(|pair| hexadecimal(std::str::from_utf8(pair).expect("digits")) as u8)
        .collect()
}

fn setup_of(words: &[&str]) -> Setup {
    let values: Vec<u32> = words.iter().map(|word| number(word)).collect();
    Setup {
        rate: values[0],
        identifier: values[1],
        termination: values[2],
        units: [values[3], values[4], values[5]],
        shifts: [values[6], values[7], values[8]],
    }
}

// --------------------------------------------------------------- whole pieces

pub const EXAMPLE: Setup = Setup {
    rate: 1000,
    identifier: 0x90,
    termination: 0,
    units: [3, 0, 0],
    shifts: [21, 0, 0],
};

/// Everything carried, everything integrated, the longest datagrams.
const WIDEST: Setup = Setup {
    rate: 2000,
    identifier: 0xAF,
    termination: 1,
    units: [3; 3],
    shifts: [21, 22, 23],
};

/// Whole pieces: buffers about as long as their lines, each refusal and their
/// order, bytes held before and after, datagrams behind damaged ones and inside
/// them.
pub fn whole_pieces() -> Vec<Call> {
    let mut calls = Vec::new();
    let mut add = |session: &Session, piece: &[u8], room: usize, fill: u8| {
        calls.push(Call::WholePiece(
            Box::new(*session),
            piece.to_vec(),
            room,
            fill,
        ));
    };
    let example = fresh(EXAMPLE);
    let room = ROOM_FOR_LINES;
    // The paper's two datagrams.
    let first = turn(&EXAMPLE, 2, 8_388_600);
    let second = turn(&EXAMPLE, 4, -8_388_600);
    let two = [first.clone(), second.clone()].concat();
    let one_line = length_of_lines(&example, &first);
    let two_lines = length_of_lines(&example, &two);
    for room in [room, room - 1, room + 1, 36_000, 400, 1, 0] {
        add(&example, &two, room, 0xEE);
    }
    // Buffers about as long as the lines, and as the first of them.
    for exact in [one_line, two_lines] {
        for room in [exact - 1, exact, exact + 1] {
            add(&example, &two, room, 0xEE);
        }
    }
    // A buffer that is filled with what lines are made of.
    for fill in [0x00, 0x0A, 0x2C, 0x31, 0xFF] {
        add(&example, &two, room, fill);
    }
    // No bytes, of a fresh session and of one that holds some.
    let held = feed(&example, &first[..17]).session;
    add(&example, &[], room, 0xEE);
    add(&held, &[], room, 0xEE);
    add(&example, &[], 0, 0xEE);
    add(&held, &[], 0, 0xEE);
    // Held bytes that the piece completes, or doesn't, or shows to be none.
    add(&held, &first[17..], room, 0xEE);
    add(
        &held,
        &[first[17..].to_vec(), two.clone(), first[..5].to_vec()].concat(),
        room,
        0xEE,
    );
    add(&held, &two, room, 0xEE);
    for room in [one_line - 1, one_line, one_line + 1] {
        add(&held, &first[17..], room, 0xEE);
    }
    add(&held, &first[5..6], 0, 0xEE);
    let begun = feed(&example, &first[..1]).session;
    for end in [2, 17, 18, 19, 35, 36] {
        add(&begun, &two[1..end], room, 0xEE);
    }
    // A datagram among other bytes; one that begins inside a damaged one; one
    // whose first byte is the last of a damaged one.
    let mut damaged = first.clone();
    damaged[16] ^= 1;
    let inside = [
        &[0x90; 30][..],
        &first,
        &[0x00, 0x90, 0x91],
        &second,
        &[0x90],
    ]
    .concat();
    add(&example, &inside, room, 0xEE);
    add(&example, &[&damaged[..], &second].concat(), room, 0xEE);
    add(&example, &[&first[..9], &second[..]].concat(), room, 0xEE);
    add(
        &example,
        &[&first[..], &damaged, &second, &damaged[..17]].concat(),
        room,
        0xEE,
    );
    // Gaps, also from the counter of a session that was fed before: 0, some,
    // off step, external trigger; unfit before and after the first fit one.
    let counters = [10, 12, 12, 20, 23, 21, 255, 1];
    let gaps: Vec<u8> = counters
        .iter()
        .flat_map(|&counter| turn(&EXAMPLE, counter, 5))
        .collect();
    add(&example, &gaps, room, 0xEE);
    let went_on = Session {
        datagrams: 1,
        bytes_fed: 18,
        previous_counter: 254,
        ..example
    };
    add(&went_on, &gaps, room, 0xEE);
    let triggered = Setup { rate: 0, ..EXAMPLE };
    add(&fresh(triggered), &gaps, room, 0xEE);
    let statuses = [0x40, 0x80, 0x08, 0x00, 0x09, 0x12, 0x1C, 0x27, 0x00];
    let unfit: Vec<u8> = statuses
        .iter()
        .enumerate()
        .flat_map(|(place, &status)| {
            let mut fields = turned(2 * place as u8, 1000 * place as i32);
            fields.statuses = [status; 3];
            encode(&EXAMPLE, &fields)
        })
        .collect();
    add(&example, &unfit, room, 0xEE);
    // The widest lines, from the highest ordinals on.
    let length = datagram_length(&WIDEST).expect("a good setup") as u64;
    let mut far = Session {
        datagrams: STREAM_LIMIT / length - 70,
        previous_counter: 255,
        ..fresh(WIDEST)
    };
    far.bytes_fed = length * far.datagrams;
    let most = (far.datagrams as i64) << 23;
    far.axes = [[Axis {
        begun: true,
        last_fit_reading: 0,
        total: -most,
    }; 3]; 3];
    let wide: Vec<u8> = (0..63)
        .flat_map(|place| {
            let mut fields = Fields::ZEROS;
            fields.readings = [[if place % 2 == 0 { LOWEST_READING } else { 0 }; 3]; 3];
            fields.statuses = [0x27; 3];
            fields.counter = 200_u8.wrapping_add(2 * place);
            fields.latency = 65_535;
            encode(&WIDEST, &fields)
        })
        .collect();
    let widest = length_of_lines(&far, &wide);
    for room in [room, widest - 1, widest, widest + 1] {
        add(&far, &wide, room, 0xEE);
    }
    // As many datagrams as 4,096 bytes and the held ones complete.
    let many: Vec<u8> = (0..=228_u8)
        .flat_map(|place| turn(&EXAMPLE, place.wrapping_mul(2), 7))
        .collect();
    let most = &many[17..17 + PIECE_LIMIT];
    let most_lines = length_of_lines(&held, most);
    for room in [room, most_lines - 1, most_lines] {
        add(&held, most, room, 0xEE);
    }
    // 10, whatever else is wrong; 11, 12 and 14 in this order.
    let long = vec![0; PIECE_LIMIT + 1];
    let full = passed_over(&example, STREAM_LIMIT);
    let wrong = passed_over(&example, STREAM_LIMIT + 1);
    for (session, piece, room) in [
        (&Session::ZEROS, &two[..], room),
        (&Session::ZEROS, &long[..], room - 1),
        (&wrong, &[][..], room),
        (&wrong, &long[..], 0),
        (&example, &long[..], room),
        (&full, &long[..], room - 1),
        (&example, &long[..PIECE_LIMIT], room),
        (&full, &two[..1], room),
        (&full, &two[..1], room - 1),
        (&full, &[][..], room),
        (&full, &[][..], 0),
        (&passed_over(&example, STREAM_LIMIT - 36), &two[..], room),
        (&passed_over(&example, STREAM_LIMIT - 36), &two[..], 0),
        (&passed_over(&example, STREAM_LIMIT - 35), &two[..], room),
        (&passed_over(&example, STREAM_LIMIT - 35), &two[..], 0),
    ] {
        add(session, piece, room, 0xEE);
    }
    // Held bytes that aren't zero beyond their count, and an axis that has not
    // begun and isn't zero.
    let mut unclean = held;
    unclean.held[17] = 1;
    add(&unclean, &first[17..], room, 0xEE);
    let mut unbegun = example;
    unbegun.axes[0][0].last_fit_reading = 1;
    add(&unbegun, &two, room, 0xEE);
    calls
}

/// How many bytes the lines of a piece have.
fn length_of_lines(session: &Session, piece: &[u8]) -> usize {
    let (lines, _) = lines_of(session, piece).expect("feeding doesn't refuse it");
    lines.len()
}

/// A session that passed over so many bytes.
pub fn passed_over(session: &Session, count: u64) -> Session {
    Session {
        passed_over: count,
        bytes_fed: count,
        ..*session
    }
}

/// The fields of a datagram with this counter and this gyro X.
fn turned(counter: u8, reading: i32) -> Fields {
    let mut fields = Fields::ZEROS;
    fields.readings[0][0] = reading;
    fields.counter = counter;
    fields
}

fn turn(setup: &Setup, counter: u8, reading: i32) -> Vec<u8> {
    encode(setup, &turned(counter, reading))
}

// ------------------------------------------------------------------- statuses

/// Every group carried and integrated, and nothing beside the groups.
pub const THREE_GROUPS: Setup = Setup {
    rate: 2000,
    identifier: 0x93,
    termination: 0,
    units: [3; 3],
    shifts: [21, 22, 23],
};

/// Whole pieces that show in the totals what is fit (01, Status; 02, 2.2): the
/// stream of every status, in pieces as long as may be, then the short one.
pub fn pieces_of_statuses() -> Vec<Call> {
    let mut calls = pieces_of_stream(&THREE_GROUPS, &every_status());
    calls.extend(pieces_of_stream(&EXAMPLE, &errors_between_fit_ones()));
    calls
}

/// A stream from a fresh session on, each piece with the session that the one
/// before it leaves.
pub fn pieces_of_stream(setup: &Setup, bytes: &[u8]) -> Vec<Call> {
    let mut calls = Vec::new();
    let mut session = fresh(*setup);
    for piece in bytes.chunks(PIECE_LIMIT) {
        let given = Box::new(session);
        let bytes = piece.to_vec();
        calls.push(Call::WholePiece(given, bytes, ROOM_FOR_LINES, 0xEE));
        (_, session) = lines_of(&session, piece).expect("feeding doesn't refuse it");
    }
    calls
}

/// A datagram in which all is fit, then 256 more: each group has every status
/// once, the gyro from 0 on, the accelerometer from 85, the inclinometer from 170.
fn every_status() -> Vec<u8> {
    let all_fit = moved(0, [0; 3]);
    let others = (0..=255_u8).map(|status| {
        let statuses = [0, 85, 170].map(|first| status.wrapping_add(first));
        moved(i32::from(status) + 1, statuses)
    });
    [all_fit]
        .into_iter()
        .chain(others)
        .flat_map(|fields| encode(&THREE_GROUPS, &fields))
        .collect()
}

/// The fields of a datagram whose readings moved from the one before by `place`
/// times 1 to 9, up and down in turn: a total moves if its axis is fit, else not.
pub fn moved(place: i32, statuses: [u8; 3]) -> Fields {
    let distance = place * (place + 1) / 2;
    let mut fields = Fields::ZEROS;
    let readings = fields.readings.iter_mut().flatten();
    for (reading, factor) in readings.zip([1, -2, 3, -4, 5, -6, 7, -8, 9]) {
        *reading = factor * distance;
    }
    fields.statuses = statuses;
    fields.counter = place as u8;
    fields
}

/// Bit 3, bit 4, both, and bit 3 beside bit 5, with no axis named; bit 3 with X
/// named; bit 3 beside bit 6. All is fit before and behind each of them. X goes
/// up by 1 from one datagram to the next, Y by 10, Z by 100.
fn errors_between_fit_ones() -> Vec<u8> {
    let errors = [0x08, 0x10, 0x18, 0x28, 0x09, 0x48];
    let statuses = errors.iter().flat_map(|&error| [0x00, error]).chain([0x00]);
    statuses
        .enumerate()
        .flat_map(|(place, status)| {
            let mut fields = Fields::ZEROS;
            fields.readings[0] = [1, 10, 100].map(|step| step * place as i32);
            fields.statuses[0] = status;
            fields.counter = 2 * place as u8;
            encode(&EXAMPLE, &fields)
        })
        .collect()
}

// ----------------------------------------------------------------- judgements

/// The stream of every status, a datagram in each call of feed, so that the
/// judgement of each axis comes back by every status (02, 2.3).
pub fn feeds_of_every_status() -> Vec<Call> {
    let (calls, _) = feeds_of_stream(fresh(THREE_GROUPS), &every_status());
    calls
}

/// Everything carried, integrated in the gyro group only.
const MIXED_UNITS: Setup = Setup {
    units: [3, 2, 0],
    ..WIDEST
};

/// A head that warms up, its inclinometer the shortest, and then is fit; each set
/// of two or more of bits 7, 6, 4 and 3, with no axis named, and some of them with
/// axes named; and one of these bits alone, or none.
const JUDGED_STATUSES: [[u8; 3]; 18] = [
    [0x40, 0x40, 0x40],
    [0x40, 0x40, 0x40],
    [0x40, 0x40, 0x00],
    [0x00, 0x00, 0x00],
    [0xC0, 0x80, 0x40],
    [0xC8, 0x48, 0x18],
    [0x19, 0x11, 0x0A],
    [0x1A, 0x1C, 0x1F],
    [0x10, 0x08, 0x20],
    [0x16, 0x0D, 0x07],
    [0x50, 0x90, 0x88],
    [0x58, 0x98, 0xD8],
    [0xD0, 0x30, 0x28],
    [0x4A, 0x94, 0xC1],
    [0x38, 0xD7, 0x59],
    [0x14, 0x00, 0x12],
    [0xFF, 0x3F, 0x27],
    [0x00, 0x00, 0x00],
];

/// Gyro only: what stands beside it is fit.
const GYRO_STATUSES: [u8; 6] = [0x40, 0x00, 0xC8, 0x12, 0x18, 0x10];

/// Calls of feed for the judgements of 02, 2.3: statuses of three groups, with
/// others of their temperatures and AUX; of the gyro only; of the gyro beside
/// the inclinometer, and beside the accelerometer; then calls that hand out no
/// datagram.
pub fn judged_feeds() -> Vec<Call> {
    let mut calls = Vec::new();
    let mut add = |setup: Setup, statuses: &[[u8; 3]]| {
        let (feeds, _) = feeds_of_stream(fresh(setup), &stream_of(&setup, statuses));
        calls.extend(feeds);
    };
    add(MIXED_UNITS, &JUDGED_STATUSES);
    add(EXAMPLE, &GYRO_STATUSES.map(|status| [status, 0, 0]));
    let of_two_groups = |identifier| Setup {
        identifier,
        ..EXAMPLE
    };
    add(of_two_groups(0x92), &[[0x80, 0x00, 0x1A]]);
    add(of_two_groups(0x91), &[[0x19, 0x40, 0x00]]);
    calls.extend(feeds_without_datagram());
    calls
}

/// All but the last byte of a datagram in which nothing is fit; behind that a
/// piece that 11 refuses, or the last byte; then no byte.
fn feeds_without_datagram() -> Vec<Call> {
    let bytes = stream_of(&MIXED_UNITS, &[[0xFF; 3]]);
    let (front, last) = bytes.split_at(bytes.len() - 1);
    let (mut calls, held) = feeds_of_stream(fresh(MIXED_UNITS), front);
    calls.push(Call::Feed(Box::new(held), vec![0xFF; PIECE_LIMIT + 1]));
    let (completing, after) = feeds_of_stream(held, last);
    calls.extend(completing);
    calls.push(Call::Feed(Box::new(after), Vec::new()));
    calls
}

/// Datagrams with these statuses of their groups. Temperatures and AUX have
/// others, where they are carried.
fn stream_of(setup: &Setup, statuses: &[[u8; 3]]) -> Vec<u8> {
    let places = statuses.iter().zip(0..);
    places
        .flat_map(|(&statuses, place)| {
            let mut fields = moved(place, statuses);
            fields.temperature_statuses = [0x81, 0x12, 0x4C];
            fields.auxiliary_status = 0x09;
            encode(setup, &fields)
        })
        .collect()
}

/// A stream in calls of feed, as many bytes of it as a datagram has in each, with
/// the session that the call before it leaves; and the session behind the last.
pub fn feeds_of_stream(first: Session, bytes: &[u8]) -> (Vec<Call>, Session) {
    let length = datagram_length(&first.setup).expect("a good setup");
    let mut calls = Vec::new();
    let mut session = first;
    for piece in bytes.chunks(length) {
        calls.push(Call::Feed(Box::new(session), piece.to_vec()));
        session = feed(&session, piece).session;
    }
    (calls, session)
}

// ---------------------------------------------------------------------- steps

/// The ends, the quarters and the middle of a reading's range, and what lies beside
/// them: between two of these a step is as far as may be, or about half the range.
const EXTREME_READINGS: [i32; 13] = [
    -8_388_608, -8_388_607, -8_388_600, -4_194_305, -4_194_304, -1, 0, 1, 4_194_303, 4_194_304,
    8_388_600, 8_388_606, 8_388_607,
];

/// The pair of an axis stands so many places behind that of the axis before it, in
/// the list of the pairs.
const PAIRS_APART: usize = 19;

/// Calls of feed for the step from one reading to the next (02, 2.4): each of the
/// nine axes has every pair of extreme readings once, a last and a new one.
pub fn feeds_of_extreme_pairs() -> Vec<Call> {
    let pairs = extreme_pairs();
    let feed_of_number = |number: usize| {
        let pair_of = |place: usize| pairs[(number + PAIRS_APART * place) % pairs.len()];
        feed_of_pairs(number, std::array::from_fn(pair_of))
    };
    (0..pairs.len()).map(feed_of_number).collect()
}

/// The 169 ordered pairs of the extreme readings.
fn extreme_pairs() -> Vec<(i32, i32)> {
    let pairs_from = |last: i32| EXTREME_READINGS.map(|new| (last, new));
    EXTREME_READINGS.into_iter().flat_map(pairs_from).collect()
}

/// A session whose nine axes keep the first reading of each pair, and as its piece
/// a whole datagram with the second ones, in which all is fit.
fn feed_of_pairs(number: usize, pairs: [(i32, i32); 9]) -> Call {
    let setup = integrated_setup(number);
    let length = datagram_length(&setup).expect("a good setup") as u64;
    // One, some, or as many as leave room for two more.
    let datagrams = [1, 2, 300, 1_000_000, STREAM_LIMIT / length - 2][number % 5];
    let mut session = passed_over(&fresh(setup), number as u64 % 18);
    session.datagrams = datagrams;
    session.bytes_fed += length * datagrams;
    session.previous_counter = 100;
    let mut fields = Fields::ZEROS;
    fields.counter = number as u8;
    for (place, (last, new)) in pairs.into_iter().enumerate() {
        session.axes[place / 3][place % 3] = Axis {
            begun: true,
            last_fit_reading: last,
            total: allowed_total(datagrams, 2 * number + place),
        };
        fields.readings[place / 3][place % 3] = new;
    }
    Call::Feed(Box::new(session), encode(&setup, &fields))
}

/// A setup with every group carried and integrated. Rates, lengths and shifts come
/// in turn, but the gyro's shift is the one that 001 has for it.
fn integrated_setup(number: usize) -> Setup {
    let shift = number as u32 % 32;
    Setup {
        rate: [0, 125, 250, 500, 1000, 2000][number % 6],
        identifier: [0x93, 0xA7, 0x9B, 0xAF][number % 4],
        termination: number as u32 / 4 % 2,
        units: [3; 3],
        shifts: [21, shift, 31 - shift],
    }
}

/// A total that so many datagrams allow, of either sign: at the bound, just inside
/// it, between it and 0, 1, or 0. Nine numbers in a row give each of them.
fn allowed_total(datagrams: u64, number: usize) -> i64 {
    let most = (datagrams as i64) << 23;
    let sizes = [most, most - 1, most / 3, 1];
    match number % 9 {
        8 => 0,
        place if place % 2 == 0 => sizes[place / 2],
        place => -sizes[place / 2],
    }
}
