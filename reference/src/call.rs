//! Single calls of the library as records, and what the reference answers to
//! each, as text: the form in which `probe` is given calls and prints answers.
//!
//! A record is a byte for its kind, two bytes for the length of what follows,
//! then that. Numbers have their least significant byte first, signed ones are
//! two's complement, a mark is a byte 1 or 0.
//!
//! * 1, a setup to judge and to open: the setup
//! * 2, a call of feed: the session, the piece
//! * 3, a text line: the setup; ordinal (8), counter (1), latency (2), off step
//!   mark, missed (8), nine readings (4 each), three statuses, nine totals of a
//!   begun mark and a value (8), the buffer's length (2), the byte that fills it
//! * 4, a setup line to read: its bytes
//! * 5, a whole piece at once: the session, the buffer's length (4), the byte
//!   that fills it, the piece
//! * 6, a datagram to write: the setup; the values (4 each), which are nine
//!   readings, three statuses, nine temperatures, three temperature statuses,
//!   AUX, AUX status, counter, latency; the buffer's length (2), the byte that
//!   fills it
//! * 7, a rehearsal line: its bytes
//! * 8, a value to print: number (8), shift (2), places (2), the buffer's length
//!   (2), the byte that fills it
//!
//! A setup is rate (2 bytes), identifier (1), termination (2), three units (2
//! each), three shifts (2 each). A session is the setup; 64 held bytes, their
//! count (8), datagrams (8), bytes passed over (8), bytes fed (8), previous
//! counter (1); nine axes of a begun mark, a last reading (4) and a total (8); of
//! gyro X, Y and Z a sum of internal samples (4) and a mark (02, 2.5).
//!
//! The text has these lines, numbers in decimal, doubles as the hexadecimal
//! number that their 64 bits are:
//!
//! * `record N setup J O`, J and O `accepted` or `refused NUMBER`, the answers
//!   of judging and of opening; then the session that came back
//! * `record N feed A TAKEN`, A `datagram`, `waiting` or `refused NUMBER`; then
//!   the session and the datagram that came back
//! * `record N line A BUFFER`, A `written LENGTH` or `refused NUMBER`, BUFFER
//!   the whole buffer afterwards in hexadecimal
//! * `record N read J`, J as above; then `setup` and the setup that came back
//! * `record N lines A`, A `written LENGTH` or `refused NUMBER`; then the session
//!   that came back, the bytes written, as they are, and `rest COUNT OTHERS`: how
//!   many of the bytes behind them are still as they were filled, and what
//!   follows these in hexadecimal
//! * `record N made A BUFFER`, A and BUFFER as for a text line
//! * `record N rehearsal A`, A `too long`, `other count`, `no number`, or `values`
//!   and the 28 values in the order of a datagram to write
//! * `record N value A BUFFER`, A and BUFFER as for a text line
//! * `session` and: setup, the 64 held bytes in hexadecimal, count, datagrams,
//!   passed over, fed, previous counter, nine axes (begun, last, total), three pairs
//!   for gyro X, Y and Z (sum, mark)
//! * `datagram` and: nine readings, three statuses, nine temperatures and their
//!   three statuses, AUX and its status, counter, latency, flagged channels of
//!   three groups, nine judgements, of each group its unit and three doubles,
//!   missed or `?`, nine totals (begun, steps), nine doubles of totals, the marks of
//!   the totals of gyro X, Y and Z
//!
//! A judgement is one of the words `fit`, `integrity`, `start-up`, `error` and
//! `overload` (02, 2.3). Where there are nine of something, it is X, Y, Z of the
//! gyro, then of the accelerometer, then of the inclinometer.

use crate::datagram::{Datagram, Gap, GroupValues, Judgement};
use crate::line::{write_line, Line};
use crate::make::{write_datagram, Values};
use crate::rehearsal::{read_rehearsal_line, Fault};
use crate::session::{feed, open_session, Answer, Outcome, Session};
use crate::setup::{judge_setup, read_setup_line, Setup};
use crate::value::{print_value, Value};
use crate::whole_piece::receive_lines;
use crate::Refusal;

/// One call, with what it is given.
pub enum Call {
    Setup(Setup),
    Feed(Box<Session>, Vec<u8>),
    Line(Box<Line>, usize, u8),
    SetupLine(Vec<u8>),
    WholePiece(Box<Session>, Vec<u8>, usize, u8),
    Make(Setup, Box<Values>, usize, u8),
    RehearsalLine(Vec<u8>),
    Value(Value, usize, u8),
}

// -------------------------------------------------------------------- records

pub fn record_of(call: &Call) -> Vec<u8> {
    let (kind, payload) = match call {
        Call::Setup(setup) => (1, setup_bytes(setup)),
        Call::Feed(session, piece) => (2, [session_bytes(session), piece.clone()].concat()),
        Call::Line(line, room, fill) => (3, line_bytes(line, *room, *fill)),
        Call::SetupLine(line) => (4, line.clone()),
        Call::WholePiece(session, piece, room, fill) => {
            (5, whole_piece_bytes(session, piece, *room, *fill))
        }
        Call::Make(setup, values, room, fill) => (6, make_bytes(setup, values, *room, *fill)),
        Call::RehearsalLine(line) => (7, line.clone()),
        Call::Value(value, room, fill) => (8, value_bytes(value, *room, *fill)),
    };
    let length = u16::try_from(payload.len()).expect("a record is short");
    let mut record = vec![kind];
    record.extend(length.to_le_bytes());
    record.extend(payload);
    record
}

fn setup_bytes(setup: &Setup) -> Vec<u8> {
    let narrow = |number: u32| {
        u16::try_from(number)
            .expect("a setup's numbers have 16 bits")
            .to_le_bytes()
    };
    let mut bytes = narrow(setup.rate).to_vec();
    bytes.push(u8::try_from(setup.identifier).expect("an identifier is a byte"));
    bytes.extend(narrow(setup.termination));
    for number in setup.units.into_iter().chain(setup.shifts) {
        bytes.extend(narrow(number));
    }
    bytes
}

fn session_bytes(session: &Session) -> Vec<u8> {
    let mut bytes = setup_bytes(&session.setup);
    bytes.extend(session.held);
    bytes.extend(session.held_count.to_le_bytes());
    bytes.extend(session.datagrams.to_le_bytes());
    bytes.extend(session.passed_over.to_le_bytes());
    bytes.extend(session.bytes_fed.to_le_bytes());
    bytes.push(session.previous_counter);
    for axis in session.axes.into_iter().flatten() {
        bytes.push(u8::from(axis.begun));
        bytes.extend(axis.last_fit_reading.to_le_bytes());
        bytes.extend(axis.total.to_le_bytes());
    }
    for doubt in session.doubts {
        bytes.extend(doubt.sum.to_le_bytes());
        bytes.push(u8::from(doubt.marked));
    }
    bytes
}

fn line_bytes(line: &Line, room: usize, fill: u8) -> Vec<u8> {
    let mut bytes = setup_bytes(&line.setup);
    bytes.extend(line.ordinal.to_le_bytes());
    bytes.push(line.counter);
    bytes.extend(line.latency.to_le_bytes());
    let (off_step, missed) = match line.gap {
        Gap::Missed(missed) => (0, missed),
        Gap::OffStep => (1, 0),
    };
    bytes.push(off_step);
    bytes.extend(missed.to_le_bytes());
    for reading in line.readings.into_iter().flatten() {
        bytes.extend(reading.to_le_bytes());
    }
    bytes.extend(line.statuses);
    for group in 0..3 {
        for axis in 0..3 {
            bytes.push(u8::from(line.begun[group][axis]));
            bytes.extend(line.totals[group][axis].to_le_bytes());
        }
    }
    bytes.extend(
        u16::try_from(room)
            .expect("a buffer is short")
            .to_le_bytes(),
    );
    bytes.push(fill);
    bytes
}

fn whole_piece_bytes(session: &Session, piece: &[u8], room: usize, fill: u8) -> Vec<u8> {
    let mut bytes = session_bytes(session);
    bytes.extend(
        u32::try_from(room)
            .expect("a buffer is short")
            .to_le_bytes(),
    );
    bytes.push(fill);
    bytes.extend(piece);
    bytes
}

fn make_bytes(setup: &Setup, values: &Values, room: usize, fill: u8) -> Vec<u8> {
    let mut bytes = setup_bytes(setup);
    bytes.extend(values.list().map(i32::to_le_bytes).concat());
    bytes.extend(
        u16::try_from(room)
            .expect("a buffer is short")
            .to_le_bytes(),
    );
    bytes.push(fill);
    bytes
}

fn value_bytes(value: &Value, room: usize, fill: u8) -> Vec<u8> {
    let mut bytes = value.number.to_le_bytes().to_vec();
    bytes.extend(value.shift.to_le_bytes());
    bytes.extend(value.places.to_le_bytes());
    bytes.extend(
        u16::try_from(room)
            .expect("a buffer is short")
            .to_le_bytes(),
    );
    bytes.push(fill);
    bytes
}

// -------------------------------------------------------------------- answers

/// What the reference answers, behind the record's number.
pub fn answer_text(call: &Call) -> String {
    match call {
        Call::Setup(setup) => opened_text(&judge_setup(setup), &open_session(setup)),
        Call::Feed(session, piece) => feed_text(&feed(session, piece)),
        Call::Line(line, room, fill) => {
            let mut buffer = vec![*fill; *room];
            line_text(&write_line(line, &mut buffer), &buffer)
        }
        Call::SetupLine(line) => read_text(&read_setup_line(line)),
        Call::WholePiece(session, piece, room, fill) => {
            let mut buffer = vec![*fill; *room];
            let received = receive_lines(session, piece, &mut buffer);
            let used = received.outcome.unwrap_or(0);
            let (lines, behind) = buffer.split_at(used);
            let count = behind.iter().take_while(|byte| *byte == fill).count();
            format!(
                "lines {}\n{}{}rest {count} {}\n",
                written_text(&received.outcome),
                session_text(&received.session),
                String::from_utf8_lossy(lines),
                hexadecimal(&behind[count..])
            )
        }
        Call::Make(setup, values, room, fill) => {
            let mut buffer = vec![*fill; *room];
            made_text(&write_datagram(setup, values, &mut buffer), &buffer)
        }
        Call::RehearsalLine(line) => rehearsal_text(&read_rehearsal_line(line)),
        Call::Value(value, room, fill) => {
            let mut buffer = vec![*fill; *room];
            let written = print_value(value.number, value.shift, value.places, &mut buffer);
            value_text(&written, &buffer)
        }
    }
}

/// The answer to a setup: of judging it, and of opening a session of it.
pub fn opened_text(judged: &Result<(), Refusal>, opened: &Result<Session, Refusal>) -> String {
    format!(
        "setup {} {}\n{}",
        ruling_text(judged),
        ruling_text(&opened.map(|_| ())),
        session_text(&opened.unwrap_or(Session::ZEROS))
    )
}

/// The answer to a setup line.
pub fn read_text(read: &Result<Setup, Refusal>) -> String {
    format!(
        "read {}\n{}",
        ruling_text(&read.map(|_| ())),
        setup_text(&read.unwrap_or(Setup::ZEROS))
    )
}

/// The setup that came back with it.
pub fn setup_text(setup: &Setup) -> String {
    format!("setup {}\n", setup_words(setup).join(" "))
}

/// The answer to a text line, with the buffer afterwards.
pub fn line_text(written: &Result<usize, Refusal>, buffer: &[u8]) -> String {
    format!("line {} {}\n", written_text(written), hexadecimal(buffer))
}

/// The answer to a datagram to write, with the buffer afterwards.
pub fn made_text(written: &Result<usize, Refusal>, buffer: &[u8]) -> String {
    format!("made {} {}\n", written_text(written), hexadecimal(buffer))
}

/// The answer to a rehearsal line.
pub fn rehearsal_text(read: &Result<Values, Fault>) -> String {
    let answer = match read {
        Ok(values) => {
            let mut words = vec!["values".to_string()];
            words.extend(values.list().iter().map(i32::to_string));
            words.join(" ")
        }
        Err(Fault::TooLong) => "too long".to_string(),
        Err(Fault::OtherCount) => "other count".to_string(),
        Err(Fault::NoNumber) => "no number".to_string(),
    };
    format!("rehearsal {answer}\n")
}

/// The answer to a value to print, with the buffer afterwards.
pub fn value_text(written: &Result<usize, Refusal>, buffer: &[u8]) -> String {
    format!("value {} {}\n", written_text(written), hexadecimal(buffer))
}

fn written_text(written: &Result<usize, Refusal>) -> String {
    match written {
        Ok(length) => format!("written {length}"),
        Err(refusal) => format!("refused {refusal}"),
    }
}

fn ruling_text(ruling: &Result<(), Refusal>) -> String {
    match ruling {
        Ok(()) => "accepted".to_string(),
        Err(refusal) => format!("refused {refusal}"),
    }
}

/// The answer to a call of feed.
pub fn feed_text(answer: &Answer) -> String {
    let outcome = match answer.outcome {
        Outcome::Datagram => "datagram".to_string(),
        Outcome::Waiting => "waiting".to_string(),
        Outcome::Refused(refusal) => format!("refused {refusal}"),
    };
    format!(
        "feed {outcome} {}\n{}{}",
        answer.taken,
        session_text(&answer.session),
        datagram_text(&answer.datagram)
    )
}

fn setup_words(setup: &Setup) -> Vec<String> {
    let mut numbers = vec![setup.rate, setup.identifier, setup.termination];
    numbers.extend(setup.units);
    numbers.extend(setup.shifts);
    numbers.iter().map(u32::to_string).collect()
}

/// The session that came back with an answer.
pub fn session_text(session: &Session) -> String {
    let mut words = vec!["session".to_string()];
    words.extend(setup_words(&session.setup));
    words.push(hexadecimal(&session.held));
    words.push(session.held_count.to_string());
    words.push(session.datagrams.to_string());
    words.push(session.passed_over.to_string());
    words.push(session.bytes_fed.to_string());
    words.push(session.previous_counter.to_string());
    for axis in session.axes.into_iter().flatten() {
        words.push(mark_text(axis.begun));
        words.push(axis.last_fit_reading.to_string());
        words.push(axis.total.to_string());
    }
    for doubt in session.doubts {
        words.push(doubt.sum.to_string());
        words.push(mark_text(doubt.marked));
    }
    words.join(" ") + "\n"
}

fn datagram_text(datagram: &Datagram) -> String {
    let fields = &datagram.fields;
    let mut words = vec!["datagram".to_string()];
    words.extend(fields.readings.iter().flatten().map(i32::to_string));
    words.extend(fields.statuses.iter().map(u8::to_string));
    words.extend(fields.temperatures.iter().flatten().map(i16::to_string));
    words.extend(fields.temperature_statuses.iter().map(u8::to_string));
    words.push(fields.auxiliary.to_string());
    words.push(fields.auxiliary_status.to_string());
    words.push(fields.counter.to_string());
    words.push(fields.latency.to_string());
    words.extend(datagram.flagged_channels.iter().map(u32::to_string));
    let judgements = datagram.judgements.into_iter().flatten();
    words.extend(judgements.map(|judgement| judgement_word(judgement).to_string()));
    for values in &datagram.values {
        let (unit, doubles) = match values {
            GroupValues::Instantaneous(doubles) => (0, doubles),
            GroupValues::Incremental(doubles) => (1, doubles),
            GroupValues::Average(doubles) => (2, doubles),
            GroupValues::Integrated(doubles) => (3, doubles),
        };
        words.push(unit.to_string());
        words.extend(doubles.map(bits_text));
    }
    words.push(match datagram.gap {
        Gap::Missed(missed) => missed.to_string(),
        Gap::OffStep => "?".to_string(),
    });
    for total in datagram.totals.iter().flatten() {
        words.push(mark_text(total.begun));
        words.push(total.steps.to_string());
    }
    for total in datagram.totals.iter().flatten() {
        words.push(bits_text(total.double));
    }
    words.extend(datagram.doubtful.map(mark_text));
    words.join(" ") + "\n"
}

fn judgement_word(judgement: Judgement) -> &'static str {
    match judgement {
        Judgement::Fit => "fit",
        Judgement::Integrity => "integrity",
        Judgement::StartUp => "start-up",
        Judgement::Error => "error",
        Judgement::Overload => "overload",
    }
}

fn mark_text(mark: bool) -> String {
    u8::from(mark).to_string()
}

fn bits_text(double: f64) -> String {
    format!("{:x}", double.to_bits())
}

fn hexadecimal(bytes: &[u8]) -> String {
    bytes.iter().map(|byte| format!("{byte:02x}")).collect()
}
