//! Listed calls for 02, 2.5: sums of internal samples about 16 and about 65,535,
//! marks of doubtful totals, and sessions that the new clauses of refusal 10 turn
//! down.

use crate::call::Call;
use crate::datagram::{encode, Fields};
use crate::layout::{datagram_length, layout_of, IDENTIFIERS};
use crate::listed::{
    feeds_of_stream, fresh, moved, passed_over, pieces_of_stream, EXAMPLE, THREE_GROUPS,
};
use crate::session::{Axis, Doubt, Session};
use crate::setup::{Setup, INTEGRATED};
use crate::whole_piece::ROOM_FOR_LINES;
use crate::{GYRO, PIECE_LIMIT, STREAM_LIMIT};

/// Kept sums at which the next datagram reaches 16 or 65,535, or doesn't.
pub const EDGE_SUMS: [u32; 10] = [0, 1, 15, 16, 17, 65_278, 65_279, 65_280, 65_534, 65_535];

/// The shortest and the longest ways from one counter to the next.
pub const EDGE_SAMPLES: [u32; 3] = [1, 255, 256];

/// Overload of X, of Y and of Z alone.
pub const ONE_UNFIT: [u8; 3] = [0x11, 0x12, 0x14];

/// All of them.
pub fn calls() -> Vec<Call> {
    let parts = [
        feeds_about_16(),
        feeds_of_edge_sums(),
        feeds_with_one_axis_unfit(),
        feeds_of_marked_axes(),
        feeds_of_external_trigger(),
        feeds_of_first_datagrams(),
        feeds_of_units(),
        feeds_of_runs(),
        feeds_beside_other_groups(),
        refused_sessions(),
        whole_pieces(),
    ];
    parts.into_iter().flatten().collect()
}

/// A session between two datagrams, and the later of the two.
#[derive(Clone, Copy)]
struct Situation {
    setup: Setup,
    previous_counter: u8,
    /// What is kept of gyro X, Y and Z, which have begun.
    doubts: [Doubt; 3],
    /// The internal samples between the datagrams, 1 to 256.
    samples: u32,
    statuses: [u8; 3],
}

impl Situation {
    /// All fit, and of each axis a sum and no mark. Rates, identifiers and counters
    /// come in turn.
    fn of_sums(number: usize, sums: [u32; 3], samples: u32) -> Situation {
        Situation {
            setup: setup_in_turn(number),
            previous_counter: (250 + 23 * number) as u8,
            doubts: sums.map(|sum| Doubt { sum, marked: false }),
            samples,
            statuses: [0; 3],
        }
    }

    fn with_status(self, gyro_status: u8) -> Situation {
        Situation {
            statuses: [gyro_status, 0, 0],
            ..self
        }
    }

    fn session(&self) -> Session {
        let mut session = handed_out(self.setup, 3);
        session.previous_counter = self.previous_counter;
        session.axes[GYRO] = [0, 1, 2].map(begun_axis);
        session.doubts = self.doubts;
        session
    }

    fn call(&self) -> Call {
        let fields = Fields {
            counter: counter_after(self.previous_counter, self.samples),
            ..moved(4, self.statuses)
        };
        let piece = encode(&self.setup, &fields);
        Call::Feed(Box::new(self.session()), piece)
    }
}

/// A setup with an integrated gyro. Rates, identifiers, terminations and the other
/// groups' units come in turn.
fn setup_in_turn(number: usize) -> Setup {
    let identifier = u32::from(IDENTIFIERS[number % 16]);
    let layout = layout_of(identifier).expect("each of these is in the table");
    let unit_of = |group: usize| match group {
        GYRO => INTEGRATED,
        _ if layout.carries[group] => (number / 16 + group) as u32 % 4,
        _ => 0,
    };
    Setup {
        rate: [125, 250, 500, 1000, 2000][number % 5],
        identifier,
        termination: number as u32 / 2 % 2,
        units: [0, 1, 2].map(unit_of),
        shifts: [21, 0, 0],
    }
}

/// The counter so many internal samples, 1 to 256, behind another.
pub fn counter_after(counter: u8, samples: u32) -> u8 {
    counter.wrapping_add(samples as u8)
}

/// An axis that has begun, with another reading and total for X, Y and Z.
fn begun_axis(axis: usize) -> Axis {
    Axis {
        begun: true,
        last_fit_reading: 100 * axis as i32 - 100,
        total: 1_000_000 * axis as i64 - 999_999,
    }
}

/// A session in which no axis has begun, behind so many datagrams.
fn handed_out(setup: Setup, datagrams: u64) -> Session {
    let length = datagram_length(&setup).expect("a good setup") as u64;
    Session {
        datagrams,
        bytes_fed: length * datagrams,
        ..fresh(setup)
    }
}

// ----------------------------------------------------------- single datagrams

/// Each axis comes to 15, 16, 17 or 18 with the samples of a fit datagram, of which
/// it has 1, 8 or 15.
pub fn feeds_about_16() -> Vec<Call> {
    let feed_of_number = |number: usize| {
        let samples = [1, 8, 15][number / 4];
        let sums = [0, 1, 2].map(|axis| 15 + (number + axis) as u32 % 4 - samples);
        Situation::of_sums(number, sums, samples).call()
    };
    (0..12).map(feed_of_number).collect()
}

/// Each axis with each of the edge sums and each of the edge samples, all fit and
/// all unfit.
pub fn feeds_of_edge_sums() -> Vec<Call> {
    let feed_of_number = |number: usize| {
        let status = [0x00, 0x10][number % 2];
        let samples = EDGE_SAMPLES[number / 2 % 3];
        let situation = Situation::of_sums(number, edge_sums(number / 6), samples);
        situation.with_status(status).call()
    };
    (0..60).map(feed_of_number).collect()
}

/// An edge sum of each axis, those of the axes three places apart.
fn edge_sums(place: usize) -> [u32; 3] {
    [0, 1, 2].map(|axis| EDGE_SUMS[(place + 3 * axis) % 10])
}

/// One axis unfit beside two that are fit, with the edge sums.
pub fn feeds_with_one_axis_unfit() -> Vec<Call> {
    let feed_of_number = |number: usize| {
        let samples = EDGE_SAMPLES[number / 3 % 3];
        let situation = Situation::of_sums(number, edge_sums(number / 3), samples);
        situation.with_status(ONE_UNFIT[number % 3]).call()
    };
    (0..30).map(feed_of_number).collect()
}

/// Each set of axes marked before, with sums that don't pass 16, all fit and all
/// unfit.
pub fn feeds_of_marked_axes() -> Vec<Call> {
    let feed_of_number = |number: usize| {
        let mut situation = Situation::of_sums(number, [0, 1, 14], 2);
        for axis in 0..3 {
            situation.doubts[axis].marked = number / 2 >> axis & 1 == 1;
        }
        situation.with_status([0x00, 0x40][number % 2]).call()
    };
    (0..16).map(feed_of_number).collect()
}

/// Of a session that hands out its first datagram: fit, unfit, and fit but for one
/// axis, with a counter that is another than the kept one, and with the same. The
/// last one is of external trigger.
pub fn feeds_of_first_datagrams() -> Vec<Call> {
    let mut calls = Vec::new();
    let mut add = |setup: Setup, status: u8, previous_counter: u8, counter: u8| {
        let session = Session {
            previous_counter,
            ..passed_over(&fresh(setup), 5)
        };
        let fields = Fields {
            counter,
            ..moved(1, [status, 0, 0])
        };
        calls.push(Call::Feed(Box::new(session), encode(&setup, &fields)));
    };
    for (number, status) in [0x00, 0x40, 0x11, 0x12, 0x14].into_iter().enumerate() {
        add(setup_in_turn(number), status, 0, 17);
        add(setup_in_turn(number + 5), status, 200, 200);
    }
    add(EXTERNAL_TRIGGER, 0x00, 0, 0);
    calls
}

/// The statuses of the other groups say nothing of the gyro.
pub fn feeds_beside_other_groups() -> Vec<Call> {
    let all_statuses = [
        [0x00, 0x10, 0x40],
        [0x10, 0x00, 0x00],
        [0x12, 0x11, 0x14],
        [0x00, 0x80, 0x08],
    ];
    let call_of = |statuses: [u8; 3]| {
        let situation = Situation {
            setup: THREE_GROUPS,
            statuses,
            ..Situation::of_sums(0, [16, 9, 15], 1)
        };
        situation.call()
    };
    all_statuses.into_iter().map(call_of).collect()
}

// ----------------------------------------------------------------------- runs

/// The internal samples since the datagram before, and the gyro's status.
pub type Sent = (u32, u8);

/// The datagrams of a run. Their counters count the samples, from 0 on.
fn stream_of_run(setup: &Setup, run: &[Sent]) -> Vec<u8> {
    let mut counter = 0;
    let mut bytes = Vec::new();
    for (&(samples, status), place) in run.iter().zip(0..) {
        counter = counter_after(counter, samples);
        let fields = Fields {
            counter,
            ..moved(place, [status, 0, 0])
        };
        bytes.extend(encode(setup, &fields));
    }
    bytes
}

const EXTERNAL_TRIGGER: Setup = Setup { rate: 0, ..EXAMPLE };

/// External trigger: first, second and third fit datagrams, of all axes at once and
/// of each axis at another time; then sums that are kept between.
const TRIGGERED_RUNS: [&[Sent]; 3] = [
    &[(40, 0x00), (1, 0x00), (1, 0x00)],
    &[
        (7, 0x40),
        (1, 0x12),
        (2, 0x11),
        (3, 0x00),
        (4, 0x14),
        (5, 0x00),
    ],
    &[(9, 0x00), (255, 0x40), (256, 0x11), (1, 0x00)],
];

/// The runs of external trigger, a datagram in each call of feed.
pub fn feeds_of_external_trigger() -> Vec<Call> {
    let runs = TRIGGERED_RUNS.into_iter();
    runs.flat_map(|run| feeds_of_run(&EXTERNAL_TRIGGER, run))
        .collect()
}

/// A run from a fresh session on, a datagram in each call of feed.
fn feeds_of_run(setup: &Setup, run: &[Sent]) -> Vec<Call> {
    let (calls, _) = feeds_of_stream(fresh(*setup), &stream_of_run(setup, run));
    calls
}

/// Runs of fit and unfit datagrams, with the sums that fit ones behind the first come
/// to, their own samples included.
const RUNS: [&[Sent]; 8] = [
    // 16.
    &[(0, 0x00), (4, 0x10), (4, 0x40), (4, 0x08), (4, 0x00)],
    // 17, of which 12 are of unfit ones; the mark stays.
    &[
        (1, 0x00),
        (4, 0x10),
        (4, 0x40),
        (4, 0x08),
        (5, 0x00),
        (1, 0x00),
        (1, 0x80),
        (2, 0x00),
    ],
    // 17, of which 16 are of unfit ones.
    &[(2, 0x00), (8, 0x10), (8, 0x10), (1, 0x00)],
    // 18, of which 17 are of unfit ones.
    &[(3, 0x00), (8, 0x10), (9, 0x10), (1, 0x00)],
    // Many samples before the first fit datagram, then few.
    &[(4, 0x40), (100, 0x40), (20, 0x00), (1, 0x00)],
    // The same of Y, beside axes that have begun.
    &[(4, 0x12), (30, 0x12), (40, 0x00), (1, 0x00)],
    // 16, then 17, with no unfit one between.
    &[(5, 0x00), (16, 0x00), (17, 0x00)],
    // 17 of X, 16 of Y and 17 of Z, one behind the other.
    &[(6, 0x00), (10, 0x11), (7, 0x12), (9, 0x14), (8, 0x00)],
];

/// The runs, a datagram in each call of feed.
pub fn feeds_of_runs() -> Vec<Call> {
    let runs = RUNS.into_iter().enumerate();
    runs.flat_map(|(number, run)| feeds_of_run(&setup_in_turn(number), run))
        .collect()
}

/// Three datagrams, 17 samples apart and the second one unfit, in each unit of the
/// gyro. The other groups are integrated.
pub fn feeds_of_units() -> Vec<Call> {
    let run = [(1, 0x00), (17, 0x10), (17, 0x00)];
    let feeds_of_unit = |unit: u32| feeds_of_run(&of_gyro_unit(unit), &run);
    (0..4).flat_map(feeds_of_unit).collect()
}

// ------------------------------------------------------------------- refusals

/// Sessions that refusal 10 turns down by one of the clauses of 02, 2.5 alone, each
/// with a whole datagram; the last two with a piece that 11 or 12 would refuse.
pub fn refused_sessions() -> Vec<Call> {
    let mut calls = Vec::new();
    let mut add = |session: &Session| calls.push(next_datagram_for(session));
    sums_too_large().iter().for_each(&mut add);
    begun_too_early().iter().for_each(&mut add);
    doubts_of_idle_axes().iter().for_each(&mut add);
    let too_large = sums_too_large()[0];
    let long = vec![0; PIECE_LIMIT + 1];
    calls.push(Call::Feed(Box::new(too_large), long));
    let full = Session {
        passed_over: STREAM_LIMIT - too_large.bytes_fed,
        bytes_fed: STREAM_LIMIT,
        ..too_large
    };
    calls.push(Call::Feed(Box::new(full), vec![0]));
    calls
}

fn next_datagram_for(session: &Session) -> Call {
    let fields = Fields {
        counter: counter_after(session.previous_counter, 2),
        ..moved(3, [0; 3])
    };
    let piece = encode(&session.setup, &fields);
    Call::Feed(Box::new(*session), piece)
}

/// Sums above 65,535 of X, Y and Z, which have begun.
fn sums_too_large() -> Vec<Session> {
    let session_of = |number: usize| {
        let mut situation = Situation::of_sums(number, [3; 3], 1);
        situation.doubts[number % 3].sum = [65_536, u32::MAX][number / 3];
        situation.session()
    };
    (0..6).map(session_of).collect()
}

/// Each of the nine axes begun before the first datagram.
fn begun_too_early() -> Vec<Session> {
    let session_of = |place: usize| {
        let mut session = passed_over(&fresh(THREE_GROUPS), 7);
        session.axes[place / 3][place % 3] = Axis {
            total: 0,
            ..begun_axis(place % 3)
        };
        session
    };
    (0..9).map(session_of).collect()
}

/// A sum or a mark of X, Y and Z that haven't begun, behind the first datagram and
/// before it; and where the gyro has each unit that keeps no total.
fn doubts_of_idle_axes() -> Vec<Session> {
    let all_setups = [
        (EXAMPLE, 2),
        (EXAMPLE, 0),
        (of_gyro_unit(0), 2),
        (of_gyro_unit(1), 3),
        (of_gyro_unit(2), 2),
    ];
    let mut sessions = Vec::new();
    for (setup, datagrams) in all_setups {
        for axis in 0..3 {
            let mut with_sum = handed_out(setup, datagrams);
            with_sum.doubts[axis].sum = [1, 16, 65_535][axis];
            let mut with_mark = handed_out(setup, datagrams);
            with_mark.doubts[axis].marked = true;
            sessions.extend([with_sum, with_mark]);
        }
    }
    sessions
}

/// Three groups, the other two integrated.
fn of_gyro_unit(unit: u32) -> Setup {
    Setup {
        units: [unit, INTEGRATED, INTEGRATED],
        ..THREE_GROUPS
    }
}

// --------------------------------------------------------------- whole pieces

/// Whole pieces: the runs; unfit ones with one sample each; a run that is longer than
/// a piece and goes on at the stop of 65,535; one that reaches the stop from a kept
/// sum; a damaged datagram, a cut one and other bytes between; and sessions refused.
pub fn whole_pieces() -> Vec<Call> {
    let mut calls = Vec::new();
    for run in RUNS {
        calls.extend(pieces_of_stream(&EXAMPLE, &stream_of_run(&EXAMPLE, run)));
    }
    for run in TRIGGERED_RUNS {
        let bytes = stream_of_run(&EXTERNAL_TRIGGER, run);
        calls.extend(pieces_of_stream(&EXTERNAL_TRIGGER, &bytes));
    }
    for (unfit, samples) in [(15, 1), (16, 1), (300, 256)] {
        let run = run_of_unfit(unfit, samples);
        calls.extend(pieces_of_stream(&EXAMPLE, &stream_of_run(&EXAMPLE, &run)));
    }
    let nearly = Situation {
        setup: EXAMPLE,
        previous_counter: 0,
        ..Situation::of_sums(0, [65_022, 65_023, 65_024], 1)
    };
    let to_the_stop = stream_of_run(&EXAMPLE, &[(256, 0x40), (256, 0x40), (1, 0x12)]);
    calls.push(whole_piece(&nearly.session(), to_the_stop));
    calls.push(whole_piece(&fresh(EXAMPLE), among_other_bytes()));
    let refused = [
        sums_too_large()[0],
        begun_too_early()[8],
        doubts_of_idle_axes()[0],
        doubts_of_idle_axes()[1],
    ];
    for session in refused {
        let piece = stream_of_run(&session.setup, &[(1, 0x00)]);
        calls.push(whole_piece(&session, piece));
    }
    calls
}

fn whole_piece(session: &Session, piece: Vec<u8>) -> Call {
    Call::WholePiece(Box::new(*session), piece, ROOM_FOR_LINES, 0xEE)
}

/// A fit datagram, so many unfit ones with so many samples each, and a fit one with
/// one sample.
fn run_of_unfit(count: usize, samples: u32) -> Vec<Sent> {
    let mut run = vec![(1, 0x00)];
    run.extend(vec![(samples, 0x10); count]);
    run.push((1, 0x00));
    run
}

/// Four fit datagrams, 8 samples apart. The second is damaged, so that the third
/// comes 16 samples behind the first. Of a fifth, the front stands before the fourth.
fn among_other_bytes() -> Vec<u8> {
    let run = [(8, 0x00); 5];
    let mut bytes = stream_of_run(&EXAMPLE, &run);
    let length = datagram_length(&EXAMPLE).expect("a good setup");
    bytes[length + 4] ^= 0x10;
    let front = bytes[4 * length..5 * length - 1].to_vec();
    let between = [&[0x00, 0x90, 0x0A][..], &front].concat();
    bytes.splice(3 * length..3 * length, between);
    bytes.truncate(4 * length + 3 + front.len());
    bytes
}
