//! 01, "The scan", "Totals" and refusals 10 to 12, with 02, 2.5: sessions, opened
//! and fed.

use crate::datagram::{
    decode, double_of, flagged_channels, folded_difference, gap_between, group_values,
    is_acceptable, is_fit, judgement_of, samples_between, Datagram, Fields, Gap, Total,
};
use crate::layout::{datagram_length, layout_of};
use crate::setup::{judge_setup, Setup, INTEGRATED};
use crate::{Refusal, GYRO, HIGHEST_READING, LOWEST_READING, PIECE_LIMIT, STREAM_LIMIT};

/// Held bytes number less than L, and L is 65 at most.
pub const MOST_HELD: usize = 64;

/// A gyro turns less than half the folding range in so many internal samples, and
/// in one more it may not (02, 2.5).
pub const SURE_SAMPLES: u32 = 16;

/// A sum of internal samples stops here (02, 2.5).
pub const MOST_SAMPLES: u32 = 65_535;

/// What a session keeps of one axis.
#[derive(Clone, Copy, Debug, PartialEq, Eq)]
pub struct Axis {
    /// Whether a fit datagram was seen.
    pub begun: bool,
    pub last_fit_reading: i32,
    pub total: i64,
}

impl Axis {
    pub const ZEROS: Axis = Axis {
        begun: false,
        last_fit_reading: 0,
        total: 0,
    };
}

/// What a session keeps of one gyro axis beside that (02, 2.5). An axis that hasn't
/// begun, or keeps no total, has none of it.
#[derive(Clone, Copy, Debug, PartialEq, Eq)]
pub struct Doubt {
    /// The internal samples since the axis's last fit datagram.
    pub sum: u32,
    /// Whether the total is doubtful, for the rest of the session.
    pub marked: bool,
}

impl Doubt {
    pub const NONE: Doubt = Doubt {
        sum: 0,
        marked: false,
    };
}

#[derive(Clone, Copy, Debug, PartialEq, Eq)]
pub struct Session {
    pub setup: Setup,
    /// The undecided bytes, from the front; zero beyond their count.
    pub held: [u8; MOST_HELD],
    pub held_count: u64,
    pub bytes_fed: u64,
    pub datagrams: u64,
    pub passed_over: u64,
    /// The counter of the datagram handed out last, fit or not.
    pub previous_counter: u8,
    pub axes: [[Axis; 3]; 3],
    /// Of gyro X, Y and Z.
    pub doubts: [Doubt; 3],
}

impl Session {
    /// What a refused opening gives back; feeding turns it down by 10.
    pub const ZEROS: Session = Session {
        setup: Setup::ZEROS,
        held: [0; MOST_HELD],
        held_count: 0,
        bytes_fed: 0,
        datagrams: 0,
        passed_over: 0,
        previous_counter: 0,
        axes: [[Axis::ZEROS; 3]; 3],
        doubts: [Doubt::NONE; 3],
    };
}

/// Which of the three happened to a piece.
#[derive(Clone, Copy, Debug, PartialEq, Eq)]
pub enum Outcome {
    /// A datagram is handed out; the rest of the piece is to be fed again.
    Datagram,
    /// The whole piece was taken.
    Waiting,
    Refused(Refusal),
}

/// The answer to a piece.
#[derive(Clone, Copy, Debug, PartialEq)]
pub struct Answer {
    pub outcome: Outcome,
    /// How many bytes of the piece were taken.
    pub taken: usize,
    /// The new session; after a refusal the session as given.
    pub session: Session,
    /// Zeros, unit 0, every axis fit and no mark where no datagram is handed out.
    pub datagram: Datagram,
}

/// Opens a fresh session: refusals 4 to 9. The paper's answer to a refused
/// opening carries [`Session::ZEROS`].
pub fn open_session(setup: &Setup) -> Result<Session, Refusal> {
    judge_setup(setup)?;
    Ok(Session {
        setup: *setup,
        ..Session::ZEROS
    })
}

/// Whether a total is kept for the axes of this group: it is carried and set
/// to integrated.
pub fn keeps_totals(setup: &Setup, group: usize) -> bool {
    let carried = layout_of(setup.identifier).is_some_and(|layout| layout.carries[group]);
    carried && setup.units[group] == INTEGRATED
}

/// Refusal 10, clause by clause. The sum of bytes is exact.
pub fn judge_session(session: &Session) -> Result<(), Refusal> {
    // The session's setup would be refused.
    if judge_setup(&session.setup).is_err() {
        return Err(10);
    }
    let length = datagram_length(&session.setup).ok_or(10)?;
    // Its held bytes break the scan's rule: they are none, or begin with the
    // identifier and number less than L.
    if session.held_count >= length as u64 {
        return Err(10);
    }
    if session.held_count > 0 && u32::from(session.held[0]) != session.setup.identifier {
        return Err(10);
    }
    // They aren't zero beyond their count.
    let beyond = &session.held[session.held_count as usize..];
    if beyond.iter().any(|&byte| byte != 0) {
        return Err(10);
    }
    // L * datagrams + passed over + held isn't bytes fed, or exceeds 2^34.
    let accounted = length as u128 * u128::from(session.datagrams)
        + u128::from(session.passed_over)
        + u128::from(session.held_count);
    if accounted != u128::from(session.bytes_fed) {
        return Err(10);
    }
    if accounted > u128::from(STREAM_LIMIT) {
        return Err(10);
    }
    for group in 0..3 {
        for axis in 0..3 {
            judge_axis(session, group, axis)?;
        }
    }
    Ok(())
}

/// The clauses of refusal 10 about what is kept of one axis.
fn judge_axis(session: &Session, group: usize, axis: usize) -> Result<(), Refusal> {
    let kept = session.axes[group][axis];
    // A total exceeds datagrams * 2^23 in size.
    let largest_total = u128::from(session.datagrams) << 23;
    if u128::from(kept.total.unsigned_abs()) > largest_total {
        return Err(10);
    }
    // A kept reading is outside 24 bits.
    if kept.last_fit_reading < LOWEST_READING || kept.last_fit_reading > HIGHEST_READING {
        return Err(10);
    }
    // An axis not begun, or keeping no total, isn't all zero.
    let may_be_other_than_zero = kept.begun && keeps_totals(&session.setup, group);
    if !may_be_other_than_zero && kept != Axis::ZEROS {
        return Err(10);
    }
    // 02, 2.5: an axis has begun while the next datagram counts as a first one.
    if kept.begun && session.datagrams == 0 {
        return Err(10);
    }
    if group == GYRO {
        let doubt = session.doubts[axis];
        // 02, 2.5: a sum is above 65,535.
        if doubt.sum > MOST_SAMPLES {
            return Err(10);
        }
        // An axis not begun, or keeping no total, has a sum or a mark.
        if !may_be_other_than_zero && doubt != Doubt::NONE {
            return Err(10);
        }
    }
    Ok(())
}

/// Feeds a piece to a session: refusals 10 to 12, then the scan. Takes bytes
/// until a datagram is handed out or the piece ends.
pub fn feed(session: &Session, piece: &[u8]) -> Answer {
    if let Err(refusal) = judge_feeding(session, piece) {
        return Answer {
            outcome: Outcome::Refused(refusal),
            taken: 0,
            session: *session,
            datagram: Datagram::ZEROS,
        };
    }
    let mut new_session = *session;
    for (position, &byte) in piece.iter().enumerate() {
        if let Some(bytes) = take_byte(&mut new_session, byte) {
            let datagram = hand_out(&mut new_session, &bytes);
            return Answer {
                outcome: Outcome::Datagram,
                taken: position + 1,
                session: new_session,
                datagram,
            };
        }
    }
    Answer {
        outcome: Outcome::Waiting,
        taken: piece.len(),
        session: new_session,
        datagram: Datagram::ZEROS,
    }
}

/// Refusals 10 to 12 for a session and a piece.
pub fn judge_feeding(session: &Session, piece: &[u8]) -> Result<(), Refusal> {
    judge_session(session)?;
    // 11. The piece is over 4,096 bytes.
    if piece.len() > PIECE_LIMIT {
        return Err(11);
    }
    // 12. Bytes fed plus the piece exceed 2^34.
    if u128::from(session.bytes_fed) + piece.len() as u128 > u128::from(STREAM_LIMIT) {
        return Err(12);
    }
    Ok(())
}

/// Takes one byte into the undecided bytes and decides as many of them as it
/// can. Returns the bytes of a datagram that this byte completes.
fn take_byte(session: &mut Session, byte: u8) -> Option<Vec<u8>> {
    let length = datagram_length(&session.setup).expect("the session was judged");
    let mut undecided = session.held[..session.held_count as usize].to_vec();
    undecided.push(byte);
    session.bytes_fed += 1;

    let mut found = None;
    while let Some(&front) = undecided.first() {
        if u32::from(front) != session.setup.identifier {
            // A byte other than the identifier is passed over.
            undecided.remove(0);
            session.passed_over += 1;
        } else if undecided.len() < length {
            // The scan waits for L bytes.
            break;
        } else if is_acceptable(&session.setup, &undecided[..length]) {
            found = Some(undecided.drain(..length).collect());
            break;
        } else {
            // It passes over one byte only.
            undecided.remove(0);
            session.passed_over += 1;
        }
    }

    session.held = [0; MOST_HELD];
    session.held[..undecided.len()].copy_from_slice(&undecided);
    session.held_count = undecided.len() as u64;
    found
}

/// Hands out an acceptable datagram: gap, totals and their marks by the session,
/// values by the setup, judgements by the statuses. That of a group not carried is
/// 0: fit.
fn hand_out(session: &mut Session, bytes: &[u8]) -> Datagram {
    let setup = session.setup;
    let fields = decode(&setup, bytes);
    let previous = session.previous_counter;
    let (gap, samples) = match session.datagrams {
        // The first datagram has none before it.
        0 => (Gap::Missed(0), 0),
        _ => (
            gap_between(setup.rate, previous, fields.counter),
            samples_between(previous, fields.counter),
        ),
    };
    session.datagrams += 1;
    session.previous_counter = fields.counter;
    // While it is still known which axes have begun before this datagram.
    add_samples(session, fields.statuses[GYRO], samples);

    let mut datagram = Datagram {
        fields,
        gap,
        doubtful: session.doubts.map(|doubt| doubt.marked),
        ..Datagram::ZEROS
    };
    for group in 0..3 {
        datagram.values[group] = group_values(
            setup.units[group],
            setup.shifts[group],
            fields.readings[group],
        );
        let status = fields.statuses[group];
        datagram.flagged_channels[group] = flagged_channels(status);
        datagram.judgements[group] = [0, 1, 2].map(|axis| judgement_of(status, axis));
        if keeps_totals(&setup, group) {
            datagram.totals[group] = move_totals(session, group, &fields);
        }
    }
    datagram
}

/// The totals of a group that keeps them, with this datagram's fit readings added.
fn move_totals(session: &mut Session, group: usize, fields: &Fields) -> [Total; 3] {
    let shift = session.setup.shifts[group];
    for axis in 0..3 {
        // Unfit datagrams alter nothing.
        if is_fit(fields.statuses[group], axis) {
            add_fit_reading(&mut session.axes[group][axis], fields.readings[group][axis]);
        }
    }
    session.axes[group].map(|kept| total_of(&kept, shift))
}

/// 02, 2.5: adds a datagram's internal samples to the sum of each gyro axis that has
/// begun before it. If the axis is fit, a sum above 16, or external trigger, marks
/// its total, and the sum goes to 0.
fn add_samples(session: &mut Session, gyro_status: u8, samples: u32) {
    let external_trigger = session.setup.rate == 0;
    for axis in 0..3 {
        // Only an axis that keeps a total begins, and its first fit datagram marks
        // nothing.
        if !session.axes[GYRO][axis].begun {
            continue;
        }
        let doubt = &mut session.doubts[axis];
        doubt.sum = MOST_SAMPLES.min(doubt.sum + samples);
        if is_fit(gyro_status, axis) {
            doubt.marked |= external_trigger || doubt.sum > SURE_SAMPLES;
            doubt.sum = 0;
        }
    }
}

/// 01, "Totals": the first fit datagram makes the total 0, each later fit one
/// adds the folded difference.
pub fn add_fit_reading(kept: &mut Axis, reading: i32) {
    if kept.begun {
        kept.total += folded_difference(reading, kept.last_fit_reading);
    } else {
        kept.begun = true;
        kept.total = 0;
    }
    kept.last_fit_reading = reading;
}

fn total_of(kept: &Axis, shift: u32) -> Total {
    if !kept.begun {
        return Total::NOT_BEGUN;
    }
    Total {
        begun: true,
        steps: kept.total,
        double: double_of(kept.total, shift),
    }
}
