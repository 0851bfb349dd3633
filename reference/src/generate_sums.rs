//! Calls of feed and whole pieces for 02, 2.5, from a seed: sums of internal samples
//! about 16 and about 65,535, marks of doubtful totals, external trigger, first
//! datagrams, and sessions that the new clauses of refusal 10 turn down.

use crate::call::Call;
use crate::datagram::{encode, Fields};
use crate::generate::setup_of_case;
use crate::generate_call::{
    any_status, begun_axis, byte_sum, count_datagrams, fit_fields, whole_piece,
};
use crate::layout::layout_of;
use crate::listed_sums::{counter_after, Sent, EDGE_SAMPLES, EDGE_SUMS, ONE_UNFIT};
use crate::random::Random;
use crate::session::{feed, keeps_totals, open_session, Doubt, Session, MOST_SAMPLES};
use crate::setup::{Setup, INTEGRATED};
use crate::GYRO;

/// So many situations come in turn.
const SITUATIONS: u64 = 15;

/// One numbered case: mostly one call, for a run several in a row.
pub fn add_case(seed: u64, number: u64, calls: &mut Vec<Call>) {
    let random = &mut Random::for_case(seed.rotate_left(24), number);
    let setup = gyro_setup(random, number / SITUATIONS);
    match number % SITUATIONS {
        0 | 1 => calls.push(feed_about_16(random, &setup)),
        2..=4 => calls.push(feed_of_edge_sums(random, &setup)),
        5 => calls.push(feed_with_one_axis_unfit(random, &setup)),
        6 => calls.push(feed_of_marked_axes(random, &setup)),
        7 => calls.push(feed_of_external_trigger(random, &setup)),
        8 => calls.push(feed_of_first_datagram(random, &setup)),
        9 => calls.push(feed_of_unit(random, &setup)),
        10 => add_run(random, &setup, calls),
        11 => calls.push(piece_of_runs(random, &setup)),
        12 => calls.push(refused_call(random, &setup, 2 * (number / SITUATIONS))),
        13 => calls.push(refused_call(random, &setup, 2 * (number / SITUATIONS) + 1)),
        _ => calls.push(feed_of_anything(random, &setup)),
    }
}

/// A setup with an integrated gyro and without external trigger. Each 32 numbers in a
/// row have every identifier with each termination.
fn gyro_setup(random: &mut Random, number: u64) -> Setup {
    let mut setup = setup_of_case(random, number);
    setup.rate = random.pick(&[125, 250, 500, 1000, 2000]);
    setup.units[GYRO] = INTEGRATED;
    setup
}

/// A sum up to 65,535, the edges more often, with or without a mark.
pub fn any_doubt(random: &mut Random) -> Doubt {
    let edge = random.pick(&EDGE_SUMS);
    let few = random.below(20) as u32;
    let any = random.below(MOST_SAMPLES as usize + 1) as u32;
    Doubt {
        sum: random.pick(&[0, edge, edge, few, any]),
        marked: random.one_in(3),
    }
}

/// 1 to 256 internal samples, the edges and those about 16 more often.
fn any_samples(random: &mut Random) -> u32 {
    let edge = random.pick(&EDGE_SAMPLES);
    let few = random.between(1, 18) as u32;
    let any = random.between(1, 256) as u32;
    random.pick(&[edge, edge, few, few, any])
}

/// All fit, all unfit, or one axis unfit.
fn plain_status(random: &mut Random) -> u8 {
    let one_unfit = random.pick(&ONE_UNFIT);
    random.pick(&[0x00, 0x00, 0x10, 0x40, one_unfit, one_unfit])
}

// ------------------------------------------------------------------- sessions

/// What is kept of gyro X, Y and Z; an axis has begun if there is a doubt of it.
type Doubts = [Option<Doubt>; 3];

/// A session between two datagrams that holds no bytes and has room for one more
/// datagram.
fn session_with(random: &mut Random, setup: &Setup, doubts: Doubts) -> Session {
    let mut session = open_session(setup).expect("the setup is good");
    count_datagrams(random, &mut session);
    begin_axes(random, &mut session, doubts);
    session
}

/// The same, but with room for many more.
fn early_session_with(random: &mut Random, setup: &Setup, doubts: Doubts) -> Session {
    let mut session = open_session(setup).expect("the setup is good");
    session.datagrams = random.between(1, 1000) as u64;
    session.bytes_fed = byte_sum(&session);
    begin_axes(random, &mut session, doubts);
    session
}

/// The axes of the other groups have begun or not, where they keep totals.
fn begin_axes(random: &mut Random, session: &mut Session, doubts: Doubts) {
    let setup = session.setup;
    session.previous_counter = random.byte();
    for group in (0..3).filter(|&group| keeps_totals(&setup, group)) {
        for axis in 0..3 {
            let has_begun = match group {
                GYRO => doubts[axis].is_some(),
                _ => random.one_in(2),
            };
            if has_begun {
                session.axes[group][axis] = begun_axis(random, session.datagrams);
            }
        }
    }
    session.doubts = doubts.map(|doubt| doubt.unwrap_or(Doubt::NONE));
}

/// A session before its first datagram, with bytes passed over and any counter.
fn session_before_first(random: &mut Random, setup: &Setup) -> Session {
    let mut session = open_session(setup).expect("the setup is good");
    session.passed_over = random.pick(&[0, 0, 1, 300]);
    session.bytes_fed = session.passed_over;
    session.previous_counter = random.pick(&[0, 0, 1, 100, 255]);
    session
}

/// The next datagram, so many internal samples behind the session's counter. Beside
/// the gyro's status anything may stand in it.
fn next_fields(random: &mut Random, session: &Session, samples: u32, gyro_status: u8) -> Fields {
    let other_statuses = [any_status(random), any_status(random)];
    Fields {
        counter: counter_after(session.previous_counter, samples),
        statuses: [gyro_status, other_statuses[0], other_statuses[1]],
        ..fit_fields(random)
    }
}

/// A call of feed with the next datagram. Any bytes at its front are held before.
fn next_feed(random: &mut Random, session: Session, samples: u32, gyro_status: u8) -> Call {
    let fields = next_fields(random, &session, samples, gyro_status);
    let bytes = encode(&session.setup, &fields);
    let any = random.below(bytes.len());
    let held_count = random.pick(&[0, 0, 1, bytes.len() - 1, any]);
    let (front, piece) = bytes.split_at(held_count);
    let mut session = session;
    session.held[..held_count].copy_from_slice(front);
    session.held_count = held_count as u64;
    session.bytes_fed += session.held_count;
    Call::Feed(Box::new(session), piece.to_vec())
}

fn unmarked(sum: u32) -> Option<Doubt> {
    Some(Doubt { sum, marked: false })
}

// ----------------------------------------------------------- single datagrams

/// A fit datagram with which each axis comes to 15, 16, 17 or 18.
fn feed_about_16(random: &mut Random, setup: &Setup) -> Call {
    let samples = random.between(1, 15) as u32;
    let doubts = [0; 3].map(|_| unmarked(random.pick(&[15, 16, 17, 18]) - samples));
    let session = session_with(random, setup, doubts);
    let status = random.pick(&[0x00, 0x00, 0x20, 0x07]);
    next_feed(random, session, samples, status)
}

/// Edge sums and edge samples, all fit or all unfit.
fn feed_of_edge_sums(random: &mut Random, setup: &Setup) -> Call {
    let doubts = [0; 3].map(|_| unmarked(random.pick(&EDGE_SUMS)));
    let session = session_with(random, setup, doubts);
    let samples = random.pick(&EDGE_SAMPLES);
    let status = random.pick(&[0x00, 0x10]);
    next_feed(random, session, samples, status)
}

/// One axis unfit beside two that are fit, with other sums and marks of each.
fn feed_with_one_axis_unfit(random: &mut Random, setup: &Setup) -> Call {
    let doubts = [0; 3].map(|_| Some(any_doubt(random)));
    let session = session_with(random, setup, doubts);
    let samples = any_samples(random);
    let status = random.pick(&ONE_UNFIT);
    next_feed(random, session, samples, status)
}

/// Axes that are marked already, with sums that don't pass 16.
fn feed_of_marked_axes(random: &mut Random, setup: &Setup) -> Call {
    let samples = random.between(1, 4) as u32;
    let marks = random.between(1, 7);
    let doubts = [0, 1, 2].map(|axis| {
        Some(Doubt {
            sum: random.below(13) as u32,
            marked: marks >> axis & 1 == 1,
        })
    });
    let session = session_with(random, setup, doubts);
    let status = plain_status(random);
    next_feed(random, session, samples, status)
}

/// External trigger. Each axis has no fit datagram before this one, or one, or two,
/// and behind those unfit ones or none.
fn feed_of_external_trigger(random: &mut Random, setup: &Setup) -> Call {
    let setup = Setup { rate: 0, ..*setup };
    let doubts = [0; 3].map(|_| {
        let sum = random.pick(&[0, 0, 1, 16, 17, 65_535]);
        let behind_one = Doubt { sum, marked: false };
        let behind_two = Doubt { sum, marked: true };
        random.pick(&[None, Some(behind_one), Some(behind_one), Some(behind_two)])
    });
    let session = session_with(random, &setup, doubts);
    let few = random.between(1, 16) as u32;
    let any = any_samples(random);
    let samples = random.pick(&[few, any]);
    let status = plain_status(random);
    next_feed(random, session, samples, status)
}

/// The first datagram of a session, at any rate.
fn feed_of_first_datagram(random: &mut Random, setup: &Setup) -> Call {
    let rate = random.pick(&[setup.rate, setup.rate, 0]);
    let session = session_before_first(random, &Setup { rate, ..*setup });
    let samples = any_samples(random);
    let status = plain_status(random);
    next_feed(random, session, samples, status)
}

/// A gyro of another unit keeps no sums and no marks.
fn feed_of_unit(random: &mut Random, setup: &Setup) -> Call {
    let setup = of_other_unit(random, setup);
    let session = session_with(random, &setup, [None; 3]);
    let samples = any_samples(random);
    let status = plain_status(random);
    next_feed(random, session, samples, status)
}

fn of_other_unit(random: &mut Random, setup: &Setup) -> Setup {
    let mut setup = *setup;
    setup.units[GYRO] = random.below(3) as u32;
    setup
}

/// Any sums, marks, samples and statuses; axes that have begun or not.
fn feed_of_anything(random: &mut Random, setup: &Setup) -> Call {
    let doubts = [0; 3].map(|_| {
        let doubt = any_doubt(random);
        random.pick(&[None, Some(doubt), Some(doubt), Some(doubt)])
    });
    let session = session_with(random, setup, doubts);
    let samples = any_samples(random);
    let status = any_status(random);
    next_feed(random, session, samples, status)
}

// ----------------------------------------------------------------------- runs

/// A fit datagram; unfit ones that come to 16 or 17 by themselves, or to 15, 16, 17
/// or 18 with the samples of the fit one behind them; that one; and two more.
fn any_run(random: &mut Random) -> Vec<Sent> {
    let any_own = any_samples(random);
    let (unfit_sum, own) = match random.below(3) {
        0 => (random.pick(&[16, 17]), any_own),
        _ => {
            let own = random.between(1, 10) as u32;
            (random.pick(&[15, 16, 17, 18]) - own, own)
        }
    };
    // All unfit, or the same axis in each of them.
    let one_unfit = random.pick(&ONE_UNFIT);
    let status = random.pick(&[0x40, 0x10, 0x08, one_unfit, one_unfit]);
    let mut run = vec![(any_samples(random), 0x00)];
    let mut left = unfit_sum;
    while left > 0 {
        let samples = random.between(1, left as usize) as u32;
        run.push((samples, status));
        left -= samples;
    }
    run.push((own, 0x00));
    run.push((random.between(1, 18) as u32, plain_status(random)));
    run.push((1, 0x00));
    run
}

/// The datagrams of a run, from a session on, with any readings.
fn datagrams_of_run(random: &mut Random, session: &Session, run: &[Sent]) -> Vec<Vec<u8>> {
    let mut session = *session;
    let mut datagrams = Vec::new();
    for &(samples, status) in run {
        let fields = next_fields(random, &session, samples, status);
        session.previous_counter = fields.counter;
        datagrams.push(encode(&session.setup, &fields));
    }
    datagrams
}

/// Calls of feed in a row, with a datagram in each of them.
fn add_run(random: &mut Random, setup: &Setup, calls: &mut Vec<Call>) {
    let mut session = session_before_first(random, setup);
    let run = any_run(random);
    for piece in datagrams_of_run(random, &session, &run) {
        let answer = feed(&session, &piece);
        calls.push(Call::Feed(Box::new(session), piece));
        session = answer.session;
    }
}

/// Two runs in a whole piece, of a fresh session or of one with edge sums, or a run
/// of unfit datagrams about the stop of 65,535. Other bytes may stand between.
fn piece_of_runs(random: &mut Random, setup: &Setup) -> Call {
    let rate = random.pick(&[setup.rate, setup.rate, setup.rate, 0]);
    let setup = Setup { rate, ..*setup };
    let doubts = [0; 3].map(|_| Some(any_doubt(random)));
    let session = match random.below(3) {
        0 => session_before_first(random, &setup),
        _ => early_session_with(random, &setup, doubts),
    };
    let mut run = [any_run(random), any_run(random)].concat();
    if random.one_in(3) {
        let samples = random.pick(&EDGE_SAMPLES);
        run = vec![(samples, random.pick(&[0x40, 0x12])); random.between(1, 4)];
    }
    let mut piece = Vec::new();
    for datagram in datagrams_of_run(random, &session, &run) {
        if random.one_in(6) {
            piece.extend([0x00, setup.identifier as u8, 0x00]);
        }
        piece.extend(datagram);
    }
    whole_piece(random, session, piece)
}

// ------------------------------------------------------------------- refusals

/// A session that breaks one clause of 02, 2.5, with the next datagram.
fn refused_call(random: &mut Random, setup: &Setup, turn: u64) -> Call {
    let session = refused_session(random, setup, turn);
    let samples = any_samples(random);
    let status = plain_status(random);
    match (next_feed(random, session, samples, status), random.below(4)) {
        (Call::Feed(session, piece), 0) => whole_piece(random, *session, piece),
        (call, _) => call,
    }
}

/// Each clause in turn, broken alone; and the largest sums with marks, which pass.
fn refused_session(random: &mut Random, setup: &Setup, turn: u64) -> Session {
    let axis = random.below(3);
    let mut doubts = [0; 3].map(|_| Some(any_doubt(random)));
    match turn % 8 {
        0 => {
            let mut session = session_with(random, setup, doubts);
            let any = random.next() as u32 | 1 << 16;
            session.doubts[axis].sum = random.pick(&[65_536, 65_536, 65_537, u32::MAX, any]);
            session
        }
        1 | 7 => begun_too_early(random, setup),
        // An axis that hasn't begun has a sum or a mark.
        2 | 3 => {
            doubts[axis] = None;
            let mut session = session_with(random, setup, doubts);
            session.doubts[axis] = sum_or_mark(random, turn % 8 == 2);
            session
        }
        // So has one of a gyro that keeps no totals.
        4 | 5 => {
            let setup = of_other_unit(random, setup);
            let mut session = session_with(random, &setup, [None; 3]);
            session.doubts[axis] = sum_or_mark(random, turn % 8 == 4);
            session
        }
        _ => {
            let largest = Doubt {
                sum: MOST_SAMPLES,
                marked: true,
            };
            session_with(random, setup, [Some(largest); 3])
        }
    }
}

/// A sum without a mark, or a mark without a sum.
fn sum_or_mark(random: &mut Random, has_sum: bool) -> Doubt {
    let sum = random.pick(&[1, 16, 17, 65_535]);
    Doubt {
        sum: if has_sum { sum } else { 0 },
        marked: !has_sum,
    }
}

/// One axis, of any group that is carried, has begun before the first datagram.
fn begun_too_early(random: &mut Random, setup: &Setup) -> Session {
    let layout = layout_of(setup.identifier).expect("the setup is good");
    let groups: Vec<usize> = (0..3).filter(|&group| layout.carries[group]).collect();
    let group = random.pick(&groups);
    let mut setup = *setup;
    setup.units[group] = INTEGRATED;
    let mut session = session_before_first(random, &setup);
    session.axes[group][random.below(3)] = begun_axis(random, 0);
    session
}
