//! The assertions for 02, 2.5: the paper's numbers, the listed calls, the rule along
//! all calls, the new clauses of refusal 10, the shares of the generated calls, the
//! wrong versions, and what the paper wants to rely on.

use std::collections::HashMap;

use stim_reference::call::{answer_text, feed_text, record_of, session_text, Call};
use stim_reference::datagram::{encode, is_fit, Datagram, Fields};
use stim_reference::generate::good_setup;
use stim_reference::generate_call::{calls, feeds_of_reading_pairs, stored_calls};
use stim_reference::listed_sums::{self, EDGE_SAMPLES, EDGE_SUMS, ONE_UNFIT};
use stim_reference::random::Random;
use stim_reference::session::{
    feed, judge_session, keeps_totals, open_session, Answer, Axis, Doubt, Outcome, Session,
    MOST_SAMPLES, SURE_SAMPLES,
};
use stim_reference::setup::{Setup, INTEGRATED};
use stim_reference::whole_piece::lines_of;
use stim_reference::{ACCELEROMETER, GYRO, HIGHEST_READING, LOWEST_READING, PIECE_LIMIT};

use super::{example_datagram, EXAMPLE, USUAL_SEED};

pub fn check_all() {
    paper_numbers();
    written_form();
    about_16();
    edge_sums();
    one_axis_unfit();
    marked_axes();
    external_trigger();
    first_datagrams();
    units();
    runs();
    beside_other_groups();
    whole_pieces();
    refused_clauses();
    refused_sessions();
    generated_shares();
    let sources = sources();
    rule_along_calls(&sources);
    wrong_rules(&sources);
    wrong_refusals(&sources);
    full_rate();
    long_unfit_run();
    unmarked_totals();
}

/// 100 times the output steps that a gyro at 480 degrees a second turns in one of
/// 2,000 internal samples a second, with shift 21.
const MOST_IN_100_SAMPLES: i128 = 50_331_648;

fn paper_numbers() {
    // 16 samples are 3.84 degrees: 480 * 16 / 2000.
    assert_eq!(480 * 16 * 100, 384 * 2000);
    assert_eq!(MOST_IN_100_SAMPLES * 2000, 100 * 480 * (1 << 21));
    // Half the folding range is 4 degrees. Neighbours in demand 3 differ by less than
    // 2^23 - 1 steps: in 16 samples they do, in 17 they may pass all of the half.
    let half_range = 1_i128 << 23;
    assert_eq!(half_range, 4 << 21);
    assert!(16 * MOST_IN_100_SAMPLES < 100 * (half_range - 1));
    assert!(17 * MOST_IN_100_SAMPLES > 100 * (half_range - 1));
    assert!(17 * MOST_IN_100_SAMPLES > 100 * half_range);
    assert_eq!((SURE_SAMPLES, MOST_SAMPLES), (16, 65_535));
}

// --------------------------------------------------------------- listed calls

/// What an answer says of gyro X, Y and Z: the sums that the session keeps, and the
/// letters of the axes that are marked, in the session and, where a datagram is
/// handed out, beside its totals.
type Told = ([u32; 3], String);

const NONE: &str = "---";
const ALL: &str = "XYZ";

fn letters_of(marks: [bool; 3]) -> String {
    let letters = ["X", "Y", "Z"].into_iter().zip(marks);
    letters
        .map(|(letter, mark)| if mark { letter } else { "-" })
        .collect()
}

/// What stands in the text of an answer: behind the nine axes of its session, and at
/// the end of its datagram.
fn told_by(call: &Call) -> Told {
    let text = answer_text(call);
    let words_of = |kind: &str| -> Vec<&str> {
        let line = text.lines().find(|line| line.starts_with(kind));
        line.map_or(Vec::new(), |line| line.split(' ').collect())
    };
    let words = words_of("session ");
    assert_eq!(words.len(), 49);
    let sums = [43, 45, 47].map(|place: usize| words[place].parse().unwrap());
    let marks = [44, 46, 48].map(|place: usize| words[place] == "1");
    let words = words_of("datagram ");
    if text.starts_with("feed datagram ") {
        assert_eq!(words[81..], marks.map(|mark| if mark { "1" } else { "0" }));
    } else if text.starts_with("feed ") {
        assert_eq!(words[81..], ["0", "0", "0"]);
    }
    (sums, letters_of(marks))
}

/// Calls in a row and what each of them tells.
fn tells(calls: &[Call], expected: &[([u32; 3], &str)]) {
    assert_eq!(calls.len(), expected.len());
    for (call, (sums, letters)) in calls.iter().zip(expected) {
        assert_eq!(told_by(call), (*sums, letters.to_string()));
    }
}

/// A session behind three datagrams, whose gyro axes have begun with these sums and
/// marks.
fn session_of(doubts: [(u32, bool); 3]) -> Session {
    let mut session = open_session(&EXAMPLE).unwrap();
    session.datagrams = 3;
    session.bytes_fed = 3 * 18;
    session.axes[GYRO] = [Axis {
        begun: true,
        ..Axis::ZEROS
    }; 3];
    session.doubts = doubts.map(|(sum, marked)| Doubt { sum, marked });
    session
}

/// A session and an answer as they are written: three pairs, three marks.
fn written_form() {
    let session = session_of([(16, false), (65_535, true), (258, false)]);
    let call = Call::Feed(Box::new(session), Vec::new());
    let record = record_of(&call);
    assert_eq!(record.len(), 3 + 231 + 15);
    let written = [16, 0, 0, 0, 0, 255, 255, 0, 0, 1, 2, 1, 0, 0, 0];
    assert!(record.ends_with(&written));
    let text = answer_text(&call);
    assert!(text.contains(" 0 16 0 65535 1 258 0\ndatagram "), "{text}");
    assert!(text.ends_with(" 0 0 0\n"));
    let text = answer_text(&Call::Feed(Box::new(session), example_datagram(0, 1)));
    assert!(text.contains(" 0 0 1 0 1 0 1\ndatagram "), "{text}");
    assert!(text.ends_with(" 1 1 1\n"));
    assert_eq!(Datagram::ZEROS.doubtful, [false; 3]);
    assert_eq!(Session::ZEROS.doubts, [Doubt::NONE; 3]);
}

/// With its own samples a sum of 15 or 16 marks nothing, one of 17 or 18 does.
fn about_16() {
    // X comes to 15 in the first call, to 16 in the second and so on, Y and Z to one
    // and two more; behind 18 comes 15.
    let letters = ["--Z", "-YZ", "XY-", "X--"];
    let expected: Vec<_> = (0..12).map(|place| ([0; 3], letters[place % 4])).collect();
    tells(&listed_sums::feeds_about_16(), &expected);
}

/// By each edge sum, what 1, 255 and 256 more samples bring it to.
const EDGES_BY_HAND: [(u32, [u32; 3]); 10] = [
    (0, [1, 255, 256]),
    (1, [2, 256, 257]),
    (15, [16, 270, 271]),
    (16, [17, 271, 272]),
    (17, [18, 272, 273]),
    (65_278, [65_279, 65_533, 65_534]),
    (65_279, [65_280, 65_534, 65_535]),
    (65_280, [65_281, 65_535, 65_535]),
    (65_534, [65_535, 65_535, 65_535]),
    (65_535, [65_535, 65_535, 65_535]),
];

/// What an unmarked axis with an edge sum has behind a datagram.
fn edge_by_hand(sum: u32, samples: u32, fit: bool) -> (u32, bool) {
    let (_, sums) = EDGES_BY_HAND.iter().find(|edge| edge.0 == sum).unwrap();
    let place = EDGE_SAMPLES.iter().position(|&edge| edge == samples);
    match (sums[place.unwrap()], fit) {
        (grown, false) => (grown, false),
        (1 | 2 | 16, true) => (0, false),
        (_, true) => (0, true),
    }
}

/// The session of a call of feed, the fields of the datagram that it hands out, and
/// the answer.
fn handed_out_by(call: &Call) -> Option<(Session, Fields, Answer)> {
    let Call::Feed(session, piece) = call else {
        return None;
    };
    let answer = feed(session, piece);
    let is_datagram = answer.outcome == Outcome::Datagram;
    is_datagram.then_some((**session, answer.datagram.fields, answer))
}

/// Calls of feed with edge sums and edge samples. Returns which of them each axis has,
/// and with which status.
fn check_edges(calls: &[Call]) -> Vec<(usize, u32, u32, u8)> {
    let mut seen = Vec::new();
    for call in calls {
        let (before, fields, _) = handed_out_by(call).expect("each has a datagram");
        let samples = samples_by_paper(before.previous_counter, fields.counter);
        let status = fields.statuses[GYRO];
        let after = [0, 1, 2].map(|axis| {
            assert!(!before.doubts[axis].marked);
            let sum = before.doubts[axis].sum;
            seen.push((axis, sum, samples, status));
            edge_by_hand(sum, samples, is_fit(status, axis))
        });
        let sums = after.map(|(sum, _)| sum);
        let letters = letters_of(after.map(|(_, mark)| mark));
        assert_eq!(told_by(call), (sums, letters));
    }
    seen
}

/// Each axis has each edge sum with each of the edge samples, fit and unfit.
fn edge_sums() {
    let seen = check_edges(&listed_sums::feeds_of_edge_sums());
    for axis in 0..3 {
        for sum in EDGE_SUMS {
            for samples in EDGE_SAMPLES {
                for status in [0x00, 0x10] {
                    assert!(seen.contains(&(axis, sum, samples, status)));
                }
            }
        }
    }
    assert_eq!(seen.len(), 3 * 60);
}

/// X, Y and Z unfit alone, each with each edge sum.
fn one_axis_unfit() {
    let seen = check_edges(&listed_sums::feeds_with_one_axis_unfit());
    for sum in EDGE_SUMS {
        for (axis, status) in ONE_UNFIT.into_iter().enumerate() {
            let is_so =
                |seen: &(usize, u32, u32, u8)| (seen.0, seen.1, seen.3) == (axis, sum, status);
            assert!(seen.iter().any(is_so));
        }
    }
    assert_eq!(seen.len(), 3 * 30);
}

/// Marks stay, at fit datagrams with small sums and at unfit ones.
fn marked_axes() {
    let letters = ["---", "X--", "-Y-", "XY-", "--Z", "X-Z", "-YZ", "XYZ"];
    let expected: Vec<_> = letters
        .into_iter()
        .flat_map(|letters| [([0, 0, 0], letters), ([2, 3, 16], letters)])
        .collect();
    tells(&listed_sums::feeds_of_marked_axes(), &expected);
}

/// The second fit datagram marks, of each axis its own, whatever the sum.
fn external_trigger() {
    let expected = [
        ([0, 0, 0], NONE),
        ([0, 0, 0], ALL),
        ([0, 0, 0], ALL),
        // Unfit; first of X and Z; first of Y and second of Z; all have two.
        ([0, 0, 0], NONE),
        ([0, 0, 0], NONE),
        ([2, 0, 0], "--Z"),
        ([0, 0, 0], ALL),
        ([0, 0, 4], ALL),
        ([0, 0, 0], ALL),
        // Unfit ones mark nothing, but are counted.
        ([0, 0, 0], NONE),
        ([255, 255, 255], NONE),
        ([511, 0, 0], "-YZ"),
        ([0, 0, 0], ALL),
    ];
    tells(&listed_sums::feeds_of_external_trigger(), &expected);
}

/// The first datagram of a session leaves neither a sum nor a mark, whatever its
/// counter; the axes that are fit have begun.
fn first_datagrams() {
    let calls = listed_sums::feeds_of_first_datagrams();
    tells(&calls, &[([0; 3], NONE); 11]);
    for call in &calls {
        let (before, fields, answer) = handed_out_by(call).expect("each has a datagram");
        assert_eq!((before.datagrams, answer.session.datagrams), (0, 1));
        for (axis, kept) in answer.session.axes[GYRO].iter().enumerate() {
            assert_eq!(kept.begun, is_fit(fields.statuses[GYRO], axis));
        }
    }
}

/// Only an integrated gyro has sums and marks, whatever the other groups are.
fn units() {
    let mut expected = vec![([0; 3], NONE); 9];
    expected.extend([([0; 3], NONE), ([17; 3], NONE), ([0; 3], ALL)]);
    let calls = listed_sums::feeds_of_units();
    tells(&calls, &expected);
    for (call, number) in calls.iter().zip(0..) {
        let (before, _, answer) = handed_out_by(call).expect("each has a datagram");
        assert_eq!(before.setup.units, [number / 3, 3, 3]);
        let begun = answer.session.axes.map(|group| group[0].begun);
        assert_eq!(begun, [number / 3 == 3, true, true]);
    }
}

/// Sums along the runs of unfit datagrams, and marks at their ends.
const RUNS_BY_HAND: [([u32; 3], &str); 37] = [
    // 16.
    ([0, 0, 0], NONE),
    ([4, 4, 4], NONE),
    ([8, 8, 8], NONE),
    ([12, 12, 12], NONE),
    ([0, 0, 0], NONE),
    // 17.
    ([0, 0, 0], NONE),
    ([4, 4, 4], NONE),
    ([8, 8, 8], NONE),
    ([12, 12, 12], NONE),
    ([0, 0, 0], ALL),
    ([0, 0, 0], ALL),
    ([1, 1, 1], ALL),
    ([0, 0, 0], ALL),
    // 16 of unfit ones, and 1.
    ([0, 0, 0], NONE),
    ([8, 8, 8], NONE),
    ([16, 16, 16], NONE),
    ([0, 0, 0], ALL),
    // 17 of unfit ones, and 1.
    ([0, 0, 0], NONE),
    ([8, 8, 8], NONE),
    ([17, 17, 17], NONE),
    ([0, 0, 0], ALL),
    // Nothing is counted before the first fit datagram, and that marks nothing.
    ([0, 0, 0], NONE),
    ([0, 0, 0], NONE),
    ([0, 0, 0], NONE),
    ([0, 0, 0], NONE),
    ([0, 0, 0], NONE),
    ([0, 0, 0], "X-Z"),
    ([0, 0, 0], "X-Z"),
    ([0, 0, 0], "X-Z"),
    // 16, then 17, all fit.
    ([0, 0, 0], NONE),
    ([0, 0, 0], NONE),
    ([0, 0, 0], ALL),
    // X, Y and Z each for itself.
    ([0, 0, 0], NONE),
    ([10, 0, 0], NONE),
    ([0, 7, 0], "X--"),
    ([0, 0, 9], "X--"),
    ([0, 0, 0], "X-Z"),
];

fn runs() {
    tells(&listed_sums::feeds_of_runs(), &RUNS_BY_HAND);
}

/// From 16, 9 and 15 with 1 sample: by the gyro's status alone.
fn beside_other_groups() {
    let expected = [
        ([0, 0, 0], "X--"),
        ([17, 10, 16], NONE),
        ([0, 10, 0], "X--"),
        ([0, 0, 0], "X--"),
    ];
    tells(&listed_sums::feeds_beside_other_groups(), &expected);
}

/// The sessions behind the listed whole pieces.
const PIECES_BY_HAND: [([u32; 3], &str); 17] = [
    // The runs, and those of external trigger.
    ([0, 0, 0], NONE),
    ([0, 0, 0], ALL),
    ([0, 0, 0], ALL),
    ([0, 0, 0], ALL),
    ([0, 0, 0], NONE),
    ([0, 0, 0], "X-Z"),
    ([0, 0, 0], ALL),
    ([0, 0, 0], "X-Z"),
    ([0, 0, 0], ALL),
    ([0, 0, 0], ALL),
    ([0, 0, 0], ALL),
    // 15 and 16 unfit ones with a sample each.
    ([0, 0, 0], NONE),
    ([0, 0, 0], ALL),
    // 300 of them with 256 each: 226 and a part of the next are in the first piece.
    ([57_856, 57_856, 57_856], NONE),
    ([0, 0, 0], ALL),
    // From 65,022, 65,023 and 65,024 to the stop, Y unfit at last.
    ([0, 65_535, 0], "X-Z"),
    // The second datagram is damaged.
    ([0, 0, 0], NONE),
];

fn whole_pieces() {
    let calls = listed_sums::whole_pieces();
    let (taken, refused) = calls.split_at(PIECES_BY_HAND.len());
    tells(taken, &PIECES_BY_HAND);
    for call in taken {
        assert!(answer_text(call).starts_with("lines written "));
    }
    assert_eq!(refused.len(), 4);
    for call in refused {
        assert!(answer_text(call).starts_with("lines refused 10\n"));
    }
    // Three of the four are handed out.
    let among_others = answer_text(taken.last().expect("there are some"));
    assert!(among_others.contains("\n3,32,0,3,"), "{among_others}");
}

/// The new clauses of refusal 10, each broken alone, beside a session that passes.
fn refused_clauses() {
    let good = session_of([(65_535, true), (0, true), (17, false)]);
    assert!(!refuses(&good));
    let refused = |change: &dyn Fn(&mut Session)| {
        let mut session = good;
        change(&mut session);
        assert!(refuses(&session));
    };
    for axis in 0..3 {
        refused(&|session| session.doubts[axis].sum = 65_536);
        refused(&|session| session.doubts[axis].sum = u32::MAX);
        // Of an axis that hasn't begun, a sum and a mark.
        refused(&|session| {
            session.axes[GYRO][axis] = Axis::ZEROS;
            session.doubts[axis] = Doubt {
                sum: 1,
                marked: false,
            };
        });
        refused(&|session| {
            session.axes[GYRO][axis] = Axis::ZEROS;
            session.doubts[axis] = Doubt {
                sum: 0,
                marked: true,
            };
        });
    }
    refused(&|session| {
        session.datagrams = 0;
        session.passed_over = 3 * 18;
    });
    refused(&|session| {
        session.setup.units[GYRO] = 2;
        session.axes[GYRO] = [Axis::ZEROS; 3];
    });
}

/// The listed sessions that a new clause turns down: each answer is a refusal by 10
/// that changes nothing, also before 11 and 12.
fn refused_sessions() {
    let calls = listed_sums::refused_sessions();
    assert_eq!(calls.len(), 6 + 9 + 30 + 2);
    for call in &calls {
        let Call::Feed(session, piece) = call else {
            panic!("these are calls of feed");
        };
        let answer = feed(session, piece);
        assert_eq!(answer.outcome, Outcome::Refused(10));
        assert_eq!((answer.taken, answer.session), (0, **session));
        assert_eq!(answer.datagram, Datagram::ZEROS);
    }
}

// ----------------------------------------------------------------- the rule

/// d by the paper: the smallest number from 1 on that takes one counter to the other.
fn samples_by_paper(previous: u8, new: u8) -> u32 {
    let takes_there = |samples: &u32| (u32::from(previous) + samples) % 256 == u32::from(new);
    (1..=256).find(takes_there).expect("256 go round")
}

/// How sums and marks are made. [`PAPER`] is the right way, and each wrong version
/// has something else in one place.
#[derive(Clone, Copy)]
struct Rule {
    /// What a d of 0 is read as.
    equal_counters: u32,
    /// Datagrams are counted, not internal samples.
    counts_datagrams: bool,
    adds_own: bool,
    adds_unfit: bool,
    /// A sum above this marks.
    limit: u32,
    /// A sum stops here.
    stop: u32,
    /// A fit datagram makes the sum 0.
    clears_at_fit: bool,
    /// An unfit one does.
    clears_at_unfit: bool,
    /// A mark stays when a later sum is small.
    keeps_mark: bool,
    /// The fit datagram that marks under external trigger; 0 for none.
    external_marks_from: u32,
    /// An unfit datagram marks under external trigger.
    external_marks_unfit: bool,
    external_keeps_sums: bool,
    /// Sums are kept before an axis has begun.
    sums_before_begun: bool,
    /// The first fit datagram marks if it has more samples than the limit.
    first_fit_may_mark: bool,
    /// The session's first datagram leaves its d in the sum.
    first_adds: bool,
    /// Marks come back with unfit datagrams.
    marks_beside_unfit: bool,
    /// The marks that come back are those before the datagram.
    marks_late: bool,
    /// The axis whose sum, or whose mark in what comes back, each axis has.
    sum_of: [usize; 3],
    mark_of: [usize; 3],
    /// The group whose status says what is fit, and whose unit says what is kept.
    status_of: usize,
    unit_of: usize,
    /// Sums are kept in every unit.
    any_unit: bool,
    /// An axis is fit only if all three are.
    fit_together: bool,
}

const PAPER: Rule = Rule {
    equal_counters: 256,
    counts_datagrams: false,
    adds_own: true,
    adds_unfit: true,
    limit: 16,
    stop: 65_535,
    clears_at_fit: true,
    clears_at_unfit: false,
    keeps_mark: true,
    external_marks_from: 2,
    external_marks_unfit: false,
    external_keeps_sums: true,
    sums_before_begun: false,
    first_fit_may_mark: false,
    first_adds: false,
    marks_beside_unfit: true,
    marks_late: false,
    sum_of: [0, 1, 2],
    mark_of: [0, 1, 2],
    status_of: GYRO,
    unit_of: GYRO,
    any_unit: false,
    fit_together: false,
};

/// What is kept behind a datagram, and the marks that come back with it.
struct After {
    doubts: [Doubt; 3],
    marks: [bool; 3],
}

impl Rule {
    /// The datagram with these fields, handed out by this session.
    fn apply(&self, before: &Session, fields: &Fields) -> After {
        let is_kept = self.any_unit || before.setup.units[self.unit_of] == INTEGRATED;
        let fit = self.fit_axes(fields.statuses[self.status_of]);
        let doubts = [0, 1, 2].map(|axis| match is_kept {
            true => self.of_axis(before, fields.counter, axis, fit[axis]),
            false => before.doubts[axis],
        });
        let kept = match self.marks_late {
            true => before.doubts,
            false => doubts,
        };
        let comes_back = |axis: usize| kept[axis].marked && (self.marks_beside_unfit || fit[axis]);
        let marks = self.mark_of.map(comes_back);
        After { doubts, marks }
    }

    fn fit_axes(&self, status: u8) -> [bool; 3] {
        let fit = [0, 1, 2].map(|axis| is_fit(status, axis));
        match self.fit_together {
            true => [fit == [true; 3]; 3],
            false => fit,
        }
    }

    fn of_axis(&self, before: &Session, counter: u8, axis: usize, fit: bool) -> Doubt {
        let samples = self.samples(before, counter);
        let external = before.setup.rate == 0;
        let old = Doubt {
            sum: before.doubts[self.sum_of[axis]].sum,
            ..before.doubts[axis]
        };
        let integrated = before.setup.units[GYRO] == INTEGRATED;
        let has_begun = match integrated {
            true => before.axes[GYRO][axis].begun,
            false => before.datagrams > 0,
        };
        if !has_begun {
            return self.before_begun(before.datagrams == 0, external, samples, old, fit);
        }
        let adds = if fit { self.adds_own } else { self.adds_unfit };
        let grown = self.stop.min(old.sum + if adds { samples } else { 0 });
        let external_marks =
            external && self.external_marks_from > 0 && (fit || self.external_marks_unfit);
        let marks = external_marks || fit && grown > self.limit;
        let clears = match fit {
            true => self.clears_at_fit,
            false => self.clears_at_unfit,
        };
        let keeps_sum = !clears && (self.external_keeps_sums || !external);
        Doubt {
            sum: if keeps_sum { grown } else { 0 },
            marked: marks || old.marked && (self.keeps_mark || !fit),
        }
    }

    /// What an axis has that hadn't begun before the datagram.
    fn before_begun(
        &self,
        first: bool,
        external: bool,
        samples: u32,
        old: Doubt,
        fit: bool,
    ) -> Doubt {
        let sum = match (first, fit) {
            (true, _) if self.first_adds => samples,
            (false, false) if self.sums_before_begun => self.stop.min(old.sum + samples),
            _ => 0,
        };
        let too_many = self.first_fit_may_mark && !first && samples > self.limit;
        let external_marks = external && self.external_marks_from == 1;
        Doubt {
            sum,
            marked: fit && (too_many || external_marks),
        }
    }

    fn samples(&self, before: &Session, counter: u8) -> u32 {
        let samples = match samples_by_paper(before.previous_counter, counter) {
            256 => self.equal_counters,
            samples => samples,
        };
        let step = 2000_u32.checked_div(before.setup.rate).unwrap_or(1);
        match self.counts_datagrams {
            true => samples.div_ceil(step),
            false => samples,
        }
    }
}

/// A call that hands out datagrams.
struct Followed {
    /// The session before each of them, and its fields.
    datagrams: Vec<(Session, Fields)>,
    /// The session that comes back.
    behind: Session,
    /// All that a call of feed answers; none of a whole piece.
    answer: Option<Answer>,
}

impl Followed {
    /// None of a call that hands out no datagram or is refused.
    fn of(call: &Call) -> Option<Followed> {
        match call {
            Call::Feed(..) => {
                let (before, fields, answer) = handed_out_by(call)?;
                Some(Followed {
                    datagrams: vec![(before, fields)],
                    behind: answer.session,
                    answer: Some(answer),
                })
            }
            Call::WholePiece(session, piece, room, _) => {
                let (lines, behind) = lines_of(session, piece).ok()?;
                let is_handed_out = !lines.is_empty() && lines.len() <= *room;
                is_handed_out.then(|| Followed {
                    datagrams: datagrams_in(session, piece),
                    behind,
                    answer: None,
                })
            }
            _ => None,
        }
    }

    /// What comes back, as text, if sums and marks are made by a rule. They go on from
    /// datagram to datagram; beside them all is as it is.
    fn text_by(&self, rule: &Rule) -> String {
        let mut doubts = self.datagrams[0].0.doubts;
        let mut marks = [false; 3];
        for (before, fields) in &self.datagrams {
            let after = rule.apply(&Session { doubts, ..*before }, fields);
            (doubts, marks) = (after.doubts, after.marks);
        }
        let mut other = Followed {
            datagrams: Vec::new(),
            behind: Session {
                doubts,
                ..self.behind
            },
            answer: self.answer,
        };
        if let Some(answer) = &mut other.answer {
            answer.session = other.behind;
            answer.datagram.doubtful = marks;
        }
        other.text()
    }

    fn text(&self) -> String {
        match &self.answer {
            Some(answer) => feed_text(answer),
            None => session_text(&self.behind),
        }
    }
}

/// The session before each datagram of a piece, and its fields.
fn datagrams_in(session: &Session, piece: &[u8]) -> Vec<(Session, Fields)> {
    let mut session = *session;
    let mut rest = piece;
    let mut datagrams = Vec::new();
    loop {
        let answer = feed(&session, rest);
        if answer.outcome != Outcome::Datagram {
            return datagrams;
        }
        datagrams.push((session, answer.datagram.fields));
        session = answer.session;
        rest = &rest[answer.taken..];
    }
}

/// Calls from one source, and those of them that hand out datagrams.
struct Source {
    name: String,
    calls: Vec<Call>,
    followed: Vec<Followed>,
}

/// The calls by which wrong versions must be told apart.
fn sources() -> Vec<Source> {
    let mut all = vec![
        ("listed".to_string(), listed_sums::calls()),
        ("stored".to_string(), stored_calls()),
    ];
    for seed in 1..=3 {
        all.push((format!("seed {seed}"), calls(seed, 2000)));
    }
    let source_of = |(name, calls): (String, Vec<Call>)| Source {
        followed: calls.iter().filter_map(Followed::of).collect(),
        name,
        calls,
    };
    all.into_iter().map(source_of).collect()
}

/// The paper's rule, written once more, gives what the reference answers: along the
/// listed, the stored and generated calls.
fn rule_along_calls(sources: &[Source]) {
    let pairs: Vec<Call> = feeds_of_reading_pairs(1, 500).collect();
    let of_pairs = pairs.iter().filter_map(Followed::of).collect::<Vec<_>>();
    let of_sources = sources.iter().flat_map(|source| &source.followed);
    let mut compared = 0;
    for followed in of_sources.chain(&of_pairs) {
        assert_eq!(followed.text_by(&PAPER), followed.text());
        compared += 1;
    }
    assert!(compared > 3500, "{compared}");
}

// --------------------------------------------------------------- wrong versions

/// What a careless reading of 2.5 gives. The listed calls, the stored ones, and 2,000
/// generated ones of three seeds tell each from the right one. (A d that the session's
/// first datagram adds to the sums of the axes that have begun is no other rule: none
/// has begun.)
const WRONG_RULES: [(&str, fn(&mut Rule)); 31] = [
    ("own d left out", |rule| rule.adds_own = false),
    ("at least 16 marks", |rule| rule.limit = 15),
    ("only above 17 marks", |rule| rule.limit = 17),
    ("a later small sum takes the mark away", |rule| {
        rule.keeps_mark = false
    }),
    ("the sum doesn't stop", |rule| rule.stop = u32::MAX),
    ("the sum stops at 65,534", |rule| rule.stop = 65_534),
    ("the sum stops at 65,536", |rule| rule.stop = 65_536),
    ("the sum stops at 255", |rule| rule.stop = 255),
    ("the sum of the next axis", |rule| rule.sum_of = [1, 2, 0]),
    ("the sum of X for every axis", |rule| rule.sum_of = [0; 3]),
    ("a d of 0 is 0", |rule| rule.equal_counters = 0),
    ("a d of 0 is 255", |rule| rule.equal_counters = 255),
    ("the sum goes on at a fit datagram", |rule| {
        rule.clears_at_fit = false
    }),
    ("an unfit datagram makes the sum 0", |rule| {
        rule.clears_at_unfit = true
    }),
    ("unfit datagrams aren't counted", |rule| {
        rule.adds_unfit = false
    }),
    ("datagrams are counted", |rule| rule.counts_datagrams = true),
    ("external trigger never marks", |rule| {
        rule.external_marks_from = 0
    }),
    ("external trigger marks from the first", |rule| {
        rule.external_marks_from = 1
    }),
    ("external trigger marks at unfit ones", |rule| {
        rule.external_marks_unfit = true
    }),
    ("external trigger keeps no sums", |rule| {
        rule.external_keeps_sums = false
    }),
    ("the first datagram leaves its d", |rule| {
        rule.first_adds = true
    }),
    ("sums before the axis begins", |rule| {
        rule.sums_before_begun = true
    }),
    ("the first fit datagram may mark", |rule| {
        rule.first_fit_may_mark = true
    }),
    ("marks come back with fit ones only", |rule| {
        rule.marks_beside_unfit = false
    }),
    ("marks come back one datagram late", |rule| {
        rule.marks_late = true
    }),
    ("marks of X and Y swapped", |rule| rule.mark_of = [1, 0, 2]),
    ("the mark of Z for every axis", |rule| rule.mark_of = [2; 3]),
    ("the accelerometer's status", |rule| {
        rule.status_of = ACCELEROMETER
    }),
    ("the accelerometer's unit", |rule| {
        rule.unit_of = ACCELEROMETER
    }),
    ("sums in every unit", |rule| rule.any_unit = true),
    ("fit only if all three axes are", |rule| {
        rule.fit_together = true
    }),
];

fn wrong_rules(sources: &[Source]) {
    let mut fewest = usize::MAX;
    for source in sources {
        let right: Vec<String> = source.followed.iter().map(Followed::text).collect();
        for (name, change) in WRONG_RULES {
            let mut rule = PAPER;
            change(&mut rule);
            let texts = source
                .followed
                .iter()
                .map(|followed| followed.text_by(&rule));
            let times = texts
                .zip(&right)
                .filter(|(text, right)| text != *right)
                .count();
            assert!(times >= 3, "{}: {name} {times} times", source.name);
            if source.name == "stored" {
                fewest = fewest.min(times);
            }
        }
    }
    let wrong = WRONG_RULES.len();
    println!("{wrong} wrong rules of doubt told apart, by {fewest} stored calls or more");
}

/// Whether refusal 10 turns a session down.
type Refuses = fn(&Session) -> bool;

/// Refusals by 10 that leave a clause of 2.5 out, and such that go too far.
const WRONG_REFUSALS: [(&str, Refuses); 14] = [
    ("a sum above 65,535 passes", |session| {
        refuses_with(session, |_, doubt, is_idle| {
            if !is_idle {
                doubt.sum = doubt.sum.min(65_535);
            }
        })
    }),
    ("only a sum above 65,536 is refused", |session| {
        refuses_with(session, |_, doubt, is_idle| {
            if !is_idle && doubt.sum == 65_536 {
                doubt.sum = 0;
            }
        })
    }),
    ("a sum is cut to 16 bits", |session| {
        refuses_with(session, |_, doubt, _| doubt.sum %= 65_536)
    }),
    ("an axis begun too early passes", |session| {
        refuses_early_in(session, &[])
    }),
    ("begun too early is refused of the gyro only", |session| {
        refuses_early_in(session, &[GYRO])
    }),
    (
        "begun too early is refused of the accelerometer only",
        |session| refuses_early_in(session, &[ACCELEROMETER]),
    ),
    ("begun too early passes of the inclinometer", |session| {
        refuses_early_in(session, &[GYRO, ACCELEROMETER])
    }),
    ("a sum of an idle axis passes", |session| {
        refuses_with(session, |_, doubt, is_idle| {
            if is_idle && doubt.sum <= 65_535 {
                doubt.sum = 0;
            }
        })
    }),
    ("a mark of an idle axis passes", |session| {
        refuses_with(session, |_, doubt, is_idle| doubt.marked &= !is_idle)
    }),
    ("a sum where no total is kept passes", |session| {
        refuses_with(session, |setup, doubt, _| {
            if !keeps_totals(setup, GYRO) && doubt.sum <= 65_535 {
                doubt.sum = 0;
            }
        })
    }),
    ("a mark where no total is kept passes", |session| {
        refuses_with(session, |setup, doubt, _| {
            doubt.marked &= keeps_totals(setup, GYRO)
        })
    }),
    ("a sum of 65,535 is refused", |session| {
        refuses(session) || session.doubts.iter().any(|doubt| doubt.sum == 65_535)
    }),
    ("a mark is refused with a sum up to 16", |session| {
        let is_unlikely = |doubt: &Doubt| doubt.marked && doubt.sum <= 16;
        refuses(session) || session.doubts.iter().any(is_unlikely)
    }),
    ("a begun axis is refused with a counter of 0", |session| {
        let has_begun = session.axes.iter().flatten().any(|axis| axis.begun);
        refuses(session) || has_begun && session.previous_counter == 0
    }),
];

fn refuses(session: &Session) -> bool {
    judge_session(session).is_err()
}

/// Judges a session with other doubts. An axis is idle that hasn't begun or keeps no
/// total.
fn refuses_with(session: &Session, change: fn(&Setup, &mut Doubt, bool)) -> bool {
    let mut other = *session;
    for axis in 0..3 {
        let is_idle = !(session.axes[GYRO][axis].begun && keeps_totals(&session.setup, GYRO));
        change(&session.setup, &mut other.doubts[axis], is_idle);
    }
    refuses(&other)
}

/// Judges a session so that an axis begun before the first datagram is refused in
/// these groups only: in the others it is taken as not begun, if it is right otherwise.
fn refuses_early_in(session: &Session, groups: &[usize]) -> bool {
    let mut other = *session;
    for group in (0..3).filter(|group| !groups.contains(group)) {
        for axis in 0..3 {
            let kept = &mut other.axes[group][axis];
            let is_reading = (LOWEST_READING..=HIGHEST_READING).contains(&kept.last_fit_reading);
            let is_right = keeps_totals(&session.setup, group) && kept.total == 0 && is_reading;
            if session.datagrams > 0 || !kept.begun || !is_right {
                continue;
            }
            *kept = Axis::ZEROS;
            if group == GYRO && other.doubts[axis].sum <= 65_535 {
                other.doubts[axis] = Doubt::NONE;
            }
        }
    }
    refuses(&other)
}

/// How many calls have a session that is turned down in one way and not in the other.
fn times_judged_apart(wrong: Refuses, calls: &[Call]) -> usize {
    let is_other = |call: &&Call| match call {
        Call::Feed(session, _) | Call::WholePiece(session, ..) => {
            wrong(session) != refuses(session)
        }
        _ => false,
    };
    calls.iter().filter(is_other).count()
}

fn wrong_refusals(sources: &[Source]) {
    let mut fewest = usize::MAX;
    for source in sources {
        for (name, wrong) in WRONG_REFUSALS {
            let times = times_judged_apart(wrong, &source.calls);
            assert!(times >= 2, "{}: {name} {times} times", source.name);
            if source.name == "stored" {
                fewest = fewest.min(times);
            }
        }
    }
    let wrong = WRONG_REFUSALS.len();
    println!("{wrong} wrong refusals by 10 told apart, by {fewest} stored calls or more");
}

// ------------------------------------------------------------ generated calls

/// How often the situations of 2.5 come in generated calls, by their names.
type Times = HashMap<String, usize>;

/// Each situation has a fair share in 10,000 generated calls.
fn generated_shares() {
    let calls = calls(USUAL_SEED, 10_000);
    let mut times = Times::new();
    for (before, fields, _) in calls.iter().filter_map(handed_out_by) {
        for name in situations_of(&before, &fields) {
            *times.entry(name).or_default() += 1;
        }
    }
    let has = |name: String, least: usize| {
        let found = times.get(&name).copied().unwrap_or(0);
        assert!(found >= least, "{name}: {found} times");
    };
    for fit in ["fit", "unfit"] {
        for sum in EDGE_SUMS {
            for samples in EDGE_SAMPLES {
                has(format!("{sum} and {samples}, {fit}"), 5);
            }
        }
        has(format!("marked, {fit}"), 50);
        has(format!("first datagram, {fit}"), 50);
    }
    for place in 0..3 {
        has(format!("one unfit, {:x}", ONE_UNFIT[place]), 20);
        has(
            format!("external trigger, {}", ["first", "second", "third"][place]),
            30,
        );
        has(format!("gyro unit {place}"), 80);
    }
    for sum in 15..=18 {
        has(format!("fit with {sum}"), 80);
    }
    for sum in 16..=17 {
        has(format!("unfit with {sum}"), 30);
    }
    generated_sessions(&calls);
}

/// So has each clause of refusal 10, and whole pieces have sums and marks that change.
fn generated_sessions(calls: &[Call]) {
    for (name, wrong) in WRONG_REFUSALS {
        let found = times_judged_apart(wrong, calls);
        assert!(found >= 10, "{name}: {found} times");
    }
    let has_changed = |call: &&Call| match call {
        Call::WholePiece(session, piece, ..) => {
            lines_of(session, piece).is_ok_and(|(_, behind)| behind.doubts != session.doubts)
        }
        _ => false,
    };
    let pieces = calls.iter().filter(has_changed).count();
    assert!(pieces >= 100, "{pieces}");
}

/// The names of the situations that a datagram meets.
fn situations_of(before: &Session, fields: &Fields) -> Vec<String> {
    let status = fields.statuses[GYRO];
    if before.setup.units[GYRO] != INTEGRATED {
        return vec![format!("gyro unit {}", before.setup.units[GYRO])];
    }
    let mut names = Vec::new();
    let sums = before.doubts.map(|doubt| doubt.sum);
    let are_unlike = sums[0] != sums[1] && sums[1] != sums[2] && sums[2] != sums[0];
    if ONE_UNFIT.contains(&status) && are_unlike {
        names.push(format!("one unfit, {status:x}"));
    }
    for axis in 0..3 {
        let fit = if is_fit(status, axis) { "fit" } else { "unfit" };
        let samples = samples_by_paper(before.previous_counter, fields.counter);
        let has_begun = before.axes[GYRO][axis].begun;
        let doubt = before.doubts[axis];
        if before.datagrams == 0 {
            names.push(format!("first datagram, {fit}"));
        } else if before.setup.rate == 0 {
            let which = match (has_begun, doubt.marked) {
                (false, _) => "first",
                (true, false) => "second",
                (true, true) => "third",
            };
            let place = if fit == "fit" { which } else { fit };
            names.push(format!("external trigger, {place}"));
        } else if has_begun {
            names.push(format!("{} and {samples}, {fit}", doubt.sum));
            names.push(format!("{fit} with {}", doubt.sum + samples));
            if doubt.marked && doubt.sum + samples <= 16 {
                names.push(format!("marked, {fit}"));
            }
        }
    }
    names
}

// ---------------------------------------------------- what is to be relied on

/// How the true angle of an axis changes.
#[derive(Clone, Copy)]
enum Turning {
    /// As fast as may be, to one side or the other.
    Up,
    Down,
    /// The same, 40 samples to each side.
    BackAndForth,
    Any,
    Slow,
}

impl Turning {
    /// The change in one internal sample, in fine units, `most` of them at most.
    fn change(self, random: &mut Random, most: i128, sample: u64) -> i128 {
        let part = random.below(201) as i128 - 100;
        match self {
            Turning::Up => most,
            Turning::Down => -most,
            Turning::BackAndForth if sample / 40 % 2 == 0 => most,
            Turning::BackAndForth => -most,
            Turning::Any => (most * part / 100 + part).clamp(-most, most),
            Turning::Slow => part.clamp(-most, most),
        }
    }
}

/// What a stream is made from.
struct Plan {
    setup: Setup,
    /// D, the fine units to one output step.
    fine_units: i128,
    turnings: [Turning; 3],
    /// The true angles at the beginning.
    angles: [i128; 3],
    /// The internal samples from each datagram to the next, and the gyro's status.
    sent: Vec<(u32, u8)>,
    /// Other bytes stand between the datagrams.
    is_disturbed: bool,
}

/// A datagram of such a stream.
struct Sent {
    fields: Fields,
    /// The internal samples since the beginning.
    sample: u64,
    angles: [i128; 3],
}

/// What a run of a plan came to.
#[derive(Default)]
struct Found {
    /// Totals beside fit datagrams: unmarked ones, marked ones that are right all the
    /// same, and such that are not.
    unmarked: usize,
    marked: usize,
    slipped: usize,
}

/// The datagrams of a plan. Each carries the angles over D, rounded down and folded.
fn datagrams_of(plan: &Plan, random: &mut Random) -> Vec<Sent> {
    let most = MOST_IN_100_SAMPLES * plan.fine_units / 100;
    let mut angles = plan.angles;
    let mut sample = random.byte().into();
    let mut datagrams = Vec::new();
    for &(samples, status) in &plan.sent {
        for _ in 0..samples {
            sample += 1;
            for (angle, turning) in angles.iter_mut().zip(plan.turnings) {
                let change = turning.change(random, most, sample);
                assert!(100 * change.abs() <= MOST_IN_100_SAMPLES * plan.fine_units);
                *angle += change;
            }
        }
        let readings = angles.map(|angle| folded(angle.div_euclid(plan.fine_units)));
        let mut fields = Fields {
            counter: (sample % 256) as u8,
            latency: random.byte().into(),
            ..Fields::ZEROS
        };
        fields.readings[GYRO] = readings;
        fields.statuses[GYRO] = status;
        datagrams.push(Sent {
            fields,
            sample,
            angles,
        });
    }
    datagrams
}

/// A whole number brought into -8388608 .. 8388607 modulo 2^24.
fn folded(number: i128) -> i32 {
    let half_range = 1 << 23;
    ((number + half_range).rem_euclid(2 * half_range) - half_range) as i32
}

/// The stream of the datagrams, with damaged ones, cut ones and other bytes between.
fn stream_of(plan: &Plan, datagrams: &[Sent], random: &mut Random) -> Vec<u8> {
    let identifier = plan.setup.identifier as u8;
    let mut bytes = Vec::new();
    for sent in datagrams {
        let datagram = encode(&plan.setup, &sent.fields);
        if plan.is_disturbed {
            match random.below(12) {
                0 => bytes.extend([identifier, 0, identifier]),
                1 => bytes.extend(vec![!identifier; random.between(1, 90)]),
                2 => bytes.extend(&datagram[..random.between(1, datagram.len() - 1)]),
                3 => {
                    let mut damaged = datagram.clone();
                    damaged[random.below(datagram.len())] ^= 1 << random.below(8);
                    bytes.extend(damaged);
                }
                _ => {}
            }
        }
        bytes.extend(datagram);
    }
    bytes
}

/// What is handed out of a stream in pieces of any length. Those that are too long
/// are refused and left out.
fn handed_out(setup: &Setup, bytes: &[u8], random: &mut Random) -> Vec<Datagram> {
    let mut session = open_session(setup).unwrap();
    let mut datagrams = Vec::new();
    let mut rest = bytes;
    while !rest.is_empty() {
        if random.one_in(20) {
            let answer = feed(&session, &vec![setup.identifier as u8; PIECE_LIMIT + 1]);
            assert_eq!(answer.outcome, Outcome::Refused(11));
            session = answer.session;
        }
        let longest = random.pick(&[20, 100, 1000]).min(rest.len());
        let (mut piece, behind) = rest.split_at(random.between(0, longest));
        rest = behind;
        loop {
            let answer = feed(&session, piece);
            session = answer.session;
            piece = &piece[answer.taken..];
            match answer.outcome {
                Outcome::Datagram => datagrams.push(answer.datagram),
                Outcome::Waiting => break,
                Outcome::Refused(refusal) => panic!("refused by {refusal}"),
            }
        }
    }
    datagrams
}

/// Feeds what a plan gives and holds it to the paper.
fn follow(plan: &Plan, random: &mut Random) -> Found {
    let sent = datagrams_of(plan, random);
    let bytes = stream_of(plan, &sent, random);
    let datagrams = handed_out(&plan.setup, &bytes, random);
    let is_same = |(sent, datagram): (&Sent, &Datagram)| sent.fields == datagram.fields;
    assert_eq!(sent.len(), datagrams.len());
    assert!(sent.iter().zip(&datagrams).all(is_same));
    let mut found = Found::default();
    for axis in 0..3 {
        follow_axis(plan, axis, &sent, &datagrams, &mut found);
    }
    found
}

/// The mark of an axis is there from the first two neighbouring fit datagrams on that
/// have more than 16 samples between them, or are of external trigger; and without it
/// a total beside a fit datagram is less than one output step from the true change.
fn follow_axis(plan: &Plan, axis: usize, sent: &[Sent], datagrams: &[Datagram], found: &mut Found) {
    let mut first_angle = None;
    let mut last_sample = None;
    let mut is_marked = false;
    for (sent, datagram) in sent.iter().zip(datagrams) {
        let fit = is_fit(sent.fields.statuses[GYRO], axis);
        if fit {
            let is_far = |last: u64| sent.sample - last > 16 || plan.setup.rate == 0;
            is_marked |= last_sample.is_some_and(is_far);
            last_sample = Some(sent.sample);
        }
        assert_eq!(datagram.doubtful[axis], is_marked);
        if !fit {
            continue;
        }
        let total = datagram.totals[GYRO][axis];
        assert!(total.begun);
        let change = sent.angles[axis] - *first_angle.get_or_insert(sent.angles[axis]);
        let distance = (i128::from(total.steps) * plan.fine_units - change).abs();
        let is_right = distance < plan.fine_units;
        match (is_marked, is_right) {
            (false, true) => found.unmarked += 1,
            (false, false) => panic!("an unmarked total is {distance} from {change}"),
            (true, true) => found.marked += 1,
            (true, false) => found.slipped += 1,
        }
    }
}

const FINE_UNITS: [i128; 13] = [
    1,
    2,
    3,
    7,
    24,
    25,
    26,
    99,
    100,
    101,
    1_000_003,
    1 << 31,
    1 << 60,
];

/// Turning as fast as may be: 16 samples from one fit datagram to the next never mark
/// and never slip; with 17 each total from the second on has slipped and is marked.
fn full_rate() {
    let random = &mut Random::new(25);
    let mut follow_with = |fine_units: i128, turning: Turning, sent: &[(u32, u8)]| {
        let plan = Plan {
            setup: EXAMPLE,
            fine_units,
            turnings: [turning; 3],
            angles: [0, -fine_units / 2, 40_000_000 * fine_units],
            sent: sent.to_vec(),
            is_disturbed: false,
        };
        let found = follow(&plan, random);
        (found.unmarked, found.marked, found.slipped)
    };
    for fine_units in FINE_UNITS {
        for turning in [Turning::Up, Turning::Down] {
            let sixteen = follow_with(fine_units, turning, &[(16, 0); 50]);
            assert_eq!(sixteen, (3 * 50, 0, 0));
            let seventeen = follow_with(fine_units, turning, &[(17, 0); 50]);
            assert_eq!(seventeen, (3, 0, 3 * 49));
            // 8 and 8, then 8 and 9 samples, with one unfit between.
            let unfit = [(1, 0), (8, 0x10), (8, 0), (8, 0x10), (9, 0), (1, 0)];
            assert_eq!(follow_with(fine_units, turning, &unfit), (6, 0, 6));
        }
    }
}

/// More samples without a fit datagram than a sum can keep, with and without turning.
fn long_unfit_run() {
    let random = &mut Random::new(26);
    let mut sent = vec![(1, 0)];
    sent.extend(vec![(255, 0x40); 300]);
    sent.extend([(2, 0), (3, 0)]);
    for turning in [Turning::Up, Turning::Slow] {
        let plan = Plan {
            setup: EXAMPLE,
            fine_units: 1000,
            turnings: [turning; 3],
            angles: [0; 3],
            sent: sent.clone(),
            is_disturbed: false,
        };
        let found = follow(&plan, random);
        let turned = matches!(turning, Turning::Up);
        let expected = if turned { (3, 0, 6) } else { (3, 6, 0) };
        assert_eq!((found.unmarked, found.marked, found.slipped), expected);
    }
}

/// Any plans: all rates, setups, fine units, distances and statuses, with other bytes
/// between.
fn unmarked_totals() {
    let random = &mut Random::new(27);
    let mut all = Found::default();
    let mut by_rate = HashMap::new();
    for _ in 0..600 {
        let plan = any_plan(random);
        let found = follow(&plan, random);
        *by_rate.entry(plan.setup.rate).or_insert(0) += found.unmarked;
        all.unmarked += found.unmarked;
        all.marked += found.marked;
        all.slipped += found.slipped;
    }
    assert_eq!(by_rate.len(), 6);
    // Under external trigger only the first fit datagrams are without a mark.
    assert!(by_rate.values().all(|&unmarked| unmarked > 200));
    assert!(all.unmarked > 15_000, "{}", all.unmarked);
    assert!(all.marked > 5_000, "{}", all.marked);
    assert!(all.slipped > 5_000, "{}", all.slipped);
    println!(
        "{} unmarked totals are true, of the marked ones {} are and {} slipped",
        all.unmarked, all.marked, all.slipped
    );
}

fn any_plan(random: &mut Random) -> Plan {
    let mut setup = good_setup(random);
    setup.units[GYRO] = INTEGRATED;
    setup.shifts[GYRO] = 21;
    let fine_units = random.pick(&FINE_UNITS);
    let all_turnings = [
        Turning::Up,
        Turning::Down,
        Turning::BackAndForth,
        Turning::Any,
        Turning::Slow,
    ];
    Plan {
        setup,
        fine_units,
        turnings: [0; 3].map(|_| random.pick(&all_turnings)),
        angles: [0; 3].map(|_| i128::from(random.next() as i32) * fine_units / 3),
        sent: any_sent(random, setup.rate),
        is_disturbed: random.one_in(2),
    }
}

/// Distances from 1 to 255 samples, those of the rate with lost datagrams or others,
/// and statuses of which few or many are unfit.
fn any_sent(random: &mut Random, rate: u32) -> Vec<(u32, u8)> {
    let step = 2000_u32.checked_div(rate).unwrap_or(1);
    let manner = random.below(6);
    let unfit_share = random.pick(&[2, 10, 1000]);
    let any_distance = |random: &mut Random| match manner {
        0 | 1 => {
            let lost = random.pick(&[0, 0, 0, 0, 0, 0, 1, 2, 255]);
            step * (1 + random.between(0, lost) as u32).min(255 / step)
        }
        2 => random.between(1, 16) as u32,
        3 => random.between(1, 4) as u32,
        4 => random.pick(&[15, 16, 16, 16, 16, 16, 16, 16, 16, 16, 16, 16, 17]),
        _ => random.between(1, 255) as u32,
    };
    let any_status = |random: &mut Random| match random.one_in(unfit_share) {
        true => random.pick(&[0x10, 0x40, 0x80, 0x08, 0x11, 0x12, 0x14, 0x1B, 0x20, 0x07]),
        false => 0,
    };
    let count = random.between(2, 60);
    (0..count)
        .map(|_| (any_distance(random), any_status(random)))
        .collect()
}
