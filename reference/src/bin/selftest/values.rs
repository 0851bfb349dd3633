//! The assertions for 02, 2.6: texts by hand, the paper's sentences read back from the
//! printed texts, the refusals and the lent bytes, the listed calls, the shares of the
//! generated calls, and the wrong versions.

use std::collections::{HashMap, HashSet};

use stim_reference::call::{answer_text, record_of, value_text, Call};
use stim_reference::generate_call::{self, stored_calls, LONGEST_BUFFER};
use stim_reference::generate_value;
use stim_reference::listed_values;
use stim_reference::value::{print_value, Value};
use stim_reference::Refusal;

use super::USUAL_SEED;

pub fn check_all() {
    written_form();
    texts_by_hand();
    lent_bytes();
    refusals_by_hand();
    listed_values();
    every_places_and_shift();
    let sources = sources();
    rule_along_calls(&sources);
    wrong_printers(&sources);
    generated_shares();
    generated_places_and_shifts();
}

/// 2^53.
const LARGEST: i64 = 9_007_199_254_740_992;

// -------------------------------------------------------------------- by hand

/// The text of a value that isn't refused.
fn printed(number: i64, shift: u16, places: u16) -> String {
    let mut buffer = [0; 40];
    let length = print_value(number, shift, places, &mut buffer).expect("it isn't refused");
    String::from_utf8(buffer[..length].to_vec()).expect("a text is of digits")
}

/// A record and an answer as they are written.
fn written_form() {
    let value = Value {
        number: -2,
        shift: 14,
        places: 258,
    };
    let call = Call::Value(value, 300, 0xEE);
    let payload = [
        0xFE, 0xFF, 0xFF, 0xFF, 0xFF, 0xFF, 0xFF, 0xFF, 14, 0, 2, 1, 44, 1, 0xEE,
    ];
    assert_eq!(record_of(&call), [[8, 15, 0].as_slice(), &payload].concat());
    let answer_to = |number: i64, places: u16, room: usize| {
        let value = Value {
            number,
            shift: 1,
            places,
        };
        answer_text(&Call::Value(value, room, 0xEE))
    };
    assert_eq!(answer_to(-3, 1, 6), "value written 4 2d312e35eeee\n");
    assert_eq!(answer_to(-3, 1, 3), "value refused 19 eeeeee\n");
    assert_eq!(answer_to(-3, 1, 0), "value refused 19 \n");
    assert_eq!(answer_to(-3, 10, 1), "value refused 17 ee\n");
}

const TEXTS_BY_HAND: [(i64, u16, u16, &str); 70] = [
    // Halves of whole numbers.
    (1, 1, 0, "0"),
    (3, 1, 0, "2"),
    (5, 1, 0, "2"),
    (7, 1, 0, "4"),
    (-1, 1, 0, "0"),
    (-3, 1, 0, "-2"),
    (-5, 1, 0, "-2"),
    (-7, 1, 0, "-4"),
    (1_073_741_823, 31, 0, "0"),
    (1_073_741_824, 31, 0, "0"),
    (1_073_741_825, 31, 0, "1"),
    (-1_073_741_825, 31, 0, "-1"),
    // Halves with places: 0.25, 0.75, 0.125 and so on.
    (1, 2, 1, "0.2"),
    (3, 2, 1, "0.8"),
    (-1, 2, 1, "-0.2"),
    (-3, 2, 1, "-0.8"),
    (1, 3, 2, "0.12"),
    (3, 3, 2, "0.38"),
    (5, 3, 2, "0.62"),
    (7, 3, 2, "0.88"),
    (1, 10, 9, "0.000976562"),
    (3, 10, 9, "0.002929688"),
    (-3, 10, 9, "-0.002929688"),
    // Carries.
    (19, 1, 0, "10"),
    (199, 1, 0, "100"),
    (-1999, 1, 0, "-1000"),
    (639, 6, 1, "10.0"),
    (-639, 6, 1, "-10.0"),
    (639, 6, 2, "9.98"),
    (-255, 8, 2, "-1.00"),
    (2_147_483_647, 31, 9, "1.000000000"),
    (-2_147_483_647, 31, 9, "-1.000000000"),
    (2_147_483_646, 31, 9, "0.999999999"),
    (7_999_999_999_999_996, 3, 0, "1000000000000000"),
    (7_999_999_999_999_995, 3, 0, "999999999999999"),
    // Signs.
    (-1, 31, 0, "0"),
    (-1, 31, 9, "0.000000000"),
    (-2, 31, 9, "-0.000000001"),
    (-1, 0, 0, "-1"),
    (-1, 4, 1, "-0.1"),
    (-1, 5, 1, "0.0"),
    (1, 5, 1, "0.0"),
    // Zeros.
    (0, 0, 0, "0"),
    (0, 31, 9, "0.000000000"),
    (68_813, 16, 2, "1.05"),
    (3, 1, 3, "1.500"),
    (-161, 4, 6, "-10.062500"),
    (100, 0, 2, "100.00"),
    (10, 0, 0, "10"),
    // The paper's readings and totals: 1.0, -4.0, 8388600 and 16 at 21, 3.84 degrees.
    (16_384, 14, 1, "1.0"),
    (-8_388_608, 21, 9, "-4.000000000"),
    (8_388_600, 21, 6, "3.999996"),
    (8_388_600, 21, 3, "4.000"),
    (16, 21, 9, "0.000007629"),
    (16, 21, 5, "0.00001"),
    (8_053_064, 21, 2, "3.84"),
    (8_053_064, 21, 9, "3.840000153"),
    // The README's.
    (1_258_296, 21, 4, "0.6000"),
    (1_258_296, 21, 9, "0.600002289"),
    (-8_283_750, 21, 4, "-3.9500"),
    (-2_097, 21, 2, "0.00"),
    (4_095, 12, 3, "1.000"),
    // The ends.
    (LARGEST, 0, 0, "9007199254740992"),
    (-LARGEST, 0, 9, "-9007199254740992.000000000"),
    (LARGEST, 31, 9, "4194304.000000000"),
    (LARGEST - 1, 1, 1, "4503599627370495.5"),
    (LARGEST - 1, 1, 0, "4503599627370496"),
    (LARGEST - 3, 1, 0, "4503599627370494"),
    (LARGEST - 1, 31, 9, "4194304.000000000"),
    (1 - LARGEST, 0, 3, "-9007199254740991.000"),
];

fn texts_by_hand() {
    for (number, shift, places, text) in TEXTS_BY_HAND {
        assert_eq!(printed(number, shift, places), text);
    }
}

/// Only the text's own bytes are altered, from the front; in a buffer that is too short,
/// none.
fn lent_bytes() {
    // -0.75.
    let print_into = |buffer: &mut [u8]| print_value(-3, 2, 2, buffer);
    for room in 0..=LONGEST_BUFFER {
        let mut buffer = vec![0xEE; room];
        let answer = print_into(&mut buffer);
        if room < 5 {
            assert_eq!(answer, Err(19));
            assert_eq!(buffer, vec![0xEE; room]);
        } else {
            assert_eq!(answer, Ok(5));
            assert_eq!(buffer, [b"-0.75".to_vec(), vec![0xEE; room - 5]].concat());
        }
    }
}

fn refusals_by_hand() {
    let answer_in = |room: usize, number: i64, shift: u16, places: u16| {
        let mut buffer = vec![0xEE; room];
        let answer = print_value(number, shift, places, &mut buffer);
        if answer.is_err() {
            assert_eq!(buffer, vec![0xEE; room]);
        }
        answer
    };
    for places in 0..=u16::MAX {
        let expected = if places <= 9 { Ok(()) } else { Err(17) };
        assert_eq!(answer_in(11, 0, 31, places).map(|_| ()), expected);
    }
    for shift in 0..=u16::MAX {
        let expected = if shift <= 31 { Ok(()) } else { Err(17) };
        assert_eq!(answer_in(11, -1 << 31, shift, 0).map(|_| ()), expected);
    }
    for number in [LARGEST + 1, -LARGEST - 1, i64::MAX, i64::MIN, i64::MIN + 1] {
        for room in [0, 1, 40] {
            assert_eq!(answer_in(room, number, 31, 9), Err(18));
            assert_eq!(answer_in(room, number, 32, 9), Err(17));
            assert_eq!(answer_in(room, number, 31, 10), Err(17));
        }
    }
    for number in [LARGEST, -LARGEST] {
        assert_eq!(answer_in(0, number, 0, 0), Err(19));
        assert_eq!(answer_in(0, number, 32, 0), Err(17));
        assert!(answer_in(17, number, 0, 0).is_ok());
    }
    assert_eq!(answer_in(26, -LARGEST, 0, 9), Err(19));
    assert_eq!(answer_in(27, -LARGEST, 0, 9), Ok(27));
}

/// The value, the room and the fill of a call, if it is one of a value to print.
fn value_of(call: &Call) -> Option<(Value, usize, u8)> {
    match call {
        Call::Value(value, room, fill) => Some((*value, *room, *fill)),
        _ => None,
    }
}

/// The listed calls are no two the same, have all places and shifts, and stand at the end
/// of the stored ones.
fn listed_values() {
    let listed = listed_values::calls();
    let records: Vec<Vec<u8>> = listed.iter().map(record_of).collect();
    let unlike: HashSet<&Vec<u8>> = records.iter().collect();
    assert_eq!(unlike.len(), listed.len());
    assert!((300..=450).contains(&listed.len()), "{}", listed.len());
    let stored: Vec<Vec<u8>> = stored_calls().iter().map(record_of).collect();
    assert!(stored.ends_with(&records));
    let values: Vec<Value> = listed
        .iter()
        .filter_map(value_of)
        .map(|lent| lent.0)
        .collect();
    for places in 0..=9 {
        let shifts: HashSet<u16> = values
            .iter()
            .filter(|value| value.places == places && value.shift <= 31)
            .map(|value| value.shift)
            .collect();
        assert!(shifts.len() >= 6, "{places} places");
    }
    for shift in 0..=31 {
        assert!(values.iter().any(|value| value.shift == shift), "{shift}");
    }
    let texts: HashSet<String> = listed.iter().map(answer_text).collect();
    assert!(texts.len() > 350, "{}", texts.len());
    println!("{} listed values to print", listed.len());
}

// ------------------------------------------------------------------ the paper

/// The paper's sentences, read back from a text: its form, the sign, and how far the
/// printed number is from the exact value.
fn hold_to_paper(value: &Value, text: &str) {
    let unsigned = text.strip_prefix('-').unwrap_or(text);
    let (whole, fraction) = match unsigned.split_once('.') {
        Some((whole, fraction)) => (whole, Some(fraction)),
        None => (unsigned, None),
    };
    let are_digits = |part: &str| part.bytes().all(|byte| byte.is_ascii_digit());
    assert!(!whole.is_empty() && are_digits(whole), "{text}");
    assert!(whole == "0" || !whole.starts_with('0'), "{text}");
    let places = usize::from(value.places);
    match fraction {
        Some(fraction) => {
            assert!(places > 0 && are_digits(fraction), "{text}");
            assert_eq!(fraction.len(), places);
        }
        None => assert_eq!(places, 0, "{text}"),
    }
    let size: i128 = [whole, fraction.unwrap_or("")].concat().parse().unwrap();
    let has_sign = text.starts_with('-');
    assert!(!has_sign || size > 0, "{text}");
    // In last places over 2^shift.
    let printed = if has_sign { -size } else { size } << value.shift;
    let exact = i128::from(value.number) * 10_i128.pow(value.places.into());
    let distance = (printed - exact).abs();
    let last_place = 1_i128 << value.shift;
    assert!(2 * distance <= last_place, "{value:?} as {text}");
    assert!(
        2 * distance < last_place || size % 2 == 0,
        "{value:?} as {text}"
    );
}

/// The standard library prints doubles exactly, halves to the even digit; only the sign
/// of what is printed as 0 is its own.
fn hold_to_doubles(value: &Value, text: &str) {
    let double = value.number as f64 / (1_u64 << value.shift) as f64;
    let other = format!("{double:.*}", value.places.into());
    let is_zero = !other.bytes().any(|byte| (b'1'..=b'9').contains(&byte));
    let without_sign = other.trim_start_matches('-');
    let expected = if is_zero { without_sign } else { &other };
    assert_eq!(text, expected);
}

/// All places with all shifts: the numbers about 0, about each power of 2 and about
/// whole values.
fn every_places_and_shift() {
    let mut numbers: Vec<i64> = (-150..=150).collect();
    for power in 8..=52 {
        let near = (1_i64 << power) - 1..=(1 << power) + 1;
        numbers.extend(near.flat_map(|number| [number, -number]));
    }
    numbers.extend([LARGEST - 1, LARGEST, 1 - LARGEST, -LARGEST]);
    for places in 0..=9 {
        for shift in 0..=31 {
            for &number in &numbers {
                let value = Value {
                    number,
                    shift,
                    places,
                };
                let text = printed(number, shift, places);
                hold_to_paper(&value, &text);
                hold_to_doubles(&value, &text);
            }
        }
    }
}

/// What a value has in last places: number * 10^places is quotient * 2^shift and a
/// remainder, in size.
struct Parts {
    is_negative: bool,
    places: u32,
    quotient: u128,
    remainder: u128,
    divisor: u128,
}

impl Parts {
    fn of(value: &Value) -> Parts {
        let places = u32::from(value.places);
        let scaled = u128::from(value.number.unsigned_abs()) * 10_u128.pow(places);
        let divisor = 1 << value.shift;
        Parts {
            is_negative: value.number < 0,
            places,
            quotient: scaled / divisor,
            remainder: scaled % divisor,
            divisor,
        }
    }

    fn is_half(&self) -> bool {
        2 * self.remainder == self.divisor
    }

    fn is_above_half(&self) -> bool {
        2 * self.remainder > self.divisor
    }

    fn is_odd(&self) -> bool {
        self.quotient % 2 == 1
    }

    /// The whole part of the quotient, which is in last places.
    fn whole(&self) -> u128 {
        self.quotient / 10_u128.pow(self.places)
    }

    fn rounded(&self) -> u128 {
        let goes_up = self.is_above_half() || self.is_half() && self.is_odd();
        self.quotient + u128::from(goes_up)
    }
}

// ------------------------------------------------------------------- the rule

/// How a value is printed. [`PAPER`] is the right way, and each wrong version has
/// something else in one place.
#[derive(Clone, Copy)]
struct Rule {
    /// What the three numbers are taken as.
    taken: fn(Value) -> Value,
    /// The refusals in the order of their tests.
    order: [Refusal; 3],
    refuses_by_17: fn(&Value) -> bool,
    refuses_by_18: fn(&Value) -> bool,
    /// Whether a buffer of the first length is too short for a text of the second.
    refuses_by_19: fn(usize, usize) -> bool,
    /// The size in last places.
    rounded: fn(&Value) -> u128,
    /// What stands before such a size.
    sign: fn(&Value, u128) -> &'static str,
    /// The digits of it, and the point.
    digits: fn(&Value, u128) -> String,
    /// Writes a text, and says how many bytes it has.
    write: fn(&[u8], &mut [u8]) -> usize,
    /// What a refusal writes.
    at_refusal: fn(Refusal, &Value, &mut [u8]),
}

const PAPER: Rule = Rule {
    taken: |value| value,
    order: [17, 18, 19],
    refuses_by_17: |value| value.places > 9 || value.shift > 31,
    refuses_by_18: |value| !(-LARGEST..=LARGEST).contains(&value.number),
    refuses_by_19: |room, length| room < length,
    rounded: |value| Parts::of(value).rounded(),
    sign: |value, size| {
        if value.number < 0 && size > 0 {
            "-"
        } else {
            ""
        }
    },
    digits: digits_by_paper,
    write: |text, buffer| {
        buffer[..text.len()].copy_from_slice(text);
        text.len()
    },
    at_refusal: |_, _, _| {},
};

fn digits_by_paper(value: &Value, size: u128) -> String {
    let (whole, fraction) = parts_of_size(value, size);
    match value.places {
        0 => whole.to_string(),
        places => format!("{whole}.{fraction:0width$}", width = usize::from(places)),
    }
}

/// A size in last places as its whole part and the last places beside that.
fn parts_of_size(value: &Value, size: u128) -> (u128, u128) {
    let unit = 10_u128.pow(value.places.into());
    (size / unit, size % unit)
}

impl Rule {
    fn print(&self, value: &Value, buffer: &mut [u8]) -> Result<usize, Refusal> {
        let value = (self.taken)(*value);
        for refusal in self.order {
            let refuses = match refusal {
                17 => (self.refuses_by_17)(&value),
                18 => (self.refuses_by_18)(&value),
                _ => (self.refuses_by_19)(buffer.len(), self.text(&value).len()),
            };
            if refuses {
                (self.at_refusal)(refusal, &value, buffer);
                return Err(refusal);
            }
        }
        Ok((self.write)(self.text(&value).as_bytes(), buffer))
    }

    fn text(&self, value: &Value) -> String {
        let size = (self.rounded)(value);
        let sign = (self.sign)(value, size);
        sign.to_string() + &(self.digits)(value, size)
    }

    /// The answer to a value to print.
    fn answer(&self, (value, room, fill): (Value, usize, u8)) -> String {
        let mut buffer = vec![fill; room];
        let written = self.print(&value, &mut buffer);
        value_text(&written, &buffer)
    }
}

/// Values to print from one source.
struct Source {
    name: String,
    lent: Vec<(Value, usize, u8)>,
    /// What the reference answers.
    answers: Vec<String>,
}

impl Source {
    fn of(name: &str, calls: &[Call]) -> Source {
        let is_value = |call: &&Call| matches!(call, Call::Value(..));
        Source {
            name: name.to_string(),
            lent: calls.iter().filter_map(value_of).collect(),
            answers: calls.iter().filter(is_value).map(answer_text).collect(),
        }
    }
}

fn generated(seed: u64, count: u64) -> Vec<Call> {
    generate_value::calls(seed, count).collect()
}

/// The calls by which wrong versions must be told apart.
fn sources() -> Vec<Source> {
    let mut sources = vec![
        Source::of("listed", &listed_values::calls()),
        Source::of("stored", &stored_calls()),
    ];
    for seed in 1..=3 {
        let calls = generated(seed, 2000);
        sources.push(Source::of(&format!("seed {seed}"), &calls));
    }
    sources
}

/// The paper's rule, written once more with wide numbers, gives what the reference
/// answers, and the texts hold to the paper's sentences: along the listed, the stored and
/// generated calls.
fn rule_along_calls(sources: &[Source]) {
    let more = (4..=9).map(|seed| Source::of("more", &generated(seed, 20_000)));
    let other_kinds = Source::of("all kinds", &generate_call::calls(USUAL_SEED, 5000));
    let more: Vec<Source> = more.chain([other_kinds]).collect();
    let mut compared = 0;
    let mut written = 0;
    for source in sources.iter().chain(&more) {
        for (lent, answer) in source.lent.iter().zip(&source.answers) {
            assert_eq!(PAPER.answer(*lent), *answer, "{:?}", lent.0);
            compared += 1;
            if answer.starts_with("value written ") {
                let text = printed(lent.0.number, lent.0.shift, lent.0.places);
                hold_to_paper(&lent.0, &text);
                hold_to_doubles(&lent.0, &text);
                written += 1;
            }
        }
    }
    assert!(compared > 126_000, "{compared}");
    assert!(written > 95_000, "{written}");
    println!("{compared} values to print compared, {written} of them printed");
}

// ------------------------------------------------------------- wrong versions

/// What a careless reading of 2.6 gives. The listed calls, the stored ones, and 2,000
/// generated ones of three seeds tell each from the right one.
const WRONG_PRINTERS: [(&str, fn(&mut Rule)); 75] = [
    // Rounding.
    ("halves away from 0", |rule| {
        rule.rounded = |value| rounded_if(value, |parts| parts.is_half() || parts.is_above_half())
    }),
    ("halves towards 0", |rule| {
        rule.rounded = |value| rounded_if(value, Parts::is_above_half)
    }),
    ("halves towards plus infinity", |rule| {
        rule.rounded = |value| {
            rounded_if(value, |parts| {
                parts.is_above_half() || parts.is_half() && !parts.is_negative
            })
        }
    }),
    ("halves towards minus infinity", |rule| {
        rule.rounded = |value| {
            rounded_if(value, |parts| {
                parts.is_above_half() || parts.is_half() && parts.is_negative
            })
        }
    }),
    ("halves to the odd digit", |rule| {
        rule.rounded = |value| {
            rounded_if(value, |parts| {
                parts.is_above_half() || parts.is_half() && !parts.is_odd()
            })
        }
    }),
    ("halves by the whole part's last digit", |rule| {
        rule.rounded = |value| {
            rounded_if(value, |parts| {
                parts.is_above_half() || parts.is_half() && parts.whole() % 2 == 1
            })
        }
    }),
    ("halves to even without places only", |rule| {
        rule.rounded = |value| {
            rounded_if(value, |parts| {
                let goes_up = parts.is_odd() || parts.places > 0;
                parts.is_above_half() || parts.is_half() && goes_up
            })
        }
    }),
    ("halves to even with places only", |rule| {
        rule.rounded = |value| {
            rounded_if(value, |parts| {
                let goes_up = parts.is_odd() || parts.places == 0;
                parts.is_above_half() || parts.is_half() && goes_up
            })
        }
    }),
    ("only the first digit cut off is seen", |rule| {
        rule.rounded = |value| {
            rounded_if(value, |parts| {
                let first = 10 * parts.remainder / parts.divisor;
                first > 5 || first == 5 && parts.is_odd()
            })
        }
    }),
    ("cut off", |rule| {
        rule.rounded = |value| rounded_if(value, |_| false)
    }),
    ("towards minus infinity", |rule| {
        rule.rounded = |value| rounded_if(value, |parts| parts.remainder > 0 && parts.is_negative)
    }),
    ("towards plus infinity", |rule| {
        rule.rounded = |value| rounded_if(value, |parts| parts.remainder > 0 && !parts.is_negative)
    }),
    ("away from 0", |rule| {
        rule.rounded = |value| rounded_if(value, |parts| parts.remainder > 0)
    }),
    ("rounded to 9 places first", |rule| {
        rule.rounded = |value| {
            let nine = Parts::of(&Value {
                places: 9,
                ..*value
            })
            .rounded();
            let divisor = 10_u128.pow(9 - u32::from(value.places));
            let (quotient, twice) = (nine / divisor, 2 * (nine % divisor));
            quotient + u128::from(twice > divisor || twice == divisor && quotient % 2 == 1)
        }
    }),
    ("cut to 9 places first", |rule| {
        rule.rounded = |value| {
            let nine = Parts::of(&Value {
                places: 9,
                ..*value
            })
            .quotient;
            let divisor = 10_u128.pow(9 - u32::from(value.places));
            let (quotient, twice) = (nine / divisor, 2 * (nine % divisor));
            quotient + u128::from(twice > divisor || twice == divisor && quotient % 2 == 1)
        }
    }),
    ("in last places as a double", |rule| {
        rule.rounded = |value| {
            let double = value.number.unsigned_abs() as f64 / 2_f64.powi(value.shift.into());
            (double * 10_f64.powi(value.places.into())).round_ties_even() as u128
        }
    }),
    ("in last places in 64 bits", |rule| {
        rule.rounded = |value| {
            let unit = 10_u64.pow(value.places.into());
            let scaled = value.number.unsigned_abs().wrapping_mul(unit);
            let parts = Parts {
                quotient: (scaled >> value.shift).into(),
                remainder: (scaled % (1 << value.shift)).into(),
                ..Parts::of(value)
            };
            parts.rounded()
        }
    }),
    // Carries.
    ("the carry into the whole part lost", |rule| {
        rule.rounded = |value| {
            let unit = 10_u128.pow(value.places.into());
            let parts = Parts::of(value);
            parts.whole() * unit + parts.rounded() % unit
        }
    }),
    ("the carry behind the last digit lost", |rule| {
        rule.rounded = |value| {
            let parts = Parts::of(value);
            let is_lost = parts.rounded() > parts.quotient && parts.quotient % 10 == 9;
            parts.rounded() - if is_lost { 10 } else { 0 }
        }
    }),
    ("no carry through nines", |rule| {
        rule.rounded = |value| {
            rounded_if(value, |parts| {
                let goes_up = parts.rounded() > parts.quotient;
                goes_up && parts.quotient % 10 < 9
            })
        }
    }),
    ("a carry as one digit more behind the point", |rule| {
        rule.digits = |value, size| {
            let unit = 10_u128.pow(value.places.into());
            let whole = Parts::of(value).whole();
            match value.places > 0 && size / unit > whole {
                true => format!("{whole}.{unit}"),
                false => digits_by_paper(value, size),
            }
        }
    }),
    // The sign.
    ("a sign before a printed 0", |rule| {
        rule.sign = |value, _| if value.number < 0 { "-" } else { "" }
    }),
    ("a sign before a printed 0 without places only", |rule| {
        rule.sign = |value, size| {
            let is_shown = size > 0 || value.places == 0;
            if value.number < 0 && is_shown {
                "-"
            } else {
                ""
            }
        }
    }),
    ("no sign at all", |rule| rule.sign = |_, _| ""),
    ("no sign if the whole part is 0", |rule| {
        rule.sign = |value, size| {
            let (whole, _) = parts_of_size(value, size);
            if value.number < 0 && whole > 0 {
                "-"
            } else {
                ""
            }
        }
    }),
    ("no sign before the number is above a last place", |rule| {
        rule.sign = |value, _| {
            let is_shown = Parts::of(value).quotient > 0;
            if value.number < 0 && is_shown {
                "-"
            } else {
                ""
            }
        }
    }),
    ("a plus sign", |rule| {
        rule.sign = |value, size| match (value.number < 0, size > 0) {
            (_, false) => "",
            (true, true) => "-",
            (false, true) => "+",
        }
    }),
    ("a space in the sign's place", |rule| {
        rule.sign = |value, size| {
            if value.number < 0 && size > 0 {
                "-"
            } else {
                " "
            }
        }
    }),
    // Digits and point.
    ("one digit fewer behind the point", |rule| {
        rule.digits = |value, size| {
            let mut text = digits_by_paper(value, size);
            if value.places > 0 {
                text.pop();
            }
            text
        }
    }),
    ("one digit more behind the point", |rule| {
        rule.digits = |value, size| {
            let zero = if value.places > 0 { "0" } else { "" };
            digits_by_paper(value, size) + zero
        }
    }),
    ("zeros at the end dropped", |rule| {
        rule.digits = |value, size| {
            let text = digits_by_paper(value, size);
            match value.places {
                0 => text,
                _ => text.trim_end_matches('0').trim_end_matches('.').to_string(),
            }
        }
    }),
    ("zeros at the end dropped but one", |rule| {
        rule.digits = |value, size| {
            let text = digits_by_paper(value, size);
            let zero = if text.ends_with('0') { "0" } else { "" };
            match value.places {
                0 => text,
                _ => text.trim_end_matches('0').to_string() + zero,
            }
        }
    }),
    ("zeros dropped if there are no other digits", |rule| {
        rule.digits = |value, size| {
            let (whole, fraction) = parts_of_size(value, size);
            match fraction {
                0 => whole.to_string(),
                _ => digits_by_paper(value, size),
            }
        }
    }),
    ("zeros behind the point dropped", |rule| {
        rule.digits = |value, size| {
            let (whole, fraction) = parts_of_size(value, size);
            match value.places {
                0 => whole.to_string(),
                _ => format!("{whole}.{fraction}"),
            }
        }
    }),
    ("zeros behind the point moved to the end", |rule| {
        rule.digits = |value, size| {
            let (whole, fraction) = parts_of_size(value, size);
            match value.places {
                0 => whole.to_string(),
                places => format!("{whole}.{fraction:0<width$}", width = usize::from(places)),
            }
        }
    }),
    ("9 places always", |rule| {
        rule.rounded = |value| {
            Parts::of(&Value {
                places: 9,
                ..*value
            })
            .rounded()
        };
        rule.digits = |value, size| {
            digits_by_paper(
                &Value {
                    places: 9,
                    ..*value
                },
                size,
            )
        }
    }),
    ("a point without places", |rule| {
        rule.digits = |value, size| {
            let point = if value.places == 0 { "." } else { "" };
            digits_by_paper(value, size) + point
        }
    }),
    ("no point", |rule| {
        rule.digits = |value, size| digits_by_paper(value, size).replace('.', "")
    }),
    ("a comma for the point", |rule| {
        rule.digits = |value, size| digits_by_paper(value, size).replace('.', ",")
    }),
    ("no 0 before the point", |rule| {
        rule.digits = |value, size| {
            let text = digits_by_paper(value, size);
            match text.strip_prefix("0.") {
                Some(fraction) => format!(".{fraction}"),
                None => text,
            }
        }
    }),
    ("no digit for 0 without places", |rule| {
        rule.digits = |value, size| match (value.places, size) {
            (0, 0) => String::new(),
            _ => digits_by_paper(value, size),
        }
    }),
    ("a leading 0", |rule| {
        rule.digits = |value, size| "0".to_string() + &digits_by_paper(value, size)
    }),
    ("a leading 0 from 10 on", |rule| {
        rule.digits = |value, size| {
            let (whole, _) = parts_of_size(value, size);
            let zero = if whole >= 10 { "0" } else { "" };
            zero.to_string() + &digits_by_paper(value, size)
        }
    }),
    ("the whole part cut to 32 bits", |rule| {
        rule.digits = |value, size| {
            let (whole, fraction) = parts_of_size(value, size);
            let unit = 10_u128.pow(value.places.into());
            digits_by_paper(value, whole % (1 << 32) * unit + fraction)
        }
    }),
    ("a line end behind the text", |rule| {
        rule.digits = |value, size| digits_by_paper(value, size) + "\n"
    }),
    // Refusals.
    ("18 before 17", |rule| rule.order = [18, 17, 19]),
    ("19 before 18", |rule| rule.order = [17, 19, 18]),
    ("19 before 17", |rule| {
        rule.order = [19, 17, 18];
        print_nearest_right(rule);
    }),
    ("2^53 is refused", |rule| {
        rule.refuses_by_18 = |value| value.number.unsigned_abs() >= 1 << 53
    }),
    ("-2^53 is refused", |rule| {
        rule.refuses_by_18 = |value| !(1 - LARGEST..=LARGEST).contains(&value.number)
    }),
    ("2^53 + 1 passes, also below 0", |rule| {
        rule.refuses_by_18 = |value| value.number.unsigned_abs() > (1 << 53) + 1
    }),
    ("-2^53 - 1 passes", |rule| {
        rule.refuses_by_18 = |value| !(-LARGEST - 1..=LARGEST).contains(&value.number)
    }),
    ("the lowest number passes by its wrapped size", |rule| {
        rule.refuses_by_18 = |value| value.number.wrapping_abs() > LARGEST
    }),
    ("no negative number is refused by 18", |rule| {
        rule.refuses_by_18 = |value| value.number > LARGEST
    }),
    ("18 looks at the value and not at the number", |rule| {
        rule.refuses_by_18 = |value| i128::from(value.number).abs() >> value.shift > 1 << 53
    }),
    ("nothing is refused by 18", |rule| {
        rule.refuses_by_18 = |_| false
    }),
    ("10 places pass", |rule| {
        rule.refuses_by_17 = |value| value.places > 10 || value.shift > 31
    }),
    ("9 places are refused", |rule| {
        rule.refuses_by_17 = |value| value.places > 8 || value.shift > 31
    }),
    ("shift 32 passes", |rule| {
        rule.refuses_by_17 = |value| value.places > 9 || value.shift > 32
    }),
    ("shift 31 is refused", |rule| {
        rule.refuses_by_17 = |value| value.places > 9 || value.shift > 30
    }),
    ("17 only if both are above", |rule| {
        rule.refuses_by_17 = |value| value.places > 9 && value.shift > 31;
        print_nearest_right(rule);
    }),
    ("places above 9 are taken as 9", |rule| {
        rule.refuses_by_17 = |value| value.shift > 31;
        print_nearest_right(rule);
    }),
    ("a shift above 31 is taken as 31", |rule| {
        rule.refuses_by_17 = |value| value.places > 9;
        print_nearest_right(rule);
    }),
    ("places modulo 256", |rule| {
        rule.taken = |value| Value {
            places: value.places % 256,
            ..value
        }
    }),
    ("the shift modulo 256", |rule| {
        rule.taken = |value| Value {
            shift: value.shift % 256,
            ..value
        }
    }),
    ("the shift modulo 32", |rule| {
        rule.taken = |value| Value {
            shift: value.shift % 32,
            ..value
        }
    }),
    // The buffer.
    ("a buffer as long as the text is refused", |rule| {
        rule.refuses_by_19 = |room, length| room <= length
    }),
    (
        "a buffer that isn't as long as any text is refused",
        |rule| rule.refuses_by_19 = |room, _| room < 27,
    ),
    ("a buffer one byte too short is filled", |rule| {
        rule.refuses_by_19 = |room, length| room + 1 < length;
        rule.write = |text, buffer| {
            let length = text.len().min(buffer.len());
            buffer[..length].copy_from_slice(&text[..length]);
            length
        }
    }),
    ("19 writes what has room", |rule| {
        rule.at_refusal = |refusal, value, buffer| {
            if refusal == 19 {
                let text = PAPER.text(value);
                buffer.copy_from_slice(&text.as_bytes()[..buffer.len()]);
            }
        }
    }),
    ("17 and 18 write a 0", |rule| {
        rule.at_refusal = |refusal, _, buffer| match buffer.first_mut() {
            Some(first) if refusal < 19 => *first = b'0',
            _ => {}
        }
    }),
    ("a byte behind the text", |rule| {
        rule.write = |text, buffer| {
            buffer[..text.len()].copy_from_slice(text);
            if let Some(behind) = buffer.get_mut(text.len()) {
                *behind = 0;
            }
            text.len()
        }
    }),
    ("all behind the text cleared", |rule| {
        rule.write = |text, buffer| {
            buffer[..text.len()].copy_from_slice(text);
            buffer[text.len()..].fill(0);
            text.len()
        }
    }),
    ("the text at the end of the buffer", |rule| {
        rule.write = |text, buffer| {
            let front = buffer.len() - text.len();
            buffer[front..].copy_from_slice(text);
            text.len()
        }
    }),
    ("the buffer's length comes back", |rule| {
        rule.write = |text, buffer| {
            buffer[..text.len()].copy_from_slice(text);
            buffer.len()
        }
    }),
];

/// As the paper has it, but the whole number of last places goes up in other cases.
fn rounded_if(value: &Value, goes_up: fn(&Parts) -> bool) -> u128 {
    let parts = Parts::of(value);
    parts.quotient + u128::from(goes_up(&parts))
}

/// Prints a value that 17 refuses with the nearest places and shift that it passes.
fn print_nearest_right(rule: &mut Rule) {
    rule.rounded = |value| Parts::of(&nearest_right(value)).rounded();
    rule.digits = |value, size| digits_by_paper(&nearest_right(value), size);
}

fn nearest_right(value: &Value) -> Value {
    Value {
        number: value.number,
        shift: value.shift.min(31),
        places: value.places.min(9),
    }
}

/// What the wrong versions answer to the values of a source.
fn wrong_answers(source: &Source) -> Vec<Vec<String>> {
    let answers_of = |(_, change): (&str, fn(&mut Rule))| {
        let mut rule = PAPER;
        change(&mut rule);
        source.lent.iter().map(|&lent| rule.answer(lent)).collect()
    };
    WRONG_PRINTERS.into_iter().map(answers_of).collect()
}

fn wrong_printers(sources: &[Source]) {
    let mut fewest = usize::MAX;
    for source in sources {
        let mut seen = HashMap::new();
        for ((name, _), answers) in WRONG_PRINTERS.iter().zip(wrong_answers(source)) {
            let pairs = answers.iter().zip(&source.answers);
            let times = pairs.filter(|(wrong, right)| wrong != right).count();
            assert!(times >= 3, "{}: {name} {times} times", source.name);
            if source.name == "stored" {
                fewest = fewest.min(times);
            }
            // No two of them are the same.
            let same = seen.insert(answers, name);
            assert_eq!(same, None, "{}: {name}", source.name);
        }
    }
    let wrong = WRONG_PRINTERS.len();
    println!("{wrong} wrong printers told apart, by {fewest} stored calls or more");
}

// ------------------------------------------------------------ generated calls

/// How often the situations of 2.6 come in generated calls, by their names.
type Times = HashMap<String, usize>;

/// Each situation has a fair share in 10,000 generated calls.
fn generated_shares() {
    let calls = generated(USUAL_SEED, 10_000);
    let mut times = Times::new();
    for (value, room, _) in calls.iter().filter_map(value_of) {
        for name in situations_of(&value, room) {
            *times.entry(name).or_default() += 1;
        }
    }
    let found = |name: &str| times.get(name).copied().unwrap_or(0);
    let has = |name: &str, least: usize| {
        assert!(found(name) >= least, "{name}: {} times", found(name));
    };
    for places in 0..=9 {
        for sign in ["+", "-"] {
            has(&format!("half, {places} places, even, {sign}"), 30);
            has(&format!("half, {places} places, odd, {sign}"), 30);
            has(&format!("carry, {places} places, {sign}"), 30);
            has(&format!("next to a half, {places} places, {sign}"), 20);
        }
        has(&format!("as near to a half, {places} places, below"), 15);
        has(&format!("as near to a half, {places} places, above"), 15);
        has(&format!("carry to another digit, {places} places"), 15);
        has(&format!("sign lost, {places} places"), 15);
        has(&format!("least sign, {places} places"), 5);
        has(&format!("printed, {places} places"), 500);
        if places > 1 {
            has(&format!("carry in the fraction, {places} places"), 20);
        }
    }
    for refusals in ["17", "18", "17 18", "17 19", "18 19", "17 18 19"] {
        has(&format!("refused by {refusals}"), 100);
    }
    has("refused by 19", 500);
    has("one byte too short", 300);
    has("as long as the text", 2500);
    has("one byte longer", 500);
    has("2^53", 100);
    has("whole part of 16 digits", 100);
    let of_kind = |start: &str| -> usize {
        let has_kind = |(name, _): &(&String, &usize)| name.starts_with(start);
        times.iter().filter(has_kind).map(|(_, times)| times).sum()
    };
    println!(
        "of 10,000 generated values {} are halves, {} carry into the whole part, {} lose the sign",
        of_kind("half, "),
        of_kind("carry, "),
        of_kind("sign lost, ")
    );
    let all = generate_call::calls(USUAL_SEED, 10_000);
    let values = all.iter().filter_map(value_of).count();
    assert!(values >= 700, "{values}");
}

/// The names of the situations that a value and the length of its buffer meet. One that
/// 17 refuses has no text, but no text is empty.
fn situations_of(value: &Value, room: usize) -> Vec<String> {
    let is_17 = (PAPER.refuses_by_17)(value);
    let is_18 = (PAPER.refuses_by_18)(value);
    let length = if is_17 { 1 } else { PAPER.text(value).len() };
    let mut names = Vec::new();
    if !is_17 && !is_18 {
        if room + 1 == length {
            names.push("one byte too short".to_string());
        } else if room == length {
            names.push("as long as the text".to_string());
        } else if room == length + 1 {
            names.push("one byte longer".to_string());
        }
    }
    let refusals = [(is_17, "17"), (is_18, "18"), (room < length, "19")];
    let refused: Vec<&str> = refusals
        .iter()
        .filter(|(refuses, _)| *refuses)
        .map(|(_, number)| *number)
        .collect();
    if refused.is_empty() {
        names.extend(situations_of_printed(value));
    } else {
        names.push(format!("refused by {}", refused.join(" ")));
    }
    names
}

/// The same of a value that is printed.
fn situations_of_printed(value: &Value) -> Vec<String> {
    let parts = Parts::of(value);
    let places = format!("{} places", value.places);
    let sign = if parts.is_negative { "-" } else { "+" };
    let mut names = vec![format!("printed, {places}")];
    if value.number.abs() == LARGEST {
        names.push("2^53".to_string());
    }
    if parts.is_half() {
        let parity = if parts.is_odd() { "odd" } else { "even" };
        names.push(format!("half, {places}, {parity}, {sign}"));
    }
    let is_half = |number: i64| Parts::of(&Value { number, ..*value }).is_half();
    if is_half(value.number - 1) || is_half(value.number + 1) {
        names.push(format!("next to a half, {places}, {sign}"));
    }
    // The remainder is a multiple of 2^places.
    let step = 1 << value.places;
    if 2 * parts.remainder + 2 * step == parts.divisor {
        names.push(format!("as near to a half, {places}, below"));
    }
    if 2 * parts.remainder == parts.divisor + 2 * step {
        names.push(format!("as near to a half, {places}, above"));
    }
    let (whole, _) = parts_of_size(value, parts.rounded());
    if whole > parts.whole() {
        names.push(format!("carry, {places}, {sign}"));
        if whole.to_string().len() > parts.whole().to_string().len() {
            names.push(format!("carry to another digit, {places}"));
        }
    } else if parts.rounded() > parts.quotient && parts.quotient % 10 == 9 {
        names.push(format!("carry in the fraction, {places}"));
    }
    if whole >= 1_000_000_000_000_000 {
        names.push("whole part of 16 digits".to_string());
    }
    if value.number < 0 && parts.rounded() == 0 {
        names.push(format!("sign lost, {places}"));
    }
    let one_nearer_to_0 = Value {
        number: value.number + 1,
        ..*value
    };
    let is_least = Parts::of(&one_nearer_to_0).rounded() == 0;
    if value.number < 0 && parts.rounded() > 0 && is_least {
        names.push(format!("least sign, {places}"));
    }
    names
}

/// All places with all shifts come in 20,000 generated calls that are printed.
fn generated_places_and_shifts() {
    let mut seen = HashSet::new();
    for (value, room, fill) in generated(USUAL_SEED, 20_000).iter().filter_map(value_of) {
        if PAPER.print(&value, &mut vec![fill; room]).is_ok() {
            seen.insert((value.places, value.shift));
        }
    }
    assert_eq!(seen.len(), 10 * 32);
}
