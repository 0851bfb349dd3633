//! Listed calls for 02, 2.6: halves and what lies beside them, carries through nines,
//! signs, zeros, readings and totals of the bench, numbers at the ends, refusals 17 to
//! 19, and buffers about as long as the text.

use crate::call::Call;
use crate::generate_call::LONGEST_BUFFER;
use crate::value::{text_of, Value, LARGEST_SIZE};
use crate::{HIGHEST_READING, LOWEST_READING};

/// The largest number that isn't refused.
pub const LARGEST_NUMBER: i64 = LARGEST_SIZE as i64;

/// The shifts of the datasheet's conversion tables are among these.
pub const BENCH_SHIFTS: [u16; 10] = [14, 16, 18, 19, 20, 21, 22, 23, 24, 25];

/// A value, and the length of the buffer that is lent for it.
type Lent = (Value, usize);

/// All of them. Other bytes fill the buffers in turn.
pub fn calls() -> Vec<Call> {
    let fitting = [
        halves_of_whole_numbers(),
        halves(),
        beside_halves(),
        carries(),
        carries_in_the_fraction(),
        about_the_sign(),
        zeros(),
        of_the_bench(),
        ends(),
    ];
    let lent_fitting = fitting.into_iter().flatten().zip(0..).map(with_room);
    let lent_others = [refused(), about_the_text()].into_iter().flatten();
    let fills = [0x00, b'0', b'-', b'.', 0xEE, b'9', 0xFF]
        .into_iter()
        .cycle();
    let all = lent_fitting.chain(lent_others).zip(fills);
    all.map(|((value, room), fill)| Call::Value(value, room, fill))
        .collect()
}

/// A buffer that is as long as the text, or longer.
fn with_room((value, number): (Value, usize)) -> Lent {
    let length = text_of(&value).len();
    let room = [length, length + 1, length.max(27), length + 5][number % 4];
    (value, room)
}

fn value(number: i64, shift: u16, places: u16) -> Value {
    Value {
        number,
        shift,
        places,
    }
}

// --------------------------------------------------------------------- halves

/// The number that over 2^shift is a whole number and a half, in last places: an odd
/// one times 5^places, over 2. The shift is above places.
pub fn half_number(shift: u16, places: u16, odd: i64) -> i64 {
    odd << (shift - places - 1)
}

/// The number below 2^(shift - places) that over 2^shift is, in last places, a whole
/// number and remainder / 2^(shift - places). The shift is above places.
pub fn number_of_remainder(shift: u16, places: u16, remainder: u64) -> i64 {
    // What 5^places is multiplied with to give 1, modulo 2^64. Each step doubles the
    // number of the lowest bits that are right.
    let power = 5_u64.pow(places.into());
    let mut inverse = power;
    for _ in 0..6 {
        let product = power.wrapping_mul(inverse);
        inverse = inverse.wrapping_mul(2_u64.wrapping_sub(product));
    }
    let modulus = 1_u64 << (shift - places);
    (remainder.wrapping_mul(inverse) % modulus) as i64
}

/// 0.5, 1.5, 2.5 and their negatives without places.
pub fn halves_of_whole_numbers() -> Vec<Value> {
    let of_shift = |shift: u16| {
        let numbers = [1, 3, 5, -1, -3, -5].map(|odd| half_number(shift, 0, odd));
        numbers.map(|number| value(number, shift, 0))
    };
    [1, 14, 31].into_iter().flat_map(of_shift).collect()
}

/// Halves at every number of places: with the smallest shift that has one, and with
/// shift 31; those of 1 and 5 and so on go down to an even digit, the others go up.
pub fn halves() -> Vec<Value> {
    let mut values = Vec::new();
    for places in 0..=9 {
        let far = 4 * 123_457 * (i64::from(places) + 1);
        let mut add = |shift: u16, odd: i64| {
            let number = half_number(shift, places, odd);
            values.extend([value(number, shift, places), value(-number, shift, places)]);
        };
        if places > 0 {
            add(places + 1, 1);
            add(places + 1, 3);
        }
        add(31, far + 1);
        add(31, far + 3);
    }
    values
}

/// Numbers beside a half: by one, at shift 31; and such that their value is as near to a
/// half as it can be with the shift, without being one. Signs come in turn.
pub fn beside_halves() -> Vec<Value> {
    let mut numbers = Vec::new();
    for places in 0..=9 {
        for odd in [5, 7] {
            let half = half_number(31, places, odd);
            numbers.extend([(half - 1, 31, places), (half + 1, 31, places)]);
        }
        for shift in [11 + 2 * places, 12 + 2 * places] {
            let half = 1 << (shift - places - 1);
            let below = number_of_remainder(shift, places, half - 1);
            let above = number_of_remainder(shift, places, half + 1);
            let high = i64::from(places) << shift;
            numbers.extend([(below + high, shift, places), (above + high, shift, places)]);
        }
    }
    with_signs_in_turn(numbers)
}

/// Plus, minus, minus, plus and so on, so that of two neighbours each has either sign.
fn with_signs_in_turn(numbers: Vec<(i64, u16, u16)>) -> Vec<Value> {
    let signs = [1, -1, -1, 1].into_iter().cycle();
    let signed = numbers.into_iter().zip(signs);
    signed
        .map(|((number, shift, places), sign)| value(sign * number, shift, places))
        .collect()
}

// -------------------------------------------------------------------- carries

/// The smallest shift with which the number just below a whole one is printed as that.
pub fn least_shift_of_carries(places: u16) -> u16 {
    let is_enough = |shift: &u16| 1_u64 << shift >= 2 * 10_u64.pow(places.into());
    (0..=31).find(is_enough).expect("31 is enough for 9 places")
}

/// How far below a whole number times 2^shift the lowest number is that is printed as
/// it: half a last place. Without places a half below an odd whole number isn't.
pub fn reach_of_carries(shift: u16, places: u16, whole: i64) -> i64 {
    let half_a_place = (1 << shift) / (2 * 10_i64.pow(places.into()));
    match places {
        0 if whole % 2 == 1 => half_a_place - 1,
        _ => half_a_place,
    }
}

/// Carries through nines into the whole part, from below 1, 10, and the largest power
/// of ten that has them, which is 10^15 without places and 10^6 with 9: the lowest
/// number with each sign, and the one below it, whose nines are printed.
pub fn carries() -> Vec<Value> {
    let mut values = Vec::new();
    for places in 0..=9 {
        let least = least_shift_of_carries(places);
        let largest = 10_i64.pow(15 - u32::from(places));
        for (whole, shift) in [(1, 31), (10, (least + 31) / 2), (largest, least)] {
            let lowest = (whole << shift) - reach_of_carries(shift, places, whole);
            values.push(value(lowest, shift, places));
            values.push(value(-lowest, shift, places));
            let sign = if places % 2 == 0 { 1 } else { -1 };
            values.push(value(sign * (lowest - 1), shift, places));
        }
    }
    values
}

/// The number below 3.1 that is nearest to it: a carry through nines that stays behind
/// the point.
pub fn carries_in_the_fraction() -> Vec<Value> {
    let number = (31_i64 << 31) / 10;
    let numbers = (2..=9).map(|places| (number, 31, places));
    with_signs_in_turn(numbers.collect())
}

// ------------------------------------------------------------ signs and zeros

/// The smallest size of a number that isn't printed as 0: above half a last place.
pub fn least_printed(shift: u16, places: u16) -> i64 {
    (1 << shift) / (2 * 10_i64.pow(places.into())) + 1
}

/// Negative numbers printed as 0, which have no sign: the smallest and the largest; and
/// the smallest that are not.
pub fn about_the_sign() -> Vec<Value> {
    let mut values = Vec::new();
    for places in 0..=9 {
        let least = least_printed(31, places);
        values.push(value(-1, 31, places));
        values.push(value(-least, 31, places));
        if least > 2 {
            values.push(value(1 - least, 31, places));
        }
    }
    values
}

/// 0 itself; zeros before, between and behind the other digits.
pub fn zeros() -> Vec<Value> {
    vec![
        value(0, 0, 0),
        value(0, 31, 9),
        value(0, 21, 3),
        value(0, 1, 1),
        // 1.05, -2.05 and 7.005, as near as the shift allows.
        value(68_813, 16, 2),
        value(-2_149_581, 20, 2),
        value(1_836_319, 18, 3),
        // 1.5 and -2.5, with more places than they need.
        value(3, 1, 3),
        value(-5, 1, 9),
        // 10, 100, 1,000,000 and -10.0625.
        value(10, 0, 0),
        value(100, 0, 2),
        value(1_000_000 << 21, 21, 6),
        value(-161, 4, 6),
        // 0.0009765625.
        value(1, 10, 3),
        value(-1, 10, 4),
        value(1, 10, 9),
    ]
}

// ---------------------------------------------------------------- of the bench

/// Readings of 24 bits at the shifts of the datasheet, and totals of a gyro.
pub fn of_the_bench() -> Vec<Value> {
    let mut values = Vec::new();
    for (number, shift) in BENCH_SHIFTS.into_iter().enumerate() {
        let places = |turn: usize| ((3 * number + turn) % 10) as u16;
        values.push(value(HIGHEST_READING.into(), shift, places(0)));
        values.push(value(LOWEST_READING.into(), shift, places(1)));
        values.push(value(-1_234_567, shift, places(2)));
    }
    let turn = 360 << 21;
    // The last ones are 3.84 degrees, and 2^34 / 18 datagrams of 2^23 steps each.
    let totals = [
        1,
        -1,
        16,
        8_388_608,
        turn,
        -turn,
        3 * turn + 1,
        8_053_064,
        -((1 << 34) / 18 * (1 << 23)),
    ];
    for (total, number) in totals.into_iter().zip(0..) {
        values.push(value(total, 21, (number + 4) % 10));
    }
    values
}

// ---------------------------------------------------------- ends and refusals

/// Numbers about 2^53 in size, and those that lie far beyond it.
pub fn ends() -> Vec<Value> {
    let mut numbers = Vec::new();
    for shift in [0, 1, 31] {
        for size in [LARGEST_NUMBER - 1, LARGEST_NUMBER, LARGEST_NUMBER + 1] {
            numbers.extend([(size, shift), (-size, shift)]);
        }
        numbers.extend([(i64::MIN, shift), (i64::MAX, shift)]);
    }
    numbers.extend([
        (i64::MIN + 1, 31),
        (1 << 54, 7),
        (-(1 << 62), 0),
        ((1 << 62) + 1, 31),
        (LARGEST_NUMBER + (1 << 32), 31),
    ]);
    let in_turn = numbers.into_iter().zip(0..);
    in_turn
        .map(|((number, shift), place)| value(number, shift, 7 * place % 10))
        .collect()
}

/// Places of which all but the first are refused.
const EDGE_PLACES: [u16; 6] = [9, 10, 255, 256, 265, 65_535];

/// Shifts of which all but the first are.
const EDGE_SHIFTS: [u16; 6] = [31, 32, 255, 256, 287, 65_535];

/// 17 by places, by the shift and by both; together with 18, with 19 and with both; and
/// 18 with 19.
pub fn refused() -> Vec<Lent> {
    let beyond = LARGEST_NUMBER + 1;
    let mut lent = Vec::new();
    for place in 0..6 {
        let (places, shift) = (EDGE_PLACES[place], EDGE_SHIFTS[place]);
        lent.push((value(8_388_600, 21, places), 40));
        lent.push((value(-8_388_600, shift, 3), 40));
        lent.push((value(LARGEST_NUMBER, shift, places), 40));
        // With the first places and the first shift, 18 and 19 refuse these alone.
        lent.push((value(-beyond, shift, 9), 40));
        lent.push((value(1, 0, places), 0));
    }
    lent.extend([
        (value(beyond, 0, 10), 40),
        (value(i64::MIN, 32, 9), 40),
        (value(i64::MIN, 32, 10), 0),
        (value(beyond, 31, 9), 0),
        (value(-beyond, 0, 9), 26),
        (value(i64::MIN, 0, 0), 19),
        (value(i64::MAX, 31, 0), 1),
    ]);
    lent
}

/// Texts in buffers that are empty, one byte too short, as long as they, one byte
/// longer, and far longer; the last is the longest text of all.
pub fn about_the_text() -> Vec<Lent> {
    let values = [
        value(7, 0, 0),
        value(-3, 2, 2),
        value(123_456_789, 14, 4),
        value(-1, 31, 9),
        value(-LARGEST_NUMBER, 0, 9),
    ];
    let rooms_of = |value: Value| {
        let length = text_of(&value).len();
        let mut rooms = vec![0, length - 1, length, length + 1, LONGEST_BUFFER];
        rooms.dedup();
        rooms.into_iter().map(move |room| (value, room))
    };
    values.into_iter().flat_map(rooms_of).collect()
}
