//! Values to print for 02, 2.6, from a seed: halves and what lies beside them, carries
//! through nines, numbers about half a last place, numbers at the ends, readings and
//! totals of the bench, any others, and refusals 17 to 19, alone and together.

use crate::call::Call;
use crate::generate::any_reading;
use crate::generate_call::LONGEST_BUFFER;
use crate::listed_values::{
    half_number, least_printed, least_shift_of_carries, number_of_remainder, BENCH_SHIFTS,
    LARGEST_NUMBER,
};
use crate::random::Random;
use crate::value::{text_of, Value, MOST_PLACES, MOST_SHIFT};

/// So many situations come in turn.
const SITUATIONS: u64 = 16;

/// Values to print, as many as `count`.
pub fn calls(seed: u64, count: u64) -> impl Iterator<Item = Call> {
    (0..count).map(move |number| value_call(seed, number))
}

/// One numbered value to print. In each situation the numbers of places come in turn.
pub fn value_call(seed: u64, number: u64) -> Call {
    let random = &mut Random::for_case(seed.rotate_left(32), number);
    let turn = number / SITUATIONS;
    let places = (turn % 10) as u16;
    let value = match number % SITUATIONS {
        0..=2 => half(random, places),
        3 => one_from_half(random, places),
        4 => nearest_to_half(random, places),
        5 | 6 => carry(random, places),
        7 => carry_in_the_fraction(random, 2 + places % 8),
        8 => about_the_sign(random, places),
        9 => short_value(random, places),
        10 => of_the_bench(random, places),
        11 => end_value(random, places),
        12 => return refused_by_17_or_18(random, places, turn),
        13 => return refused_by_several(random, places, turn),
        14 => return too_short_for_text(random, places),
        _ => any_value(random, places),
    };
    in_fitting_buffer(random, value)
}

// -------------------------------------------------------------------- buffers

fn lent(random: &mut Random, value: Value, room: usize) -> Call {
    let any = random.byte();
    let fill = random.pick(&[0x00, b'0', b'-', b'.', b'9', 0xEE, 0xFF, any]);
    Call::Value(value, room, fill)
}

/// A buffer that is as long as the text or longer; now and then one byte too short.
fn in_fitting_buffer(random: &mut Random, value: Value) -> Call {
    let length = text_of(&value).len();
    let room = match random.below(40) {
        0..=19 => length,
        20..=25 => length + 1,
        26 => length - 1,
        27 => LONGEST_BUFFER,
        28 => random.between(length, LONGEST_BUFFER),
        _ => random.between(length, length + 12),
    };
    lent(random, value, room)
}

/// A buffer that is shorter than the text, by one byte more often.
fn shorter_than_text(random: &mut Random, value: &Value) -> usize {
    let length = text_of(value).len();
    let any = random.below(length);
    random.pick(&[length - 1, length - 1, length - 1, any, 0])
}

// -------------------------------------------------------------------- numbers

fn with_sign(random: &mut Random, size: i64) -> i64 {
    random.pick(&[size, -size])
}

/// A number of at most so many bits, 63 or fewer, of any size.
fn any_size(random: &mut Random, bits: u32) -> i64 {
    let width = random.between(0, bits as usize);
    let any = random.next() >> 1;
    (any & ((1 << width) - 1)) as i64
}

fn any_shift(random: &mut Random) -> u16 {
    random.below(usize::from(MOST_SHIFT) + 1) as u16
}

/// A shift from `first` to 31, the ends more often.
fn shift_from(random: &mut Random, first: u16) -> u16 {
    let any = random.between(first.into(), MOST_SHIFT.into()) as u16;
    random.pick(&[any, any, any, any, first, MOST_SHIFT])
}

fn any_value(random: &mut Random, places: u16) -> Value {
    let size = any_size(random, 53);
    Value {
        number: with_sign(random, size),
        shift: any_shift(random),
        places,
    }
}

/// The digit before a half is even, or odd, each as often as the other.
fn half(random: &mut Random, places: u16) -> Value {
    let shift = shift_from(random, places + 1);
    half_at(random, shift, places)
}

fn half_at(random: &mut Random, shift: u16, places: u16) -> Value {
    let bits = 53 - u32::from(shift - places - 1) - 2;
    let odd = 4 * any_size(random, bits) + random.pick(&[1, 3]);
    Value {
        number: with_sign(random, half_number(shift, places, odd)),
        shift,
        places,
    }
}

/// A number that is a half but for 1.
fn one_from_half(random: &mut Random, places: u16) -> Value {
    let shift = shift_from(random, places + 2);
    let half = half_at(random, shift, places);
    Value {
        number: half.number + random.pick(&[1, -1]),
        ..half
    }
}

/// A value that is as near to a half as one can be, without being one.
fn nearest_to_half(random: &mut Random, places: u16) -> Value {
    let shift = shift_from(random, places + 2);
    let half = 1_u64 << (shift - places - 1);
    let remainder = random.pick(&[half - 1, half + 1]);
    let low = number_of_remainder(shift, places, remainder);
    let high = any_size(random, 53 - u32::from(shift - places));
    Value {
        number: with_sign(random, low + (high << (shift - places))),
        shift,
        places,
    }
}

/// A number below a whole one: near enough to be printed as it, or not quite. The whole
/// one is a power of ten, or any.
fn carry(random: &mut Random, places: u16) -> Value {
    let shift = shift_from(random, least_shift_of_carries(places));
    let largest = LARGEST_NUMBER >> shift;
    let power = 10_i64.pow(random.below(16) as u32);
    let any = any_size(random, 53 - u32::from(shift));
    let whole = random.pick(&[power, power, any]).clamp(1, largest);
    let reach = (1_i64 << shift) / (2 * 10_i64.pow(places.into()));
    let any = random.between(1, reach as usize) as i64;
    let below = random.pick(&[reach, reach, reach, any, any, 1, reach + 1]);
    Value {
        number: with_sign(random, (whole << shift) - below),
        shift,
        places,
    }
}

/// A number below one whose last places are 0: printed as it, or not quite.
fn carry_in_the_fraction(random: &mut Random, places: u16) -> Value {
    let shift = shift_from(random, least_shift_of_carries(places));
    let last_places = 10_u128.pow(places.into());
    let zeros = 10_u128.pow(random.between(1, usize::from(places) - 1) as u32);
    let largest = (last_places << 53) >> shift;
    let any = any_size(random, 53) as u128 * last_places >> shift;
    let target = (any / zeros * zeros).clamp(zeros, largest / zeros * zeros);
    // The number nearest below the target, and the one half a last place below it.
    let nearest = ((target << shift) - 1) / last_places;
    let lowest = ((2 * target - 1) << shift).div_ceil(2 * last_places);
    let size = random.pick(&[nearest, lowest, lowest, lowest - 1]);
    Value {
        number: with_sign(random, size as i64),
        shift,
        places,
    }
}

/// Mostly negative numbers that are printed as 0, or hardly aren't.
fn about_the_sign(random: &mut Random, places: u16) -> Value {
    let shift = shift_from(random, least_shift_of_carries(places));
    let least = least_printed(shift, places);
    let any = random.between(1, least as usize) as i64;
    let size = random.pick(&[least - 1, least - 1, 1, any, any, least, least, least + 1]);
    Value {
        number: random.pick(&[-size, -size, -size, size]),
        shift,
        places,
    }
}

/// A value with few digits, or 0: zeros stand behind them.
fn short_value(random: &mut Random, places: u16) -> Value {
    let shift = any_shift(random);
    let digits = any_size(random, 12);
    let number = digits << random.between(usize::from(shift) / 2, shift.into());
    Value {
        number: with_sign(random, number),
        shift,
        places,
    }
}

fn of_the_bench(random: &mut Random, places: u16) -> Value {
    let reading = i64::from(any_reading(random));
    let size = any_size(random, 50);
    let total = with_sign(random, size);
    let shift = random.pick(&BENCH_SHIFTS);
    let (number, shift) = random.pick(&[(reading, shift), (reading, shift), (total, 21)]);
    Value {
        number,
        shift,
        places,
    }
}

/// A number about 2^53 in size, but not beyond it.
fn end_value(random: &mut Random, places: u16) -> Value {
    let less = any_size(random, 40);
    let size = LARGEST_NUMBER - random.pick(&[0, 0, 1, 2, less]);
    let any = any_shift(random);
    Value {
        number: with_sign(random, size),
        shift: random.pick(&[0, 1, MOST_SHIFT, any, any]),
        places,
    }
}

// ------------------------------------------------------------------- refusals

/// A number beyond 2^53 in size: by one, by little, by far, or at the end of 64 bits.
fn beyond(random: &mut Random) -> i64 {
    let more = any_size(random, 62);
    let size = LARGEST_NUMBER + random.pick(&[1, 1, 2, more + 1, more + 1]);
    let number = with_sign(random, size);
    random.pick(&[
        number,
        number,
        number,
        number,
        i64::MIN,
        i64::MIN + 1,
        i64::MAX,
    ])
}

/// Places above 9, a shift above 31, or both. In the lowest 8 bits they may be right.
fn with_fault_of_17(random: &mut Random, value: Value) -> Value {
    let mut other = value;
    let faults = random.pick(&[1, 1, 2, 2, 3]);
    if faults & 1 > 0 {
        let any = (random.next() as u16).max(MOST_PLACES + 1);
        other.places = random.pick(&[10, 10, 11, 255, 256, 256 + value.places, 65_535, any]);
    }
    if faults & 2 > 0 {
        let any = (random.next() as u16).max(MOST_SHIFT + 1);
        other.shift = random.pick(&[32, 32, 33, 64, 255, 256, 256 + value.shift, 65_535, any]);
    }
    other
}

/// One of the two alone: the buffer is long enough for any text.
fn refused_by_17_or_18(random: &mut Random, places: u16, turn: u64) -> Call {
    let good = any_value(random, places);
    let end = end_value(random, places);
    let value = match turn / 10 % 2 {
        0 => {
            let value = random.pick(&[good, good, end]);
            with_fault_of_17(random, value)
        }
        _ => Value {
            number: beyond(random),
            ..good
        },
    };
    let room = random.between(31, 60);
    lent(random, value, room)
}

/// 17 with 18, 17 with 19, 18 with 19, or all three. A value that 17 refuses has no text,
/// but no text is empty.
fn refused_by_several(random: &mut Random, places: u16, turn: u64) -> Call {
    let good = any_value(random, places);
    let large = Value {
        number: beyond(random),
        ..good
    };
    let long_enough = random.between(31, 60);
    let (value, room) = match turn / 10 % 4 {
        0 => (with_fault_of_17(random, large), long_enough),
        1 => (with_fault_of_17(random, good), 0),
        2 => (large, shorter_than_text(random, &large)),
        _ => (with_fault_of_17(random, large), 0),
    };
    lent(random, value, room)
}

/// 19 alone.
fn too_short_for_text(random: &mut Random, places: u16) -> Call {
    let any = any_value(random, places);
    let half = half(random, places);
    let carry = carry(random, places);
    let end = end_value(random, places);
    let value = random.pick(&[any, half, carry, end]);
    let room = shorter_than_text(random, &value);
    lent(random, value, room)
}
