//! 02, 2.6: a total or a reading over 2^shift in decimal digits, and refusals 17 to
//! 19. The exact value has a finite list of decimal digits, which comes from halving
//! the number's own digits; the printed ones come from cutting that list.

use std::cmp::Ordering;

use crate::Refusal;

/// 17. Places above 9 or a shift above 31 are refused.
pub const MOST_PLACES: u16 = 9;
pub const MOST_SHIFT: u16 = 31;

/// 18. A number beyond 2^53 in size is refused; 2^53 itself passes.
pub const LARGEST_SIZE: u64 = 1 << 53;

/// What is printed: number / 2^shift with so many digits behind the point.
#[derive(Clone, Copy, Debug, PartialEq, Eq, Hash)]
pub struct Value {
    pub number: i64,
    pub shift: u16,
    pub places: u16,
}

/// Prints number / 2^shift with so many places into the front of a lent buffer and
/// returns how many bytes the text has. Refusals 17, then 18, then 19; a refusal
/// leaves the buffer untouched.
pub fn print_value(
    number: i64,
    shift: u16,
    places: u16,
    buffer: &mut [u8],
) -> Result<usize, Refusal> {
    let value = Value {
        number,
        shift,
        places,
    };
    judge_value(&value)?;
    let text = text_of(&value);
    // 19. The lent buffer is shorter than the text.
    if buffer.len() < text.len() {
        return Err(19);
    }
    buffer[..text.len()].copy_from_slice(text.as_bytes());
    Ok(text.len())
}

/// Refusals 17 and 18.
pub fn judge_value(value: &Value) -> Result<(), Refusal> {
    if value.places > MOST_PLACES || value.shift > MOST_SHIFT {
        return Err(17);
    }
    if value.number.unsigned_abs() > LARGEST_SIZE {
        return Err(18);
    }
    Ok(())
}

/// The text of a value: `-` if it is negative and a digit other than 0 is printed, the
/// whole part, and unless places is 0 a `.` and that many digits. A number beyond 2^53
/// has one too.
pub fn text_of(value: &Value) -> String {
    let mut decimal = Decimal::of(value.number.unsigned_abs());
    for _ in 0..value.shift {
        decimal.halve();
    }
    decimal.round(value.places.into());
    let mut text = String::new();
    if value.number < 0 && decimal.has_digit_but_0() {
        text.push('-');
    }
    let zeros = decimal.whole.iter().take_while(|&&digit| digit == 0);
    let leading = zeros.count().min(decimal.whole.len() - 1);
    text.extend(decimal.whole[leading..].iter().map(character_of));
    if value.places > 0 {
        text.push('.');
        text.extend(decimal.fraction.iter().map(character_of));
    }
    text
}

fn character_of(digit: &u8) -> char {
    char::from(b'0' + digit)
}

/// A number that isn't negative, as its digits before the point, one at least, and
/// those behind it. The highest comes first.
struct Decimal {
    whole: Vec<u8>,
    fraction: Vec<u8>,
}

impl Decimal {
    fn of(number: u64) -> Decimal {
        let mut whole = Vec::new();
        let mut left = number;
        loop {
            whole.insert(0, (left % 10) as u8);
            left /= 10;
            if left == 0 {
                break;
            }
        }
        Decimal {
            whole,
            fraction: Vec::new(),
        }
    }

    /// The digits from the highest to the lowest.
    fn digits(&mut self) -> impl DoubleEndedIterator<Item = &mut u8> {
        self.whole.iter_mut().chain(&mut self.fraction)
    }

    /// Half of it, exactly: each digit takes over the 1 that is left of the digit before
    /// it, and what is left of the last one is another digit, 5.
    fn halve(&mut self) {
        let mut left = 0;
        for digit in self.digits() {
            let dividend = 10 * left + *digit;
            *digit = dividend / 2;
            left = dividend % 2;
        }
        if left > 0 {
            self.fraction.push(5);
        }
    }

    /// Leaves so many digits behind the point. What is cut off goes to the nearer side,
    /// a half to the one with the even last digit.
    fn round(&mut self, places: usize) {
        let kept = places.min(self.fraction.len());
        let cut_off = self.fraction.split_off(kept);
        self.fraction.resize(places, 0);
        let last = self.digits().next_back().expect("there is a whole part");
        let is_odd = *last % 2 == 1;
        let goes_up = match compare_with_half(&cut_off) {
            Ordering::Less => false,
            Ordering::Equal => is_odd,
            Ordering::Greater => true,
        };
        if goes_up {
            self.add_one_in_last_place();
        }
    }

    /// A 9 becomes 0 and carries into the digit before it, if need be into a new one.
    fn add_one_in_last_place(&mut self) {
        for digit in self.digits().rev() {
            if *digit < 9 {
                *digit += 1;
                return;
            }
            *digit = 0;
        }
        self.whole.insert(0, 1);
    }

    fn has_digit_but_0(&mut self) -> bool {
        self.digits().any(|digit| *digit != 0)
    }
}

/// The digits that are cut off beside a 5 and zeros, which are half a last place.
fn compare_with_half(cut_off: &[u8]) -> Ordering {
    let Some((first, others)) = cut_off.split_first() else {
        return Ordering::Less;
    };
    let are_zeros = others.iter().all(|&digit| digit == 0);
    match first.cmp(&5) {
        Ordering::Equal if !are_zeros => Ordering::Greater,
        order => order,
    }
}
