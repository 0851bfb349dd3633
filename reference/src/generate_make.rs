//! Datagrams to write and rehearsal lines from a seed, as single calls and as
//! whole inputs of the making program: each refusal and what lies just beside
//! it, the order of the refusals, and what a careless writer or reader of lines
//! gets wrong.

use crate::call::Call;
use crate::generate::{doubtful_setup_line, good_setup, refused_setup, setup_of_case, stream};
use crate::layout::{datagram_length, layout_of, Layout};
use crate::listed;
use crate::make::{Values, VALUE_COUNT};
use crate::random::Random;
use crate::rehearsal::{LONGEST_REHEARSAL_LINE, MISSED, MORE_FIELDS};
use crate::session::{feed, open_session, Outcome};
use crate::setup::{setup_line, Setup};
use crate::whole_piece::lines_of;
use crate::{Refusal, HIGHEST_READING, LOWEST_READING};

/// The longest buffer that a datagram record lends.
const LONGEST_BUFFER: usize = 400;

/// The longest line of an input of the making program.
const LONGEST_LINE: usize = 200_000;

/// The seed of the generated records that crates/probe keeps.
pub const STORED_SEED: u64 = 725;
const STORED_DATAGRAMS: u64 = 150;
const STORED_REHEARSAL_LINES: u64 = 60;

/// The datagrams to write and the rehearsal lines that crates/probe keeps: the
/// listed ones and generated ones.
pub fn stored_calls() -> Vec<Call> {
    let listed = listed::make_cases().into_iter().map(|(call, _)| call);
    let datagrams = (0..STORED_DATAGRAMS).map(|number| datagram_call(STORED_SEED, number));
    let lines = (0..STORED_REHEARSAL_LINES).map(|number| line_call(STORED_SEED, number));
    listed.chain(datagrams).chain(lines).collect()
}

// ------------------------------------------------------------------ datagrams

/// One numbered datagram to write. The situations come in turn, each with every
/// identifier and termination in 288 cases in a row.
pub fn datagram_call(seed: u64, number: u64) -> Call {
    let random = &mut Random::for_case(seed.rotate_left(16), number);
    let mut setup = setup_of_case(random, number);
    let length = datagram_length(&setup).expect("the setup is good");
    let mut values = carried_values(random, &setup);
    let mut room = fitting_room(random, length);
    match number % 9 {
        // Within all ranges.
        0 => {}
        // At the ends of all ranges.
        1 => values = end_values(random, &setup),
        // One value just outside, at either end.
        2 => spoil_width(random, &setup, &mut values, just_outside),
        // One value far outside, or so that its lowest bits are within.
        3 => spoil_width(random, &setup, &mut values, far_outside),
        // One value not 0 in a part that isn't carried.
        4 => spoil_part(random, &setup, &mut values),
        // A setup refused by each of 4 to 9, with 15 and 16 wrong as well or not.
        5 => {
            if random.one_in(2) {
                spoil_anything(random, &setup, &mut values);
            }
            if random.one_in(2) {
                room = doubtful_room(random, length);
            }
            // Another one for each setup with every 288 cases.
            let turn = number / 9 + number / 288;
            setup = refused_setup(random, &setup, (4 + turn % 6) as Refusal);
        }
        // Buffers of every length.
        6 => room = doubtful_room(random, length),
        // The same, with a value that is refused before.
        7 => {
            spoil_anything(random, &setup, &mut values);
            room = doubtful_room(random, length);
        }
        // An accepted datagram again.
        _ => values = accepted_values(random, &setup),
    }
    let any = random.byte();
    let fill = random.pick(&[0x00, 0x0A, 0xEE, 0xFF, setup.identifier as u8, any]);
    Call::Make(setup, Box::new(values), room, fill)
}

fn fitting_room(random: &mut Random, length: usize) -> usize {
    let any = random.between(length, LONGEST_BUFFER);
    random
        .pick(&[length, length, length + 1, 65, LONGEST_BUFFER, any])
        .max(length)
}

fn doubtful_room(random: &mut Random, length: usize) -> usize {
    let shorter = random.below(length);
    let any = random.below(LONGEST_BUFFER + 1);
    random.pick(&[
        0,
        1,
        length - 1,
        length - 1,
        length,
        length + 1,
        shorter,
        any,
    ])
}

/// The ends of the range of a value, by its place in [`Values::list`].
fn range_of(place: usize) -> (i32, i32) {
    match place {
        0..=8 | 24 => (LOWEST_READING, HIGHEST_READING),
        12..=20 => (-32_768, 32_767),
        27 => (0, 65_535),
        _ => (0, 255),
    }
}

/// Whether the value at a place belongs to a part that is carried.
fn is_carried(layout: &Layout, place: usize) -> bool {
    match place {
        0..=8 => layout.carries[place / 3],
        9..=11 => layout.carries[place - 9],
        12..=20 => layout.temperatures && layout.carries[(place - 12) / 3],
        21..=23 => layout.temperatures && layout.carries[place - 21],
        24 | 25 => layout.auxiliary,
        _ => true,
    }
}

fn layout_for(setup: &Setup) -> Layout {
    layout_of(setup.identifier).expect("the setup is good")
}

/// A value within its range, the ends more often.
fn value_within(random: &mut Random, place: usize) -> i32 {
    let (lowest, highest) = range_of(place);
    let any = lowest + random.below((highest - lowest) as usize + 1) as i32;
    let near_zero = random.pick(&[0, 1, -1]).clamp(lowest, highest);
    random.pick(&[
        lowest,
        lowest + 1,
        highest - 1,
        highest,
        near_zero,
        any,
        any,
        any,
    ])
}

/// Values within their ranges, 0 in the parts that aren't carried.
fn carried_values(random: &mut Random, setup: &Setup) -> Values {
    let layout = layout_for(setup);
    Values::of_list(&std::array::from_fn(|place| {
        if is_carried(&layout, place) {
            value_within(random, place)
        } else {
            0
        }
    }))
}

/// All at the lowest, all at the highest, or each at either end.
fn end_values(random: &mut Random, setup: &Setup) -> Values {
    let layout = layout_for(setup);
    let manner = random.below(3);
    Values::of_list(&std::array::from_fn(|place| {
        let (lowest, highest) = range_of(place);
        if !is_carried(&layout, place) {
            return 0;
        }
        match manner {
            0 => lowest,
            1 => highest,
            _ => random.pick(&[lowest, highest]),
        }
    }))
}

fn just_outside(random: &mut Random, place: usize) -> i32 {
    let (lowest, highest) = range_of(place);
    random.pick(&[lowest - 1, highest + 1])
}

/// The ends of an i32, a value that whole turns of the range bring within it,
/// or any that isn't within it.
fn far_outside(random: &mut Random, place: usize) -> i32 {
    let (lowest, highest) = range_of(place);
    let turn = highest - lowest + 1;
    let within = value_within(random, place);
    let any = random.next() as i32;
    let chosen = random.pick(&[
        i32::MIN,
        i32::MAX,
        within + turn,
        within - turn,
        within + 3 * turn,
        any,
    ]);
    if (lowest..=highest).contains(&chosen) {
        return i32::MIN;
    }
    chosen
}

/// Puts one value of a carried part outside its range.
fn spoil_width(
    random: &mut Random,
    setup: &Setup,
    values: &mut Values,
    outside: fn(&mut Random, usize) -> i32,
) {
    let layout = layout_for(setup);
    let carried: Vec<usize> = (0..VALUE_COUNT)
        .filter(|&place| is_carried(&layout, place))
        .collect();
    let place = random.pick(&carried);
    let value = outside(random, place);
    set_value(values, place, value);
}

/// Makes one value of a part that isn't carried other than 0; where all parts
/// are carried, one is put outside its range.
fn spoil_part(random: &mut Random, setup: &Setup, values: &mut Values) {
    let layout = layout_for(setup);
    let missing: Vec<usize> = (0..VALUE_COUNT)
        .filter(|&place| !is_carried(&layout, place))
        .collect();
    if missing.is_empty() {
        return spoil_width(random, setup, values, just_outside);
    }
    let place = random.pick(&missing);
    let value = match value_within(random, place) {
        0 => 1,
        other => other,
    };
    set_value(values, place, value);
}

/// Makes the values such that 15 refuses them.
fn spoil_anything(random: &mut Random, setup: &Setup, values: &mut Values) {
    match random.below(3) {
        0 => spoil_width(random, setup, values, just_outside),
        1 => spoil_width(random, setup, values, far_outside),
        _ => spoil_part(random, setup, values),
    }
}

fn set_value(values: &mut Values, place: usize, value: i32) {
    let mut list = values.list();
    list[place] = value;
    *values = Values::of_list(&list);
}

/// The fields of a datagram that is handed out along a generated stream.
fn accepted_values(random: &mut Random, setup: &Setup) -> Values {
    loop {
        let piece = stream(random, setup, 200);
        let session = open_session(setup).expect("the setup is good");
        let answer = feed(&session, &piece);
        if answer.outcome == Outcome::Datagram {
            return Values::of_fields(&answer.datagram.fields);
        }
    }
}

// ------------------------------------------------------------ rehearsal lines

/// One numbered rehearsal line as a call.
pub fn line_call(seed: u64, number: u64) -> Call {
    let random = &mut Random::for_case(seed.rotate_left(32), number);
    let setup = setup_of_case(random, number);
    Call::RehearsalLine(line_of_situation(random, &setup, number % 9))
}

/// A line without its end, of one of nine situations.
fn line_of_situation(random: &mut Random, setup: &Setup, situation: u64) -> Vec<u8> {
    match situation {
        // As the receiving program prints it.
        0 => printed_line(random, setup),
        // With temperatures and AUX.
        1 => fields_with(random, setup, MORE_FIELDS).join(&b','),
        // Numbers outside their ranges, at the ends of an i32, and beyond them.
        2 => wide_line(random, setup),
        3 => line_of_other_count(random, setup),
        4 | 5 => line_with_no_number(random, setup),
        // About 512 bytes, good but for that.
        6 => {
            let line = any_fields(random, setup);
            line_about_limit(random, line)
        }
        // The same with another fault.
        7 => {
            let line = match random.below(2) {
                0 => line_of_other_count(random, setup),
                _ => line_with_no_number(random, setup),
            };
            let fields = fields_of_line(&line);
            line_about_limit(random, fields)
        }
        // Another count and no number in a field, or bytes of any kind.
        _ => {
            if random.one_in(4) {
                let length = random.between(0, 600);
                return random.bytes(length);
            }
            let mut fields = fields_of_line(&line_of_other_count(random, setup));
            spoil_field(random, &mut fields);
            fields.join(&b',')
        }
    }
}

fn fields_of_line(line: &[u8]) -> Vec<Vec<u8>> {
    line.split(|&byte| byte == b',')
        .map(|field| field.to_vec())
        .collect()
}

/// A text line of the receiving program, of a setup's stream.
fn printed_line(random: &mut Random, setup: &Setup) -> Vec<u8> {
    loop {
        let piece = stream(random, setup, 300);
        let session = open_session(setup).expect("the setup is good");
        let (lines, _) = lines_of(&session, &piece).expect("the piece is short");
        let lines: Vec<&[u8]> = lines.split(|&byte| byte == 0x0A).collect();
        // Behind the last line end stands nothing.
        if lines.len() > 1 {
            return lines[random.below(lines.len() - 1)].to_vec();
        }
    }
}

/// The fields of a line with values that are good for the setup: 25, without
/// temperatures and AUX, or 39.
fn fields_with(random: &mut Random, setup: &Setup, count: usize) -> Vec<Vec<u8>> {
    let values = match random.below(3) {
        0 => end_values(random, setup),
        1 => accepted_values(random, setup),
        _ => carried_values(random, setup),
    };
    fields_from(random, &values, count)
}

fn any_fields(random: &mut Random, setup: &Setup) -> Vec<Vec<u8>> {
    let count = random.pick(&[25, 39]);
    fields_with(random, setup, count)
}

/// The fields in which these values stand; of the ones that are ignored, any.
fn fields_from(random: &mut Random, values: &Values, count: usize) -> Vec<Vec<u8>> {
    let mut fields = vec![
        ignored_field(random),
        number_field(random, values.counter),
        number_field(random, values.latency),
        ignored_field(random),
    ];
    if random.one_in(3) {
        fields[MISSED] = b"?".to_vec();
    }
    for group in 0..3 {
        for reading in values.readings[group] {
            fields.push(number_field(random, reading));
        }
        fields.push(number_field(random, values.statuses[group]));
        for _ in 0..3 {
            fields.push(ignored_field(random));
        }
    }
    if count == MORE_FIELDS {
        for group in 0..3 {
            for temperature in values.temperatures[group] {
                fields.push(number_field(random, temperature));
            }
            fields.push(number_field(random, values.temperature_statuses[group]));
        }
        fields.push(number_field(random, values.aux));
        fields.push(number_field(random, values.aux_status));
    }
    fields
}

/// A value as a field; 0 may be empty.
fn number_field(random: &mut Random, value: i32) -> Vec<u8> {
    if value == 0 && random.one_in(2) {
        return Vec::new();
    }
    value.to_string().into_bytes()
}

/// A field of which only the writing is looked at.
fn ignored_field(random: &mut Random) -> Vec<u8> {
    match random.below(4) {
        0 => Vec::new(),
        1 => b"0".to_vec(),
        2 => random.below(300).to_string().into_bytes(),
        _ => {
            let number = random.next() as i64 >> random.below(64);
            number.to_string().into_bytes()
        }
    }
}

/// Some fields hold numbers that a careless reader turns into others.
fn wide_line(random: &mut Random, setup: &Setup) -> Vec<u8> {
    let mut fields = any_fields(random, setup);
    for _ in 0..random.between(1, 6) {
        let place = random.below(fields.len());
        fields[place] = wide_number(random);
    }
    fields.join(&b',')
}

fn wide_number(random: &mut Random) -> Vec<u8> {
    if random.one_in(4) {
        let sign = random.pick(&["", "-"]);
        let first = random.between(1, 9);
        let digits: String = (0..random.pick(&[9, 18, 19, 39]))
            .map(|_| random.below(10).to_string())
            .collect();
        return format!("{sign}{first}{digits}").into_bytes();
    }
    pick_text(
        random,
        &[
            "256",
            "-1",
            "65536",
            "8388608",
            "-8388609",
            "32768",
            "-32769",
            "2147483646",
            "2147483647",
            "2147483648",
            "-2147483647",
            "-2147483648",
            "-2147483649",
            // 2^32, which is 0 in 32 bits, and neighbours.
            "4294967295",
            "4294967296",
            "4294967301",
            "-4294967295",
            "-4294967296",
            "9223372036854775807",
            "9223372036854775808",
            "-9223372036854775808",
            "-9223372036854775809",
            // 2^64 and 2^128, and neighbours.
            "18446744073709551615",
            "18446744073709551617",
            "-18446744073709551617",
            "340282366920938463463374607431768211457",
            "1000000000000000000000000000000000000000",
            "-1000000000000000000000000000000000000000",
        ],
    )
}

/// A line with about as many fields as one of 25 or 39, with none, or commas
/// alone, which may be as many as wanted.
fn line_of_other_count(random: &mut Random, setup: &Setup) -> Vec<u8> {
    let mut fields = any_fields(random, setup);
    match random.below(12) {
        0 => return Vec::new(),
        1 | 2 => {
            let count = random.pick(&[1, 23, 24, 25, 37, 38, 39]);
            return vec![b','; count];
        }
        3 => {
            let count = random.between(0, 60);
            return vec![b','; count];
        }
        // One fewer.
        4 | 5 => {
            let place = random.below(fields.len());
            fields.remove(place);
        }
        // One more.
        6 | 7 => {
            let place = random.below(fields.len() + 1);
            fields.insert(place, pick_text(random, &["0", "", "7"]));
        }
        // A comma behind the last field, or before the first.
        8 => fields.push(Vec::new()),
        9 => fields.insert(0, Vec::new()),
        // Other separators.
        10 => {
            let separator = random.pick(b"; \t.");
            return fields.join(&separator);
        }
        // Between 25 and 39, or far more.
        _ => {
            let count = random.pick(&[26, 27, 31, 32, 37, 50, 64, 100]);
            fields.resize(count, b"1".to_vec());
        }
    }
    fields.join(&b',')
}

/// A line with a field that is no whole number, or nearly so.
fn line_with_no_number(random: &mut Random, setup: &Setup) -> Vec<u8> {
    let mut fields = any_fields(random, setup);
    spoil_field(random, &mut fields);
    if random.one_in(6) {
        spoil_field(random, &mut fields);
    }
    fields.join(&b',')
}

fn spoil_field(random: &mut Random, fields: &mut Vec<Vec<u8>>) {
    let last = fields.len() - 1;
    let place = random.below(fields.len());
    let field = &mut fields[place];
    match random.below(16) {
        0 => *field = b"-0".to_vec(),
        1 => *field = pick_text(random, &["-", "--1", "-00", "1-", "-01", "-?"]),
        2 => *field = pick_text(random, &["+1", "+0", "+", "1+", "+-1"]),
        3 => *field = pick_text(random, &["007", "00", "01", "0123", "0000000000000000001"]),
        4 => {
            *field = pick_text(
                random,
                &["a", "x", "A", "0x1", "1e3", "1.0", "1_000", "NaN", "O"],
            )
        }
        5 => {
            *field = pick_text(
                random,
                &[" 1", "1 ", " ", "\t1", "1\t", "- 1", "1 2", "\"1\""],
            )
        }
        // Out of its place, or in it.
        6 => *field = b"?".to_vec(),
        7 if last >= MISSED => {
            fields[MISSED] = pick_text(random, &["?", "??", "-?", " ?", "?0", "0?", "7", "", "-7"]);
        }
        // A byte before, behind or in it, also those beside the digits.
        8 => field.push(random.pick(b"\x00\x01\x07\x08\x0b\x0c\x1b\x7f/:;@!")),
        9 => field.insert(0, random.pick(b"\x00\x01\x07\x08\x0b\x0c\x1b\x7f/:;@!")),
        10 => field.push(random.pick(&[0x80, 0xB0, 0xB9, 0xFF, 0xAD, 0xAC])),
        11 if !field.is_empty() => {
            let digit = random.below(field.len());
            field[digit] ^= random.pick(&[0x80, 0x40, 0x10, 0x01]);
        }
        // 0x0D at the end belongs to the last field.
        12 => fields[last].push(0x0D),
        // A line end inside.
        13 => field.push(0x0A),
        14 => {
            // U+FEFF, and digits that aren't 0 to 9.
            *field = random
                .pick(&["\u{feff}1", "\u{0661}", "\u{ff11}", "\u{2212}1"])
                .as_bytes()
                .to_vec();
        }
        _ => {
            let any = random.byte();
            field.push(any);
        }
    }
}

/// A line of these fields with about 512 bytes: one of them grows to a long
/// number, or the last one to a long row of something else.
fn line_about_limit(random: &mut Random, mut fields: Vec<Vec<u8>>) -> Vec<u8> {
    let limit = LONGEST_REHEARSAL_LINE;
    let any = random.between(limit - 5, limit + 5);
    let length = random.pick(&[limit - 1, limit, limit, limit + 1, limit + 1, any]);
    if random.one_in(10) {
        let mut line = fields.join(&b',');
        line.resize(length, random.pick(b", 0?x"));
        return line;
    }
    let place = random.below(fields.len());
    fields[place].clear();
    let others = fields.join(&b',').len();
    if length > others {
        fields[place] = vec![random.pick(b"19"); length - others];
        if length > others + 1 && random.one_in(3) {
            fields[place][0] = b'-';
        }
    }
    fields.join(&b',')
}

fn pick_text(random: &mut Random, choices: &[&str]) -> Vec<u8> {
    random.pick(choices).as_bytes().to_vec()
}

// --------------------------------------------------------------------- inputs

/// The input of one numbered case of a seed for the making program: a setup
/// line and rehearsal lines.
pub fn rehearsal_input(seed: u64, number: u64) -> Vec<u8> {
    let random = &mut Random::for_case(seed.rotate_left(48), number);
    let setup = good_setup(random);
    let mut input = match random.below(12) {
        0..=8 => setup_line(&setup).into_bytes(),
        9 | 10 => doubtful_setup_line(random, &setup),
        _ => odd_first_line(random),
    };
    // The setup line may end at the end of the input, too.
    if random.one_in(40) {
        return input;
    }
    input.push(0x0A);
    let line_count = match random.below(60) {
        // Longer than 70,000 bytes in all.
        0 => 1500,
        1..=5 => 0,
        _ => random.between(1, 40),
    };
    let very_long_lines = line_count <= 40 && random.one_in(12);
    let good_share = random.pick(&[0, 50, 90, 100]);
    for _ in 0..line_count {
        if very_long_lines && random.one_in(8) {
            input.extend(very_long_line(random));
        } else if random.below(100) < good_share {
            input.extend(good_line(random, &setup));
        } else {
            let situation = random.below(9) as u64;
            input.extend(line_of_situation(random, &setup, situation));
        }
        input.push(0x0A);
    }
    // The last line may end at the end of the input.
    if line_count > 0 && random.one_in(3) {
        input.pop();
    }
    input
}

/// A first line that is empty or very long.
fn odd_first_line(random: &mut Random) -> Vec<u8> {
    match random.below(3) {
        0 => Vec::new(),
        1 => b"1000,90,0,3,0,0,21,0,0,".repeat(random.between(1, 4)),
        _ => very_long_line(random),
    }
}

/// A line that the setup makes a datagram of.
fn good_line(random: &mut Random, setup: &Setup) -> Vec<u8> {
    if random.one_in(3) {
        return printed_line(random, setup);
    }
    any_fields(random, setup).join(&b',')
}

/// A line of up to 200,000 bytes: of one byte, of many good lines in a row, or
/// of any bytes but line ends.
fn very_long_line(random: &mut Random) -> Vec<u8> {
    let size = 1 << random.between(10, 17);
    let length = random.between(size, 2 * size).min(LONGEST_LINE);
    match random.below(3) {
        0 => vec![random.pick(b",0 1x"); length],
        1 => b"1,2,0,0,8388600,0,0,0,0,0,0,,,,,,,,,,,,,,"
            .iter()
            .copied()
            .cycle()
            .take(length)
            .collect(),
        _ => random
            .bytes(length)
            .iter()
            .map(|&byte| if byte == 0x0A { 0x0D } else { byte })
            .collect(),
    }
}
