//! `capture KIND SIZE` writes a setup line and a stream of exactly SIZE bytes
//! to standard output. SIZE may end in K, M or G for 2^10, 2^20 and 2^30.
//! `capture example` writes the small capture that the manual shows.

use std::env;
use std::io::{self, stdout, BufWriter, ErrorKind, Write};
use std::process::ExitCode;

use stim_reference::datagram::{encode, Fields};
use stim_reference::fast::padded_check;
use stim_reference::layout::{datagram_length, layout_of};
use stim_reference::random::Random;
use stim_reference::setup::{setup_line, Setup};

const USAGE: &str = "usage: capture KIND SIZE\n       capture example\n\
    kinds: l18 l63 damaged junk identifiers identifiers63";

/// Rate only, integrated.
const SHORTEST: Setup = Setup {
    rate: 1000,
    identifier: 0x90,
    termination: 0,
    units: [3, 0, 0],
    shifts: [21, 0, 0],
};

/// Everything; the shifts of a 10 g accelerometer and of the inclinometer are
/// those of the datasheet.
const LONGEST: Setup = Setup {
    rate: 1000,
    identifier: 0xAF,
    termination: 0,
    units: [3, 0, 0],
    shifts: [21, 19, 22],
};

fn main() -> ExitCode {
    let arguments: Vec<String> = env::args().skip(1).collect();
    let arguments: Vec<&str> = arguments.iter().map(String::as_str).collect();
    let mut output = BufWriter::with_capacity(1 << 18, stdout().lock());
    let result = match arguments[..] {
        ["example"] => write_example(&mut output),
        [kind, size] => match (source_of(kind), read_size(size)) {
            (Some(source), Some(size)) => write_capture(source, size, &mut output),
            _ => return usage(),
        },
        _ => return usage(),
    };
    match result.and_then(|()| output.flush()) {
        Ok(()) => ExitCode::SUCCESS,
        // Whoever reads has seen enough.
        Err(error) if error.kind() == ErrorKind::BrokenPipe => {
            // What is still in the buffer can't be written either.
            let _ = output.into_parts();
            ExitCode::SUCCESS
        }
        Err(error) => {
            eprintln!("capture: {error}");
            ExitCode::FAILURE
        }
    }
}

fn usage() -> ExitCode {
    eprintln!("{USAGE}");
    ExitCode::from(2)
}

fn read_size(text: &str) -> Option<u64> {
    let (digits, factor) = match text.chars().last()? {
        'K' => (&text[..text.len() - 1], 1 << 10),
        'M' => (&text[..text.len() - 1], 1 << 20),
        'G' => (&text[..text.len() - 1], 1 << 30),
        _ => (text, 1),
    };
    digits.parse::<u64>().ok()?.checked_mul(factor)
}

/// What a stream is made of.
enum Source {
    /// Datagrams back to back; with `damaged`, one in ten has a damaged bit.
    Datagrams { sensor: Sensor, damaged: bool },
    /// Random bytes, and now and then a datagram.
    Junk { sensor: Sensor },
    /// Every byte the identifier.
    Identifiers { setup: Setup },
}

fn source_of(kind: &str) -> Option<Source> {
    let datagrams = |setup: Setup, damaged: bool| Source::Datagrams {
        sensor: Sensor::new(setup),
        damaged,
    };
    Some(match kind {
        "l18" => datagrams(SHORTEST, false),
        "l63" => datagrams(LONGEST, false),
        "damaged" => datagrams(SHORTEST, true),
        "junk" => Source::Junk {
            sensor: Sensor::new(SHORTEST),
        },
        "identifiers" => Source::Identifiers { setup: SHORTEST },
        "identifiers63" => Source::Identifiers { setup: LONGEST },
        _ => return None,
    })
}

fn write_capture(mut source: Source, size: u64, output: &mut impl Write) -> io::Result<()> {
    let setup = match &source {
        Source::Datagrams { sensor, .. } | Source::Junk { sensor } => sensor.setup,
        Source::Identifiers { setup } => *setup,
    };
    writeln!(output, "{}", setup_line(&setup))?;
    let mut random = Random::new(1);
    let mut chunk = Vec::new();
    let mut unwritten = size;
    while unwritten > 0 {
        chunk.clear();
        while chunk.len() < 1 << 16 {
            source.add(&mut random, &mut chunk);
        }
        let length = unwritten.min(chunk.len() as u64);
        output.write_all(&chunk[..length as usize])?;
        unwritten -= length;
    }
    Ok(())
}

impl Source {
    /// Adds some bytes of the stream.
    fn add(&mut self, random: &mut Random, bytes: &mut Vec<u8>) {
        match self {
            Source::Datagrams { sensor, damaged } => {
                let datagram = sensor.next_datagram(random);
                if *damaged && random.one_in(10) {
                    let place = random.below(datagram.len());
                    let start = bytes.len();
                    bytes.extend_from_slice(datagram);
                    bytes[start + place] ^= 1 << random.below(8);
                } else {
                    bytes.extend_from_slice(datagram);
                }
            }
            Source::Junk { sensor } => {
                for _ in 0..512 {
                    bytes.extend_from_slice(&random.next().to_le_bytes());
                }
                bytes.extend_from_slice(sensor.next_datagram(random));
            }
            Source::Identifiers { setup } => {
                bytes.resize(bytes.len() + 4096, setup.identifier as u8);
            }
        }
    }
}

/// A sensor that fills in one datagram again and again.
struct Sensor {
    setup: Setup,
    bytes_before_check: usize,
    datagram: Vec<u8>,
    angles: [i32; 9],
}

impl Sensor {
    fn new(setup: Setup) -> Sensor {
        let layout = layout_of(setup.identifier).expect("the setups are good");
        let length = datagram_length(&setup).expect("the setups are good");
        let mut datagram = vec![0; length];
        datagram[0] = setup.identifier as u8;
        Sensor {
            setup,
            bytes_before_check: layout.bytes_before_check,
            datagram,
            angles: [0; 9],
        }
    }

    /// The readings wander and fold, Z fastest; all statuses are 0.
    fn next_datagram(&mut self, random: &mut Random) -> &[u8] {
        let layout = layout_of(self.setup.identifier).expect("the setups are good");
        let noise = random.next();
        let mut position = 1;
        for group in 0..3 {
            if !layout.carries[group] {
                continue;
            }
            for axis in 0..3 {
                let angle = &mut self.angles[3 * group + axis];
                let drift = [1, -2, 40][axis];
                let wobble = (noise >> (20 * axis)) as i32 & 0xFFFF;
                *angle = angle.wrapping_add(drift + wobble - 0x8000);
                self.datagram[position..position + 3].copy_from_slice(&angle.to_be_bytes()[1..]);
                position += 3;
            }
            position += 1;
        }
        let step = (2000 / self.setup.rate) as u8;
        let counter = &mut self.datagram[self.bytes_before_check - 3];
        *counter = counter.wrapping_add(step);
        let latency = (noise >> 48) as u16 % 1000;
        self.datagram[self.bytes_before_check - 2..self.bytes_before_check]
            .copy_from_slice(&latency.to_be_bytes());
        let padding = (4 - self.bytes_before_check % 4) % 4;
        let check = padded_check(
            &self.datagram,
            self.bytes_before_check,
            u32::MAX << (8 * padding),
        );
        self.datagram[self.bytes_before_check..self.bytes_before_check + 4]
            .copy_from_slice(&check.to_be_bytes());
        &self.datagram
    }
}

// --------------------------------------------------------------- the example

/// The manual's capture: 32 seconds at 125 datagrams a second of a head that
/// swings slowly. X swings by 20 degrees, Y by 6, Z turns at an even rate; a
/// reading folds at 4 degrees.
fn write_example(output: &mut impl Write) -> io::Result<()> {
    const DATAGRAMS: u32 = 4000;
    /// The sensor starts up during the first second.
    const START_UP_END: u32 = 125;
    /// These datagrams are lost: 12 of them, then 1 that arrives damaged.
    const LOST: std::ops::Range<u32> = 1300..1312;
    const DAMAGED: u32 = 2700;
    /// X is overloaded for a third of a second, in which it turns by less than
    /// the 4 degrees that a total can bridge.
    const OVERLOAD: std::ops::Range<u32> = 2000..2040;
    /// Before these datagrams there is junk on the line.
    const JUNK: [u32; 3] = [0, 900, 3300];

    let setup = Setup {
        rate: 125,
        ..SHORTEST
    };
    let step = 2000 / setup.rate;
    let mut random = Random::new(125);
    writeln!(output, "{}", setup_line(&setup))?;
    for number in 0..DATAGRAMS {
        if JUNK.contains(&number) {
            let mut junk = random.bytes(37);
            // Some of it looks like the beginning of a datagram.
            junk[5] = setup.identifier as u8;
            junk[30] = setup.identifier as u8;
            output.write_all(&junk)?;
        }
        let seconds = f64::from(number) / f64::from(setup.rate);
        let noise = random.below(400) as f64 / 2_f64.powi(21);
        let degrees = [
            20.0 * sine_of_turns(seconds / 16.0) + noise,
            6.0 * sine_of_turns(seconds / 10.0 + 0.25) - noise,
            0.75 * seconds + noise,
        ];
        let mut fields = Fields {
            counter: (number * step) as u8,
            latency: 200 + random.below(60) as u16,
            ..Fields::ZEROS
        };
        for axis in 0..3 {
            let steps = (degrees[axis] * 2_f64.powi(21)).floor() as i32;
            fields.readings[0][axis] = steps << 8 >> 8;
        }
        if number < START_UP_END {
            // The readings mean nothing yet.
            fields.statuses[0] = 0b0100_0000;
            fields.readings[0] = [0; 3].map(|_: i32| random.next() as i32 >> 8);
        }
        if OVERLOAD.contains(&number) {
            // Overload of X: its reading is stuck at the end of the range.
            fields.statuses[0] = 0b0001_0001;
            fields.readings[0][0] = 8_388_607;
        }
        if LOST.contains(&number) {
            continue;
        }
        let mut datagram = encode(&setup, &fields);
        if number == DAMAGED {
            datagram[7] ^= 0x10;
        }
        output.write_all(&datagram)?;
    }
    Ok(())
}

/// The sine of an angle given in turns, by its series, so that every machine
/// writes the same capture.
fn sine_of_turns(turns: f64) -> f64 {
    let nearest = turns - (turns + 0.5).floor();
    let angle = nearest * std::f64::consts::TAU;
    let mut term = angle;
    let mut sum = 0.0;
    for number in 1..20 {
        sum += term;
        let next = 2.0 * f64::from(number);
        term *= -angle * angle / (next * (next + 1.0));
    }
    sum
}
