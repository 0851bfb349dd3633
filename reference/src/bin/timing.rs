//! `timing CAPTURE FIRST SECOND ROUNDS` runs two programs on the same capture,
//! in turns, and prints the best processor time of each, what that makes in
//! megabytes and datagrams a second, its peak memory, and the ratio of the
//! times. First it holds the two outputs to each other, byte by byte.
//!
//! `timing --one PROGRAM CAPTURE` runs one program once and prints the seconds
//! on the clock, the processor seconds and the peak memory in KiB.

use std::env;
use std::fs::{self, File};
use std::io::{self, BufReader, Read};
use std::process::{Child, Command, ExitCode, Stdio};
use std::time::Instant;

/// The part of the C library's `struct rusage` that is read here, on Linux
/// with 64 bits: two times as seconds and microseconds, then the peak memory.
#[repr(C)]
struct Usage {
    user_seconds: i64,
    user_microseconds: i64,
    system_seconds: i64,
    system_microseconds: i64,
    peak_kibibytes: i64,
    rest: [i64; 13],
}

extern "C" {
    fn getrusage(who: i32, usage: *mut Usage) -> i32;
}

/// Of the children that have ended.
const CHILDREN: i32 = -1;

#[derive(Clone, Copy)]
struct Figures {
    clock: f64,
    processor: f64,
    peak_kibibytes: i64,
}

fn main() -> ExitCode {
    let arguments: Vec<String> = env::args().skip(1).collect();
    let result = match arguments.as_slice() {
        [mode, program, capture] if mode == "--one" => one(program, capture),
        [capture, first, second, rounds] => match rounds.parse() {
            Ok(rounds) => both(capture, [first, second], rounds),
            Err(_) => return usage(),
        },
        _ => return usage(),
    };
    match result {
        Ok(()) => ExitCode::SUCCESS,
        Err(error) => {
            eprintln!("timing: {error}");
            ExitCode::FAILURE
        }
    }
}

fn usage() -> ExitCode {
    eprintln!("usage: timing CAPTURE FIRST SECOND ROUNDS");
    ExitCode::from(2)
}

fn start(program: &str, capture: &str, output: Stdio) -> io::Result<Child> {
    Command::new(program)
        .stdin(File::open(capture)?)
        .stdout(output)
        .spawn()
}

fn one(program: &str, capture: &str) -> io::Result<()> {
    let begun = Instant::now();
    start(program, capture, Stdio::null())?.wait()?;
    let clock = begun.elapsed().as_secs_f64();
    let mut usage = Usage {
        user_seconds: 0,
        user_microseconds: 0,
        system_seconds: 0,
        system_microseconds: 0,
        peak_kibibytes: 0,
        rest: [0; 13],
    };
    // The C library fills in the whole struct, which has its size.
    if unsafe { getrusage(CHILDREN, &mut usage) } != 0 {
        return Err(io::Error::last_os_error());
    }
    let seconds = usage.user_seconds + usage.system_seconds;
    let microseconds = usage.user_microseconds + usage.system_microseconds;
    let processor = seconds as f64 + microseconds as f64 / 1e6;
    println!("{clock} {processor} {}", usage.peak_kibibytes);
    Ok(())
}

/// A run in a process of its own, so that its peak memory is its own.
fn measured(program: &str, capture: &str) -> io::Result<Figures> {
    let output = Command::new(env::current_exe()?)
        .args(["--one", program, capture])
        .stderr(Stdio::inherit())
        .output()?;
    let text = String::from_utf8_lossy(&output.stdout).into_owned();
    let words: Vec<&str> = text.split_whitespace().collect();
    let figures = || -> Option<Figures> {
        Some(Figures {
            clock: words.first()?.parse().ok()?,
            processor: words.get(1)?.parse().ok()?,
            peak_kibibytes: words.get(2)?.parse().ok()?,
        })
    };
    figures().ok_or_else(|| io::Error::other(format!("no figures of {program}")))
}

/// The lines that both print, or an error where they differ.
fn same_lines(capture: &str, programs: [&String; 2]) -> io::Result<u64> {
    let mut children = Vec::new();
    for program in programs {
        children.push(start(program, capture, Stdio::piped())?);
    }
    let mut outputs: Vec<_> = children
        .iter_mut()
        .map(|child| BufReader::with_capacity(1 << 20, child.stdout.take().expect("piped")))
        .collect();
    let mut blocks = [vec![0; 1 << 20], vec![0; 1 << 20]];
    let mut lines = 0;
    loop {
        let mut lengths = [0; 2];
        for (which, block) in blocks.iter_mut().enumerate() {
            while lengths[which] < block.len() {
                let got = outputs[which].read(&mut block[lengths[which]..])?;
                if got == 0 {
                    break;
                }
                lengths[which] += got;
            }
        }
        if blocks[0][..lengths[0]] != blocks[1][..lengths[1]] {
            return Err(io::Error::other("the two programs print different bytes"));
        }
        lines += blocks[0][..lengths[0]].iter().filter(|byte| **byte == b'\n').count() as u64;
        if lengths[0] == 0 {
            break;
        }
    }
    for child in &mut children {
        child.wait()?;
    }
    Ok(lines)
}

fn both(capture: &str, programs: [&String; 2], rounds: u32) -> io::Result<()> {
    let megabytes = fs::metadata(capture)?.len() as f64 / 1e6;
    let lines = same_lines(capture, programs)?;
    let mut best: [Option<Figures>; 2] = [None, None];
    for _ in 0..rounds {
        for (which, program) in programs.iter().enumerate() {
            let figures = measured(program, capture)?;
            if best[which].is_none_or(|found| figures.processor < found.processor) {
                best[which] = Some(figures);
            }
        }
    }
    let [Some(first), Some(second)] = best else {
        return Err(io::Error::other("no round was run"));
    };
    println!("{lines} lines, the same bytes from both");
    for (program, figures) in programs.iter().zip([first, second]) {
        println!(
            "{:>10.1} MB/s {:>12.0} datagrams/s {:>7} KiB {:>7.2} s on the clock {:>7.2} s of processor  {}",
            megabytes / figures.processor,
            lines as f64 / figures.processor,
            figures.peak_kibibytes,
            figures.clock,
            figures.processor,
            program.rsplit('/').next().unwrap_or(program),
        );
    }
    println!("ratio of processor times {:.2}", first.processor / second.processor);
    Ok(())
}
