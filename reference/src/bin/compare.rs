//! `compare PROGRAM SEED COUNT` runs COUNT generated cases through PROGRAM,
//! each as a process of its own, and compares every byte that it prints with
//! the plain reference. Ends with status 1 at the first difference.

use std::env;
use std::io::{Read, Write};
use std::process::{ChildStdin, Command, ExitCode, ExitStatus, Stdio};
use std::sync::atomic::{AtomicBool, AtomicU64, Ordering};
use std::sync::mpsc::{self, Receiver, RecvTimeoutError};
use std::sync::Mutex;
use std::thread;
use std::time::Duration;

use stim_reference::generate::input_of_case;
use stim_reference::process::{hexadecimal, printable, write_in_chunks};
use stim_reference::program::output_for;
use stim_reference::random::Random;
use stim_reference::STREAM_LIMIT;

/// So many cases run at once.
const WORKERS: usize = 4;

/// A program that prints nothing for so long has hung.
const PATIENCE: Duration = Duration::from_secs(20);

/// How the input of a case is written.
#[derive(Clone, Copy, Debug, PartialEq)]
enum Manner {
    AtOnce,
    /// In small irregular chunks, so that short reads happen.
    Chunks,
    /// At once, but the end of the input comes only after all lines were seen:
    /// a live sensor never ends.
    Live,
}

fn main() -> ExitCode {
    let arguments: Vec<String> = env::args().collect();
    let numbers = (
        arguments.get(2).and_then(|text| text.parse().ok()),
        arguments.get(3).and_then(|text| text.parse().ok()),
    );
    let (4, (Some(seed), Some(count))) = (arguments.len(), numbers) else {
        eprintln!("usage: compare PROGRAM SEED COUNT");
        return ExitCode::from(2);
    };
    let program = &arguments[1];

    let next_case = AtomicU64::new(0);
    let stopped = AtomicBool::new(false);
    let reports = Mutex::new(Vec::new());
    thread::scope(|scope| {
        for _ in 0..WORKERS {
            scope.spawn(|| {
                while !stopped.load(Ordering::Relaxed) {
                    let number = next_case.fetch_add(1, Ordering::Relaxed);
                    if number >= count {
                        break;
                    }
                    if let Err(report) = run_case(program, seed, number) {
                        stopped.store(true, Ordering::Relaxed);
                        reports
                            .lock()
                            .expect("no worker panics")
                            .push((number, report));
                    }
                }
            });
        }
    });

    let mut reports = reports.into_inner().expect("no worker panics");
    reports.sort();
    if let Some((_, report)) = reports.first() {
        println!("{report}");
        return ExitCode::FAILURE;
    }
    println!("{count} cases, 0 differences");
    ExitCode::SUCCESS
}

/// Runs one case; a difference comes back as a report.
fn run_case(program: &str, seed: u64, number: u64) -> Result<(), String> {
    let input = input_of_case(seed, number);
    let expected = output_for(&input, STREAM_LIMIT);
    let mut random = Random::for_case(!seed, number);
    let manner = choose_manner(&mut random, &input);

    let run = run_program(program, &input, expected.len(), manner, &mut random)?;
    // The paper lays down no status for a refusal, so any will do there.
    let refused = expected.starts_with(b"refused ");
    let ended_well = match run.status.code() {
        Some(status) => status == 0 || refused,
        None => false,
    };
    let trouble = if run.hung {
        "the program printed too little and went on waiting"
    } else if run.output != expected {
        "the outputs differ"
    } else if !ended_well {
        "the outputs are the same, but the program ended badly"
    } else {
        return Ok(());
    };
    let same_bytes = expected
        .iter()
        .zip(&run.output)
        .take_while(|(left, right)| left == right);
    let same_count = same_bytes.count();
    Err(format!(
        "difference: {trouble}\nseed {seed}, case {number}, input written {manner:?}, {}\n\
         input ({} bytes, hexadecimal): {}\n\
         the first {same_count} bytes of the outputs are the same\n\
         the reference prints ({} bytes):\n{}\nthe program prints ({} bytes):\n{}",
        run.status,
        input.len(),
        hexadecimal(&input),
        expected.len(),
        printable(&expected, same_count),
        run.output.len(),
        printable(&run.output, same_count),
    ))
}

fn choose_manner(random: &mut Random, input: &[u8]) -> Manner {
    match random.below(10) {
        0..=3 => Manner::Chunks,
        // Without a line end the setup line ends with the input only.
        4 | 5 if input.contains(&0x0A) => Manner::Live,
        _ => Manner::AtOnce,
    }
}

struct Run {
    output: Vec<u8>,
    hung: bool,
    status: ExitStatus,
}

fn run_program(
    program: &str,
    input: &[u8],
    expected_length: usize,
    manner: Manner,
    random: &mut Random,
) -> Result<Run, String> {
    let mut child = Command::new(program)
        .stdin(Stdio::piped())
        .stdout(Stdio::piped())
        .spawn()
        .map_err(|error| format!("{program} doesn't start: {error}"))?;
    let child_input = child.stdin.take().expect("it is piped");
    let mut child_output = child.stdout.take().expect("it is piped");
    let (output_sender, output_receiver) = mpsc::channel();
    let (release_sender, release_receiver) = mpsc::channel();

    thread::scope(|scope| {
        scope.spawn(move || {
            let mut chunk = [0; 65_536];
            while let Ok(count @ 1..) = child_output.read(&mut chunk) {
                if output_sender.send(chunk[..count].to_vec()).is_err() {
                    break;
                }
            }
        });
        scope.spawn(move || write_input(child_input, input, manner, random, &release_receiver));

        let mut output = Vec::new();
        let mut hung = false;
        let mut held_back = Some(release_sender);
        loop {
            if output.len() >= expected_length {
                // All lines were seen: the input may end.
                held_back = None;
            }
            match output_receiver.recv_timeout(PATIENCE) {
                Ok(chunk) => output.extend_from_slice(&chunk),
                Err(RecvTimeoutError::Disconnected) => break,
                Err(RecvTimeoutError::Timeout) => {
                    hung = true;
                    // It may have ended already; then there is nothing to end.
                    let _ = child.kill();
                    break;
                }
            }
        }
        drop(held_back);
        let status = child
            .wait()
            .map_err(|error| format!("{program} can't be waited for: {error}"))?;
        Ok(Run {
            output,
            hung,
            status,
        })
    })
}

/// Writes the input. A program that refuses the setup may end before it has
/// read everything, so a failed write is no difference by itself.
fn write_input(
    mut child_input: ChildStdin,
    input: &[u8],
    manner: Manner,
    random: &mut Random,
    release: &Receiver<()>,
) {
    if manner != Manner::Chunks {
        let _ = child_input.write_all(input);
        if manner == Manner::Live {
            // Comes back when the other end is dropped.
            let _ = release.recv();
        }
        return;
    }
    write_in_chunks(child_input, input, random);
}
