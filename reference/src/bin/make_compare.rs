//! `make_compare PROGRAM SEED COUNT` runs COUNT generated inputs of rehearsal
//! lines through PROGRAM, each as a process of its own, and compares every byte
//! that it writes on standard output and standard error, and its status, with
//! the reference. Ends with status 1 at the first difference.

use std::env;
use std::io::{Read, Write};
use std::process::{Child, ChildStdin, Command, ExitCode, ExitStatus, Stdio};
use std::sync::atomic::{AtomicBool, AtomicU64, Ordering};
use std::sync::mpsc::{self, Receiver, RecvTimeoutError, Sender};
use std::sync::Mutex;
use std::thread;
use std::time::Duration;

use stim_reference::generate_make::rehearsal_input;
use stim_reference::make_program::{made_for, Made};
use stim_reference::process::{hexadecimal, printable, write_in_chunks};
use stim_reference::random::Random;

/// So many inputs run at once.
const WORKERS: usize = 4;

/// A program that writes nothing for so long, and doesn't end, has hung.
const PATIENCE: Duration = Duration::from_secs(20);

/// Which of its two outputs a program wrote to.
#[derive(Clone, Copy)]
enum Output {
    Standard,
    Error,
}

fn main() -> ExitCode {
    let arguments: Vec<String> = env::args().collect();
    let numbers = (
        arguments.get(2).and_then(|text| text.parse().ok()),
        arguments.get(3).and_then(|text| text.parse().ok()),
    );
    let (4, (Some(seed), Some(count))) = (arguments.len(), numbers) else {
        eprintln!("usage: make_compare PROGRAM SEED COUNT");
        return ExitCode::from(2);
    };
    let program = &arguments[1];

    let next_input = AtomicU64::new(0);
    let stopped = AtomicBool::new(false);
    let reports = Mutex::new(Vec::new());
    thread::scope(|scope| {
        for _ in 0..WORKERS {
            scope.spawn(|| {
                while !stopped.load(Ordering::Relaxed) {
                    let number = next_input.fetch_add(1, Ordering::Relaxed);
                    if number >= count {
                        break;
                    }
                    if let Err(report) = run_input(program, seed, number) {
                        stopped.store(true, Ordering::Relaxed);
                        reports
                            .lock()
                            .expect("no worker panics")
                            .push((number, report));
                    }
                }
            });
        }
    });

    let mut reports = reports.into_inner().expect("no worker panics");
    reports.sort();
    if let Some((_, report)) = reports.first() {
        println!("{report}");
        return ExitCode::FAILURE;
    }
    println!("{count} inputs, 0 differences");
    ExitCode::SUCCESS
}

/// Runs one input; a difference comes back as a report.
fn run_input(program: &str, seed: u64, number: u64) -> Result<(), String> {
    let input = rehearsal_input(seed, number);
    let expected = made_for(&input);
    let mut random = Random::for_case(!seed, number);
    let run = run_program(program, &input, &mut random)?;

    let (trouble, wanted, written) = if run.hung {
        ("the program hung", &expected.datagrams, &run.made.datagrams)
    } else if run.made.datagrams != expected.datagrams {
        (
            "standard output differs",
            &expected.datagrams,
            &run.made.datagrams,
        )
    } else if run.made.messages != expected.messages {
        (
            "standard error differs",
            &expected.messages,
            &run.made.messages,
        )
    } else if !run.status.success() {
        (
            "the outputs are the same, but the program ended badly",
            &expected.messages,
            &run.made.messages,
        )
    } else {
        return Ok(());
    };
    let same_bytes = wanted
        .iter()
        .zip(written)
        .take_while(|(left, right)| left == right);
    let same_count = same_bytes.count();
    Err(format!(
        "difference: {trouble}\nseed {seed}, input {number}, {}\n\
         input ({} bytes, hexadecimal): {}\n\
         the first {same_count} bytes are the same\n\
         the reference writes ({} bytes):\n{}\nthe program writes ({} bytes):\n{}",
        run.status,
        input.len(),
        hexadecimal(&input),
        wanted.len(),
        printable(wanted, same_count),
        written.len(),
        printable(written, same_count),
    ))
}

struct Run {
    made: Made,
    hung: bool,
    status: ExitStatus,
}

/// Runs the program on an input. The input is written and each output is read in
/// a thread of its own, so that no full pipe holds up the others.
fn run_program(program: &str, input: &[u8], random: &mut Random) -> Result<Run, String> {
    let mut child = Command::new(program)
        .stdin(Stdio::piped())
        .stdout(Stdio::piped())
        .stderr(Stdio::piped())
        .spawn()
        .map_err(|error| format!("{program} doesn't start: {error}"))?;
    let child_input = child.stdin.take().expect("it is piped");
    let child_output = child.stdout.take().expect("it is piped");
    let child_errors = child.stderr.take().expect("it is piped");
    let (sender, receiver) = mpsc::channel();
    let other_sender = sender.clone();

    thread::scope(|scope| {
        scope.spawn(move || pass_on(child_output, Output::Standard, &sender));
        scope.spawn(move || pass_on(child_errors, Output::Error, &other_sender));
        scope.spawn(move || write_input(child_input, input, random));
        let (made, hung) = collect(&mut child, &receiver);
        let status = child
            .wait()
            .map_err(|error| format!("{program} can't be waited for: {error}"))?;
        Ok(Run { made, hung, status })
    })
}

/// Passes on what comes out of a pipe, to its end.
fn pass_on(mut pipe: impl Read, output: Output, sender: &Sender<(Output, Vec<u8>)>) {
    let mut chunk = [0; 65_536];
    while let Ok(count @ 1..) = pipe.read(&mut chunk) {
        if sender.send((output, chunk[..count].to_vec())).is_err() {
            break;
        }
    }
}

/// All that the program writes until both outputs are closed. A program that
/// hangs is ended.
fn collect(child: &mut Child, receiver: &Receiver<(Output, Vec<u8>)>) -> (Made, bool) {
    let mut made = Made {
        datagrams: Vec::new(),
        messages: Vec::new(),
    };
    loop {
        match receiver.recv_timeout(PATIENCE) {
            Ok((Output::Standard, chunk)) => made.datagrams.extend(chunk),
            Ok((Output::Error, chunk)) => made.messages.extend(chunk),
            Err(RecvTimeoutError::Disconnected) => return (made, false),
            Err(RecvTimeoutError::Timeout) => {
                // It may have ended already; then there is nothing to end.
                let _ = child.kill();
                return (made, true);
            }
        }
    }
}

/// Writes the input, at once or in chunks. A program that refuses the setup may
/// end before it has read everything, so a failed write is no difference by
/// itself.
fn write_input(mut child_input: ChildStdin, input: &[u8], random: &mut Random) {
    if random.below(10) < 4 {
        write_in_chunks(child_input, input, random);
    } else {
        let _ = child_input.write_all(input);
    }
}
