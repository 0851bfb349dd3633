//! `vectors SEED COUNT PREFIX` writes COUNT records of single calls, of every
//! kind, to PREFIX.in, and what the reference answers to each, as text, to
//! PREFIX.out. The same seed always gives the same records.
//!
//! `vectors pairs SEED COUNT PREFIX` writes COUNT calls of feed instead, each with a
//! last and a new reading for the step of nine axes (02, 2.4).
//!
//! `vectors values SEED COUNT PREFIX` writes COUNT values to print instead (02, 2.6).
//!
//! `vectors stored PREFIX` writes the records that crates/probe keeps as its
//! stdin, and what it must print: generated ones of judging, opening, feeding and
//! writing, the listed ones, and generated ones of the other calls; then those of
//! datagrams to write and of rehearsal lines; then the listed values to print.
//!
//! The form of a record and of an answer is said in the library's `call`.

use std::env;
use std::fs::File;
use std::io::{self, BufWriter, Write};
use std::process::ExitCode;

use stim_reference::call::{answer_text, record_of, Call};
use stim_reference::generate_call::{calls, feeds_of_reading_pairs, stored_calls};
use stim_reference::generate_value;

type Calls = Box<dyn Iterator<Item = Call>>;

fn main() -> ExitCode {
    let arguments: Vec<String> = env::args().skip(1).collect();
    let words: Vec<&str> = arguments.iter().map(String::as_str).collect();
    let Some((calls, prefix)) = asked_for(&words) else {
        eprintln!(
            "usage: vectors SEED COUNT PREFIX, or vectors pairs SEED COUNT PREFIX, \
             or vectors values SEED COUNT PREFIX, or vectors stored PREFIX"
        );
        return ExitCode::from(2);
    };
    if let Err(error) = write(calls, prefix) {
        eprintln!("vectors: {prefix}: {error}");
        return ExitCode::FAILURE;
    }
    ExitCode::SUCCESS
}

/// The calls that the arguments ask for, and the prefix of the files.
fn asked_for<'a>(words: &[&'a str]) -> Option<(Calls, &'a str)> {
    match *words {
        ["stored", prefix] => Some((Box::new(stored_calls().into_iter()), prefix)),
        ["pairs", seed, count, prefix] => {
            let calls = feeds_of_reading_pairs(seed.parse().ok()?, count.parse().ok()?);
            Some((Box::new(calls), prefix))
        }
        ["values", seed, count, prefix] => {
            let calls = generate_value::calls(seed.parse().ok()?, count.parse().ok()?);
            Some((Box::new(calls), prefix))
        }
        [seed, count, prefix] => {
            let calls = calls(seed.parse().ok()?, count.parse().ok()?);
            Some((Box::new(calls.into_iter()), prefix))
        }
        _ => None,
    }
}

/// Writes each call as it comes, so that a long run of pairs or values takes little
/// memory.
fn write(calls: Calls, prefix: &str) -> io::Result<()> {
    let mut input = BufWriter::new(File::create(format!("{prefix}.in"))?);
    let mut expected = BufWriter::new(File::create(format!("{prefix}.out"))?);
    for (call, number) in calls.zip(1_u64..) {
        input.write_all(&record_of(&call))?;
        write!(expected, "record {number} {}", answer_text(&call))?;
    }
    input.flush()?;
    expected.flush()
}
