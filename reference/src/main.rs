//! The second implementation as a program: answers calls, reads stored results out, compares its two ways, draws
//! random lines.

use reference::{agree, archive, calls, lines, random};
use std::io::{stdin, stdout, BufWriter, Error, Read, Write};
use std::process::ExitCode;

const USAGE: &str = "reference opening
reference archive SHEET RESULT
reference calls
reference agree [COUNT] [SEED]
reference sheets check|stepper|curves|round|opening|fees|band|small|waiting|view COUNT SEED";

fn main() -> ExitCode {
    let arguments: Vec<String> = std::env::args().skip(1).collect();
    let parts: Vec<&str> = arguments.iter().map(String::as_str).collect();
    match run(&parts) {
        Some(code) => code,
        None => {
            eprintln!("{USAGE}");
            ExitCode::from(2)
        }
    }
}

/// None if the arguments name no command.
fn run(parts: &[&str]) -> Option<ExitCode> {
    match parts {
        ["opening"] => Some(written(opening())),
        ["archive", sheet, result] => Some(written(read_out(sheet, result))),
        ["calls"] => Some(written(answer_calls())),
        ["agree"] => Some(agreed(20_000, 1)),
        ["agree", count] => Some(agreed(count.parse().ok()?, 1)),
        ["agree", count, seed] => Some(agreed(count.parse().ok()?, seed.parse().ok()?)),
        ["sheets", kind, count, seed] => {
            let (count, seed) = (count.parse().ok()?, seed.parse().ok()?);
            let kind = lines::Kind::named(kind)?;
            Some(written(print_lines(kind, count, seed)))
        }
        _ => None,
    }
}

fn opening() -> std::io::Result<()> {
    let mut bytes = Vec::new();
    stdin().lock().read_to_end(&mut bytes)?;
    stdout().write_all(calls::opening_program(&bytes).as_bytes())
}

/// Both files are read before anything is printed.
fn read_out(sheet: &str, result: &str) -> std::io::Result<()> {
    let (sheet, result) = (bytes_of(sheet)?, bytes_of(result)?);
    stdout().write_all(archive::archive_program(&sheet, &result).as_bytes())
}

/// A file's bytes; if it cannot be read, the fault says which file it was.
fn bytes_of(path: &str) -> std::io::Result<Vec<u8>> {
    let named = |fault: Error| Error::new(fault.kind(), format!("{path}: {fault}"));
    std::fs::read(path).map_err(named)
}

fn answer_calls() -> std::io::Result<()> {
    calls::answer_lines(stdin().lock(), BufWriter::new(stdout().lock()))
}

fn print_lines(kind: lines::Kind, count: u64, seed: u64) -> std::io::Result<()> {
    let mut random = random::Random::new(seed);
    let mut output = BufWriter::new(stdout().lock());
    for _ in 0..count {
        writeln!(output, "{}", lines::line(&mut random, kind))?;
    }
    output.flush()
}

fn agreed(count: u64, seed: u64) -> ExitCode {
    match agree::agree(count, seed) {
        true => ExitCode::SUCCESS,
        false => ExitCode::from(1),
    }
}

fn written(result: std::io::Result<()>) -> ExitCode {
    match result {
        Ok(()) => ExitCode::SUCCESS,
        Err(fault) => {
            eprintln!("{fault}");
            ExitCode::from(3)
        }
    }
}
