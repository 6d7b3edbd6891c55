//! measure times: the time per opening of the library and of the reference implementation, for all sheets.
//! measure once library|reference NAME: opens the sheets of a name once, for callgrind to count what is spent in `auction_opening`
//! or `reference_opening`; prints how many sheets and rounds there are.

use reference::fast::opening::opening;
use reference::sheet::{read, Grid};
use std::hint::black_box;
use std::process::ExitCode;
use std::time::{Duration, Instant};
use trials::books::{named, names};
use trials::boxashewu::raw::auction_opening;
use trials::boxashewu::OPENING_WORDS;

/// An engine: from the words of a sheet to the words of its result in a space; how many they are.
type Engine = fn(&[u32], &mut [u32]) -> usize;

fn library(words: &[u32], space: &mut [u32]) -> usize {
    let (room, at) = (space.len(), space.as_mut_ptr());
    unsafe { auction_opening(words.as_ptr(), words.len(), at, room) }.count
}

/// The reference implementation's fast way, as far as the library goes: it reads the sheet, opens it and writes the words.
#[no_mangle]
#[inline(never)]
fn reference_opening(words: &[u32], space: &mut [u32]) -> usize {
    let sheet = read(words, Grid::DOCUMENT).expect("a sheet to measure with is accepted");
    let result = opening(&sheet, Grid::DOCUMENT).words();
    space[..result.len()].copy_from_slice(&result);
    result.len()
}

fn engine(name: &str) -> Option<Engine> {
    match name {
        "library" => Some(library),
        "reference" => Some(reference_opening),
        _ => None,
    }
}

/// Opens the sheets until a tenth of a second is over: seconds per opening.
fn timed(engine: Engine, sheets: &[Vec<u32>], space: &mut [u32]) -> f64 {
    let (start, mut openings) = (Instant::now(), 0);
    while start.elapsed() < Duration::from_millis(100) {
        for words in sheets {
            black_box(engine(black_box(words), space));
        }
        openings += sheets.len();
    }
    start.elapsed().as_secs_f64() / openings as f64
}

/// The middle of seven measurements.
fn middle(mut figures: Vec<f64>) -> f64 {
    figures.sort_by(f64::total_cmp);
    figures[figures.len() / 2]
}

fn times() {
    let mut space = vec![0; OPENING_WORDS];
    for name in names() {
        let sheets = named(&name).expect("a name of the list");
        let (mut own, mut other) = (Vec::new(), Vec::new());
        for _ in 0..7 {
            own.push(timed(library, &sheets, &mut space));
            other.push(timed(reference_opening, &sheets, &mut space));
        }
        println!("{name} {:.9} {:.9}", middle(own), middle(other));
    }
}

fn once(engine: Engine, name: &str) -> Option<()> {
    let mut space = vec![0; OPENING_WORDS];
    let sheets = named(name)?;
    let mut rounds = 0;
    for words in &sheets {
        let count = engine(words, &mut space);
        rounds += space[count - 1] & 0xffff;
    }
    println!("{} {rounds}", sheets.len());
    Some(())
}

fn run(arguments: &[&str]) -> Option<()> {
    match arguments {
        ["times"] => Some(times()),
        ["once", engine_name, name] => once(engine(engine_name)?, name),
        _ => None,
    }
}

fn main() -> ExitCode {
    let arguments: Vec<String> = std::env::args().skip(1).collect();
    let arguments: Vec<&str> = arguments.iter().map(String::as_str).collect();
    match run(&arguments) {
        Some(()) => ExitCode::SUCCESS,
        None => {
            eprintln!("measure times\nmeasure once library|reference NAME");
            ExitCode::from(2)
        }
    }
}
