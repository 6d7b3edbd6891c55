//! compare COUNT SEED [FIRST]: compares the library with the reference implementation on the cases FIRST, FIRST + 1, .. of a seed,
//! on all processors at once, and stops at the first that differs.

use reference::lines::joined;
use std::ops::Range;
use std::panic::{catch_unwind, AssertUnwindSafe};
use std::process::ExitCode;
use std::sync::atomic::{AtomicU64, Ordering};
use std::sync::Mutex;
use std::thread::{available_parallelism, scope, sleep, Scope};
use std::time::{Duration, Instant};
use trials::case::Case;
use trials::compare::{compare, Difference};
use trials::lent::Spaces;
use trials::tally::Tally;

/// Cases that a thread takes at a time.
const BLOCK: u64 = 4096;

/// Words of the largest space that is lent: an opening's of 120 orders, and 1,000 more.
const MOST_SPACE: usize = 16_005;
/// Places of the longest list for fees, likewise.
const MOST_FEES: usize = 1_120;

struct Run {
    seed: u64,
    first: u64,
    end: u64,
    /// The next case that no thread has taken, and how many are done.
    next: AtomicU64,
    done: AtomicU64,
    /// The lowest case that differs.
    found: Mutex<Option<(u64, Difference)>>,
    tally: Mutex<Tally>,
}

impl Run {
    /// Whether the cases from this one on are still worth comparing.
    fn wanted(&self, case: u64) -> bool {
        let found = self.found.lock().expect("no thread panics");
        found.as_ref().is_none_or(|(lowest, _)| case < *lowest)
    }

    /// Keeps a difference, unless one of a lower case is known.
    fn note(&self, case: u64, difference: Difference) {
        let mut found = self.found.lock().expect("no thread panics");
        if found.as_ref().is_none_or(|(lowest, _)| case < *lowest) {
            *found = Some((case, difference));
        }
    }

    /// Takes blocks of cases until there are no more, or a lower one differs.
    fn work(&self) {
        let (mut lent, mut tally) = (Spaces::new(MOST_SPACE, MOST_FEES), Tally::default());
        loop {
            let start = self.next.fetch_add(BLOCK, Ordering::Relaxed);
            if start >= self.end || !self.wanted(start) {
                break;
            }
            let end = (start + BLOCK).min(self.end);
            if let Some((case, difference)) = self.block(start..end, &mut lent, &mut tally) {
                self.note(case, difference);
            }
            self.done.fetch_add(end - start, Ordering::Relaxed);
        }
        self.tally.lock().expect("no thread panics").join(&tally);
    }

    /// The first case of a block that differs. Where the reference implementation panics, also while a sheet is drawn with its
    /// help, that is a difference too.
    fn block(
        &self,
        mut cases: Range<u64>,
        lent: &mut Spaces,
        tally: &mut Tally,
    ) -> Option<(u64, Difference)> {
        cases.find_map(|number| {
            let compared = catch_unwind(AssertUnwindSafe(|| {
                compare(&Case::drawn(self.seed, number), lent, tally)
            }));
            match compared {
                Ok(Ok(())) => None,
                Ok(Err(difference)) => Some((number, difference)),
                Err(_) => Some((number, self.gave_up(number))),
            }
        })
    }

    fn gave_up(&self, number: u64) -> Difference {
        let drawn = catch_unwind(|| Case::drawn(self.seed, number));
        let line = match &drawn {
            Ok(case) => joined("opening", Some(case.opening_space), &case.words),
            Err(_) => "none: it gave up while the sheet was drawn".to_string(),
        };
        let what = "the reference implementation gave up on this sheet, as its message says";
        Difference {
            line,
            what: what.to_string(),
        }
    }

    fn progress(&self, since: Instant) {
        let (done, count) = (self.done.load(Ordering::Relaxed), self.end - self.first);
        eprint!(
            "\r{done} of {count} sheets, {} s ",
            since.elapsed().as_secs()
        );
    }
}

/// Shows how far it is until every thread has ended.
fn watch<'scope>(run: &'scope Run, threads: &'scope Scope<'scope, '_>) {
    let since = Instant::now();
    let count = available_parallelism().map_or(1, usize::from);
    let workers: Vec<_> = (0..count).map(|_| threads.spawn(|| run.work())).collect();
    let mut shown = Instant::now();
    while workers.iter().any(|worker| !worker.is_finished()) {
        sleep(Duration::from_millis(20));
        if shown.elapsed() >= Duration::from_secs(2) {
            run.progress(since);
            shown = Instant::now();
        }
    }
    run.progress(since);
    eprintln!();
}

fn compared(count: u64, seed: u64, first: u64) -> bool {
    let run = Run {
        seed,
        first,
        end: first + count,
        next: AtomicU64::new(first),
        done: AtomicU64::new(0),
        found: Mutex::new(None),
        tally: Mutex::new(Tally::default()),
    };
    scope(|threads| watch(&run, threads));
    let found = run.found.into_inner().expect("no thread panics");
    if let Some((case, difference)) = &found {
        println!("case {case} of seed {seed} differs:");
        println!("{}", difference.what);
        println!(
            "the call, as a line of the program `calls`\n  {}",
            difference.line
        );
        println!("again with\n  trials/compare 1 {seed} {case}");
        return false;
    }
    run.tally.into_inner().expect("no thread panics").print();
    println!("seed {seed}: no difference");
    true
}

/// COUNT SEED [FIRST], all numbers.
fn asked() -> Option<(u64, u64, u64)> {
    let arguments: Vec<String> = std::env::args().skip(1).collect();
    let numbers: Option<Vec<u64>> = arguments.iter().map(|text| text.parse().ok()).collect();
    match numbers?.as_slice() {
        [count, seed] => Some((*count, *seed, 0)),
        [count, seed, first] => Some((*count, *seed, *first)),
        _ => None,
    }
}

fn main() -> ExitCode {
    let Some((count, seed, first)) = asked() else {
        eprintln!("compare COUNT SEED [FIRST]");
        return ExitCode::from(2);
    };
    match compared(count, seed, first) {
        true => ExitCode::SUCCESS,
        false => ExitCode::from(1),
    }
}
