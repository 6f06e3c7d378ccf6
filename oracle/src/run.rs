//! Many cases on all cores.
use std::io::Write;
use std::panic::{catch_unwind, AssertUnwindSafe};
use std::sync::atomic::{AtomicBool, AtomicU64, Ordering::Relaxed};
use std::sync::Mutex;
use std::time::{Duration, Instant};

use crate::cases::case;
use crate::compare::{Difference, Sides};
use crate::shapes::KINDS;
use crate::tally::Tally;

/// How many differences are shown, and how many characters of each of their parts.
const SHOWN: usize = 20;
const LONGEST: usize = 65_536;
/// How many cases a thread takes at once.
const BATCH: u64 = 2_048;
/// How often a long run tells how far it is.
const PROGRESS: Duration = Duration::from_secs(10);

struct Progress {
    count: u64,
    next: AtomicU64,
    done: AtomicU64,
    differences: AtomicU64,
    finished: AtomicBool,
    /// Those with the smallest numbers, in order.
    shown: Mutex<Vec<(u64, String)>>,
    tally: Mutex<Tally>,
}

/// Compares `count` cases and tells how many differ.
pub fn run(count: u64, seed: u64) -> u64 {
    assert!(Sides::new().has_all_kinds(), "the proved side has more or fewer kinds than {}", KINDS.len());
    let progress = Progress {
        count,
        next: AtomicU64::new(0),
        done: AtomicU64::new(0),
        differences: AtomicU64::new(0),
        finished: AtomicBool::new(false),
        shown: Mutex::new(Vec::new()),
        tally: Mutex::new(Tally::default()),
    };
    let threads = std::thread::available_parallelism().map_or(1, usize::from);
    std::thread::scope(|scope| {
        let reporter = scope.spawn(|| report(&progress));
        let workers: Vec<_> = (0..threads).map(|_| scope.spawn(|| work(&progress, seed))).collect();
        let ended: Vec<_> = workers.into_iter().map(|worker| worker.join()).collect();
        progress.finished.store(true, Relaxed);
        reporter.thread().unpark();
        assert!(ended.iter().all(Result::is_ok), "a thread broke off");
    });
    eprintln!("{}", progress.tally.into_inner().expect("no thread broke off"));
    let mut out = std::io::stdout().lock();
    for (_, line) in progress.shown.into_inner().expect("no thread broke off").iter() {
        writeln!(out, "{line}").expect("standard output can be written");
    }
    let differences = progress.differences.into_inner();
    writeln!(out, "{count} cases, {differences} differences").expect("standard output can be written");
    differences
}

fn work(progress: &Progress, seed: u64) {
    let mut sides = Sides::new();
    loop {
        let first = progress.next.fetch_add(BATCH, Relaxed);
        if first >= progress.count {
            *progress.tally.lock().expect("no thread broke off") += sides.tally();
            return;
        }
        let end = progress.count.min(first + BATCH);
        for number in first..end {
            let case = case(seed, number);
            // What a side is sure of (an assertion, an index) may fail too: that is a difference, and the run goes on.
            let difference = catch_unwind(AssertUnwindSafe(|| sides.differ(&case))).unwrap_or_else(|_| {
                sides = Sides::new();
                Some(Difference { proved: String::from("broke off"), expected: String::from("broke off") })
            });
            if let Some(difference) = difference {
                progress.differences.fetch_add(1, Relaxed);
                let short = |text: &str| text.get(..LONGEST).map_or(text.to_owned(), |start| format!("{start}.."));
                let line = format!(
                    "case {number}: {} | proved: {} | expected: {}",
                    short(&case.question.line()),
                    short(&difference.proved),
                    short(&difference.expected)
                );
                let mut shown = progress.shown.lock().expect("no thread broke off");
                shown.push((number, line));
                shown.sort();
                shown.truncate(SHOWN);
            }
        }
        progress.done.fetch_add(end - first, Relaxed);
    }
}

fn report(progress: &Progress) {
    let start = Instant::now();
    let mut told = start;
    while !progress.finished.load(Relaxed) {
        std::thread::park_timeout(PROGRESS);
        if told.elapsed() >= PROGRESS {
            told = Instant::now();
            let (done, differences) = (progress.done.load(Relaxed), progress.differences.load(Relaxed));
            eprintln!("{done} of {} cases, {differences} differences, {} s", progress.count, start.elapsed().as_secs());
        }
    }
}
