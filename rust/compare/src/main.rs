//! compare [COUNT|all]: the library's answers against the original crate's, by bits.
//!
//! COUNT is the number of random images of each kind. Environment: COMPARE_SEED (a number) and COMPARE_THREADS; CALDUMP
//! and EXPLAIN, the paths of two programs; DIFFERENCES and SAMPLE, of two files; ACCOUNTS, of a folder (a part without
//! its path is left out, and said so); LEFT_OUT, what the caller leaves out, to be said in the last line.
//! compare differences: only the entries of docs/DIFFERENCES.md, printed in its form.
use std::env;
use std::process::exit;
use std::sync::atomic::{AtomicUsize, Ordering};
use std::sync::Mutex;
use std::thread;
use std::time::Instant;

use compare::guarded::Bench;
use compare::tally::{Held, Tally};
use compare::{apart, explanations, judge, pixels, report, sums};

use crate::parts::{Job, Plan};

mod caldump;
mod differences;
mod explain;
mod parts;
mod program;
mod questions;
mod recorded;
mod viewer;

/// Random images of each kind, unless the caller says otherwise; one value in 4 of each word goes with it.
const DEFAULT_COUNT: u64 = 60_000;

/// Does all jobs, each thread taking the next one.
fn work(jobs: &[Job], threads: usize) -> Tally {
    let next = AtomicUsize::new(0);
    let all = Mutex::new(Tally::default());
    thread::scope(|scope| {
        for _ in 0..threads {
            scope.spawn(|| {
                while let Some(job) = jobs.get(next.fetch_add(1, Ordering::Relaxed)) {
                    // A bench of its own for each job: the lengths of its slices then don't hang on which thread has it.
                    let (mut tally, mut bench) = (Tally::default(), Bench::new());
                    job(&mut tally, &mut bench);
                    all.lock().expect("no thread has panicked").merge(tally);
                }
            });
        }
    });
    all.into_inner().expect("no thread has panicked")
}

fn number_of(name: &str) -> Option<u64> {
    env::var(name).ok().map(|text| match text.parse() {
        Ok(number) => number,
        Err(_) => {
            eprintln!("{} must be a number", name);
            exit(2)
        }
    })
}

fn plan_of(word: Option<&str>) -> Plan {
    let seed = number_of("COMPARE_SEED").unwrap_or(640);
    match word {
        Some("all") => Plan { seed, count: 400_000, one_in: 1 },
        None => Plan { seed, count: DEFAULT_COUNT, one_in: 4 },
        Some(text) => match text.parse() {
            Ok(count) => Plan { seed, count, one_in: (4 * DEFAULT_COUNT / u64::max(count, 1)).max(1) },
            Err(_) => {
                eprintln!("compare [COUNT|all|differences]");
                exit(2)
            }
        },
    }
}

/// What is known from the start to be left out.
fn left_out(plan: &Plan) -> Vec<String> {
    let mut left_out: Vec<String> = env::var("LEFT_OUT").ok().into_iter().collect();
    if plan.count < DEFAULT_COUNT {
        left_out.push(format!(
            "part of the default sample ({} of {} random images of each kind, one value of each word in {}, not in 4)",
            plan.count, DEFAULT_COUNT, plan.one_in
        ));
    }
    left_out
}

fn status(tally: &Tally) -> i32 {
    i32::from(tally.total_different() != 0)
}

/// Prints the rows of docs/DIFFERENCES.md as they are today, and what is wrong with the file.
fn only_differences() -> ! {
    let mut tally = Tally::default();
    differences::run(&mut tally, true);
    report::print_shown(&tally);
    let rows = tally.total(&[Held::Files]);
    println!("{} sections and rows compared, {} different", rows.compared, rows.different);
    exit(status(&tally))
}

fn main() {
    judge::silence_expected_panics();
    let word = env::args().nth(1);
    if word.as_deref() == Some("differences") {
        only_differences();
    }
    let plan = plan_of(word.as_deref());
    let cores = || thread::available_parallelism().map(|n| n.get()).unwrap_or(1);
    let threads = number_of("COMPARE_THREADS").map(|n| n as usize).unwrap_or_else(cores).max(1);
    let values = match plan.one_in {
        1 => "every value".to_string(),
        one_in => format!("one value in {}", one_in),
    };
    println!(
        "seed {}, {} random images of each kind, {} of each word, {} threads",
        plan.seed, plan.count, values, threads
    );
    let start = Instant::now();
    let mut tally = work(&parts::jobs(plan), threads);
    tally.left_out.extend(left_out(&plan));
    caldump::run(&mut tally, plan.seed);
    explain::run(&mut tally, plan.seed);
    explain::stored(&mut tally);
    viewer::run(&mut tally, plan.seed);
    differences::run(&mut tally, false);
    recorded::run(&mut tally);
    sums::require_all(&mut tally);
    apart::require_nibbles(&mut tally);
    pixels::require_all(&mut tally);
    explanations::require_all(&mut tally);
    report::print(&tally);
    println!("{:.1} s", start.elapsed().as_secs_f64());
    println!("{}", report::last_line(&tally));
    exit(status(&tally));
}
