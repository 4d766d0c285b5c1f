//! Measures the executors.
//!
//! `bench NAME N R` runs the row NAME with N operations, R times over, and prints the name, N, and
//! the seconds and the nanoseconds an operation of the fastest run. R is 5 if it is left out;
//! unless it is 1, one run more goes before, to warm up. The time is that of the whole row, unless
//! the row prepares more than an executor: what comes before its operations and after them is left
//! out then. `bench list` prints the names.
//! Without arguments each row is run once at a small N, with few idle tasks, and the number of its
//! operations that did what they were to do is printed.
#![tactic(auto)]

pub mod awaiting;
pub mod busy;
pub mod closing;
pub mod crossing;
pub mod futures;
pub mod jobs;
pub mod locking;
pub mod messaging;
pub mod names;
pub mod parking;
pub mod priorities;
pub mod rows;
pub mod running;
pub mod searching;
pub mod sharding;
pub mod sleeping;
pub mod staying;
pub mod threads;
pub mod ticking;
pub mod timers;
pub mod timing;
pub mod waking;

use busy::Busy;
use rows::Row;
use std::alloc::Global;
use std::io;
use std::process::ExitCode;
use std::rt::Clock;
use std::sync::Wait;
use std::thread::Threads;
use std::time::Duration;

const SMALL: u64 = 10;

const RUNS: u64 = 5;

const NANOS: u128 = 1_000_000_000;

fn main(rt: HostRuntime) -> io::Result<ExitCode> {
    let alloc = rt.alloc();
    let mut args = std::env::args(&rt)?.skip(1);
    let Some(name) = args.next() else {
        return print_counts(&rt, alloc);
    };
    if name.as_str() == "list" {
        return print_names(&rt, alloc);
    }
    let operations = number_or(args.next(), SMALL);
    let runs = number_or(args.next(), RUNS);
    let Some(row) = Row::from_name(alloc, name.as_str()) else {
        println!(rt; "no row {name}")?;
        return Ok(ExitCode::FAILURE);
    };
    match fastest(&rt, alloc, row, operations, runs) {
        Some(time) => print_time(&rt, name.as_str(), operations, time)?,
        None => return refused(&rt, name.as_str()),
    }
    Ok(ExitCode::SUCCESS)
}

fn number_or(argument: Option<String>, default: u64) -> u64 {
    match argument {
        Some(text) => text.as_str().parse::<u64>().unwrap_or(default),
        None => default,
    }
}

fn refused(rt: &impl Print, name: &str) -> io::Result<ExitCode> {
    println!(rt; "{name} refused")?;
    Ok(ExitCode::FAILURE)
}

fn print_names(rt: &impl Print, alloc: Global) -> io::Result<ExitCode> {
    for (name, _) in names::all(alloc)? {
        println!(rt; "{name}")?;
    }
    for row in Busy::all(alloc)? {
        println!(rt; "{row}")?;
    }
    Ok(ExitCode::SUCCESS)
}

fn print_counts<R: Wait + Clone + Drop + Send + Sync + Threads + Clock + Print>(
    rt: &R,
    alloc: Global,
) -> io::Result<ExitCode> {
    for (name, row) in names::all(alloc)? {
        let Some(ran) = row.small().run(rt, alloc, SMALL) else {
            return refused(rt, name);
        };
        println!(rt; "{name} {SMALL} {}", ran.count)?;
    }
    for row in Busy::all(alloc)? {
        let Some(ran) = row.run(rt, alloc, SMALL) else {
            println!(rt; "{row} refused")?;
            return Ok(ExitCode::FAILURE);
        };
        println!(rt; "{row} {SMALL} {}", ran.count)?;
    }
    Ok(ExitCode::SUCCESS)
}

fn print_time(rt: &impl Print, name: &str, operations: u64, time: Duration) -> io::Result<()> {
    let nanos = time.as_nanos();
    let tenths = nanos
        .saturating_mul(10)
        .checked_div(u128::from(operations))
        .unwrap_or(0);
    println!(rt;
        "{name} {operations} {}.{:09} {}.{}",
        nanos / NANOS,
        nanos % NANOS,
        tenths / 10,
        tenths % 10
    )
}

// The shortest time of the runs, or `None` if one was refused.
fn fastest<R: Wait + Clone + Drop + Send + Sync + Threads + Clock>(
    rt: &R,
    alloc: Global,
    row: Row,
    operations: u64,
    runs: u64,
) -> Option<Duration> {
    if runs != 1 {
        row.run(rt, alloc, operations)?;
    }
    let mut best: Option<Duration> = None;
    for _ in 0..runs {
        let time = row.run(rt, alloc, operations)?.time;
        best = match best {
            Some(before) if before < time => Some(before),
            _ => Some(time),
        };
    }
    best
}
