//! Takes random programs of four threads on one executor, until its time is over or one ends wrong.
//!
//! Its arguments are the seed of the first program, for how many seconds it goes on, and a file, which
//! has the seed of the program that is under way. Of a program that ends wrong it prints the seed and
//! each thread's calls. If the same calls end wrong by one thread too, it leaves calls out while they
//! do, and prints what is left.
#![tactic(auto)]

mod support;

use std::fs;
use std::process::ExitCode;
use std::sync::Wait;
use std::test::Fail;
use std::thread::Threads;
use std::time::{Duration, Instant};
use support::programs::{Call, Program};
use support::trial::tried;

// After so many programs it looks for the first time how much memory it has, and then after each as
// many: it may have half as much more in the end.
const ROUND: u64 = 1_000;

fn main(rt: HostRuntime) -> Result<ExitCode, Fail> {
    let mut args = std::env::args(&rt)?.skip(1);
    let (Some(seed), Some(seconds), Some(file)) = (args.next(), args.next(), args.next()) else {
        return Err("usage: soak SEED SECONDS FILE".into());
    };
    let (seed, seconds): (u64, u64) = (seed.parse()?, seconds.parse()?);
    let start = Instant::now(&rt)?;
    let mut first_pages = None;
    let mut programs = 0u64;
    while start.elapsed(&rt)? < Duration::from_secs(seconds) {
        let number = seed.wrapping_add(programs);
        fs::write(&rt, file.as_str(), format!(in rt.alloc(); "{number}")?)?;
        let program = Program::new(number, rt.alloc())?;
        if let Some(wrong) = tried(&rt, &program)? {
            println!(rt; "seed {number}: {wrong}")?;
            print_program(&rt, &program)?;
            match smaller(&rt, &program)? {
                Some((small, wrong)) => {
                    println!(rt; "by one thread: {wrong}")?;
                    print_program(&rt, &small)?;
                }
                None => println!(rt; "by one thread the same calls end as they should")?,
            }
            return Ok(ExitCode::FAILURE);
        }
        programs += 1;
        if programs % ROUND == 0 {
            let pages = pages(&rt)?;
            let most = *first_pages.get_or_insert(pages + pages / 2);
            if pages > most {
                println!(rt; "after {programs} programs it has {pages} pages of memory")?;
                return Ok(ExitCode::FAILURE);
            }
        }
    }
    println!(rt; "{programs} programs from seed {seed} on ended as they should")?;
    Ok(ExitCode::SUCCESS)
}

// How many pages of memory this process has.
fn pages(rt: &HostRuntime) -> Result<u64, Fail> {
    let sizes = fs::read_to_string(rt, "/proc/self/statm")?;
    match sizes.split(' ').next() {
        Some(pages) => Ok(pages.parse()?),
        None => Err("no size".into()),
    }
}

fn print_program(rt: &HostRuntime, program: &Program) -> Result<(), Fail> {
    println!(rt; "first half:")?;
    print_calls(rt, &program.halves[0])?;
    println!(rt; "second half{}:", if program.leaks { ", after a leak" } else { "" })?;
    print_calls(rt, &program.halves[1])
}

fn print_calls(rt: &HostRuntime, threads: &Vec<Vec<Call>>) -> Result<(), Fail> {
    for (thread, calls) in threads.iter().enumerate() {
        println!(rt; "thread {thread}: {calls:?}")?;
    }
    Ok(())
}

// The fewest calls that still end wrong by one thread, if those of all do.
fn smaller<R: AllocGlobal + Wait + Threads + Clone + Drop + Send + Sync>(
    rt: &R,
    program: &Program,
) -> Result<Option<(Program, &'static str)>, Fail> {
    let mut small = program.alone(rt.alloc())?;
    let Some(mut wrong) = tried(rt, &small)? else {
        return Ok(None);
    };
    let mut place = 0;
    while let Some(smaller) = small.without(place, rt.alloc())? {
        match tried(rt, &smaller)? {
            Some(still) => {
                wrong = still;
                small = smaller;
            }
            None => place += 1,
        }
    }
    Ok(Some((small, wrong)))
}
