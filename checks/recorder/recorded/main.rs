//! Programs whose steps are written down: some that are the same each time, random ones on one thread and on
//! four, and the tables of lines of the tests.
//!
//! Its arguments are how many random programs one thread takes, on an executor that threads share and on a
//! local one, how many times four threads take one each at once, on local executors, how many four threads
//! take together, and the seed of the first of these. With a wrong body it leaves out the longest of those
//! that are the same each time, and takes the first random one of one thread, none of four, and no table. Of
//! four random programs, one has queues with room for few tasks, and another has copies of wakers refused.
#![tactic(auto)]

mod fixed;
mod played;
mod support;
mod tables;

use executor_core::choice::chosen;
use executor_core::recorder::{self, Ending, Kind};
use fixed::Fixed;
use std::io::Eprint;
use std::process::Termination;
use std::sync::Wait;
use std::test::Fail;
use std::thread::{self, Threads};
use support::programs::Program;
use support::trial::{tried, tried_locally};

const USAGE: &str = "usage: recorded PROGRAMS AT_ONCE STORMS SEED";

fn main(rt: HostRuntime) -> Result<(), Fail> {
    let mut args = std::env::args(&rt)?.skip(1);
    let (Some(alone), Some(at_once)) = (args.next(), args.next()) else {
        return Err(USAGE.into());
    };
    let (Some(storms), Some(seed)) = (args.next(), args.next()) else {
        return Err(USAGE.into());
    };
    let (alone, at_once): (u64, u64) = (alone.parse()?, at_once.parse()?);
    let (storms, seed): (u64, u64) = (storms.parse()?, seed.parse()?);
    let (alone, locally, at_once, storms) =
        if chosen() == 0 { (alone, alone, at_once, storms) } else { (1, 0, 0, 0) };
    for (number, program) in Fixed::ALL.into_iter().enumerate() {
        if chosen() != 0 && program.is_long() {
            continue;
        }
        fixed::take(&rt, program)?;
        end(Kind::Fixed, number as u64, program.ending())?;
    }
    for number in 0..alone {
        restrict(number);
        let program = Program::new(number, rt.alloc())?.alone(rt.alloc())?;
        let wrong = tried(&rt, &program)?;
        end(Kind::Alone, number, ending_of(&program, wrong))?;
    }
    for number in 0..locally {
        restrict(number);
        end(Kind::Local, number, taken_locally(&rt, number)?)?;
    }
    for number in 0..at_once {
        restrict(number);
        take_four_at_once(&rt, 4 * number);
        end(Kind::Locals, number, Ending::Closed)?;
    }
    if chosen() == 0 {
        recorder::restrict(0, 0);
        tables::take_all(&rt)?;
    }
    for number in seed..seed.saturating_add(storms) {
        restrict(number);
        let program = Program::new(number, rt.alloc())?;
        let wrong = tried(&rt, &program)?;
        end(Kind::Storm, number, ending_of(&program, wrong))?;
    }
    Ok(())
}

// Restricts the random program of this number, if it is one that is.
fn restrict(number: u64) {
    match number % 4 {
        2 => recorder::restrict(0, 3),
        3 => recorder::restrict(5, 0),
        _ => recorder::restrict(0, 0),
    }
}

// Takes the random program of this number on a local executor, by this thread, and says how it ended.
fn taken_locally<R: AllocGlobal + Wait + Clone + Drop + Send + Sync>(
    rt: &R,
    number: u64,
) -> Result<Ending, Fail> {
    let program = Program::new(number, rt.alloc())?.alone(rt.alloc())?;
    let wrong = tried_locally(rt, &program)?;
    Ok(ending_of(&program, wrong))
}

// The same, and writes down how it ended.
fn take_locally<R: AllocGlobal + Wait + Eprint + Clone + Drop + Send + Sync>(rt: &R, number: u64) {
    let ending = match taken_locally(rt, number) {
        Ok(ending) => ending,
        Err(fail) => {
            drop(Err::<(), Fail>(fail).report(rt));
            Ending::Wrong
        }
    };
    recorder::say_ending(number, ending);
}

fn take_two_at_once<R: AllocGlobal + Wait + Threads + Eprint + Clone + Drop + Send + Sync>(
    rt: &R,
    number: u64,
) {
    thread::join(
        rt,
        || take_locally(rt, number),
        || take_locally(rt, number.saturating_add(1)),
    );
}

// Has four threads take those from this number on, each one.
fn take_four_at_once<R: AllocGlobal + Wait + Threads + Eprint + Clone + Drop + Send + Sync>(
    rt: &R,
    number: u64,
) {
    thread::join(
        rt,
        || take_two_at_once(rt, number),
        || take_two_at_once(rt, number.saturating_add(2)),
    );
}

// How a random program ended.
fn ending_of(program: &Program, wrong: Option<&'static str>) -> Ending {
    match (wrong, program.leaks) {
        (Some(_), _) => Ending::Wrong,
        (None, true) => Ending::Leaked,
        (None, false) => Ending::Closed,
    }
}

// Prints the log of a program that was taken.
fn end(kind: Kind, number: u64, ending: Ending) -> Result<(), Fail> {
    if !recorder::print(kind, number, ending) {
        return Err("no room for the log".into());
    }
    Ok(())
}
