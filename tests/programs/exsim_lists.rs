//! The lists of steps as text: `exsim` answers each line as a world answers the step.
use crate::tests::support::core::lists::{LENGTH, ListStep, list};
use executor_core::interleave::{Reply, Step, World};
use simulation::run_lines;
use std::alloc::Global;
use std::fmt::Write as _;
use std::io::{self, Read, Write};
use std::test::Fail;

// Writes the line of a step.
fn write_step(text: &mut String, step: &ListStep) -> Result<(), Fail> {
    match step {
        Step::Spawn(()) => writeln!(text, "spawn"),
        Step::Wake(n) => writeln!(text, "wake {n}"),
        Step::TryTick => writeln!(text, "trytick"),
        Step::Pend(n) => writeln!(text, "pend {n}"),
        Step::Ready(n, output) => writeln!(text, "ready {n} {output}"),
        Step::PollHandle(n) => writeln!(text, "pollhandle {n}"),
        Step::Cancel(n) => writeln!(text, "cancel {n}"),
        Step::Detach(n) => writeln!(text, "detach {n}"),
        Step::DropHandle(n) => writeln!(text, "drophandle {n}"),
        Step::Dropped(n) => writeln!(text, "dropped {n}"),
        Step::Exchange => writeln!(text, "exchange"),
        Step::Notify => writeln!(text, "notify"),
        Step::Tick => writeln!(text, "tick"),
        Step::Run => writeln!(text, "run"),
        Step::Register(k) => writeln!(text, "register {k}"),
        Step::Poll(k) => writeln!(text, "poll {k}"),
        Step::Search(k, word) => writeln!(text, "search {k} {word}"),
        Step::Sleep(k) => writeln!(text, "sleep {k}"),
        Step::Yield(k) => writeln!(text, "yield {k}"),
        Step::Remove(k) => writeln!(text, "remove {k}"),
        Step::Store(k) => writeln!(text, "store {k}"),
        Step::Fair(k) => writeln!(text, "fair {k}"),
        Step::Unregister(k) => writeln!(text, "unregister {k}"),
        Step::Drop(k) => writeln!(text, "drop {k}"),
        Step::Close => writeln!(text, "close"),
        Step::Drain => writeln!(text, "drain"),
        Step::TryAny => writeln!(text, "tryany"),
        Step::Leak => writeln!(text, "leak"),
    }?;
    Ok(())
}

fn awaiter_of(awaiter: &bool) -> &'static str {
    if *awaiter { " awaiter" } else { "" }
}

// Writes the line of a reply.
fn write_reply(text: &mut String, reply: &Reply<u64>) -> Result<(), Fail> {
    match reply {
        Reply::Task(n) => writeln!(text, "task {n}"),
        Reply::Notice => writeln!(text, "notice"),
        Reply::Nothing => writeln!(text, "nothing"),
        Reply::Poll(n) => writeln!(text, "poll {n}"),
        Reply::Drop(n) => writeln!(text, "drop {n}"),
        Reply::NoTask => writeln!(text, "none"),
        Reply::Idle(n) => writeln!(text, "idle {n}"),
        Reply::Queued(n) => writeln!(text, "queued {n}"),
        Reply::Finished { awaiter } => writeln!(text, "finished{}", awaiter_of(awaiter)),
        Reply::Unwanted { output, awaiter } => {
            writeln!(text, "unwanted {output}{}", awaiter_of(awaiter))
        }
        Reply::Output(output) => writeln!(text, "output {output}"),
        Reply::Gone { awaiter } => writeln!(text, "gone{}", awaiter_of(awaiter)),
        Reply::Cancelled => writeln!(text, "cancelled"),
        Reply::Pending => writeln!(text, "pending"),
        Reply::Pick => writeln!(text, "pick"),
        Reply::Sleeper(i) => writeln!(text, "sleeper {i}"),
        Reply::Nobody => writeln!(text, "nobody"),
        Reply::Ticker(k) => writeln!(text, "ticker {k}"),
        Reply::Done => writeln!(text, "done"),
        Reply::Number(i) => writeln!(text, "number {i}"),
        Reply::Again => writeln!(text, "again"),
        Reply::Parked => writeln!(text, "parked"),
        Reply::Notified => writeln!(text, "notified"),
        Reply::Unnotified => writeln!(text, "unnotified"),
        Reply::Stored(flag) => writeln!(text, "{flag}"),
        Reply::Moved(count) => writeln!(text, "moved {count}"),
        Reply::Awake => writeln!(text, "awake"),
        Reply::LogFull => writeln!(text, "log full"),
        Reply::NotNow => writeln!(text, "not now"),
        Reply::OutOfMemory => writeln!(text, "out of memory"),
    }?;
    Ok(())
}

// Gives its text, a few bytes a read.
#[derive(Drop)]
struct Source<'a> {
    text: &'a [u8],
}

impl Read for Source<'_> {
    fn read(&mut self, buf: &mut [u8]) -> io::Result<usize> {
        let count = self.text.len().min(buf.len()).min(61);
        let (given, rest) = self.text.split_at(count);
        buf[..count].copy_from_slice(given);
        self.text = rest;
        Ok(count)
    }
}

// Keeps what is written.
#[derive(Drop)]
struct Sink {
    kept: Vec<u8>,
}

impl Write for Sink {
    fn write(&mut self, buf: &[u8]) -> io::Result<usize> {
        self.kept.extend_from_slice(buf)?;
        Ok(buf.len())
    }

    fn flush(&mut self) -> io::Result<()> {
        Ok(())
    }
}

// Whether exsim answers the list of this seed as a world does, and ends at its end.
fn agrees(seed: u64, alloc: Global) -> Result<bool, Fail> {
    let mut world = World::new(alloc, LENGTH as u32)?;
    let (mut lines, mut replies) = (String::new(alloc), String::new(alloc));
    for step in list(seed, alloc)? {
        write_step(&mut lines, &step)?;
        write_reply(&mut replies, &world.step(step))?;
    }
    let source = Source {
        text: lines.as_bytes(),
    };
    let mut sink = Sink {
        kept: Vec::new(alloc),
    };
    let status = run_lines(alloc, source, &mut sink);
    Ok(status == 0 && sink.kept.as_slice() == replies.as_bytes())
}

// How many lists are answered, from that of the first seed on.
const LISTS: u64 = 100;

#[test]
fn lists_are_answered_as_by_a_world(rt: HostRuntime) -> Result<(), Fail> {
    for seed in 0..LISTS {
        assert!(rt; agrees(seed, rt.alloc())?, "seed {seed} is answered otherwise");
    }
    Ok(())
}
