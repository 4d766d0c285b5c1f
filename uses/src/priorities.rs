//! Tasks of several levels of urgency on one executor.
ghost use Rattle.std.specs.Prelude.{◌-◌};
ghost use Rattle.arrayvec.specs.ArrayVec.{array_vec_len};

use arrayvec::ArrayVec;
use async_executor::{Cancelled, Future, Poll, TaskWaker, Wake};
use async_utilities::NoopWaker;
use priority_executor::{Asker, PriorityExecutor, choose};
use std::alloc::Global;
use std::io;
use std::sync::Wait;
use std::sync::atomic::{AtomicU64, Ordering};

/// Gives how many others ran before it.
#[derive(Drop)]
struct Runner<'a> {
    ran: &'a AtomicU64,
}

impl<W> Future<W> for Runner<'_> {
    type Output = u64;

    fn poll(&mut self, _w: &W) -> Poll<u64> {
        Poll::Ready(self.ran.fetch_add(1, Ordering::SeqCst))
    }
}

// Spawns many tasks of level 1, and then one of level 0. Its handle says how many ran before it.
fn urgent<'a, R: Wait + Clone + Drop + Send + Sync>(
    executor: &PriorityExecutor<Runner<'a>, NoopWaker, R, 2>,
    ran: &'a AtomicU64,
) -> io::Result<Poll<Result<u64, Cancelled>>> {
    for _ in 0..1_000 {
        executor.spawn(1, Runner { ran })?.detach();
    }
    let mut task = executor.spawn(0, Runner { ran })?;
    executor.try_tick();
    Ok(task.poll(&NoopWaker))
}

/// An urgent task overtakes a thousand others, which are run after it. Gives what its handle says, how many
/// ran before it, and how many ran in all.
pub fn overtakes<R: Wait + Clone + Drop + Send + Sync>(
    rt: &R,
    alloc: Global,
) -> io::Result<(Poll<Result<u64, Cancelled>>, u64)> {
    let ran = AtomicU64::new(0);
    let executor = PriorityExecutor::new(rt.clone()?, alloc)?;
    let before = urgent(&executor, &ran)?;
    for _ in rt.forever() {
        if executor.is_empty() || !executor.try_tick() {
            break;
        }
    }
    // (Ready(Ok(0)), 1001)
    Ok((before, ran.load(Ordering::SeqCst)))
}

/// A connection is accepted at each poll of the loop, which asks for the next poll itself. A request
/// gives how many were accepted when it was served.
#[derive(Drop)]
enum Job<'a> {
    Accept { left: u64, accepted: &'a AtomicU64 },
    Serve { accepted: &'a AtomicU64 },
}

impl<W: Wake, R: Wait + Drop> Future<TaskWaker<W, R>> for Job<'_> {
    type Output = u64;

    fn poll(&mut self, w: &TaskWaker<W, R>) -> Poll<u64> {
        match self {
            Job::Accept { left: 0, accepted } | Job::Serve { accepted } => {
                Poll::Ready(accepted.load(Ordering::SeqCst))
            }
            Job::Accept { left, accepted } => {
                *left -= 1;
                accepted.fetch_add(1, Ordering::SeqCst);
                w.wake();
                Poll::Pending
            }
        }
    }
}

// Spawns a request at level 1 and the accept loop at level 0, and runs both by ticks. Gives what the
// handle of the request answers.
fn served<'a, R: Wait + Clone + Drop + Send + Sync>(
    rt: &R,
    executor: &PriorityExecutor<Job<'a>, NoopWaker, R, 2>,
    accepted: &'a AtomicU64,
) -> io::Result<Poll<Result<u64, Cancelled>>> {
    let mut request = executor.spawn(1, Job::Serve { accepted })?;
    let accept = Job::Accept { left: 3, accepted };
    executor.spawn(0, accept)?.detach();
    run_by_ticks(rt, executor)?;
    Ok(request.poll(&NoopWaker))
}

// Runs tasks by ticks until none is scheduled.
fn run_by_ticks<R: Wait + Clone + Drop + Send + Sync>(
    rt: &R,
    executor: &PriorityExecutor<Job<'_>, NoopWaker, R, 2>,
) -> io::Result<()> {
    for _ in rt.forever() {
        if executor.tick()?.poll(&NoopWaker) == Poll::Pending {
            break;
        }
    }
    Ok(())
}

/// An accept loop goes before the requests, by ticks of the executor: all connections are accepted
/// before the first request is served, whose handle says how many those were.
pub fn accepts<R: Wait + Clone + Drop + Send + Sync>(
    rt: &R,
    alloc: Global,
) -> io::Result<Poll<Result<u64, Cancelled>>> {
    let accepted = AtomicU64::new(0);
    let executor = PriorityExecutor::new(rt.clone()?, alloc)?;
    served(rt, &executor, &accepted)
}

/// Doors that are tried, and which of them were open.
#[derive(Drop)]
struct Doors {
    open: [bool; 3],
    answers: ArrayVec<(usize, bool), 3>,
}

impl Asker for Doors {
    ghost answers = { λ s. s.answers.items };

    ghost places = { λ s. 3 - array_vec_len s.answers };

    fn ask(&mut self, level: usize) -> bool {
        let is_open = self.open.get(level).copied().unwrap_or(false);
        self.answers.push((level, is_open));
        is_open
    }
}

/// Tries the doors in order up to the first that is open. Gives which one that is, and how many were
/// tried.
pub fn prefers(open: [bool; 3]) -> (Option<usize>, usize) {
    let mut doors = Doors {
        open,
        answers: ArrayVec::new(),
    };
    let first = choose(&mut doors, 3);
    (first, doors.answers.len())
}
