//! Takes a random program on an executor, and says what is wrong in the end.
use super::handles::{Ended, Handles};
use super::lives::Living;
use super::programs::{Call, PLACES, Program};
use super::waker::TestWaker;
use async_executor::{Executor, LocalExecutor, LocalTask, Task};
use executor_core::task::{Future, Poll};
use std::sync::Wait;
use std::sync::atomic::Ordering;
use std::test::Fail;
use std::thread::{self, Threads};

// What the last ticks of a leaked executor may find.
const MOST_TICKS: usize = 100_000;

/// Never ready.
#[derive(Drop)]
pub struct Endless;

impl<W> Future<W> for Endless {
    type Output = ();

    fn poll(&mut self, _w: &W) -> Poll<()> {
        Poll::Pending
    }
}

// Makes the calls of one thread on an executor of any type.
macro_rules! calls_of {
    ($ex:expr, $calls:expr, $handles:expr) => {{
        let (mut tick, mut run) = (None, None);
        for call in $calls.iter() {
            match *call {
                Call::Spawn { task, place, word } => {
                    if let Some(future) = $handles.future(task, word) {
                        match $ex.spawn(future) {
                            Ok(handle) => $handles.put(place, task, handle),
                            Err(_) => return Err("a spawn is refused"),
                        }
                    }
                }
                Call::Wake { task } => $handles.lives[task].wake(),
                Call::PollHandle { place } => {
                    $handles.poll(place)?;
                }
                Call::Cancel { place } => $handles.cancel(place),
                Call::Detach { place } => $handles.detach(place),
                Call::DropHandle { place } => $handles.drop_at(place),
                Call::TryTick => {
                    $ex.try_tick();
                }
                Call::PollTick => {
                    if tick.is_none() {
                        tick = $ex.tick().ok();
                    }
                    let is_over = match &mut tick {
                        Some(tick) => tick.poll(&$handles.waker) == Poll::Ready(()),
                        None => return Err("a tick is refused"),
                    };
                    if is_over {
                        tick = None;
                    }
                }
                Call::DropTick => tick = None,
                Call::PollRun => {
                    if run.is_none() {
                        run = $ex.run(Endless).ok();
                    }
                    match &mut run {
                        Some(run) => drop(run.poll(&$handles.waker)),
                        None => return Err("a run is refused"),
                    }
                }
                Call::DropRun => run = None,
            }
        }
        Ok(())
    }};
}

// Has a thread of its own make the calls of each thread of a half, and says what was wrong.
macro_rules! half_by_threads {
    ($rt:expr, $ex:expr, $threads:expr, $handles:expr) => {{
        let (ex, handles) = (&$ex, $handles);
        thread::scope(thread::scope_env(), $rt, |scope| -> Ended {
            let mut children = Vec::new($rt.alloc());
            for calls in $threads.iter() {
                let child = match scope
                    .spawn(move || -> Ended { calls_of!(ex, calls, handles) })
                {
                    Ok(child) => child,
                    Err(_) => return Err("no thread"),
                };
                if let Err(refused) = children.push(child) {
                    drop(refused);
                    return Err("no memory for a thread");
                }
            }
            let mut wrong = Ok(());
            for child in children {
                let ended = child.join($rt);
                if wrong.is_ok() {
                    wrong = ended;
                }
            }
            wrong
        })
    }};
}

// The same on this thread, the calls of one after those of the other.
macro_rules! half_by_this_thread {
    ($rt:expr, $ex:expr, $threads:expr, $handles:expr) => {{
        let (ex, handles) = (&$ex, $handles);
        for calls in $threads.iter() {
            let ended: Ended = calls_of!(ex, calls, handles);
            ended?;
        }
        let ended: Ended = Ok(());
        ended
    }};
}

// Whether no place is left among the runners or the sleepers, of each executor that the text has.
macro_rules! has_no_tickers {
    ($rt:expr, $ex:expr) => {{
        match format!(in $rt.alloc(); "{:?}", $ex) {
            Ok(text) => {
                let text = text.as_str();
                let all = text.matches("sleepers: ").count();
                all > 0 && text.matches("local_runners: [], sleepers: 0 }").count() == all
            }
            Err(_) => false,
        }
    }};
}

// Both halves, after which the executor is dropped and each handle answers.
macro_rules! closed {
    ($half:ident, $rt:expr, $program:expr, $handles:expr, $ex:expr) => {{
        let ex = $ex;
        $half!($rt, ex, $program.halves[0], $handles)?;
        $half!($rt, ex, $program.halves[1], $handles)?;
        if !has_no_tickers!($rt, ex) {
            return Err("a place of a tick or a run is left");
        }
        for life in $handles.lives.iter() {
            life.cancelled.store(true, Ordering::SeqCst);
        }
        drop(ex);
        $handles.answer_all()
    }};
}

// The second half after the executor is leaked. Then all handles are dropped, and what is scheduled is
// run; what is left is idle, and goes with the executor.
macro_rules! leaked {
    ($half:ident, $rt:expr, $program:expr, $handles:expr, $ex:expr) => {{
        let ex = $ex;
        $half!($rt, ex, $program.halves[0], $handles)?;
        let ex = ex.leak();
        $half!($rt, ex, $program.halves[1], $handles)?;
        for place in 0..PLACES {
            $handles.drop_at(place);
        }
        let mut ticks = 0;
        while ticks < MOST_TICKS && ex.try_tick() {
            ticks += 1;
        }
        if ticks == MOST_TICKS {
            return Err("there is always one more task");
        }
        if !has_no_tickers!($rt, ex) {
            return Err("a place of a tick or a run is left");
        }
        drop(ex);
        Ok(())
    }};
}

// What a program comes to on this executor, each half of which is taken so.
macro_rules! ended {
    ($half:ident, $rt:expr, $program:expr, $handles:expr, $ex:expr) => {
        if $program.leaks {
            leaked!($half, $rt, $program, $handles, $ex)
        } else {
            closed!($half, $rt, $program, $handles, $ex)
        }
    };
}

pub(crate) use {calls_of, closed, half_by_threads, has_no_tickers};

/// What is wrong in the end of this program on an executor that threads share, if anything.
pub fn tried<R: AllocGlobal + Wait + Threads + Clone + Drop + Send + Sync>(
    rt: &R,
    program: &Program,
) -> Result<Option<&'static str>, Fail> {
    let alloc = rt.alloc();
    let handles = Handles::new(program.tasks, alloc)?;
    let ex = Executor::new(rt.clone()?, alloc)?;
    let ended = ended_on_threads(rt, program, &handles, ex);
    Ok(handles.judged(ended, program.leaks))
}

/// The same on a local executor, by this thread.
pub fn tried_locally<R: AllocGlobal + Wait + Clone + Drop + Send + Sync>(
    rt: &R,
    program: &Program,
) -> Result<Option<&'static str>, Fail> {
    let alloc = rt.alloc();
    let handles = Handles::new(program.tasks, alloc)?;
    let ex = LocalExecutor::new(rt.clone()?, alloc)?;
    let ended = ended_here(rt, program, &handles, ex);
    Ok(handles.judged(ended, program.leaks))
}

fn ended_on_threads<R: AllocGlobal + Wait + Threads + Clone + Drop + Send + Sync>(
    rt: &R,
    program: &Program,
    handles: &Handles<Task<Living<R>, TestWaker, R>, R>,
    ex: Executor<Living<R>, TestWaker, R>,
) -> Ended {
    ended!(half_by_threads, rt, program, handles, ex)
}

fn ended_here<R: AllocGlobal + Wait + Clone + Drop + Send + Sync>(
    rt: &R,
    program: &Program,
    handles: &Handles<LocalTask<Living<R>, TestWaker, R>, R>,
    ex: LocalExecutor<Living<R>, TestWaker, R>,
) -> Ended {
    ended!(half_by_this_thread, rt, program, handles, ex)
}
