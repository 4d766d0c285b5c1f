//! Programs of which one thread halts at a named step while another one goes on.
use crate::fixed::parts::{Endless, Twice, left_waker, parts, spawn};
use crate::support::record::Record;
use crate::support::waker::TestWaker;
use async_executor::Executor;
use executor_core::halts::{is_thread_waiting, watch_thread};
use executor_core::recorder::{self, Word};
use executor_core::task::{Future, Wake};
use std::sync::atomic::{AtomicBool, Ordering};
use std::sync::{Arc, Mutex, Wait};
use std::test::Fail;
use std::thread::{self, Threads, yield_now};

// How far the threads are.
#[derive(Drop)]
struct Progress {
    has_begun: AtomicBool,
    has_returned: AtomicBool,
    is_over: AtomicBool,
}

impl Progress {
    // Waits until the first thread halts, or is over without it.
    fn await_halt(&self, rt: &impl Wait) {
        for _ in rt.forever() {
            if recorder::has_halted() || self.is_over.load(Ordering::SeqCst) {
                return;
            }
            yield_now();
        }
    }

    // Waits until the second thread waits for a lock, or has returned.
    fn await_other(&self, rt: &impl Wait) {
        for _ in rt.forever() {
            let waits = self.has_begun.load(Ordering::SeqCst) && is_thread_waiting() != 0;
            if waits || self.has_returned.load(Ordering::SeqCst) {
                return;
            }
            yield_now();
        }
    }
}

// Has one thread make a call, which halts at its first step of this word, and another one the second call.
// The first goes on once the second waits for a lock, or has returned.
fn beside<R: Wait + Threads + Sync, A: FnOnce() + Send, B: FnOnce() + Send>(
    rt: &R,
    word: Word,
    first: A,
    second: B,
) {
    let progress = Progress {
        has_begun: AtomicBool::new(false),
        has_returned: AtomicBool::new(false),
        is_over: AtomicBool::new(false),
    };
    thread::join(
        rt,
        || {
            recorder::halt(word);
            first();
            progress.is_over.store(true, Ordering::SeqCst);
        },
        || {
            thread::join(
                rt,
                || {
                    progress.await_halt(rt);
                    watch_thread(1);
                    progress.has_begun.store(true, Ordering::SeqCst);
                    second();
                    progress.has_returned.store(true, Ordering::SeqCst);
                },
                || {
                    progress.await_other(rt);
                    recorder::go_on();
                },
            )
        },
    );
}

/// `Fixed::WakeBesideSpawn`.
pub fn wake_beside_spawn<R: AllocGlobal + Wait + Threads + Clone + Drop + Send + Sync>(
    rt: &R,
) -> Result<(), Fail> {
    let (ex, place, _) = parts!(rt);
    spawn!(ex, 7, &place);
    ex.try_tick();
    let Some(waker) = left_waker(&place) else {
        return Err("no waker was left".into());
    };
    beside(
        rt,
        Word::Spawn,
        || spawn!(ex, 8, &place),
        || waker.wake(),
    );
    while ex.try_tick() {}
    Ok(())
}

/// `Fixed::CancelBesideSpawn`.
pub fn cancel_beside_spawn<R: AllocGlobal + Wait + Threads + Clone + Drop + Send + Sync>(
    rt: &R,
) -> Result<(), Fail> {
    let (ex, place, waker) = parts!(rt);
    let Ok(task) = ex.spawn(Twice::new(7, &place)?) else {
        return Err("a spawn is refused".into());
    };
    ex.try_tick();
    let mut cancel = None;
    beside(
        rt,
        Word::Spawn,
        || spawn!(ex, 8, &place),
        || cancel = Some(task.cancel()),
    );
    while ex.try_tick_any() {}
    if let Some(mut cancel) = cancel {
        drop(cancel.poll(&waker));
    }
    Ok(())
}

/// `Fixed::TwoExchanges`.
pub fn two_exchanges<R: AllocGlobal + Wait + Threads + Clone + Drop + Send + Sync>(
    rt: &R,
) -> Result<(), Fail> {
    let (ex, place, waker) = parts!(rt);
    let mut tick = ex.tick()?;
    drop(tick.poll(&waker));
    beside(
        rt,
        Word::ExchangeBegins,
        || spawn!(ex, 7, &place),
        || spawn!(ex, 8, &place),
    );
    drop(tick.poll(&waker));
    drop(tick);
    while ex.try_tick() {}
    Ok(())
}

/// `Fixed::TakeBesideSpawn`.
pub fn take_beside_spawn<R: AllocGlobal + Wait + Threads + Clone + Drop + Send + Sync>(
    rt: &R,
) -> Result<(), Fail> {
    let (ex, place, waker) = parts!(rt);
    let mut tick = ex.tick()?;
    drop(tick.poll(&waker));
    beside(
        rt,
        Word::ExchangeBegins,
        || spawn!(ex, 7, &place),
        || {
            ex.try_tick();
        },
    );
    drop(tick.poll(&waker));
    drop(tick);
    while ex.try_tick() {}
    Ok(())
}

/// `Fixed::DropBesideSpawn`.
pub fn drop_beside_spawn<R: AllocGlobal + Wait + Threads + Clone + Drop + Send + Sync>(
    rt: &R,
) -> Result<(), Fail> {
    let (ex, place, waker) = parts!(rt);
    let mut tick = ex.tick()?;
    drop(tick.poll(&waker));
    beside(
        rt,
        Word::Exchange,
        || spawn!(ex, 7, &place),
        || drop(tick),
    );
    while ex.try_tick() {}
    Ok(())
}

/// `Fixed::Steal`.
pub fn steal<R: AllocGlobal + Wait + Threads + Clone + Drop + Send + Sync>(rt: &R) -> Result<(), Fail> {
    let (ex, place, waker) = parts!(rt);
    let (Ok(mut one), Ok(mut other)) = (ex.run(Endless), ex.run(Endless)) else {
        return Err("a run is refused".into());
    };
    for number in 0..6 {
        spawn!(ex, number, &place);
    }
    beside(
        rt,
        Word::CallFuture,
        || drop(one.poll(&waker)),
        || drop(other.poll(&waker)),
    );
    drop(one);
    drop(other);
    drop(ex.run(Endless).ok());
    Ok(())
}

/// `Fixed::NotifyBesideSleep`.
pub fn notify_beside_sleep<R: AllocGlobal + Wait + Threads + Clone + Drop + Send + Sync>(
    rt: &R,
) -> Result<(), Fail> {
    let (ex, place, waker) = parts!(rt);
    let (mut one, mut other) = (ex.tick()?, ex.tick()?);
    drop(one.poll(&waker));
    beside(
        rt,
        Word::Insert,
        || drop(other.poll(&waker)),
        || spawn!(ex, 7, &place),
    );
    drop(one);
    drop(other);
    while ex.try_tick() {}
    Ok(())
}
