//! A call beside another thread that halts at a request for memory, maybe while it holds a lock.
//!
//! Nothing of a test runs while an executor holds a lock, but requests for memory do. The build of the
//! tests has the library of `checks/lib/halt_nth.c`, by which one of them halts, and is refused once it goes
//! on. It also says that a thread waits for a lock, so nothing here depends on time.
use super::waiting::turns;
use executor_core::halts::{
    halt_request, is_request_halted, is_thread_waiting, let_request_go_on, watch_thread,
};
use std::process::Abort;
use std::sync::Wait;
use std::sync::atomic::{AtomicBool, Ordering};
use std::thread::{self, Threads, yield_now};

/// More requests than a call makes.
pub const MOST_REQUESTS: u32 = 64;

/// What is seen beside a request that halts.
#[derive(Drop)]
pub struct Seen<X> {
    /// What is there before the call.
    pub before: X,
    /// Whether the call waits for a lock.
    pub waits: bool,
    /// What is there once the call waits, or has returned.
    pub after: X,
}

// How far the threads are.
#[derive(Drop)]
struct Progress {
    may_call: AtomicBool,
    has_called: AtomicBool,
    is_over: AtomicBool,
}

impl Progress {
    fn new() -> Progress {
        Progress {
            may_call: AtomicBool::new(false),
            has_called: AtomicBool::new(false),
            is_over: AtomicBool::new(false),
        }
    }

    // Whether the request halts. If not, the one that was to make it is over without it.
    fn is_halted(&self, rt: &impl Wait) -> bool {
        for _ in rt.forever() {
            if is_request_halted() != 0 {
                return true;
            }
            if self.is_over.load(Ordering::SeqCst) {
                return false;
            }
            yield_now();
        }
        false
    }

    // Whether the call may begin. If not, no request halts.
    fn begins(&self, rt: &impl Wait) -> bool {
        for _ in rt.forever() {
            if self.may_call.load(Ordering::SeqCst) {
                return true;
            }
            if self.is_over.load(Ordering::SeqCst) {
                return false;
            }
            yield_now();
        }
        false
    }

    // Makes the call, whose thread is watched meanwhile: not where it waits for the other thread to end.
    fn call<T>(&self, call: impl FnOnce() -> T) -> T {
        watch_thread(1);
        let returned = call();
        watch_thread(0);
        self.has_called.store(true, Ordering::SeqCst);
        returned
    }

    // Whether the call returns before the turns are over.
    fn returns(&self) -> bool {
        for _ in 0..turns() {
            if self.has_called.load(Ordering::SeqCst) {
                return true;
            }
            yield_now();
        }
        false
    }

    // Has the call begin, and says whether it waits. If not, it has returned.
    fn call_waits(&self, rt: &impl Wait) -> bool {
        self.may_call.store(true, Ordering::SeqCst);
        for _ in rt.forever() {
            if is_thread_waiting() != 0 {
                return true;
            }
            if self.has_called.load(Ordering::SeqCst) {
                return false;
            }
            yield_now();
        }
        false
    }
}

/// Has one thread make requests for memory, of which the one of this number halts, and another one make
/// this call meanwhile. The third one looks before the call, and once it waits or has returned; then
/// the request goes on, and is refused. `None` if fewer requests are made.
pub fn beside_request<R, A, B, L, X>(
    rt: &R,
    request: u32,
    requests: A,
    call: B,
    look: L,
) -> Option<Seen<X>>
where
    R: Wait + Threads + Sync,
    A: FnOnce() + Send,
    B: FnOnce() + Send,
    L: Fn() -> X + Send,
    X: Drop + Send,
{
    let progress = Progress::new();
    let ((), ((), seen)) = thread::join(
        rt,
        || {
            halt_request(request);
            requests();
            halt_request(0);
            progress.is_over.store(true, Ordering::SeqCst);
        },
        || {
            thread::join(
                rt,
                || {
                    if progress.begins(rt) {
                        progress.call(call);
                    }
                },
                || {
                    if !progress.is_halted(rt) {
                        return None;
                    }
                    let before = look();
                    let waits = progress.call_waits(rt);
                    let after = look();
                    let_request_go_on();
                    Some(Seen {
                        before,
                        waits,
                        after,
                    })
                },
            )
        },
    );
    seen
}

/// Has a thread make this call, and another one wake it once it waits or has returned. Gives what the call
/// returns, and whether it waited. If the wake does not end the call, the test ends.
pub fn call_beside<R, T, A, B>(rt: &R, call: A, wake: B) -> (T, bool)
where
    R: Wait + Threads + Abort + Sync,
    T: Drop + Send,
    A: FnOnce() -> T + Send,
    B: FnOnce() + Send,
{
    let progress = Progress::new();
    thread::join(
        rt,
        || progress.call(call),
        || {
            let waits = progress.call_waits(rt);
            wake();
            if !progress.returns() {
                rt.abort();
            }
            waits
        },
    )
}
