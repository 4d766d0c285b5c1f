//! Rows of a semaphore, a mutex and a signal.
use async_executor::{Executor, Future, Poll, TaskWaker, Wake};
use async_utilities::{
    Acquire, Lock, Mutex, MutexGuard, NoopWaker, Semaphore, SemaphoreGuard, Signal,
};
use std::alloc::Global;
use std::sync::Wait;

/// A row of a lock, or of a signal.
#[derive(Debug, Clone, Copy, PartialEq, Eq)]
pub enum Locking {
    /// Each of 1,000 tasks takes one of so many permits, and has it for two polls.
    Semaphore(usize),
    /// Lock a mutex that nobody else wants.
    MutexAlone,
    /// So many tasks lock a mutex in turn, and each has it for two polls.
    MutexTasks(u64),
    /// So many wait for a new signal, and it is set.
    SignalWaits(usize),
}

/// How many tasks want a permit at once.
const TASKS: u64 = 1_000;

type Held<R> = TaskWaker<NoopWaker, R>;

impl Locking {
    /// Takes this many turns, or waits this often. Gives how often that came to an end.
    pub fn run<R: Wait + Clone + Drop + Send + Sync>(
        self,
        rt: &R,
        alloc: Global,
        operations: u64,
    ) -> Option<u64> {
        match self {
            Locking::Semaphore(permits) => semaphore(rt, alloc, permits, operations),
            Locking::MutexAlone => mutex_alone(rt, alloc, operations),
            Locking::MutexTasks(tasks) => mutex_tasks(rt, alloc, tasks, operations),
            Locking::SignalWaits(waiters) => signal_waits(rt, alloc, waiters, operations),
        }
    }
}

/// Takes a permit, yields while it has it, and gives it back.
#[derive(Drop)]
struct Permitted<R: Wait + Clone + Drop> {
    acquire: Acquire<Held<R>, R>,
    permit: Option<SemaphoreGuard<Held<R>, R>>,
}

impl<R: Wait + Clone + Drop> Future<TaskWaker<NoopWaker, R>> for Permitted<R> {
    type Output = u64;

    fn poll(&mut self, w: &TaskWaker<NoopWaker, R>) -> Poll<u64> {
        if let Some(permit) = self.permit.take() {
            drop(permit);
            return Poll::Ready(1);
        }
        if let Poll::Ready(permit) = self.acquire.poll(w) {
            self.permit = Some(permit);
            w.wake();
        }
        Poll::Pending
    }
}

fn semaphore<R: Wait + Clone + Drop + Send + Sync>(
    rt: &R,
    alloc: Global,
    permits: usize,
    operations: u64,
) -> Option<u64> {
    let ex: Executor<Permitted<R>, NoopWaker, R> = Executor::new(rt.clone().ok()?, alloc).ok()?;
    let semaphore = Semaphore::new(rt.clone().ok()?, alloc, permits).ok()?;
    let rounds = operations.div_ceil(TASKS);
    for _ in 0..rounds {
        for _ in 0..TASKS {
            let acquire = semaphore.acquire().ok()?;
            let task = Permitted {
                acquire,
                permit: None,
            };
            ex.spawn(task).ok()?.detach();
        }
        run_all(rt, &ex)?;
    }
    if semaphore.permits() == permits {
        Some(rounds.saturating_mul(TASKS))
    } else {
        None
    }
}

// Runs tasks until none is scheduled. `None` if one is left.
fn run_all<F, R>(rt: &R, ex: &Executor<F, NoopWaker, R>) -> Option<()>
where
    F: Future<TaskWaker<NoopWaker, R>, Output = u64> + Send,
    R: Wait + Clone + Drop + Send + Sync,
{
    for _ in rt.forever() {
        if !ex.try_tick() {
            break;
        }
    }
    if ex.is_empty() { Some(()) } else { None }
}

fn mutex_alone<R: Wait + Clone + Drop>(rt: &R, alloc: Global, operations: u64) -> Option<u64> {
    let mutex: Mutex<u64, NoopWaker, R> = Mutex::new(rt.clone().ok()?, alloc, 0).ok()?;
    for _ in 0..operations {
        let mut lock = mutex.lock().ok()?;
        let Poll::Ready(mut guard) = lock.poll(&NoopWaker) else {
            return None;
        };
        *guard = guard.wrapping_add(1);
    }
    let guard = mutex.try_lock().ok()?;
    Some(*guard)
}

/// Locks a mutex so often, and yields while it has it.
#[derive(Drop)]
struct Locked<R: Wait + Clone + Drop> {
    mutex: Mutex<u64, Held<R>, R>,
    lock: Lock<u64, Held<R>, R>,
    guard: Option<MutexGuard<u64, Held<R>, R>>,
    left: u64,
}

impl<R: Wait + Clone + Drop> Future<TaskWaker<NoopWaker, R>> for Locked<R> {
    type Output = u64;

    fn poll(&mut self, w: &TaskWaker<NoopWaker, R>) -> Poll<u64> {
        if let Some(guard) = self.guard.take() {
            drop(guard);
            self.left = self.left.saturating_sub(1);
            if self.left == 0 {
                return Poll::Ready(0);
            }
            match self.mutex.lock() {
                Ok(lock) => self.lock = lock,
                Err(_) => return Poll::Ready(self.left),
            }
        }
        if let Poll::Ready(mut guard) = self.lock.poll(w) {
            *guard = guard.wrapping_add(1);
            self.guard = Some(guard);
            w.wake();
        }
        Poll::Pending
    }
}

fn mutex_tasks<R: Wait + Clone + Drop + Send + Sync>(
    rt: &R,
    alloc: Global,
    tasks: u64,
    operations: u64,
) -> Option<u64> {
    let ex: Executor<Locked<R>, NoopWaker, R> = Executor::new(rt.clone().ok()?, alloc).ok()?;
    let mutex = Mutex::new(rt.clone().ok()?, alloc, 0).ok()?;
    let left = operations.div_ceil(tasks.max(1));
    for _ in 0..tasks {
        let locked = Locked {
            mutex: mutex.copy().ok()?,
            lock: mutex.lock().ok()?,
            guard: None,
            left,
        };
        ex.spawn(locked).ok()?.detach();
    }
    run_all(rt, &ex)?;
    let guard = mutex.try_lock().ok()?;
    Some(*guard)
}

fn signal_waits<R: Wait + Clone + Drop>(
    rt: &R,
    alloc: Global,
    waiters: usize,
    operations: u64,
) -> Option<u64> {
    let rounds = operations.checked_div(waiters as u64)?.max(1);
    let mut count = 0u64;
    for _ in 0..rounds {
        let signal = Signal::new(rt.clone().ok()?, alloc).ok()?;
        let mut all = Vec::with_capacity(alloc, waiters).ok()?;
        for _ in 0..waiters {
            let mut waiting = signal.waiting().ok()?;
            waiting.poll(&NoopWaker);
            all.push(waiting).ok()?;
        }
        signal.set();
        for mut waiting in all {
            if waiting.poll(&NoopWaker) == Poll::Ready(()) {
                count = count.saturating_add(1);
            }
        }
    }
    Some(count)
}
