//! Threads that use the same locks, and of which some give up half way: nothing is lost, and nothing is
//! had twice. No thread waits for a time.
use async_utilities::{
    Barrier, Mutex, Semaphore, SemaphoreGuard, ThreadWaker, block_on,
};
use executor_core::task::{Future, Poll};
use std::alloc::Global;
use std::sync::Wait;
use std::sync::atomic::{AtomicU64, Ordering};
use std::test::Fail;
use std::thread;

const ROUNDS: u64 = 300;

// What the threads share: permits, a number under a mutex, and how many have a permit now, and had at
// most.
#[derive(Drop)]
struct Shared<R: Wait + Drop> {
    semaphore: Semaphore<ThreadWaker, R>,
    mutex: Mutex<u64, ThreadWaker, R>,
    inside: AtomicU64,
    too_many: AtomicU64,
}

impl<R: Wait + Drop> Shared<R> {
    // Has a permit for a while.
    fn hold(&self, permits: SemaphoreGuard<ThreadWaker, R>) {
        let count = permits.permits() as u64;
        if self.inside.fetch_add(count, Ordering::SeqCst) + count > 3 {
            self.too_many.fetch_add(1, Ordering::SeqCst);
        }
        self.inside.fetch_sub(count, Ordering::SeqCst);
        drop(permits);
    }
}

// Takes permits and the number again and again. Every third future is dropped after its first poll.
fn works<R: Wait + Clone + Drop>(
    rt: &R,
    alloc: Global,
    shared: &Shared<R>,
    number: u64,
) -> Option<u64> {
    let waker = ThreadWaker::new(alloc).ok()?;
    let mut added = 0;
    for round in 0..ROUNDS {
        let wanted = (round % 3 + 1) as usize;
        let mut acquire = shared.semaphore.acquire_many(wanted).ok()?;
        let mut lock = shared.mutex.lock().ok()?;
        if (round + number) % 3 == 0 {
            if let Poll::Ready(permits) = acquire.poll(&waker) {
                shared.hold(permits);
            }
            drop(lock.poll(&waker));
            drop(lock);
            drop(acquire);
            continue;
        }
        shared.hold(waker.block_on(rt, acquire));
        let mut guard = waker.block_on(rt, lock);
        *guard += 1;
        added += 1;
        drop(guard);
    }
    Some(added)
}

fn shared<R: AllocGlobal + Wait + Clone + Drop>(rt: &R) -> Result<Shared<R>, Fail> {
    Ok(Shared {
        semaphore: Semaphore::new(rt.clone()?, rt.alloc(), 3)?,
        mutex: Mutex::new(rt.clone()?, rt.alloc(), 0)?,
        inside: AtomicU64::new(0),
        too_many: AtomicU64::new(0),
    })
}

#[test]
fn threads_that_give_up_lose_nothing(rt: HostRuntime) -> Result<(), Fail> {
    let shared = shared(&rt)?;
    let alloc = rt.alloc();
    let ((one, two), (three, four)) = thread::join(
        &rt,
        || thread::join(
            &rt,
            || works(&rt, alloc, &shared, 0),
            || works(&rt, alloc, &shared, 1),
        ),
        || thread::join(
            &rt,
            || works(&rt, alloc, &shared, 2),
            || works(&rt, alloc, &shared, 3),
        ),
    );
    let (Some(one), Some(two), Some(three), Some(four)) = (one, two, three, four) else {
        return Err("no memory".into());
    };
    let Ok(guard) = shared.mutex.try_lock() else {
        return Err("it is locked".into());
    };
    assert_eq!(rt; *guard, one + two + three + four);
    assert_eq!(rt; *guard, ROUNDS * 4 * 2 / 3);
    assert_eq!(rt; shared.semaphore.permits(), 3);
    assert_eq!(rt; shared.too_many.load(Ordering::SeqCst), 0);
    Ok(())
}

// Comes to a barrier again and again. Gives how often it led.
fn comes<R: Wait + Clone + Drop>(
    rt: &R,
    alloc: Global,
    barrier: &Barrier<ThreadWaker, R>,
) -> Option<u64> {
    let mut led = 0;
    for _ in 0..ROUNDS {
        let result = block_on(rt, alloc, barrier.wait().ok()?).ok()?;
        led += u64::from(result.is_leader());
    }
    Some(led)
}

#[test]
fn threads_meet_again_and_again(rt: HostRuntime) -> Result<(), Fail> {
    let alloc = rt.alloc();
    let barrier: Barrier<ThreadWaker, HostRuntime> = Barrier::new(rt.clone()?, alloc, 3)?;
    let ((one, two), three) = thread::join(
        &rt,
        || thread::join(&rt, || comes(&rt, alloc, &barrier), || comes(&rt, alloc, &barrier)),
        || comes(&rt, alloc, &barrier),
    );
    let (Some(one), Some(two), Some(three)) = (one, two, three) else {
        return Err("no memory".into());
    };
    assert_eq!(rt; one + two + three, ROUNDS);
    Ok(())
}
