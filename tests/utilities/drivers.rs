//! Who drives a timer of `async_utilities`: what each one is told of, when it parks, and that no lock is
//! held while a waker of the caller's runs. The clock is the test's own.
use crate::tests::support::running::beside::call_beside;
use crate::tests::support::running::clock::TestClock;
use crate::tests::support::running::halt::Halt;
use crate::tests::support::running::record::{Moment, Record};
use crate::tests::support::running::refusal::{is_order_left, refuse};
use crate::tests::support::running::waiting::turns;
use crate::tests::support::running::waker::TestWaker;
use async_executor::{Future, Poll, Wake};
use async_utilities::{Never, ThreadWaker, Timer, TimerError};
use std::alloc::{AllocError, Global};
use std::process::Abort;
use std::sync::atomic::{AtomicBool, AtomicU64, Ordering};
use std::sync::{Arc, Wait};
use std::test::Fail;
use std::thread::{self, Threads, yield_now};
use std::time::Duration;

fn nanos(count: u64) -> Duration {
    Duration::from_nanos(count)
}

// A waker that nobody else has a share of.
fn new_waker(alloc: Global) -> Result<TestWaker, Fail> {
    Ok(TestWaker::new(&Record::new(alloc)?)?)
}

type Still<R> = Timer<TestWaker, TestClock, R>;

// A timer, and the clock that it goes by, which stands at 0.
fn timer<R: AllocGlobal + Wait + Clone + Drop>(rt: &R) -> Result<(Still<R>, TestClock), Fail> {
    let clock = TestClock::new(rt.alloc())?;
    let timer = Timer::new(rt.clone()?, clock.share()?, rt.alloc())?;
    Ok((timer, clock))
}

// How often a future was polled, and whether it is to end.
#[derive(Drop)]
struct Polls {
    count: AtomicU64,
    ends: AtomicBool,
}

// Ready once it is to end. It counts its polls, and wakes nobody.
#[derive(Drop)]
struct Counted {
    polls: Arc<Polls>,
}

impl<W> Future<W> for Counted {
    type Output = ();

    fn poll(&mut self, _w: &W) -> Poll<()> {
        self.polls.count.fetch_add(1, Ordering::SeqCst);
        if self.polls.ends.load(Ordering::SeqCst) {
            Poll::Ready(())
        } else {
            Poll::Pending
        }
    }
}

impl Polls {
    fn new(alloc: Global) -> Result<Arc<Polls>, AllocError> {
        let polls = Polls {
            count: AtomicU64::new(0),
            ends: AtomicBool::new(false),
        };
        Ok(Arc::new(alloc, polls)?)
    }

    fn count(&self) -> u64 {
        self.count.load(Ordering::SeqCst)
    }

    // Whether it is polled so often before the turns are over.
    fn reaches(&self, count: u64) -> bool {
        for _ in 0..turns() {
            if self.count() >= count {
                return true;
            }
            yield_now();
        }
        false
    }

    // Has it end, and asks for a last poll.
    fn end(&self, waker: &ThreadWaker) {
        self.ends.store(true, Ordering::SeqCst);
        waker.wake();
    }
}

fn counted(polls: &Arc<Polls>) -> Result<Counted, AllocError> {
    let polls = Arc::try_clone(polls)?;
    Ok(Counted { polls })
}

// Two threads drive a timer, each until its future ends. The thread of the test sets a deadline while
// they park, once there was none and once there was a later one. Says whether each looked again each
// time.
fn are_told<R: AllocGlobal + Wait + Threads + Clone + Drop + Send + Sync>(
    rt: &R,
) -> Result<bool, Fail> {
    let (timer, _clock) = timer(rt)?;
    let waker = new_waker(rt.alloc())?;
    let (one, two) = (timer.driver()?, timer.driver()?);
    let (mine, other) = (one.waker().copy()?, two.waker().copy()?);
    let (first, second) = (Polls::new(rt.alloc())?, Polls::new(rt.alloc())?);
    let (early, late) = (counted(&first)?, counted(&second)?);
    let (mut far, mut near) = (
        timer.after(Duration::from_secs(1_000_000))?,
        timer.after(Duration::from_secs(3_600))?,
    );
    let (driven, told) = thread::join(
        rt,
        || {
            let ended = thread::join(
                rt,
                || one.block_on(early).is_ok(),
                || two.block_on(late).is_ok(),
            );
            ended.0 && ended.1
        },
        || {
            let begun = first.reaches(1) && second.reaches(1);
            far.poll(&waker);
            let is_far = first.reaches(2) && second.reaches(2);
            near.poll(&waker);
            let is_near = first.reaches(3) && second.reaches(3);
            first.end(&mine);
            second.end(&other);
            begun && is_far && is_near
        },
    );
    Ok(driven && told)
}

#[test]
fn each_driver_is_told_of_a_nearer_deadline(rt: HostRuntime) -> Result<(), Fail> {
    assert!(rt; are_told(&rt)?);
    Ok(())
}

// Sets a thousand deadlines that are later than the first, and has a driver rest. Says whether it parks.
fn parks_until_the_first<R: AllocGlobal + Wait + Threads + Abort + Clone + Drop + Send + Sync>(
    rt: &R,
) -> Result<bool, Fail> {
    let (timer, _clock) = timer(rt)?;
    let waker = new_waker(rt.alloc())?;
    let mut first = timer.after(Duration::from_secs(1_000))?;
    first.poll(&waker);
    let driver = timer.driver()?;
    let mine = driver.waker().copy()?;
    for _ in 0..1_000 {
        timer.after(Duration::from_secs(2_000))?.poll(&waker);
    }
    let (is_rested, waited) = call_beside(rt, || driver.rest().is_ok(), || mine.wake());
    Ok(is_rested && waited)
}

#[test]
fn no_driver_is_told_of_a_later_deadline(rt: HostRuntime) -> Result<(), Fail> {
    assert!(rt; parks_until_the_first(&rt)?);
    Ok(())
}

// Drives a timer under a clock that stands still, with a deadline ten nanoseconds away: the driver looks
// again and again. Says whether it does.
fn looks_again<R: AllocGlobal + Wait + Threads + Clone + Drop + Send + Sync>(
    rt: &R,
) -> Result<bool, Fail> {
    let (timer, _clock) = timer(rt)?;
    let waker = new_waker(rt.alloc())?;
    let driver = timer.driver()?;
    let mine = driver.waker().copy()?;
    let polls = Polls::new(rt.alloc())?;
    let future = counted(&polls)?;
    let mut near = timer.after(nanos(10))?;
    near.poll(&waker);
    let (driven, looked) = thread::join(
        rt,
        || driver.block_on(future).is_ok(),
        || {
            let looked = polls.reaches(4);
            polls.end(&mine);
            looked
        },
    );
    Ok(driven && looked)
}

#[test]
fn a_driver_parks_no_longer_than_until_the_first_deadline(rt: HostRuntime) -> Result<(), Fail> {
    assert!(rt; looks_again(&rt)?);
    Ok(())
}

// Ready at its second poll. It wakes nobody.
#[derive(Drop)]
struct Second {
    is_polled: bool,
}

impl<W> Future<W> for Second {
    type Output = ();

    fn poll(&mut self, _w: &W) -> Poll<()> {
        if self.is_polled {
            return Poll::Ready(());
        }
        self.is_polled = true;
        Poll::Pending
    }
}

// A thread waits for a future, with a waker that it keeps. Says whether it parks.
fn parks<R: AllocGlobal + Wait + Threads + Abort + Clone + Drop + Send + Sync>(
    rt: &R,
) -> Result<bool, Fail> {
    let waker = ThreadWaker::new(rt.alloc())?;
    let mine = waker.copy()?;
    let future = Second { is_polled: false };
    let ((), waited) = call_beside(rt, || waker.block_on(rt, future), || mine.wake());
    Ok(waited)
}

#[test]
fn a_thread_that_waits_parks(rt: HostRuntime) -> Result<(), Fail> {
    assert!(rt; parks(&rt)?);
    Ok(())
}

// A thread that was woken before parks, maybe with a timeout, which ends at once, and then waits for a future.
// Says whether it parks for that.
fn parks_anew<R: AllocGlobal + Wait + Threads + Abort + Clone + Drop + Send + Sync>(
    rt: &R,
    is_timed: bool,
) -> Result<bool, Fail> {
    let waker = ThreadWaker::new(rt.alloc())?;
    let mine = waker.copy()?;
    mine.wake();
    if is_timed {
        waker.park_timeout(rt, Duration::from_secs(1_000));
    } else {
        waker.park(rt);
    }
    let future = Second { is_polled: false };
    let ((), waited) = call_beside(rt, || waker.block_on(rt, future), || mine.wake());
    Ok(waited)
}

#[test]
fn a_wake_ends_one_wait(rt: HostRuntime) -> Result<(), Fail> {
    assert!(rt; parks_anew(&rt, false)?);
    assert!(rt; parks_anew(&rt, true)?);
    Ok(())
}

// Whether a driver takes memory for its waker alone, since there is a place for it.
fn has_place<R: AllocGlobal + Wait + Clone + Drop>(rt: &R, timer: &Still<R>) -> bool {
    refuse(rt.alloc(), 2);
    let is_made = timer.driver().is_ok();
    is_order_left(rt.alloc()) && is_made
}

// Makes two hundred drivers one after another, or has the clock refuse to be read so often while one
// drives. Says whether each gives its place back.
fn gives_places_back<R: AllocGlobal + Wait + Clone + Drop>(
    rt: &R,
    refuses: bool,
) -> Result<bool, Fail> {
    let (timer, clock) = timer(rt)?;
    drop(timer.driver()?);
    clock.refuse(refuses);
    for _ in 0..200 {
        if refuses {
            let never: Never<u64> = Never::new();
            if timer.block_on(never).is_ok() {
                return Ok(false);
            }
        }
        if !has_place(rt, &timer) {
            return Ok(false);
        }
    }
    Ok(true)
}

#[test]
fn a_driver_gives_its_place_back(rt: HostRuntime) -> Result<(), Fail> {
    assert!(rt; gives_places_back(&rt, false)?);
    assert!(rt; gives_places_back(&rt, true)?);
    Ok(())
}

// Has each of the two requests for memory of a driver be refused. Says whether each is an answer, and
// the third attempt a driver.
fn is_refused<R: AllocGlobal + Wait + Clone + Drop>(rt: &R) -> Result<[bool; 3], Fail> {
    let (timer, _clock) = timer(rt)?;
    refuse(rt.alloc(), 1);
    let first = timer.driver().is_err();
    refuse(rt.alloc(), 2);
    let second = timer.driver().is_err();
    refuse(rt.alloc(), 0);
    Ok([first, second, timer.driver().is_ok()])
}

#[test]
fn a_driver_is_refused_memory(rt: HostRuntime) -> Result<(), Fail> {
    assert_eq!(rt; is_refused(&rt)?, [true, true, true]);
    Ok(())
}

// What a thread does with a timer while the waker of another thread halts.
fn uses_timer<R: Wait + Clone + Drop>(timer: &Still<R>, waker: &TestWaker) -> bool {
    match (timer.driver(), timer.after(nanos(5))) {
        (Ok(driver), Ok(mut after)) => driver.fire().is_ok() && after.poll(waker) == Poll::Pending,
        _ => false,
    }
}

// At which call a waker of the caller's runs.
#[derive(Clone, Copy)]
enum Call {
    // It is copied, as a future begins to wait.
    Begins,
    // It is woken, as its deadline is fired.
    Fires,
    // It is dropped, as another one takes its place.
    Replaces,
    // It is dropped with its future.
    Goes,
    // It is dropped as its future is found ready.
    IsReady,
}

const CALLS: [Call; 5] = [
    Call::Begins,
    Call::Fires,
    Call::Replaces,
    Call::Goes,
    Call::IsReady,
];

impl Call {
    fn moment(self) -> Moment {
        match self {
            Call::Begins => Moment::WakerCopy,
            Call::Fires => Moment::WakerWake,
            Call::Replaces | Call::Goes | Call::IsReady => Moment::WakerDrop,
        }
    }

    // Makes it, with a deadline at 1.
    fn make<R: AllocGlobal + Wait + Clone + Drop>(
        self,
        timer: &Still<R>,
        clock: &TestClock,
        waker: &TestWaker,
        other: &TestWaker,
    ) -> Result<(), TimerError> {
        let driver = timer.driver()?;
        let mut after = timer.after(nanos(1))?;
        match self {
            Call::Begins => {
                waker.record().halt_at(self.moment());
                after.poll(waker);
            }
            Call::Fires => {
                after.poll(waker);
                waker.record().halt_at(self.moment());
                clock.set(1);
                driver.fire()?;
            }
            Call::Replaces => {
                after.poll(waker);
                waker.record().halt_at(self.moment());
                after.poll(other);
            }
            Call::Goes => {
                after.poll(waker);
                waker.record().halt_at(self.moment());
                drop(after);
            }
            Call::IsReady => {
                after.poll(waker);
                waker.record().halt_at(self.moment());
                clock.set(1);
                timer.after(nanos(0))?;
                after.poll(other);
            }
        }
        Ok(())
    }
}

// Makes a call on one thread, and uses the timer on another one while the waker halts in it. Says
// whether that was possible.
fn is_free<R: AllocGlobal + Wait + Threads + Clone + Drop + Send + Sync>(
    rt: &R,
    call: Call,
) -> Result<bool, Fail> {
    let (timer, clock) = timer(rt)?;
    let halt = Halt::new(rt.alloc())?;
    let waker = TestWaker::new(&Record::with_halt(rt.alloc(), &halt)?)?;
    let (other, third) = (new_waker(rt.alloc())?, new_waker(rt.alloc())?);
    let (made, used) = thread::join(
        rt,
        || call.make(&timer, &clock, &waker, &other).is_ok(),
        || {
            let halts = halt.await_other();
            let used = halts && uses_timer(&timer, &third);
            halt.open();
            used
        },
    );
    Ok(made && used && halt.was_passed())
}

#[test]
fn no_lock_is_held_while_a_waker_runs(rt: HostRuntime) -> Result<(), Fail> {
    for call in CALLS {
        assert!(rt; is_free(&rt, call)?);
    }
    Ok(())
}

// Polls one while another thread moves the clock on and fires, after the poll has copied its waker.
// Says whether the poll is ready.
fn is_seen<R: AllocGlobal + Wait + Threads + Clone + Drop + Send + Sync>(
    rt: &R,
) -> Result<bool, Fail> {
    let (timer, clock) = timer(rt)?;
    let halt = Halt::new(rt.alloc())?;
    let waker = TestWaker::new(&Record::with_halt(rt.alloc(), &halt)?)?;
    waker.record().halt_at(Moment::WakerCopy);
    let driver = timer.driver()?;
    let mut after = timer.after(nanos(1))?;
    let (polled, fired) = thread::join(
        rt,
        || matches!(after.poll(&waker), Poll::Ready(_)),
        || {
            let halts = halt.await_other();
            clock.set(1);
            let fired = driver.fire().is_ok();
            halt.open();
            halts && fired
        },
    );
    Ok(polled && fired)
}

#[test]
fn a_time_that_comes_while_a_waker_is_copied_is_seen(rt: HostRuntime) -> Result<(), Fail> {
    assert!(rt; is_seen(&rt)?);
    Ok(())
}
