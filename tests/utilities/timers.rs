//! What a timer of `async_utilities` fires, and when. Its clock is moved by the test, but for the one
//! test that waits.
use crate::tests::support::running::clock::TestClock;
use crate::tests::support::running::record::{Moment, Record};
use crate::tests::support::running::refusal::{is_order_left, refuse};
use crate::tests::support::running::waker::TestWaker;
use crate::tests::support::running::wakes::Wakes;
use async_executor::{Executor, Task, TaskWaker};
use async_utilities::{
    After, Driver, Never, Reading, Ready, ThreadWaker, TimedOut, Timer, TimerError, YieldNow, block_on,
};
use executor_core::task::{Future, Poll, Wake};
use std::alloc::Global;
use std::sync::Wait;
use std::test::Fail;
use std::time::{Clock, Duration, Instant};

fn nanos(count: u64) -> Duration {
    Duration::from_nanos(count)
}

// A waker that nobody else has a share of.
fn new_waker(alloc: Global) -> Result<TestWaker, Fail> {
    Ok(TestWaker::new(&Record::new(alloc)?)?)
}

fn times<const N: usize>(wakers: [&TestWaker; N], moment: Moment) -> [u64; N] {
    wakers.map(|waker| waker.record().times(moment))
}

fn wakes(waker: &TestWaker) -> u64 {
    waker.record().times(Moment::WakerWake)
}

type Still<W, R> = Timer<W, TestClock, R>;

// A timer, and the clock that it goes by, which stands at 0.
fn timer<W: Wake, R: AllocGlobal + Wait + Clone + Drop>(
    rt: &R,
) -> Result<(Still<W, R>, TestClock), Fail> {
    let clock = TestClock::new(rt.alloc())?;
    let timer = Timer::new(rt.clone()?, clock.share()?, rt.alloc())?;
    Ok((timer, clock))
}

// Fires once. Gives the time that is left until the next deadline.
fn fire<W: Wake, R: Wait + Drop>(timer: &Still<W, R>) -> Result<Option<Duration>, Fail> {
    Ok(timer.driver()?.fire()?.left)
}

// The time at which it is ready, in nanoseconds.
fn reached<W: Wake, R: Wait + Drop>(after: &mut After<W, R>, waker: &W) -> Option<u128> {
    match after.poll(waker) {
        Poll::Ready(now) => Some(now.nanos()),
        Poll::Pending => None,
    }
}

// Polls one that is due at 10 when the clock is at 0, at 9, at 10 and later. Gives what each poll says,
// what is left after each firing, and how often the waker was woken before the last time and by then.
fn comes_due<R: AllocGlobal + Wait + Clone + Drop>(
    rt: &R,
) -> Result<([Option<u128>; 4], [Option<Duration>; 3], [u64; 2]), Fail> {
    let (timer, clock) = timer(rt)?;
    let waker = new_waker(rt.alloc())?;
    let mut after = timer.after(nanos(10))?;
    let first = reached(&mut after, &waker);
    let begun = fire(&timer)?;
    clock.set(9);
    let early = fire(&timer)?;
    let second = reached(&mut after, &waker);
    let before = wakes(&waker);
    clock.set(10);
    let late = fire(&timer)?;
    let third = reached(&mut after, &waker);
    clock.set(20);
    fire(&timer)?;
    let fourth = reached(&mut after, &waker);
    let left = [begun, early, late];
    Ok(([first, second, third, fourth], left, [before, wakes(&waker)]))
}

#[test]
fn a_deadline_is_reached_at_its_time_and_not_before(rt: HostRuntime) -> Result<(), Fail> {
    let answers = [None, None, Some(10), Some(20)];
    let left = [Some(nanos(10)), Some(nanos(1)), None];
    assert_eq!(rt; comes_due(&rt)?, (answers, left, [0, 1]));
    Ok(())
}

// Polls one that is due at 10, and again once another reading of the clock has reached that, before a firing.
// Gives what the second poll says, and how often the waker was woken by the firing.
fn is_ready_first<R: AllocGlobal + Wait + Clone + Drop>(
    rt: &R,
) -> Result<(Option<u128>, u64), Fail> {
    let (timer, clock) = timer(rt)?;
    let waker = new_waker(rt.alloc())?;
    let mut after = timer.after(nanos(10))?;
    reached(&mut after, &waker);
    clock.set(10);
    timer.after(nanos(1))?;
    let second = reached(&mut after, &waker);
    fire(&timer)?;
    Ok((second, wakes(&waker)))
}

#[test]
fn one_that_is_ready_before_a_firing_is_not_woken(rt: HostRuntime) -> Result<(), Fail> {
    assert_eq!(rt; is_ready_first(&rt)?, (Some(10), 0));
    Ok(())
}

// Sets five deadlines, each of a waker of its own, and moves the clock to 20 and to 40. Gives the
// numbers of those who were woken by then, in order, and what was left.
fn fires_in_order<R: AllocGlobal + Wait + Clone + Drop>(
    rt: &R,
) -> Result<([u64; 2], [Option<Duration>; 2]), Fail> {
    let (timer, clock) = timer(rt)?;
    let woken = Wakes::new(rt.alloc())?;
    let mut afters = Vec::new(rt.alloc());
    for (number, time) in [(1, 30), (2, 10), (3, 40), (4, 20), (5, 10)] {
        let mut after = timer.after(nanos(time))?;
        after.poll(&woken.waker(number)?);
        afters.push(after)?;
    }
    clock.set(20);
    let left = fire(&timer)?;
    let first = woken.take();
    clock.set(40);
    let none = fire(&timer)?;
    let second = woken.take();
    Ok(([first, second], [left, none]))
}

#[test]
fn all_that_are_due_are_woken_the_earliest_first(rt: HostRuntime) -> Result<(), Fail> {
    assert_eq!(rt; fires_in_order(&rt)?, ([20_504, 103], [Some(nanos(10)), None]));
    Ok(())
}

// Drops one of two that wait, which is the first, and later the other one as well. Gives what is left
// after each, how often each waker was woken at the end, and how often its copy was dropped.
fn drops<R: AllocGlobal + Wait + Clone + Drop>(
    rt: &R,
) -> Result<([Option<Duration>; 3], [u64; 2], [u64; 2]), Fail> {
    let (timer, clock) = timer(rt)?;
    let (one, two) = (new_waker(rt.alloc())?, new_waker(rt.alloc())?);
    let (mut first, mut second) = (timer.after(nanos(5))?, timer.after(nanos(8))?);
    first.poll(&one);
    second.poll(&two);
    let both = fire(&timer)?;
    drop(first);
    let last = fire(&timer)?;
    drop(second);
    let none = fire(&timer)?;
    clock.set(10);
    fire(&timer)?;
    let woken = times([&one, &two], Moment::WakerWake);
    Ok(([both, last, none], woken, times([&one, &two], Moment::WakerDrop)))
}

#[test]
fn what_is_dropped_leaves_nothing_behind(rt: HostRuntime) -> Result<(), Fail> {
    let left = [Some(nanos(5)), Some(nanos(8)), None];
    assert_eq!(rt; drops(&rt)?, (left, [0, 0], [1, 1]));
    Ok(())
}

// Polls one by two wakers, and fires it. Gives how often each was woken and dropped.
fn changes_waker<R: AllocGlobal + Wait + Clone + Drop>(
    rt: &R,
) -> Result<([u64; 2], [u64; 2]), Fail> {
    let (timer, clock) = timer(rt)?;
    let (one, two) = (new_waker(rt.alloc())?, new_waker(rt.alloc())?);
    let mut after = timer.after(nanos(1))?;
    after.poll(&one);
    after.poll(&two);
    clock.set(1);
    fire(&timer)?;
    let woken = times([&one, &two], Moment::WakerWake);
    Ok((woken, times([&one, &two], Moment::WakerDrop)))
}

#[test]
fn the_waker_of_the_last_poll_is_woken(rt: HostRuntime) -> Result<(), Fail> {
    assert_eq!(rt; changes_waker(&rt)?, ([0, 1], [1, 1]));
    Ok(())
}

// Polls one by a waker that refuses to be copied. Gives how often it was woken before it is due, and
// by then.
fn refuses<R: AllocGlobal + Wait + Clone + Drop>(rt: &R) -> Result<[u64; 2], Fail> {
    let (timer, clock) = timer(rt)?;
    let waker = new_waker(rt.alloc())?;
    waker.record().refuse();
    timer.after(nanos(1))?.poll(&waker);
    let before = wakes(&waker);
    clock.set(1);
    fire(&timer)?;
    Ok([before, wakes(&waker)])
}

#[test]
fn one_that_waits_asks_again_if_no_copy_is_to_be_had(rt: HostRuntime) -> Result<(), Fail> {
    assert_eq!(rt; refuses(&rt)?, [1, 1]);
    Ok(())
}

// Sets one deadline after no time, and one after 10 when the clock has moved on to 100, which nobody
// has told the timer. Gives whether each is reached at once, and the other at 109 and at 110.
fn begins_late<R: AllocGlobal + Wait + Clone + Drop>(rt: &R) -> Result<[Option<u128>; 4], Fail> {
    let (timer, clock) = timer(rt)?;
    let waker = new_waker(rt.alloc())?;
    clock.set(100);
    let (mut none, mut ten) = (timer.after(nanos(0))?, timer.after(nanos(10))?);
    let at_once = reached(&mut none, &waker);
    let first = reached(&mut ten, &waker);
    clock.set(109);
    fire(&timer)?;
    let second = reached(&mut ten, &waker);
    clock.set(110);
    fire(&timer)?;
    Ok([at_once, first, second, reached(&mut ten, &waker)])
}

#[test]
fn a_deadline_counts_from_the_time_that_it_is_set_at(rt: HostRuntime) -> Result<(), Fail> {
    assert_eq!(rt; begins_late(&rt)?, [Some(100), None, None, Some(110)]);
    Ok(())
}

// Sets the clock back once it has read 20: what was reached then stays so, and what is set counts from
// 20.
fn goes_back<R: AllocGlobal + Wait + Clone + Drop>(rt: &R) -> Result<[Option<u128>; 3], Fail> {
    let (timer, clock) = timer(rt)?;
    let waker = new_waker(rt.alloc())?;
    let mut first = timer.after(nanos(15))?;
    clock.set(20);
    fire(&timer)?;
    clock.set(5);
    fire(&timer)?;
    let mut second = timer.after(nanos(10))?;
    clock.set(29);
    fire(&timer)?;
    let early = reached(&mut second, &waker);
    clock.set(30);
    fire(&timer)?;
    Ok([reached(&mut first, &waker), early, reached(&mut second, &waker)])
}

#[test]
fn a_clock_that_goes_back_stands_still(rt: HostRuntime) -> Result<(), Fail> {
    assert_eq!(rt; goes_back(&rt)?, [Some(30), None, Some(30)]);
    Ok(())
}

// What two polls of a future with a timeout of 10 answer, the second with the clock at this time, and
// how often it was woken then.
fn timed<G: Future<TestWaker>, R: AllocGlobal + Wait + Clone + Drop>(
    rt: &R,
    future: G,
    time: u64,
) -> Result<([Poll<Result<G::Output, ()>>; 3], u64), Fail> {
    let (timer, clock) = timer(rt)?;
    let waker = new_waker(rt.alloc())?;
    let Ok(mut timeout) = timer.timeout(nanos(10), future) else {
        return Err("no memory for a timeout".into());
    };
    let first = answer(timeout.poll(&waker));
    clock.set(time);
    fire(&timer)?;
    let second = answer(timeout.poll(&waker));
    let third = answer(timeout.poll(&waker));
    Ok(([first, second, third], wakes(&waker)))
}

// The same without the time and the future.
fn answer<T, G: Drop>(answer: Poll<Result<T, TimedOut<G>>>) -> Poll<Result<T, ()>> {
    match answer {
        Poll::Ready(Ok(output)) => Poll::Ready(Ok(output)),
        Poll::Ready(Err(_)) => Poll::Ready(Err(())),
        Poll::Pending => Poll::Pending,
    }
}

#[test]
fn a_timeout_gives_the_output_that_is_there_in_time(rt: HostRuntime) -> Result<(), Fail> {
    let answers = [Poll::Ready(Ok(7)), Poll::Pending, Poll::Pending];
    assert_eq!(rt; timed(&rt, Ready::new(7), 5)?, (answers, 0));
    let answers = [Poll::Pending, Poll::Ready(Ok(())), Poll::Pending];
    assert_eq!(rt; timed(&rt, YieldNow::new(), 9)?, (answers, 1));
    Ok(())
}

#[test]
fn a_timeout_gives_the_output_if_both_are_there(rt: HostRuntime) -> Result<(), Fail> {
    let answers = [Poll::Pending, Poll::Ready(Ok(())), Poll::Pending];
    assert_eq!(rt; timed(&rt, YieldNow::new(), 10)?, (answers, 2));
    Ok(())
}

#[test]
fn a_timeout_ends_at_its_time(rt: HostRuntime) -> Result<(), Fail> {
    let never: Never<u64> = Never::new();
    let answers = [Poll::Pending, Poll::Ready(Err(())), Poll::Pending];
    assert_eq!(rt; timed(&rt, never, 10)?, (answers, 1));
    let never: Never<u64> = Never::new();
    let answers = [Poll::Pending, Poll::Pending, Poll::Pending];
    assert_eq!(rt; timed(&rt, never, 9)?, (answers, 0));
    Ok(())
}

fn is_clock(error: &TimerError) -> bool {
    matches!(error, TimerError::Clock(_))
}

// Asks for all that reads the clock while it refuses to be read, and fires once it does not. Says
// whether each was refused and the futures came back, and how often a waker was woken by then.
fn is_refused<R: AllocGlobal + Wait + Clone + Drop>(rt: &R) -> Result<([bool; 4], [u64; 2]), Fail> {
    let (timer, clock) = timer(rt)?;
    let waker = new_waker(rt.alloc())?;
    let mut after = timer.after(nanos(1))?;
    after.poll(&waker);
    clock.set(1);
    clock.refuse(true);
    let fired = timer.driver()?.fire().is_err();
    let set = timer.after(nanos(1)).err().is_some_and(|error| is_clock(&error));
    let timed = match timer.timeout(nanos(1), Ready::new(7)) {
        Err(failed) => is_clock(&failed.error) && block_on(rt, rt.alloc(), failed.value)? == 7,
        Ok(_) => false,
    };
    let never: Never<u64> = Never::new();
    let driven = timer.block_on(never).err().is_some_and(|failed| is_clock(&failed.error));
    let before = wakes(&waker);
    clock.refuse(false);
    fire(&timer)?;
    Ok(([fired, set, timed, driven], [before, wakes(&waker)]))
}

#[test]
fn a_clock_that_is_not_to_be_read_is_an_answer(rt: HostRuntime) -> Result<(), Fail> {
    assert_eq!(rt; is_refused(&rt)?, ([true, true, true, true], [0, 1]));
    Ok(())
}

// Waits on this thread, which drives the timer. Gives how long that took.
fn waits<R: AllocGlobal + Wait + Clock + Clone + Drop>(
    rt: &R,
    duration: Duration,
) -> Result<Duration, Fail> {
    let timer: Timer<ThreadWaker, R, R> = Timer::new(rt.clone()?, rt.clone()?, rt.alloc())?;
    let start = Instant::now(rt)?;
    let after = timer.after(duration)?;
    match timer.block_on(after) {
        Ok(_) => Ok(start.elapsed(rt)?),
        Err(failed) => Err(failed.error.into()),
    }
}

#[test]
fn a_thread_waits_for_a_time(rt: HostRuntime) -> Result<(), Fail> {
    let long = Duration::from_millis(20);
    assert!(rt; long <= waits(&rt, long)?);
    Ok(())
}

type Sleeper<R> = After<TaskWaker<ThreadWaker, R>, R>;

type Sleepers<R> = Vec<Task<Sleeper<R>, ThreadWaker, R>>;

type Sleeping<R> = Still<TaskWaker<ThreadWaker, R>, R>;

// Tasks that sleep for so many nanoseconds each.
fn sleepers<R: AllocGlobal + Wait + Clone + Drop + Send + Sync>(
    rt: &R,
    timer: &Sleeping<R>,
    executor: &Executor<Sleeper<R>, ThreadWaker, R>,
) -> Result<Sleepers<R>, Fail> {
    let mut tasks = Vec::new(rt.alloc());
    for time in [30, 10, 20] {
        match executor.spawn(timer.after(nanos(time))?) {
            Ok(task) => tasks.push(task)?,
            Err(_) => return Err("refused".into()),
        }
    }
    Ok(tasks)
}

// Runs tasks, fires, and moves the clock on to the next deadline, until there is none. Gives how often
// it moved the clock.
fn simulate<R: Wait + Clone + Drop + Send + Sync>(
    executor: &Executor<Sleeper<R>, ThreadWaker, R>,
    driver: &Driver<'_, TaskWaker<ThreadWaker, R>, TestClock, R>,
    clock: &TestClock,
) -> Result<u64, Fail> {
    let (mut now, mut moves) = (0u64, 0u64);
    for _ in 0..100 {
        while executor.try_tick() {}
        let firing = driver.fire()?;
        if firing.has_woken {
            continue;
        }
        let Some(left) = firing.left else {
            return Ok(moves);
        };
        now = now.saturating_add(left.as_secs().saturating_mul(1_000_000_000));
        now = now.saturating_add(u64::from(left.subsec_nanos()));
        clock.set(now);
        moves = moves.saturating_add(1);
    }
    Err("there is always a deadline".into())
}

// Runs tasks that sleep, under a clock that only this thread moves. Gives the time at which each woke,
// and how often the clock was moved.
fn sleeps<R: AllocGlobal + Wait + Clone + Drop + Send + Sync>(
    rt: &R,
) -> Result<([u128; 3], u64), Fail> {
    let (timer, clock) = timer(rt)?;
    let executor = Executor::new(rt.clone()?, rt.alloc())?;
    let tasks = sleepers(rt, &timer, &executor)?;
    let moves = simulate(&executor, &timer.driver()?, &clock)?;
    let mine = ThreadWaker::new(rt.alloc())?;
    let (mut ends, mut place) = ([0u128; 3], 0usize);
    for task in tasks {
        let mut task = task;
        let Poll::Ready(Ok(now)) = task.poll(&mine) else {
            return Err("a task sleeps on".into());
        };
        if place < 3 {
            ends[place] = now.nanos();
            place += 1;
        }
    }
    Ok((ends, moves))
}

#[test]
fn tasks_sleep_while_others_run(rt: HostRuntime) -> Result<(), Fail> {
    assert_eq!(rt; sleeps(&rt)?, ([30, 10, 20], 3));
    Ok(())
}

// Sets 2,000 deadlines that come at one time. Gives how many wakers are woken by one firing.
fn fires_all<R: AllocGlobal + Wait + Clone + Drop>(rt: &R) -> Result<u64, Fail> {
    let (timer, clock) = timer(rt)?;
    let waker = new_waker(rt.alloc())?;
    let mut afters = Vec::new(rt.alloc());
    for _ in 0..2_000 {
        let mut after = timer.after(nanos(1))?;
        after.poll(&waker);
        afters.push(after)?;
    }
    clock.set(1);
    fire(&timer)?;
    Ok(wakes(&waker))
}

#[test]
fn all_that_are_due_are_woken_at_once(rt: HostRuntime) -> Result<(), Fail> {
    assert_eq!(rt; fires_all(&rt)?, 2_000);
    Ok(())
}

// Polls one whose memory is refused, and again. Gives how often it was woken after each, and once it is
// due.
fn is_refused_a_place<R: AllocGlobal + Wait + Clone + Drop>(rt: &R) -> Result<[u64; 3], Fail> {
    let (timer, clock) = timer(rt)?;
    let waker = new_waker(rt.alloc())?;
    let driver = timer.driver()?;
    let mut after = timer.after(nanos(1))?;
    refuse(rt.alloc(), 1);
    after.poll(&waker);
    let first = wakes(&waker);
    after.poll(&waker);
    let second = wakes(&waker);
    clock.set(1);
    driver.fire()?;
    Ok([first, second, wakes(&waker)])
}

#[test]
fn one_that_is_refused_memory_asks_again(rt: HostRuntime) -> Result<(), Fail> {
    assert_eq!(rt; is_refused_a_place(&rt)?, [1, 1, 2]);
    Ok(())
}

// Polls one with this time left, at a clock that stands at 7. Gives what the poll says, and what is
// left until the next deadline.
fn far<R: AllocGlobal + Wait + Clone + Drop>(
    rt: &R,
    duration: Duration,
) -> Result<(Option<u128>, Option<Duration>), Fail> {
    let (timer, clock) = timer(rt)?;
    clock.set(7);
    let waker = new_waker(rt.alloc())?;
    let mut after = timer.after(duration)?;
    let answer = reached(&mut after, &waker);
    Ok((answer, fire(&timer)?))
}

#[test]
fn a_time_that_is_too_far_never_comes(rt: HostRuntime) -> Result<(), Fail> {
    assert_eq!(rt; far(&rt, Duration::MAX)?, (None, None));
    assert_eq!(rt; far(&rt, nanos(u64::MAX - 6))?, (None, None));
    let last = nanos(u64::MAX - 7);
    assert_eq!(rt; far(&rt, last)?, (None, Some(last)));
    Ok(())
}

// A time so many nanoseconds after the start of the clock, which stands at 0.
fn time(clock: &TestClock, count: u64) -> Result<Reading, Fail> {
    Ok(Reading::now(clock)?.checked_add(nanos(count)).ok_or("too far")?)
}

// Sets one for the time 10, polls it, and moves it to this time. Gives the answers and the wakes at the
// times 9, 10 and 20, of firings and of polls after them.
fn moves<R: AllocGlobal + Wait + Clone + Drop>(
    rt: &R,
    to: u64,
) -> Result<([Option<u128>; 3], [u64; 3]), Fail> {
    let (timer, clock) = timer(rt)?;
    let waker = new_waker(rt.alloc())?;
    let mut after = timer.at(time(&clock, 10)?)?;
    after.poll(&waker);
    after.reset(time(&clock, to)?);
    let (mut answers, mut woken) = ([None; 3], [0; 3]);
    for (turn, now) in [9, 10, 20].into_iter().enumerate() {
        clock.set(now);
        fire(&timer)?;
        if turn < 3 {
            woken[turn] = wakes(&waker);
            answers[turn] = reached(&mut after, &waker);
        }
    }
    Ok((answers, woken))
}

#[test]
fn one_that_is_reset_is_woken_at_its_new_time(rt: HostRuntime) -> Result<(), Fail> {
    assert_eq!(rt; moves(&rt, 9)?, ([Some(9), Some(10), Some(20)], [1, 1, 1]));
    assert_eq!(rt; moves(&rt, 10)?, ([None, Some(10), Some(20)], [0, 1, 1]));
    assert_eq!(rt; moves(&rt, 20)?, ([None, None, Some(20)], [0, 0, 1]));
    Ok(())
}

// Resets one that was ready, and is not polled again, to 30. Gives how often its waker was woken by then.
fn moves_on<R: AllocGlobal + Wait + Clone + Drop>(rt: &R) -> Result<u64, Fail> {
    let (timer, clock) = timer(rt)?;
    let waker = new_waker(rt.alloc())?;
    let mut after = timer.at(time(&clock, 10)?)?;
    let late = time(&clock, 30)?;
    after.poll(&waker);
    clock.set(10);
    fire(&timer)?;
    after.poll(&waker);
    after.reset(late);
    clock.set(30);
    fire(&timer)?;
    Ok(wakes(&waker))
}

#[test]
fn one_that_was_ready_waits_anew_once_it_is_polled(rt: HostRuntime) -> Result<(), Fail> {
    assert_eq!(rt; moves_on(&rt)?, 1);
    Ok(())
}

// Moves a hundred deadlines to neighbouring times, with the first request for memory of each refused.
// Gives how many asked for memory, and how many of these were woken at once.
fn moves_without_memory<R: AllocGlobal + Wait + Clone + Drop>(rt: &R) -> Result<[u64; 2], Fail> {
    let (timer, clock) = timer(rt)?;
    let mut sleepers = Vec::new(rt.alloc());
    for count in 0..100 {
        let waker = new_waker(rt.alloc())?;
        let mut after = timer.at(time(&clock, 1_000 + 10 * count)?)?;
        after.poll(&waker);
        sleepers.push((after, waker))?;
    }
    let (mut refused, mut woken) = (0u64, 0u64);
    let mut moved = Vec::with_capacity(rt.alloc(), 100)?;
    for (after, waker) in sleepers {
        let mut after = after;
        let to = time(&clock, 1_505)?;
        refuse(rt.alloc(), 1);
        after.reset(to);
        if !is_order_left(rt.alloc()) {
            refused = refused.saturating_add(1);
            woken = woken.saturating_add(wakes(&waker));
        }
        moved.push(after)?;
    }
    Ok([refused, woken])
}

#[test]
fn one_that_is_reset_and_refused_memory_asks_at_once(rt: HostRuntime) -> Result<(), Fail> {
    let [refused, woken] = moves_without_memory(&rt)?;
    assert!(rt; 0 < refused && refused == woken);
    Ok(())
}

// Polls an interval that begins at 10 and has a period of 10, at each of these times. Gives the answers.
fn beats<R: AllocGlobal + Wait + Clone + Drop>(rt: &R) -> Result<[Option<u128>; 7], Fail> {
    let (timer, clock) = timer(rt)?;
    let waker = new_waker(rt.alloc())?;
    let mut interval = timer.interval_at(time(&clock, 10)?, nanos(10))?;
    let mut answers = [None; 7];
    for (turn, now) in [9, 15, 19, 35, 35, 35, 40].into_iter().enumerate() {
        clock.set(now);
        fire(&timer)?;
        if turn < 7 {
            answers[turn] = match interval.next().poll(&waker) {
                Poll::Ready(now) => Some(now.nanos()),
                Poll::Pending => None,
            };
        }
    }
    Ok(answers)
}

#[test]
fn an_interval_does_not_drift(rt: HostRuntime) -> Result<(), Fail> {
    let answers = [None, Some(15), None, Some(35), Some(35), None, Some(40)];
    assert_eq!(rt; beats(&rt)?, answers);
    Ok(())
}

// Polls an interval from 100 on, at the times 109 and 110. Gives the answers, and how often its waker was
// woken.
fn begins_to_beat<R: AllocGlobal + Wait + Clone + Drop>(rt: &R) -> Result<([bool; 3], u64), Fail> {
    let (timer, clock) = timer(rt)?;
    let waker = new_waker(rt.alloc())?;
    clock.set(100);
    let mut interval = timer.interval(nanos(10))?;
    let mut answers = [false; 3];
    for (turn, now) in [109, 110, 110].into_iter().enumerate() {
        clock.set(now);
        fire(&timer)?;
        if turn < 3 {
            answers[turn] = matches!(interval.poll_next(&waker), Poll::Ready(_));
        }
    }
    clock.set(120);
    fire(&timer)?;
    Ok((answers, wakes(&waker)))
}

#[test]
fn an_interval_begins_after_its_period(rt: HostRuntime) -> Result<(), Fail> {
    assert_eq!(rt; begins_to_beat(&rt)?, ([false, true, false], 2));
    Ok(())
}

// Gives a time to a future that is ready at its second poll, and polls on the future that comes back.
fn goes_on<R: AllocGlobal + Wait + Clone + Drop>(rt: &R) -> Result<Poll<u64>, Fail> {
    let (timer, clock) = timer(rt)?;
    let waker = new_waker(rt.alloc())?;
    let slow = Slow { polls: 2 };
    let Ok(mut timeout) = timer.timeout(nanos(10), slow) else {
        return Err("no memory for a timeout".into());
    };
    clock.set(10);
    fire(&timer)?;
    match timeout.poll(&waker) {
        Poll::Ready(Err(late)) => {
            let mut future = late.future;
            Ok(future.poll(&waker))
        }
        _ => Err("it is not too late".into()),
    }
}

// Ready with 7 at its last poll, and pending at those before.
#[derive(Drop)]
struct Slow {
    polls: u64,
}

impl<W> Future<W> for Slow {
    type Output = u64;

    fn poll(&mut self, _w: &W) -> Poll<u64> {
        self.polls = self.polls.saturating_sub(1);
        if self.polls == 0 {
            Poll::Ready(7)
        } else {
            Poll::Pending
        }
    }
}

#[test]
fn a_timeout_gives_its_future_back(rt: HostRuntime) -> Result<(), Fail> {
    assert_eq!(rt; goes_on(&rt)?, Poll::Ready(7));
    Ok(())
}
