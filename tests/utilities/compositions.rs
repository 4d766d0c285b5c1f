//! Which futures are polled by those of `async_utilities` that are made of others, in which order, and
//! how often.
use crate::tests::support::running::refusal::{MOST, is_order_left, refuse};
use async_executor::{Cancelled, Future, Poll};
use async_utilities::{
    AnyOf, Change, Either, Job, JoinAll, Map, NoopWaker, Or, Pool, Race, Then, ThreadWaker, Work,
    Zip, block_on,
};
use std::alloc::{AllocError, Global};
use std::sync::atomic::{AtomicU64, Ordering};
use std::sync::{Arc, Wait};
use std::test::Fail;
use std::thread::{Threads, yield_now};

// Ready with its number at this poll. Each poll writes the number behind those that were written.
#[derive(Drop)]
struct Counted {
    written: Arc<AtomicU64>,
    number: u64,
    polls: u64,
}

impl<W> Future<W> for Counted {
    type Output = u64;

    fn poll(&mut self, _w: &W) -> Poll<u64> {
        let before = self.written.load(Ordering::SeqCst);
        let after = before.wrapping_mul(10).wrapping_add(self.number);
        self.written.store(after, Ordering::SeqCst);
        self.polls = self.polls.saturating_sub(1);
        if self.polls == 0 {
            Poll::Ready(self.number)
        } else {
            Poll::Pending
        }
    }
}

// What futures write with their polls.
#[derive(Drop)]
struct Written {
    numbers: Arc<AtomicU64>,
}

impl Written {
    fn new(alloc: Global) -> Result<Written, Fail> {
        Ok(Written {
            numbers: Arc::new(alloc, AtomicU64::new(0))?,
        })
    }

    // Ready with this number at this poll.
    fn future(&self, number: u64, polls: u64) -> Result<Counted, AllocError> {
        Ok(Counted {
            written: Arc::try_clone(&self.numbers)?,
            number,
            polls,
        })
    }

    // What was written since it was taken last.
    fn take(&self) -> u64 {
        self.numbers.swap(0, Ordering::SeqCst)
    }
}

// Polls it so often, and gives what was written by each poll, one after another.
fn written<G: Future<NoopWaker>, const N: usize>(written: &Written, mut future: G) -> [u64; N] {
    let mut all = [0; N];
    for turn in 0..N {
        future.poll(&NoopWaker);
        all[turn] = written.take();
    }
    all
}

// Gives the number once more.
#[derive(Drop)]
struct Same;

impl Change<u64> for Same {
    type Output = u64;

    ghost makes = { λ _ output. output };

    fn change(self, output: u64) -> u64 {
        output
    }
}

type Kind = Either<Counted, Counted>;

// What a poll of each that has one or two futures writes, of one that is pending at its first poll.
fn polls_each_once(alloc: Global) -> Result<[[u64; 3]; 4], Fail> {
    let all = Written::new(alloc)?;
    let map = written(&all, Map::new(all.future(1, 2)?, Same));
    let left = written(&all, Kind::Left(all.future(1, 5)?));
    let right = written(&all, Kind::Right(all.future(2, 5)?));
    let or = written(&all, Or::new(all.future(1, 3)?, all.future(2, 2)?));
    Ok([map, left, right, or])
}

#[test]
fn each_poll_polls_once(rt: HostRuntime) -> Result<(), Fail> {
    let wanted = [[1, 1, 0], [1, 1, 1], [2, 2, 2], [12, 12, 0]];
    assert_eq!(rt; polls_each_once(rt.alloc())?, wanted);
    Ok(())
}

// What the polls of a `Zip` write whose left future is ready at the third poll and whose right one is at
// the second.
fn polls_both(alloc: Global) -> Result<[u64; 4], Fail> {
    let all = Written::new(alloc)?;
    Ok(written(&all, Zip::new(all.future(1, 3)?, all.future(2, 2)?)))
}

#[test]
fn a_zip_polls_each_half_until_it_is_ready(rt: HostRuntime) -> Result<(), Fail> {
    assert_eq!(rt; polls_both(rt.alloc())?, [12, 12, 1, 0]);
    Ok(())
}

// What the polls of a `JoinAll` of three futures write, which are ready at their second, first and
// second poll; and the outputs.
fn polls_in_order(alloc: Global) -> Result<([u64; 4], Option<Vec<u64>>), Fail> {
    let all = Written::new(alloc)?;
    let mut futures = Vec::new(alloc);
    for (number, polls) in [(1, 2), (2, 1), (3, 2)] {
        futures.push(all.future(number, polls)?)?;
    }
    let Ok(mut joined) = JoinAll::new(alloc, futures) else {
        return Err("no memory for the outputs".into());
    };
    let (mut wrote, mut outputs) = ([0; 4], None);
    for turn in 0..4 {
        if let Poll::Ready(ready) = joined.poll(&NoopWaker) {
            outputs = Some(ready);
        }
        wrote[turn] = all.take();
    }
    Ok((wrote, outputs))
}

#[test]
fn all_are_awaited_one_after_another(rt: HostRuntime) -> Result<(), Fail> {
    let (wrote, outputs) = polls_in_order(rt.alloc())?;
    assert_eq!(rt; wrote, [1, 123, 3, 0]);
    let is_wanted = outputs.is_some_and(|all| all.as_slice() == [1, 2, 3].as_slice());
    assert!(rt; is_wanted);
    Ok(())
}

// What the polls of a `Race` write, and what it gives, if the left future is ready at this poll and the
// right one at that.
fn race(alloc: Global, left: u64, right: u64) -> Result<([u64; 3], Option<u64>), Fail> {
    let all = Written::new(alloc)?;
    let mut race = Race::new(all.future(1, left)?, all.future(2, right)?);
    let (mut wrote, mut output) = ([0; 3], None);
    for turn in 0..3 {
        if let Poll::Ready(number) = race.poll(&NoopWaker) {
            output = Some(number);
        }
        wrote[turn] = all.take();
    }
    Ok((wrote, output))
}

#[test]
fn a_race_begins_with_each_by_turns(rt: HostRuntime) -> Result<(), Fail> {
    assert_eq!(rt; race(rt.alloc(), 1, 1)?, ([1, 0, 0], Some(1)));
    assert_eq!(rt; race(rt.alloc(), 2, 2)?, ([12, 2, 0], Some(2)));
    assert_eq!(rt; race(rt.alloc(), 3, 3)?, ([12, 21, 1], Some(1)));
    assert_eq!(rt; race(rt.alloc(), 5, 2)?, ([12, 2, 0], Some(2)));
    Ok(())
}

// Begins a second future with what the first one gave.
#[derive(Drop)]
struct Begins {
    second: Counted,
}

impl Change<u64> for Begins {
    type Output = Counted;

    ghost makes = { λ begins _. begins.second };

    fn change(self, _output: u64) -> Counted {
        self.second
    }
}

// What the polls of a `Then` write whose futures are each ready at their second poll, and what it gives.
fn follows(alloc: Global) -> Result<([u64; 4], [Option<u64>; 4]), Fail> {
    let all = Written::new(alloc)?;
    let second = all.future(2, 2)?;
    let mut both = Then::new(all.future(1, 2)?, Begins { second });
    let (mut wrote, mut outputs) = ([0; 4], [None; 4]);
    for turn in 0..4 {
        if let Poll::Ready(number) = both.poll(&NoopWaker) {
            outputs[turn] = Some(number);
        }
        wrote[turn] = all.take();
    }
    Ok((wrote, outputs))
}

#[test]
fn the_second_of_two_is_polled_once_the_first_is_ready(rt: HostRuntime) -> Result<(), Fail> {
    let wanted = ([1, 12, 2, 0], [None, None, Some(2), None]);
    assert_eq!(rt; follows(rt.alloc())?, wanted);
    Ok(())
}

// Awaits the first of three futures, which are ready at these polls. Gives what its polls write until
// then, its place and its output, and what a poll of each of the others writes.
fn first_of(alloc: Global, polls: [u64; 3]) -> Result<(u64, usize, u64, u64), Fail> {
    let all = Written::new(alloc)?;
    let mut futures = Vec::new(alloc);
    for (number, polls) in [1, 2, 3].into_iter().zip(polls) {
        futures.push(all.future(number, polls)?)?;
    }
    if futures.is_empty() {
        return Err("there is no future".into());
    }
    let mut any = AnyOf::new(futures);
    let mut first = any.poll(&NoopWaker);
    if matches!(&first, Poll::Pending) {
        first = any.poll(&NoopWaker);
    }
    let Poll::Ready(first) = first else {
        return Err("none is ready".into());
    };
    let wrote = all.take();
    if matches!(any.poll(&NoopWaker), Poll::Ready(_)) {
        return Err("it has a second output".into());
    }
    for other in first.others {
        let mut other = other;
        other.poll(&NoopWaker);
    }
    Ok((wrote, first.place, first.output, all.take()))
}

#[test]
fn the_first_of_many_is_given_with_the_others(rt: HostRuntime) -> Result<(), Fail> {
    assert_eq!(rt; first_of(rt.alloc(), [1, 1, 1])?, (1, 0, 1, 23));
    assert_eq!(rt; first_of(rt.alloc(), [3, 2, 2])?, (12_312, 1, 2, 13));
    assert_eq!(rt; first_of(rt.alloc(), [3, 3, 2])?, (123_123, 2, 3, 12));
    Ok(())
}

// Gives its number, and takes its time.
#[derive(Drop)]
struct Slow {
    number: u64,
}

impl Job for Slow {
    type Output = u64;

    fn run(self) -> u64 {
        for _ in 0..100 {
            yield_now();
        }
        self.number
    }
}

type Jobs<R> = Pool<Work<Slow, ThreadWaker, R>, R>;

// Has two threads do twenty jobs, and adds what they give.
fn does_jobs<R: AllocGlobal + Wait + Threads + Clone + Drop + Send + Sync + 'static>(
    rt: &R,
) -> Result<u64, Fail> {
    let jobs: Jobs<R> = Pool::new(rt.clone()?, rt.alloc(), 2)?;
    let mut answers = Vec::new(rt.alloc());
    for number in 0..20 {
        match jobs.unblock(Slow { number }) {
            Ok(answer) => answers.push(answer)?,
            Err(_) => return Err("no memory for a job".into()),
        }
    }
    let Ok(all) = JoinAll::new(rt.alloc(), answers) else {
        return Err("no memory for the outputs".into());
    };
    let mut sum = 0u64;
    for output in block_on(rt, rt.alloc(), all)? {
        sum = sum.saturating_add(output?);
    }
    Ok(sum)
}

#[test]
fn the_threads_of_a_pool_do_jobs(rt: HostRuntime) -> Result<(), Fail> {
    assert_eq!(rt; does_jobs(&rt)?, 190);
    Ok(())
}

// Asks a pool with no thread for a job, and drops it. Gives the answer.
fn is_never_begun<R: AllocGlobal + Wait + Threads + Clone + Drop + Send + Sync + 'static>(
    rt: &R,
) -> Result<[Poll<Result<u64, Cancelled>>; 2], Fail> {
    let jobs: Jobs<R> = Pool::new(rt.clone()?, rt.alloc(), 0)?;
    let Ok(mut answer) = jobs.unblock(Slow { number: 7 }) else {
        return Err("no memory for a job".into());
    };
    let waker = ThreadWaker::new(rt.alloc())?;
    let before = answer.poll(&waker);
    drop(jobs);
    waker.park(rt);
    Ok([before, answer.poll(&waker)])
}

#[test]
fn a_job_that_is_not_begun_is_cancelled(rt: HostRuntime) -> Result<(), Fail> {
    let wanted = [Poll::Pending, Poll::Ready(Err(Cancelled))];
    assert_eq!(rt; is_never_begun(&rt)?, wanted);
    Ok(())
}

// Asks a pool with no thread for a job, with each request for memory refused in turn. Gives how many
// refusals there were, each of which gave the job back.
fn is_given_back<R: AllocGlobal + Wait + Threads + Clone + Drop + Send + Sync + 'static>(
    rt: &R,
) -> Result<u64, Fail> {
    let mut refusals = 0u64;
    for request in 1..=MOST {
        let jobs: Jobs<R> = Pool::new(rt.clone()?, rt.alloc(), 0)?;
        refuse(rt.alloc(), request);
        let asked = jobs.unblock(Slow { number: 7 });
        let is_left = is_order_left(rt.alloc());
        match asked {
            Ok(answer) if is_left => {
                drop(answer);
                return Ok(refusals);
            }
            Ok(_) => return Err("a refusal is lost".into()),
            Err(refused) if refused.value.number == 7 => {}
            Err(_) => return Err("another job comes back".into()),
        }
        refusals = refusals.saturating_add(1);
    }
    Err("there is always a refusal".into())
}

#[test]
fn a_job_that_is_refused_comes_back(rt: HostRuntime) -> Result<(), Fail> {
    assert!(rt; 3 <= is_given_back(&rt)?);
    Ok(())
}
