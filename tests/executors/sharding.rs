//! An executor with shards, its runs, and the sleepers and workers of which these are made.
use crate::tests::support::running::beside::beside_request;
use crate::tests::support::running::job::{Job, Left, digit, waker};
use crate::tests::support::running::record::Moment;
use crate::tests::support::running::waker::TestWaker;
use async_executor::{Future, Poll, TaskWaker, Wake};
use async_utilities::{Never, ThreadWaker, block_on};
use sharded_executor::{ShardedExecutor, ShardedRun};
use std::alloc::Global;
use std::fmt::Debug;
use std::sync::atomic::{AtomicU64, Ordering};
use std::sync::{Arc, Mutex, Wait};
use std::test::Fail;
use std::thread::{self, Threads};

type Shards<R> = ShardedExecutor<Job<R>, TestWaker, R>;

type TestRun<'a, R> = ShardedRun<'a, Job<R>, TestWaker, R, Never<()>>;

fn shards<R: Wait + AllocGlobal + Clone + Drop + Send + Sync>(
    rt: &R,
    count: usize,
) -> Result<Shards<R>, Fail> {
    Ok(ShardedExecutor::new(rt.clone()?, rt.alloc(), count.max(1))?)
}

fn run_of<R: Wait + Clone + Drop + Send + Sync>(
    ex: &Shards<R>,
    number: usize,
) -> Result<TestRun<'_, R>, Fail> {
    if number >= ex.shards() {
        return Err("no such shard".into());
    }
    Ok(ex.run(number, Never::new()).ok().ok_or("refused")?)
}

// Spawns it on the shard of this number, and lets it run on.
fn leave<R: Wait + Clone + Drop + Send + Sync>(
    ex: &Shards<R>,
    number: usize,
    job: Job<R>,
) -> Result<(), Fail> {
    if number >= ex.shards() {
        return Err("no such shard".into());
    }
    ex.shard(number).spawn(job).ok().ok_or("refused")?.detach();
    Ok(())
}

// The counts of a shard: how many sleep in it, and how many runners it has.
fn has_nobody<E: Debug>(alloc: Global, ex: &E) -> Result<bool, Fail> {
    let text = format!(in alloc; "{ex:?}")?;
    let all = text.as_str();
    Ok(all.matches("sleepers: 0").count() == all.matches("sleepers: ").count()
        && all.matches("local_runners: []").count() == all.matches("local_runners: ").count())
}

#[test]
fn tasks_go_to_the_shards_in_turn(rt: HostRuntime) -> Result<(), Fail> {
    let ran = Arc::new(rt.alloc(), AtomicU64::new(0))?;
    let ex = shards(&rt, 3)?;
    for number in 1..6 {
        ex.spawn(digit(number, &ran)?).ok().ok_or("refused")?.detach();
    }
    let mut are_empty = [true; 3];
    for number in [2, 0, 1] {
        are_empty[number] = ex.is_empty();
        while ex.shard(number).try_tick() {}
    }
    assert_eq!(rt; ran.load(Ordering::SeqCst), 31425);
    assert_eq!(rt; (are_empty, ex.is_empty()), ([false; 3], true));
    Ok(())
}

// Spawns so many tasks, each on the shard whose turn it is. `None` if one is refused.
fn spawn_all<R: Wait + AllocGlobal + Clone + Drop + Send + Sync>(
    ex: &Shards<R>,
    ran: &Arc<AtomicU64>,
    spawns: u64,
) -> Option<()> {
    for _ in 0..spawns {
        ex.spawn(digit(1, ran).ok()?).ok()?.detach();
    }
    Some(())
}

// How many tasks stand in each of two shards.
fn counts<R: Wait + AllocGlobal + Clone + Drop + Send + Sync>(ex: &Shards<R>) -> [u64; 2] {
    let mut counts = [0u64; 2];
    for (number, count) in counts.iter_mut().enumerate() {
        while number < ex.shards() && ex.shard(number).try_tick() {
            *count = count.wrapping_add(1);
        }
    }
    counts
}

// How many tasks stand in each of two shards after so many spawns.
fn spread<R: Wait + AllocGlobal + Clone + Drop + Send + Sync>(
    rt: &R,
    spawns: u64,
) -> Result<[u64; 2], Fail> {
    let ran = Arc::new(rt.alloc(), AtomicU64::new(0))?;
    let ex = shards(rt, 2)?;
    spawn_all(&ex, &ran, spawns).ok_or("refused")?;
    Ok(counts(&ex))
}

#[test]
fn many_tasks_go_to_each_shard_in_a_row(rt: HostRuntime) -> Result<(), Fail> {
    let counts = [spread(&rt, 31)?, spread(&rt, 32)?, spread(&rt, 47)?, spread(&rt, 50)?, spread(&rt, 65)?];
    assert_eq!(rt; counts, [[16, 15], [16, 16], [31, 16], [32, 18], [33, 32]]);
    Ok(())
}

// Whether one of so many spawns waits while a spawn on the first of two shards halts, and how many tasks
// stand in each after so many more. The one that halts is refused.
fn missed<R: Wait + Threads + AllocGlobal + Clone + Drop + Send + Sync>(
    rt: &R,
    spawns: u64,
    more: u64,
) -> Result<Option<(bool, [u64; 2])>, Fail> {
    let ran = Arc::new(rt.alloc(), AtomicU64::new(0))?;
    let ex = shards(rt, 2)?;
    let job = digit(1, &ran)?;
    let seen = beside_request(
        rt,
        1,
        || {
            if ex.shards() > 0 {
                drop(ex.shard(0).spawn(job));
            }
        },
        || drop(spawn_all(&ex, &ran, spawns)),
        || (),
    );
    spawn_all(&ex, &ran, more).ok_or("refused")?;
    Ok(seen.map(|seen| (seen.waits, counts(&ex))))
}

#[test]
fn a_shard_at_work_misses_spawns_and_makes_up_for_them(rt: HostRuntime) -> Result<(), Fail> {
    assert_eq!(rt; missed(&rt, 1, 1)?, Some((false, [1, 1])));
    assert_eq!(rt; missed(&rt, 32, 65)?, Some((false, [49, 48])));
    Ok(())
}

#[test]
fn a_shard_misses_sixteen_spawns_at_most(rt: HostRuntime) -> Result<(), Fail> {
    assert_eq!(rt; missed(&rt, 32, 0)?, Some((false, [0, 32])));
    assert_eq!(rt; missed(&rt, 33, 0)?, Some((true, [1, 32])));
    Ok(())
}

#[test]
fn try_tick_any_asks_the_shards_in_order(rt: HostRuntime) -> Result<(), Fail> {
    let ran = Arc::new(rt.alloc(), AtomicU64::new(0))?;
    let ex = shards(&rt, 3)?;
    for number in [2, 0, 1] {
        leave(&ex, number, digit(number as u64 + 1, &ran)?)?;
    }
    let before = ex.is_empty();
    let answers = [ex.try_tick_any(), ex.try_tick_any(), ex.try_tick_any(), ex.try_tick_any()];
    assert_eq!(rt; (before, answers), (false, [true, true, true, false]));
    assert_eq!(rt; ran.load(Ordering::SeqCst), 123);
    assert!(rt; ex.is_empty());
    Ok(())
}

#[test]
fn a_run_serves_its_own_shard_first(rt: HostRuntime) -> Result<(), Fail> {
    let ran = Arc::new(rt.alloc(), AtomicU64::new(0))?;
    let ex = shards(&rt, 2)?;
    leave(&ex, 0, digit(2, &ran)?)?;
    leave(&ex, 1, digit(1, &ran)?)?;
    let (waker, _) = waker(rt.alloc())?;
    let mut run = run_of(&ex, 1)?;
    assert_eq!(rt; run.poll(&waker), Poll::Pending);
    assert_eq!(rt; ran.load(Ordering::SeqCst), 12);
    Ok(())
}

// A run of the first of so many shards sleeps; a task is spawned on each in turn, which has to wake it, once,
// and to be run by its next poll.
fn hears_each<R: Wait + AllocGlobal + Clone + Drop + Send + Sync>(
    rt: &R,
    count: usize,
) -> Result<bool, Fail> {
    let ran = Arc::new(rt.alloc(), AtomicU64::new(0))?;
    let ex = shards(rt, count)?;
    let (waker, record) = waker(rt.alloc())?;
    let mut run = run_of(&ex, 0)?;
    let mut is_right = run.poll(&waker) == Poll::Pending;
    let mut woken = record.times(Moment::WakerWake);
    for number in 0..count {
        leave(&ex, number, digit(1, &ran)?)?;
        is_right &= record.times(Moment::WakerWake) == woken.saturating_add(1);
        ran.store(0, Ordering::SeqCst);
        // It may be woken by itself after a help, and sleeps then.
        let _ = (run.poll(&waker), run.poll(&waker));
        is_right &= ran.load(Ordering::SeqCst) == 1 && ex.is_empty();
        woken = record.times(Moment::WakerWake);
        let _ = run.poll(&waker);
        is_right &= record.times(Moment::WakerWake) == woken;
    }
    drop(run);
    Ok(is_right && has_nobody(rt.alloc(), &ex)?)
}

#[test]
fn a_run_that_sleeps_hears_every_shard(rt: HostRuntime) -> Result<(), Fail> {
    for count in [1, 2, 3, 5, 16] {
        assert!(rt; hears_each(&rt, count)?);
    }
    Ok(())
}

// How many of twenty tasks of another shard a run takes in its first polls, and how often it is woken by
// then.
fn taken_of_another<R: Wait + AllocGlobal + Clone + Drop + Send + Sync>(
    rt: &R,
) -> Result<[(usize, u64); 2], Fail> {
    let ran = Arc::new(rt.alloc(), AtomicU64::new(0))?;
    let ex = shards(rt, 3)?;
    for _ in 0..20 {
        leave(&ex, 2, digit(1, &ran)?)?;
    }
    let (waker, record) = waker(rt.alloc())?;
    let mut run = run_of(&ex, 0)?;
    let mut taken = [(0, 0); 2];
    for poll in &mut taken {
        let _ = run.poll(&waker);
        // Each task that is left holds a share of the count.
        *poll = (21 - Arc::strong_count(&ran), record.times(Moment::WakerWake));
    }
    Ok(taken)
}

#[test]
fn a_run_takes_a_handful_of_another_shard(rt: HostRuntime) -> Result<(), Fail> {
    assert_eq!(rt; taken_of_another(&rt)?, [(16, 1), (20, 2)]);
    Ok(())
}

// How many of three hundred tasks of its own shard a run takes in a poll, before which it slept.
fn taken_of_its_own<R: Wait + AllocGlobal + Clone + Drop + Send + Sync>(
    rt: &R,
) -> Result<usize, Fail> {
    let ran = Arc::new(rt.alloc(), AtomicU64::new(0))?;
    let ex = shards(rt, 1)?;
    let (waker, _) = waker(rt.alloc())?;
    let mut run = run_of(&ex, 0)?;
    let _ = run.poll(&waker);
    for _ in 0..300 {
        leave(&ex, 0, digit(1, &ran)?)?;
    }
    let _ = run.poll(&waker);
    Ok(301 - Arc::strong_count(&ran))
}

#[test]
fn a_run_that_was_notified_takes_one_task_before_its_turn(rt: HostRuntime) -> Result<(), Fail> {
    assert_eq!(rt; taken_of_its_own(&rt)?, 201);
    Ok(())
}

// Two runs sleep, the one of the first shard last. A task of the first shard wakes one of the second:
// while it is polled, the other run has to be woken. Gives how often that one was woken by then.
fn woken_meanwhile<R: Wait + AllocGlobal + Clone + Drop + Send + Sync>(rt: &R) -> Result<u64, Fail> {
    let alloc = rt.alloc();
    let ex = shards(rt, 2)?;
    let place: Left<R> = Arc::new(alloc, Mutex::new(None))?;
    let woken = Arc::new(alloc, AtomicU64::new(0))?;
    leave(&ex, 1, Job::Leaves(Arc::try_clone(&place)?, false))?;
    ex.shard(1).try_tick();
    let ((one, _), (two, record)) = (waker(alloc)?, waker(alloc)?);
    let (mut first, mut second) = (run_of(&ex, 0)?, run_of(&ex, 1)?);
    let _ = (second.poll(&two), first.poll(&one));
    leave(&ex, 0, Job::Wakes(place, record.share()?, Arc::try_clone(&woken)?))?;
    let _ = first.poll(&one);
    Ok(woken.load(Ordering::SeqCst))
}

#[test]
fn no_place_is_held_while_a_task_is_polled(rt: HostRuntime) -> Result<(), Fail> {
    // By the take of the first task, behind which there may be more, and by the wake.
    assert_eq!(rt; woken_meanwhile(&rt)?, 2);
    Ok(())
}

// Two runs sleep, the one of the first shard last, and a task is spawned on each shard. That run was
// notified in both, and has to pass one of the notices on before it runs a task. Gives how often the
// other was woken by then.
fn passed_on<R: Wait + AllocGlobal + Clone + Drop + Send + Sync>(rt: &R) -> Result<u64, Fail> {
    let alloc = rt.alloc();
    let ex = shards(rt, 2)?;
    let ran = Arc::new(alloc, AtomicU64::new(0))?;
    let woken = Arc::new(alloc, AtomicU64::new(0))?;
    let place: Left<R> = Arc::new(alloc, Mutex::new(None))?;
    let ((one, _), (two, record)) = (waker(alloc)?, waker(alloc)?);
    let (mut first, mut second) = (run_of(&ex, 0)?, run_of(&ex, 1)?);
    let _ = (second.poll(&two), first.poll(&one));
    leave(&ex, 1, digit(1, &ran)?)?;
    leave(&ex, 0, Job::Wakes(place, record.share()?, Arc::try_clone(&woken)?))?;
    let _ = first.poll(&one);
    Ok(woken.load(Ordering::SeqCst))
}

#[test]
fn a_second_notice_is_passed_on_before_a_task_is_polled(rt: HostRuntime) -> Result<(), Fail> {
    // By what was passed on, and by the take of the task, behind which there may be more.
    assert_eq!(rt; passed_on(&rt)?, 2);
    Ok(())
}

// A run of the first shard sleeps, is notified in the second one, and has a task of its own shard that is
// never ready, of which a tick was notified. Gives how many tasks of the second shard ran in its next poll.
fn answered_beside_a_busy_task<R: Wait + AllocGlobal + Clone + Drop + Send + Sync>(
    rt: &R,
) -> Result<u64, Fail> {
    let ran = Arc::new(rt.alloc(), AtomicU64::new(0))?;
    let ex = shards(rt, 2)?;
    let ((one, _), (two, record)) = (waker(rt.alloc())?, waker(rt.alloc())?);
    let mut run = run_of(&ex, 0)?;
    let _ = run.poll(&one);
    let mut tick = ex.shard(0).tick()?;
    let _ = tick.poll(&two);
    leave(&ex, 0, Job::Busy)?;
    leave(&ex, 1, digit(1, &ran)?)?;
    let _ = run.poll(&one);
    if record.times(Moment::WakerWake) == 0 {
        return Err("the tick was not notified".into());
    }
    Ok(ran.load(Ordering::SeqCst))
}

#[test]
fn a_notice_of_another_shard_is_answered_first(rt: HostRuntime) -> Result<(), Fail> {
    assert_eq!(rt; answered_beside_a_busy_task(&rt)?, 1);
    Ok(())
}

// Leaves two tasks that count on the second shard.
fn leave_two<R: Wait + AllocGlobal + Clone + Drop + Send + Sync>(
    ex: &Shards<R>,
    ran: &Arc<AtomicU64>,
) -> Result<(), Fail> {
    leave(ex, 1, digit(1, ran)?)?;
    leave(ex, 1, digit(1, ran)?)
}

// How many tasks of the second shard ran while a run of the first had one that is never ready, and wakes
// itself at each poll, in so many polls of the run. Before one of them the second shard's own run may have
// a turn, and then the tasks come after it.
fn looked_around<R: Wait + AllocGlobal + Clone + Drop + Send + Sync>(
    rt: &R,
    polls: u64,
    served_before: Option<u64>,
) -> Result<u64, Fail> {
    let ran = Arc::new(rt.alloc(), AtomicU64::new(0))?;
    let ex = shards(rt, 2)?;
    leave(&ex, 0, Job::Busy)?;
    let ((waker, _), (other, _)) = (waker(rt.alloc())?, waker(rt.alloc())?);
    let (mut run, mut own) = (run_of(&ex, 0)?, run_of(&ex, 1)?);
    if served_before.is_none() {
        leave_two(&ex, &ran)?;
    }
    for poll in 0..polls {
        if served_before == Some(poll) {
            let _ = own.poll(&other);
            leave_two(&ex, &ran)?;
        }
        let _ = run.poll(&waker);
    }
    Ok(ran.load(Ordering::SeqCst))
}

#[test]
fn a_busy_run_looks_at_the_others(rt: HostRuntime) -> Result<(), Fail> {
    let counts = [
        looked_around(&rt, 7, None)?,
        looked_around(&rt, 8, None)?,
        looked_around(&rt, 12, None)?,
    ];
    assert_eq!(rt; counts, [0, 1, 11]);
    Ok(())
}

#[test]
fn a_busy_run_takes_nothing_of_a_shard_that_had_a_turn(rt: HostRuntime) -> Result<(), Fail> {
    let counts = [looked_around(&rt, 8, Some(5))?, looked_around(&rt, 12, Some(5))?];
    assert_eq!(rt; counts, [0, 1]);
    Ok(())
}

// A run that was notified in this shard is dropped: the other one has to be woken.
fn woken_by_a_drop<R: Wait + AllocGlobal + Clone + Drop + Send + Sync>(
    rt: &R,
    number: usize,
) -> Result<(u64, u64), Fail> {
    let ran = Arc::new(rt.alloc(), AtomicU64::new(0))?;
    let ex = shards(rt, 2)?;
    let ((one, first_record), (two, second_record)) = (waker(rt.alloc())?, waker(rt.alloc())?);
    let (mut first, mut second) = (run_of(&ex, 0)?, run_of(&ex, 1)?);
    let _ = (second.poll(&two), first.poll(&one));
    leave(&ex, number, digit(1, &ran)?)?;
    drop(first);
    Ok((first_record.times(Moment::WakerWake), second_record.times(Moment::WakerWake)))
}

#[test]
fn a_dropped_run_passes_its_notice_on(rt: HostRuntime) -> Result<(), Fail> {
    for number in 0..2 {
        assert_eq!(rt; woken_by_a_drop(&rt, number)?, (1, 1));
    }
    Ok(())
}

// A run whose copies are refused is woken, sleeps nowhere, and goes on once they are not refused.
fn refused_copies<R: Wait + AllocGlobal + Clone + Drop + Send + Sync>(rt: &R) -> Result<bool, Fail> {
    let ran = Arc::new(rt.alloc(), AtomicU64::new(0))?;
    let ex = shards(rt, 3)?;
    let (waker, record) = waker(rt.alloc())?;
    record.refuse();
    let mut run = run_of(&ex, 1)?;
    let is_pending = run.poll(&waker) == Poll::Pending;
    let is_woken = record.times(Moment::WakerWake) == 1;
    leave(&ex, 2, digit(1, &ran)?)?;
    let is_unheard = record.times(Moment::WakerWake) == 1;
    let _ = run.poll(&waker);
    drop(run);
    let has_run = ran.load(Ordering::SeqCst) == 1;
    Ok(is_pending && is_woken && is_unheard && has_run && has_nobody(rt.alloc(), &ex)?)
}

#[test]
fn a_run_whose_copies_are_refused_sleeps_nowhere(rt: HostRuntime) -> Result<(), Fail> {
    assert!(rt; refused_copies(&rt)?);
    Ok(())
}

// Drops runs that were never polled, that worked, that sleep, and that have ended.
fn dropped_runs<R: Wait + AllocGlobal + Clone + Drop + Send + Sync>(rt: &R) -> Result<bool, Fail> {
    let ran = Arc::new(rt.alloc(), AtomicU64::new(0))?;
    let ex = shards(rt, 2)?;
    let (waker, _) = waker(rt.alloc())?;
    drop(run_of(&ex, 0)?);
    let mut asleep = run_of(&ex, 1)?;
    let _ = asleep.poll(&waker);
    drop(asleep);
    leave(&ex, 0, digit(1, &ran)?)?;
    let mut working = run_of(&ex, 1)?;
    let _ = working.poll(&waker);
    drop(working);
    let task = ex.shard(0).spawn(digit(2, &ran)?).ok().ok_or("refused")?;
    let mut ends = ex.run(0, task).ok().ok_or("refused")?;
    let first = ends.poll(&waker);
    let second = ends.poll(&waker);
    let third = ends.poll(&waker);
    let is_right = first == Poll::Pending && second == Poll::Ready(Ok(())) && third == Poll::Pending;
    let is_left = has_nobody(rt.alloc(), &ex)?;
    drop(ends);
    Ok(is_right && is_left && ran.load(Ordering::SeqCst) == 12)
}

#[test]
fn no_run_leaves_a_place_behind(rt: HostRuntime) -> Result<(), Fail> {
    assert!(rt; dropped_runs(&rt)?);
    Ok(())
}

// The drop of the executor drops the futures of every shard.
fn futures_left<R: Wait + AllocGlobal + Clone + Drop + Send + Sync>(rt: &R) -> Result<usize, Fail> {
    let ran = Arc::new(rt.alloc(), AtomicU64::new(0))?;
    let ex = shards(rt, 3)?;
    for number in 0..3 {
        leave(&ex, number, digit(1, &ran)?)?;
    }
    drop(ex);
    Ok(Arc::strong_count(&ran))
}

#[test]
fn the_drop_closes_every_shard(rt: HostRuntime) -> Result<(), Fail> {
    assert_eq!(rt; futures_left(&rt)?, 1);
    Ok(())
}

#[test]
fn the_text_has_each_shard(rt: HostRuntime) -> Result<(), Fail> {
    let ran = Arc::new(rt.alloc(), AtomicU64::new(0))?;
    let ex = shards(&rt, 2)?;
    leave(&ex, 1, digit(1, &ran)?)?;
    let text = format!(in rt.alloc(); "{ex:?}")?;
    let [first, second] = [ex.shard(0), ex.shard(1)];
    let wanted = format!(in rt.alloc(); "ShardedExecutor [{first:?}, {second:?}]")?;
    assert_eq!(rt; text.as_str(), wanted.as_str());
    assert!(rt; text.as_str().contains("active: 1"));
    Ok(())
}

// Wakes itself so often, and then counts.
#[derive(Drop)]
struct Counts {
    left: u64,
    count: Arc<AtomicU64>,
}

impl<R: Wait + Clone + Drop> Future<TaskWaker<ThreadWaker, R>> for Counts {
    type Output = ();

    fn poll(&mut self, w: &TaskWaker<ThreadWaker, R>) -> Poll<()> {
        if self.left == 0 {
            self.count.fetch_add(1, Ordering::SeqCst);
            return Poll::Ready(());
        }
        self.left = self.left.wrapping_sub(1);
        w.wake();
        Poll::Pending
    }
}

// Has each of so many threads await tasks of its own, which stand in another shard. Gives how many counted.
fn counted<R: Wait + Threads + AllocGlobal + Clone + Drop + Send + Sync>(
    rt: &R,
    threads: usize,
    tasks: u64,
) -> Result<u64, Fail> {
    let count = Arc::new(rt.alloc(), AtomicU64::new(0))?;
    let ex: ShardedExecutor<Counts, ThreadWaker, R> =
        ShardedExecutor::new(rt.clone()?, rt.alloc(), threads.max(1))?;
    let (all, shared) = (&ex, &count);
    thread::scope(thread::scope_env(), rt, |scope| {
        for number in 0..all.shards() {
            let _ = scope.spawn(move || {
                for left in 0..tasks {
                    let other = number.wrapping_add(1) % all.shards();
                    let Ok(count) = Arc::try_clone(shared) else {
                        continue;
                    };
                    let Ok(task) = all.shard(other).spawn(Counts { left: left % 3, count }) else {
                        continue;
                    };
                    if let Ok(run) = all.run(number, task) {
                        let _ = block_on(rt, rt.alloc(), run);
                    }
                }
            });
        }
    });
    Ok(count.load(Ordering::SeqCst))
}

#[test]
fn threads_lose_no_task(rt: HostRuntime) -> Result<(), Fail> {
    for threads in [1, 2, 4] {
        assert_eq!(rt; counted(&rt, threads, 300)?, threads as u64 * 300);
    }
    Ok(())
}
