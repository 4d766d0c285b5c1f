//! The choice of a level, and an executor with levels, its ticks and its runs.
ghost use Rattle.std.specs.Prelude.{◌-◌, vec_len, vec_capacity};

use crate::tests::support::running::job::{Job, Left, digit, waker};
use crate::tests::support::running::record::Moment;
use crate::tests::support::running::waker::TestWaker;
use async_executor::{Future, Poll};
use async_utilities::Never;
use priority_executor::{Asker, PriorityExecutor, PriorityRun, choose};
use std::alloc::{AllocError, Global};
use std::sync::atomic::{AtomicU64, Ordering};
use std::sync::{Arc, Mutex, Wait};
use std::test::Fail;

// Levels that answer so, and the list of those that were asked, with what they answered.
struct Told {
    told: [bool; 3],
    list: Vec<(usize, bool)>,
}

impl Asker for Told {
    ghost answers = { λ s. s.list.items };

    ghost places = { λ s. vec_capacity s.list - vec_len s.list };

    fn ask(&mut self, level: usize) -> bool {
        let answer = self.told.get(level).copied().unwrap_or(true);
        self.list.push_reserved((level, answer));
        answer
    }
}

// What is chosen of n levels that answer so, and the list.
fn chosen(
    alloc: Global,
    told: [bool; 3],
    n: usize,
) -> Result<(Option<usize>, Vec<(usize, bool)>), AllocError> {
    let mut asker = Told {
        told,
        list: Vec::with_capacity(alloc, n)?,
    };
    let level = choose(&mut asker, n);
    let Told { told: _, list } = asker;
    Ok((level, list))
}

#[test]
fn the_first_level_that_says_yes_is_chosen(rt: HostRuntime) -> Result<(), Fail> {
    let (level, list) = chosen(rt.alloc(), [false, true, true], 3)?;
    assert_eq!(rt; level, Some(1));
    assert_eq!(rt; list.as_slice(), [(0, false), (1, true)].as_slice());
    Ok(())
}

#[test]
fn no_level_is_chosen_if_all_say_no(rt: HostRuntime) -> Result<(), Fail> {
    let (level, list) = chosen(rt.alloc(), [false, false, false], 3)?;
    assert_eq!(rt; level, None);
    assert_eq!(rt; list.as_slice(), [(0, false), (1, false), (2, false)].as_slice());
    Ok(())
}

#[test]
fn one_level_that_says_no_is_not_chosen(rt: HostRuntime) -> Result<(), Fail> {
    let (level, list) = chosen(rt.alloc(), [false, true, true], 1)?;
    assert_eq!(rt; level, None);
    assert_eq!(rt; list.as_slice(), [(0, false)].as_slice());
    Ok(())
}

type Levels<R, const N: usize> = PriorityExecutor<Job<R>, TestWaker, R, N>;

// Spawns a task of this digit at this level, and lets it run on.
fn leave<R: Wait + Clone + Drop + Send + Sync, const N: usize>(
    ex: &Levels<R, N>,
    level: usize,
    number: u64,
    ran: &Arc<AtomicU64>,
) -> Result<(), Fail> {
    let task = ex.spawn(level, digit(number, ran)?).ok();
    task.ok_or("refused")?.detach();
    Ok(())
}

#[test]
fn lower_levels_run_first(rt: HostRuntime) -> Result<(), Fail> {
    let ran = Arc::new(rt.alloc(), AtomicU64::new(0))?;
    let ex: Levels<HostRuntime, 3> = PriorityExecutor::new(rt.clone()?, rt.alloc())?;
    leave(&ex, 2, 1, &ran)?;
    leave(&ex, 0, 2, &ran)?;
    leave(&ex, 1, 3, &ran)?;
    assert!(rt; !ex.is_empty());
    let answers = [ex.try_tick(), ex.try_tick(), ex.try_tick(), ex.try_tick()];
    assert_eq!(rt; answers, [true, true, true, false]);
    assert_eq!(rt; ran.load(Ordering::SeqCst), 231);
    assert!(rt; ex.is_empty());
    Ok(())
}

#[test]
fn tasks_of_one_level_run_in_order(rt: HostRuntime) -> Result<(), Fail> {
    let ran = Arc::new(rt.alloc(), AtomicU64::new(0))?;
    let ex: Levels<HostRuntime, 2> = PriorityExecutor::new(rt.clone()?, rt.alloc())?;
    for digit in 1..4 {
        leave(&ex, 1, digit, &ran)?;
    }
    leave(&ex, 0, 9, &ran)?;
    for _ in 0..4 {
        ex.try_tick();
    }
    assert_eq!(rt; ran.load(Ordering::SeqCst), 9123);
    Ok(())
}

#[test]
fn a_try_tick_runs_one_task(rt: HostRuntime) -> Result<(), Fail> {
    let ran = Arc::new(rt.alloc(), AtomicU64::new(0))?;
    let ex: Levels<HostRuntime, 2> = PriorityExecutor::new(rt.clone()?, rt.alloc())?;
    leave(&ex, 0, 1, &ran)?;
    leave(&ex, 0, 2, &ran)?;
    leave(&ex, 1, 3, &ran)?;
    assert!(rt; ex.try_tick());
    assert_eq!(rt; ran.load(Ordering::SeqCst), 1);
    Ok(())
}

// More levels than any other test has.
#[test]
fn the_last_of_many_levels_is_asked(rt: HostRuntime) -> Result<(), Fail> {
    let ran = Arc::new(rt.alloc(), AtomicU64::new(0))?;
    let ex: Levels<HostRuntime, 40> = PriorityExecutor::new(rt.clone()?, rt.alloc())?;
    let (waker, record) = waker(rt.alloc())?;
    leave(&ex, 39, 1, &ran)?;
    let answers = [ex.is_empty(), ex.try_tick(), ex.try_tick(), ex.is_empty()];
    assert_eq!(rt; answers, [false, true, false, true]);
    let mut tick = ex.tick()?;
    let asleep = tick.poll(&waker);
    leave(&ex, 39, 2, &ran)?;
    assert_eq!(rt; (asleep, record.times(Moment::WakerWake)), (Poll::Pending, 1));
    assert_eq!(rt; tick.poll(&waker), Poll::Ready(()));
    assert_eq!(rt; ran.load(Ordering::SeqCst), 12);
    Ok(())
}

// A tick that sleeps keeps a copy of the waker, and makes one in each poll.
#[test]
fn a_poll_of_a_tick_asks_each_level_once(rt: HostRuntime) -> Result<(), Fail> {
    let ex: Levels<HostRuntime, 3> = PriorityExecutor::new(rt.clone()?, rt.alloc())?;
    let (waker, record) = waker(rt.alloc())?;
    let mut tick = ex.tick()?;
    assert_eq!(rt; tick.poll(&waker), Poll::Pending);
    assert_eq!(rt; record.times(Moment::WakerCopy), 3);
    Ok(())
}

#[test]
fn each_level_counts_for_is_empty(rt: HostRuntime) -> Result<(), Fail> {
    let ran = Arc::new(rt.alloc(), AtomicU64::new(0))?;
    let ex: Levels<HostRuntime, 2> = PriorityExecutor::new(rt.clone()?, rt.alloc())?;
    let mut answers = [ex.is_empty(); 4];
    leave(&ex, 0, 1, &ran)?;
    answers[1] = ex.is_empty();
    ex.try_tick();
    leave(&ex, 1, 2, &ran)?;
    answers[2] = ex.is_empty();
    ex.try_tick();
    answers[3] = ex.is_empty();
    assert_eq!(rt; answers, [true, false, false, true]);
    Ok(())
}

#[test]
fn the_other_ticks_are_dropped_once_one_is_ready(rt: HostRuntime) -> Result<(), Fail> {
    let ran = Arc::new(rt.alloc(), AtomicU64::new(0))?;
    let ex: Levels<HostRuntime, 2> = PriorityExecutor::new(rt.clone()?, rt.alloc())?;
    let (first, first_record) = waker(rt.alloc())?;
    let (second, second_record) = waker(rt.alloc())?;
    let mut p = ex.tick()?;
    let mut q = ex.tick()?;
    assert_eq!(rt; (p.poll(&first), q.poll(&second)), (Poll::Pending, Poll::Pending));
    leave(&ex, 0, 1, &ran)?;
    leave(&ex, 1, 2, &ran)?;
    assert_eq!(rt; second_record.times(Moment::WakerWake), 2);
    assert_eq!(rt; first_record.times(Moment::WakerWake), 0);
    assert_eq!(rt; q.poll(&second), Poll::Ready(()));
    assert_eq!(rt; ran.load(Ordering::SeqCst), 1);
    // What it was notified of at level 1 was passed on first, and then the take at level 0 woke it.
    assert_eq!(rt; first_record.times(Moment::WakerWake), 2);
    assert_eq!(rt; p.poll(&first), Poll::Ready(()));
    assert_eq!(rt; ran.load(Ordering::SeqCst), 12);
    Ok(())
}

#[test]
fn a_tick_that_has_ended_asks_nothing(rt: HostRuntime) -> Result<(), Fail> {
    let ran = Arc::new(rt.alloc(), AtomicU64::new(0))?;
    let ex: Levels<HostRuntime, 2> = PriorityExecutor::new(rt.clone()?, rt.alloc())?;
    let (waker, record) = waker(rt.alloc())?;
    leave(&ex, 1, 1, &ran)?;
    let mut tick = ex.tick()?;
    let first = tick.poll(&waker);
    leave(&ex, 0, 2, &ran)?;
    let copies = record.times(Moment::WakerCopy);
    assert_eq!(rt; (first, tick.poll(&waker)), (Poll::Ready(()), Poll::Ready(())));
    assert_eq!(rt; record.times(Moment::WakerCopy), copies);
    assert_eq!(rt; ran.load(Ordering::SeqCst), 1);
    Ok(())
}

#[test]
fn a_spawn_at_any_level_wakes_a_tick(rt: HostRuntime) -> Result<(), Fail> {
    let ran = Arc::new(rt.alloc(), AtomicU64::new(0))?;
    let ex: Levels<HostRuntime, 3> = PriorityExecutor::new(rt.clone()?, rt.alloc())?;
    for level in 0..3 {
        let (waker, record) = waker(rt.alloc())?;
        let mut tick = ex.tick()?;
        let asleep = tick.poll(&waker);
        leave(&ex, level, 1, &ran)?;
        assert_eq!(rt; (asleep, record.times(Moment::WakerWake)), (Poll::Pending, 1));
        assert_eq!(rt; tick.poll(&waker), Poll::Ready(()));
    }
    assert_eq!(rt; ran.load(Ordering::SeqCst), 111);
    Ok(())
}

#[test]
fn a_dropped_tick_has_another_woken_at_its_level(rt: HostRuntime) -> Result<(), Fail> {
    let ran = Arc::new(rt.alloc(), AtomicU64::new(0))?;
    let ex: Levels<HostRuntime, 2> = PriorityExecutor::new(rt.clone()?, rt.alloc())?;
    let (first, first_record) = waker(rt.alloc())?;
    let (second, second_record) = waker(rt.alloc())?;
    let mut p = ex.tick()?;
    let mut q = ex.tick()?;
    assert_eq!(rt; (p.poll(&first), q.poll(&second)), (Poll::Pending, Poll::Pending));
    leave(&ex, 1, 1, &ran)?;
    assert_eq!(rt; second_record.times(Moment::WakerWake), 1);
    drop(q);
    assert_eq!(rt; first_record.times(Moment::WakerWake), 1);
    assert_eq!(rt; p.poll(&first), Poll::Ready(()));
    assert_eq!(rt; ran.load(Ordering::SeqCst), 1);
    Ok(())
}

// Two ticks sleep. The one that slept last is woken for a task of level 1, whose poll wakes an urgent
// one: the other tick has to be woken meanwhile. Gives how often it was by then.
fn woken_meanwhile<R: Wait + AllocGlobal + Clone + Drop + Send + Sync>(rt: &R) -> Result<u64, Fail> {
    let alloc = rt.alloc();
    let ex: Levels<R, 2> = PriorityExecutor::new(rt.clone()?, alloc)?;
    let place: Left<R> = Arc::new(alloc, Mutex::new(None))?;
    let woken = Arc::new(alloc, AtomicU64::new(0))?;
    let urgent = Job::Leaves(Arc::try_clone(&place)?, false);
    ex.spawn(0, urgent).ok().ok_or("refused")?.detach();
    ex.try_tick();
    let ((first, _), (second, record)) = (waker(alloc)?, waker(alloc)?);
    let (mut p, mut q) = (ex.tick()?, ex.tick()?);
    let _ = (q.poll(&second), p.poll(&first));
    let other = Job::Wakes(place, record.share()?, Arc::try_clone(&woken)?);
    ex.spawn(1, other).ok().ok_or("refused")?.detach();
    let _ = p.poll(&first);
    Ok(woken.load(Ordering::SeqCst))
}

#[test]
fn an_urgent_task_waits_for_no_poll_of_another_level(rt: HostRuntime) -> Result<(), Fail> {
    // By the take of the task of level 1, behind which there may be more, and by the urgent one.
    assert_eq!(rt; woken_meanwhile(&rt)?, 2);
    Ok(())
}

// Two ticks sleep, and a task is spawned at each level. The tick that slept last was notified in both,
// and has to pass on what it was notified of at level 1 before it runs a task. Gives how often the other
// was woken by then.
fn passed_on<R: Wait + AllocGlobal + Clone + Drop + Send + Sync>(rt: &R) -> Result<u64, Fail> {
    let alloc = rt.alloc();
    let ex: Levels<R, 2> = PriorityExecutor::new(rt.clone()?, alloc)?;
    let place: Left<R> = Arc::new(alloc, Mutex::new(None))?;
    let woken = Arc::new(alloc, AtomicU64::new(0))?;
    let ((first, _), (second, record)) = (waker(alloc)?, waker(alloc)?);
    let (mut p, mut q) = (ex.tick()?, ex.tick()?);
    let _ = (q.poll(&second), p.poll(&first));
    let other = Job::Leaves(Arc::try_clone(&place)?, false);
    ex.spawn(1, other).ok().ok_or("refused")?.detach();
    let urgent = Job::Wakes(place, record.share()?, Arc::try_clone(&woken)?);
    ex.spawn(0, urgent).ok().ok_or("refused")?.detach();
    let _ = p.poll(&first);
    Ok(woken.load(Ordering::SeqCst))
}

#[test]
fn the_notice_of_a_level_above_waits_for_no_poll(rt: HostRuntime) -> Result<(), Fail> {
    // By what was passed on, and by the take of the task, behind which there may be more.
    assert_eq!(rt; passed_on(&rt)?, 2);
    Ok(())
}

type TestRun<'a, R, const N: usize> = PriorityRun<'a, Job<R>, TestWaker, R, Never<()>, N>;

fn run_of<R: Wait + Clone + Drop + Send + Sync, const N: usize>(
    ex: &Levels<R, N>,
) -> Result<TestRun<'_, R, N>, Fail> {
    Ok(ex.run(Never::new()).ok().ok_or("refused")?)
}

#[test]
fn a_run_takes_the_lowest_level_first(rt: HostRuntime) -> Result<(), Fail> {
    let ran = Arc::new(rt.alloc(), AtomicU64::new(0))?;
    let ex: Levels<HostRuntime, 3> = PriorityExecutor::new(rt.clone()?, rt.alloc())?;
    let (waker, record) = waker(rt.alloc())?;
    for level in [2, 0, 1, 0] {
        leave(&ex, level, level as u64 + 1, &ran)?;
    }
    let mut run = run_of(&ex)?;
    assert_eq!(rt; run.poll(&waker), Poll::Pending);
    assert_eq!(rt; ran.load(Ordering::SeqCst), 1123);
    assert_eq!(rt; (ex.is_empty(), record.times(Moment::WakerWake)), (true, 0));
    Ok(())
}

// A task of level 1 wakes an urgent one, and another one of level 1 stands behind it. Gives how often the
// awaiter of the urgent one was woken when that one ran.
fn ended_before<R: Wait + AllocGlobal + Clone + Drop + Send + Sync>(rt: &R) -> Result<u64, Fail> {
    let alloc = rt.alloc();
    let ex: Levels<R, 2> = PriorityExecutor::new(rt.clone()?, alloc)?;
    let (place, nobody): (Left<R>, Left<R>) =
        (Arc::new(alloc, Mutex::new(None))?, Arc::new(alloc, Mutex::new(None))?);
    let (first, second) = (Arc::new(alloc, AtomicU64::new(0))?, Arc::new(alloc, AtomicU64::new(0))?);
    let ((awaiter, record), (waker, _)) = (waker(alloc)?, waker(alloc)?);
    let urgent = Job::Leaves(Arc::try_clone(&place)?, false);
    let mut urgent = ex.spawn(0, urgent).ok().ok_or("refused")?;
    ex.try_tick();
    let _ = urgent.poll(&awaiter);
    for (left, woken) in [(place, first), (nobody, Arc::try_clone(&second)?)] {
        let job = Job::Wakes(left, record.share()?, woken);
        ex.spawn(1, job).ok().ok_or("refused")?.detach();
    }
    let _ = run_of(&ex)?.poll(&waker);
    Ok(second.load(Ordering::SeqCst))
}

#[test]
fn a_run_looks_at_the_levels_before_each_task(rt: HostRuntime) -> Result<(), Fail> {
    assert_eq!(rt; ended_before(&rt)?, 1);
    Ok(())
}

#[test]
fn a_run_goes_on_after_a_turn(rt: HostRuntime) -> Result<(), Fail> {
    let ran = Arc::new(rt.alloc(), AtomicU64::new(0))?;
    let ex: Levels<HostRuntime, 2> = PriorityExecutor::new(rt.clone()?, rt.alloc())?;
    let (waker, record) = waker(rt.alloc())?;
    for number in 0..100 {
        leave(&ex, number % 2, 1, &ran)?;
    }
    let mut run = run_of(&ex)?;
    let _ = run.poll(&waker);
    // Each task that is left holds a share of the count.
    assert_eq!(rt; (Arc::strong_count(&ran), record.times(Moment::WakerWake)), (37, 1));
    let _ = run.poll(&waker);
    assert_eq!(rt; (Arc::strong_count(&ran), record.times(Moment::WakerWake)), (1, 1));
    Ok(())
}

#[test]
fn a_run_that_sleeps_hears_every_level(rt: HostRuntime) -> Result<(), Fail> {
    let ran = Arc::new(rt.alloc(), AtomicU64::new(0))?;
    let ex: Levels<HostRuntime, 3> = PriorityExecutor::new(rt.clone()?, rt.alloc())?;
    let (waker, record) = waker(rt.alloc())?;
    let mut run = run_of(&ex)?;
    let _ = run.poll(&waker);
    for level in 0..3 {
        assert_eq!(rt; record.times(Moment::WakerWake), level as u64);
        leave(&ex, level, level as u64 + 1, &ran)?;
        assert_eq!(rt; record.times(Moment::WakerWake), level as u64 + 1);
        let _ = run.poll(&waker);
    }
    assert_eq!(rt; ran.load(Ordering::SeqCst), 123);
    Ok(())
}

#[test]
fn a_run_of_levels_whose_copies_are_refused_sleeps_nowhere(rt: HostRuntime) -> Result<(), Fail> {
    let ran = Arc::new(rt.alloc(), AtomicU64::new(0))?;
    let ex: Levels<HostRuntime, 2> = PriorityExecutor::new(rt.clone()?, rt.alloc())?;
    let (waker, record) = waker(rt.alloc())?;
    record.refuse();
    let mut run = run_of(&ex)?;
    let _ = run.poll(&waker);
    leave(&ex, 1, 1, &ran)?;
    assert_eq!(rt; record.times(Moment::WakerWake), 1);
    let _ = run.poll(&waker);
    assert_eq!(rt; ran.load(Ordering::SeqCst), 1);
    Ok(())
}

#[test]
fn a_dropped_run_has_another_woken_at_its_level(rt: HostRuntime) -> Result<(), Fail> {
    let ran = Arc::new(rt.alloc(), AtomicU64::new(0))?;
    let ex: Levels<HostRuntime, 2> = PriorityExecutor::new(rt.clone()?, rt.alloc())?;
    let ((first, first_record), (second, second_record)) = (waker(rt.alloc())?, waker(rt.alloc())?);
    let (mut p, mut q) = (run_of(&ex)?, run_of(&ex)?);
    assert_eq!(rt; (p.poll(&first), q.poll(&second)), (Poll::Pending, Poll::Pending));
    leave(&ex, 1, 1, &ran)?;
    assert_eq!(rt; second_record.times(Moment::WakerWake), 1);
    drop(q);
    assert_eq!(rt; first_record.times(Moment::WakerWake), 1);
    assert_eq!(rt; p.poll(&first), Poll::Pending);
    assert_eq!(rt; ran.load(Ordering::SeqCst), 1);
    Ok(())
}

#[test]
fn a_run_of_levels_ends_with_its_own_future(rt: HostRuntime) -> Result<(), Fail> {
    let ran = Arc::new(rt.alloc(), AtomicU64::new(0))?;
    let ex: Levels<HostRuntime, 2> = PriorityExecutor::new(rt.clone()?, rt.alloc())?;
    let (waker, record) = waker(rt.alloc())?;
    let task = ex.spawn(1, digit(1, &ran)?).ok().ok_or("refused")?;
    let mut run = ex.run(task).ok().ok_or("refused")?;
    let answers = [run.poll(&waker), run.poll(&waker)];
    assert_eq!(rt; answers, [Poll::Pending, Poll::Ready(Ok(()))]);
    let woken = record.times(Moment::WakerWake);
    leave(&ex, 0, 2, &ran)?;
    assert_eq!(rt; (run.poll(&waker), ran.load(Ordering::SeqCst)), (Poll::Pending, 1));
    assert_eq!(rt; record.times(Moment::WakerWake), woken + 1);
    Ok(())
}
