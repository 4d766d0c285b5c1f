//! The texts of executors.
use crate::tests::support::running::future::Kind::Never;
use crate::tests::support::running::future::{Ready, TestFuture, WakerPlace};
use crate::tests::support::running::halt::Halt;
use crate::tests::support::running::line::Line::Shows;
use crate::tests::support::running::player::play;
use crate::tests::support::running::record::Moment::FuturePoll;
use crate::tests::support::running::record::Record;
use crate::tests::support::running::refusal::{ShortText, text_of};
use crate::tests::support::running::task::{TaskFuture, spawned};
use crate::tests::support::running::waker::TestWaker;
use async_executor::{Executor, LocalExecutor, StaticExecutor, StaticLocalExecutor};
use executor_core::task::Future;
use std::fmt::{self, Debug, Write};
use std::sync::Wait;
use std::test::Fail;
use std::thread::{self, Threads};

#[test]
fn an_executor_that_was_never_used_has_its_counts(rt: HostRuntime) -> Result<(), Fail> {
    play(&rt, &[Shows(0, 0, &[], 0)])
}

// The texts of an executor of this type with a task, and of what is leaked of it.
macro_rules! before_and_after {
    ($executor:ident, $rt:expr) => {{
        let ex = $executor::<Ready<u64>, TestWaker, R>::new($rt.clone()?, $rt.alloc())?;
        let task = match ex.spawn(Ready::new(7)) {
            Ok(task) => task,
            Err(_) => return Err("refused".into()),
        };
        let before = format!(in $rt.alloc(); "{ex:?}")?;
        let after = format!(in $rt.alloc(); "{:?}", ex.leak())?;
        drop(task);
        [before, after]
    }};
}

fn before_and_after<R: AllocGlobal + Wait + Clone + Drop + Send + Sync>(
    rt: &R,
) -> Result<[[String; 2]; 2], Fail> {
    Ok([
        before_and_after!(Executor, rt),
        before_and_after!(LocalExecutor, rt),
    ])
}

#[test]
fn a_static_executor_counts_no_futures(rt: HostRuntime) -> Result<(), Fail> {
    let [shared, local] = before_and_after(&rt)?;
    assert_eq!(rt; shared[0].as_str(), "Executor { active: 1, global_tasks: 1, local_runners: [], sleepers: 0 }");
    assert_eq!(rt; shared[1].as_str(), "StaticExecutor { active: 0, global_tasks: 1, local_runners: [], sleepers: 0 }");
    assert_eq!(rt; local[0].as_str(), "LocalExecutor { active: 1, global_tasks: 1, local_runners: [], sleepers: 0 }");
    assert_eq!(rt; local[1].as_str(), "StaticLocalExecutor { active: 0, global_tasks: 1, local_runners: [], sleepers: 0 }");
    Ok(())
}

// The text of an executor of this type beside a run that sleeps.
macro_rules! beside_a_run {
    ($executor:ident, $rt:expr) => {{
        let ex = $executor::<Ready<u64>, TestWaker, R>::new($rt.clone()?, $rt.alloc())?;
        let record = Record::new($rt.alloc())?;
        let own = TestFuture::new(Never, WakerPlace::new($rt.alloc())?, &record)?;
        let mut run = match ex.run(own) {
            Ok(run) => run,
            Err(_) => return Err("refused".into()),
        };
        run.poll(&TestWaker::new(&record)?);
        let text = format!(in $rt.alloc(); "{ex:?}")?;
        drop(run);
        text
    }};
}

fn beside_a_run<R: AllocGlobal + Wait + Clone + Drop + Send + Sync>(
    rt: &R,
) -> Result<[String; 4], Fail> {
    Ok([
        beside_a_run!(Executor, rt),
        beside_a_run!(LocalExecutor, rt),
        beside_a_run!(StaticExecutor, rt),
        beside_a_run!(StaticLocalExecutor, rt),
    ])
}

#[test]
fn a_run_is_counted_among_the_queues_and_the_sleepers(rt: HostRuntime) -> Result<(), Fail> {
    let [shared, local, of_static, static_local] = beside_a_run(&rt)?;
    assert_eq!(rt; shared.as_str(), "Executor { active: 0, global_tasks: 0, local_runners: [0], sleepers: 1 }");
    assert_eq!(rt; local.as_str(), "LocalExecutor { active: 0, global_tasks: 0, local_runners: [0], sleepers: 1 }");
    assert_eq!(rt; of_static.as_str(), "StaticExecutor { active: 0, global_tasks: 0, local_runners: [0], sleepers: 1 }");
    assert_eq!(rt; static_local.as_str(), "StaticLocalExecutor { active: 0, global_tasks: 0, local_runners: [0], sleepers: 1 }");
    Ok(())
}

// The text of an executor of this type while another thread, which polls its task, halts; and whether
// it was there in time.
macro_rules! in_a_poll {
    ($executor:ident, $rt:expr) => {{
        let ex = $executor::<TaskFuture<R>, TestWaker, R>::new($rt.clone()?, $rt.alloc())?;
        let halt = Halt::new($rt.alloc())?;
        let record = Record::with_halt($rt.alloc(), &halt)?;
        record.halt_at(FuturePoll);
        let future = TaskFuture::new(Never, WakerPlace::new($rt.alloc())?, &record)?;
        match ex.spawn(future) {
            Ok(task) => task.detach(),
            Err(_) => return Err("refused".into()),
        }
        let (_, text) = thread::join(
            $rt,
            || ex.try_tick(),
            || {
                halt.await_other();
                let text = format!(in $rt.alloc(); "{ex:?}");
                halt.open();
                text
            },
        );
        (text?, halt.was_passed())
    }};
}

fn in_a_poll<R: AllocGlobal + Wait + Threads + Clone + Drop + Send + Sync>(
    rt: &R,
) -> Result<[(String, bool); 2], Fail> {
    Ok([in_a_poll!(Executor, rt), in_a_poll!(StaticExecutor, rt)])
}

// The texts while no lock is held through the poll, while that of the table is, and while that of the
// sleepers is.
const SHARED: [&str; 3] = [
    "Executor { active: 1, global_tasks: 0, local_runners: [], sleepers: 0 }",
    "Executor { active: <locked>, global_tasks: <locked>, local_runners: <locked>, sleepers: 0 }",
    "Executor { active: 1, global_tasks: 0, local_runners: [], sleepers: <locked> }",
];

const OF_STATIC: [&str; 3] = [
    "StaticExecutor { active: 0, global_tasks: 0, local_runners: [], sleepers: 0 }",
    "StaticExecutor { active: 0, global_tasks: <locked>, local_runners: <locked>, sleepers: 0 }",
    "StaticExecutor { active: 0, global_tasks: 0, local_runners: [], sleepers: <locked> }",
];

// At which place both texts stand above, if they do.
fn place_of(shared: &String, of_static: &String) -> Option<usize> {
    (0..3).find(|at| shared.as_str() == SHARED[*at] && of_static.as_str() == OF_STATIC[*at])
}

// A text waits for no lock: in a copy in which the poll holds that of the table, the counts behind it
// are said to be locked, and in one in which it holds that of the sleepers, the last is.
#[test]
fn a_text_waits_for_no_lock(rt: HostRuntime) -> Result<(), Fail> {
    let [(shared, was_passed), (of_static, static_passed)] = in_a_poll(&rt)?;
    let is_right = place_of(&shared, &of_static).is_some();
    assert_eq!(rt; (is_right, was_passed, static_passed), (true, true, true));
    Ok(())
}

// Fails exactly if both texts are those beside a held lock. In the copies that it has to refuse, the
// poll holds that lock and nothing else is wrong: so the right body has to give those texts there.
#[test]
fn no_text_in_a_poll_says_locked(rt: HostRuntime) -> Result<(), Fail> {
    let [(shared, _), (of_static, _)] = in_a_poll(&rt)?;
    let is_locked = matches!(place_of(&shared, &of_static), Some(1 | 2));
    assert!(rt; !is_locked);
    Ok(())
}

// A text that, at each part that is written to it, takes the text of the executor that it is of.
#[derive(Drop)]
struct Asking<'a, E> {
    executor: &'a E,
    was_same: bool,
    before: Option<ShortText>,
}

impl<E: Debug> Write for Asking<'_, E> {
    fn write_str(&mut self, _text: &str) -> fmt::Result {
        self.was_same &= text_of!(self.executor) == self.before;
        Ok(())
    }
}

// Whether an executor of this type beside many runs has, while its text is written, the same text.
macro_rules! same_in_text {
    ($executor:ident, $rt:expr) => {{
        let ex = $executor::<Ready<u64>, TestWaker, R>::new($rt.clone()?, $rt.alloc())?;
        let record = Record::new($rt.alloc())?;
        let waker = TestWaker::new(&record)?;
        let mut runs = Vec::new($rt.alloc());
        for _ in 0..70 {
            let own = TestFuture::new(Never, WakerPlace::new($rt.alloc())?, &record)?;
            let mut run = match ex.run(own) {
                Ok(run) => run,
                Err(_) => return Err("refused".into()),
            };
            run.poll(&waker);
            runs.push(run)?;
        }
        let mut asking = Asking {
            executor: &ex,
            was_same: true,
            before: text_of!(ex),
        };
        let is_written = write!(asking, "{ex:?}").is_ok();
        is_written && asking.was_same && asking.before.is_some()
    }};
}

fn same_in_text<R: AllocGlobal + Wait + Clone + Drop + Send + Sync>(
    rt: &R,
) -> Result<[bool; 4], Fail> {
    Ok([
        same_in_text!(Executor, rt),
        same_in_text!(LocalExecutor, rt),
        same_in_text!(StaticExecutor, rt),
        same_in_text!(StaticLocalExecutor, rt),
    ])
}

#[test]
fn no_lock_is_held_while_a_text_is_written(rt: HostRuntime) -> Result<(), Fail> {
    assert_eq!(rt; same_in_text(&rt)?, [true; 4]);
    Ok(())
}
