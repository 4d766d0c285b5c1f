//! Steps of a world.
use executor_core::interleave::{Event, ListChange, Phase, Purpose, Reply, Step, World};
use executor_core::limits::{Limits, NewError};
use std::alloc::Global;
use std::test::Fail;

// A world, and which of the expectations on it was the first that did not hold. They are counted
// from 1.
#[derive(Drop)]
struct Trial {
    world: World<u8, u64>,
    expectations: u64,
    first_wrong: Option<u64>,
}

impl Trial {
    fn new(world: World<u8, u64>) -> Trial {
        Trial {
            world,
            expectations: 0,
            first_wrong: None,
        }
    }

    // The test fails if an expectation did not hold.
    fn end(self) -> Result<(), Fail> {
        match self.first_wrong {
            None => Ok(()),
            Some(place) => Err(Fail::new(format_args!("expectation {place} does not hold"))),
        }
    }

    fn see(&mut self, holds: bool) {
        self.expectations = self.expectations.saturating_add(1);
        if !holds && self.first_wrong.is_none() {
            self.first_wrong = Some(self.expectations);
        }
    }

    // Takes the step, which has to get this reply.
    fn take(&mut self, step: Step<u8, u64>, reply: Reply<u64>) {
        let holds = self.world.step(step) == reply;
        self.see(holds);
    }

    // Expects that the step is not enabled.
    fn refuse(&mut self, step: Step<u8, u64>) {
        self.take(step, Reply::NotNow);
    }

    // Expects the next step of ticker 0, the holder of the lock, and how many notices are out.
    fn expect(&mut self, phase: Phase, holder: Option<usize>, notices: u32) {
        let world = &self.world;
        let seen = (world.phase(0), world.holder(), world.notices());
        self.see(seen == (Some(phase), holder, notices));
    }

    // Ticker 0, a tick, is made, and sleeps under the number 1.
    fn park(&mut self) {
        self.take(Step::Tick, Reply::Ticker(0));
        self.fall_asleep();
    }

    // Ticker 0, which is at rest, is polled, and sleeps under the number 1.
    fn fall_asleep(&mut self) {
        self.expect(Phase::Rest, None, 0);
        self.take(Step::Poll(0), Reply::Done);
        self.take(Step::Search(0, 7), Reply::NoTask);
        self.expect(Phase::Sleep, None, 0);
        self.take(Step::Sleep(0), Reply::Number(1));
        self.expect(Phase::Store(ListChange::Slept), Some(0), 0);
        self.take(Step::Store(0), Reply::Stored(false));
        self.expect(Phase::Search, None, 0);
        self.take(Step::Search(0, 7), Reply::NoTask);
        self.take(Step::Sleep(0), Reply::Parked);
    }

    // A task is spawned, and ticker 0 is notified.
    fn notify(&mut self) {
        self.take(Step::Spawn(10), Reply::Task(0));
        self.take(Step::Exchange, Reply::Pick);
        self.take(Step::Notify, Reply::Sleeper(1));
        self.expect(Phase::Rest, None, 0);
    }

    // Expects how many runs have a queue, and the lengths of the first of them and of the global one.
    fn expect_lengths(&mut self, runners: usize, local: Option<usize>, global: usize) {
        let cells = self.world.cells();
        let lengths = (cells.runners(), cells.local_len(0), cells.global_len());
        self.see(lengths == (runners, local, global));
    }

    // Expects the front of the first run's queue, and the first two of the global one.
    fn expect_fronts(&mut self, local: Option<u64>, global: (Option<u64>, Option<u64>)) {
        let cells = self.world.cells();
        let fronts = (
            cells.local_at(0, 0),
            (cells.global_at(0), cells.global_at(1)),
        );
        self.see(fronts == (local, global));
    }

    // Expects whether task 0 is out, and whether the table keeps it.
    fn expect_task(&mut self, is_out: bool, keeps: bool) {
        let world = &self.world;
        let seen = (world.is_out(0), world.keeps(0));
        self.see(seen == (is_out, keeps));
    }

    // Expects how many notices and picks are out, and how many futures are not dropped.
    fn expect_counts(&mut self, notices: u32, picks: u32, undropped: usize) {
        let world = &self.world;
        let counts = (world.notices(), world.picks(), world.cells().undropped());
        self.see(counts == (notices, picks, undropped));
    }

    // Runs four steps in one call, and expects their replies.
    fn run_four(&mut self, alloc: Global) -> Result<(), Fail> {
        let steps = vec![in alloc;
            Step::Spawn(10),
            Step::TryTick,
            Step::Wake(0),
            Step::Wake(1),
        ]?;
        let replies = self.world.run(steps)?;
        let holds = matches!(
            replies.as_slice(),
            [
                Reply::Task(0),
                Reply::Poll(0),
                Reply::Nothing,
                Reply::NotNow
            ]
        );
        self.see(holds);
        Ok(())
    }

    // Expects that a task was spawned, taken and woken.
    fn expect_log(&mut self) {
        let holds = matches!(
            self.world.log(),
            [Event::Spawned(0), Event::Took(0, _), Event::Woken(0)]
        );
        self.see(holds);
    }
}

#[test]
fn a_world_takes_no_more_steps_than_its_limit(rt: HostRuntime) -> Result<(), Fail> {
    let mut trial = Trial::new(World::new(rt.alloc(), 1)?);
    trial.take(Step::Spawn(10), Reply::Task(0));
    trial.take(Step::Spawn(11), Reply::LogFull);
    trial.end()?;
    trial = Trial::new(World::new(rt.alloc(), 0)?);
    trial.take(Step::Pend(0), Reply::LogFull);
    trial.end()
}

// Whether no world is made with these limits.
fn is_refused(alloc: Global, limits: Limits) -> bool {
    matches!(
        World::<u8, u64>::new_with(alloc, 10, limits),
        Err(NewError::BadLimits)
    )
}

#[test]
fn limits_out_of_their_range_make_no_world(rt: HostRuntime) {
    let limits = Limits::default();
    let refused = [
        is_refused(rt.alloc(), Limits { local: 0, ..limits }),
        is_refused(
            rt.alloc(),
            Limits {
                local: 65_537,
                ..limits
            },
        ),
        is_refused(rt.alloc(), Limits { turn: 0, ..limits }),
        is_refused(rt.alloc(), Limits { fair: 0, ..limits }),
        is_refused(
            rt.alloc(),
            Limits {
                local: 65_536,
                ..limits
            },
        ),
    ];
    assert_eq!(rt; refused, [true, true, true, true, false]);
}

#[test]
fn a_run_is_the_list_of_its_steps(rt: HostRuntime) -> Result<(), Fail> {
    let mut trial = Trial::new(World::new(rt.alloc(), 10)?);
    trial.run_four(rt.alloc())?;
    trial.expect_task(true, false);
    trial.expect_log();
    trial.take(Step::Pend(0), Reply::Queued(0));
    trial.expect_task(false, true);
    trial.expect_counts(3, 0, 1);
    trial.end()
}

#[test]
fn a_notified_ticker_takes_the_task(rt: HostRuntime) -> Result<(), Fail> {
    let mut trial = Trial::new(World::new(rt.alloc(), 20)?);
    trial.park();
    trial.notify();
    trial.take(Step::Poll(0), Reply::Done);
    trial.take(Step::Search(0, 7), Reply::Poll(0));
    trial.expect(Phase::Wake, None, 1);
    trial.take(Step::Remove(0), Reply::Notified);
    let woke = Phase::Store(ListChange::Woke { notified: true });
    trial.expect(woke, Some(0), 2);
    trial.take(Step::Store(0), Reply::Stored(true));
    trial.expect(Phase::Ended, None, 1);
    trial.end()
}

#[test]
fn a_dropped_ticker_passes_its_notice_on(rt: HostRuntime) -> Result<(), Fail> {
    let mut trial = Trial::new(World::new(rt.alloc(), 20)?);
    let is_none = trial.world.phase(0).is_none();
    trial.see(is_none);
    trial.park();
    trial.notify();
    trial.take(Step::Drop(0), Reply::Notified);
    let dropped = Phase::Store(ListChange::Dropped { notified: true });
    trial.expect(dropped, Some(0), 1);
    trial.take(Step::Store(0), Reply::Stored(true));
    trial.expect(Phase::Ended, None, 1);
    trial.end()
}

#[test]
fn a_run_has_a_queue_while_it_is_registered(rt: HostRuntime) -> Result<(), Fail> {
    let mut trial = Trial::new(World::new(rt.alloc(), 30)?);
    for n in 0..3 {
        trial.take(Step::Spawn(10), Reply::Task(n));
    }
    trial.take(Step::Run, Reply::Ticker(0));
    trial.refuse(Step::Poll(0));
    trial.refuse(Step::Fair(0));
    trial.refuse(Step::Unregister(0));
    trial.refuse(Step::Register(1));
    trial.take(Step::Register(0), Reply::Done);
    trial.refuse(Step::Register(0));
    trial.refuse(Step::Drop(0));
    trial.take(Step::Fair(0), Reply::Moved(2));
    trial.expect_lengths(1, Some(2), 1);
    trial.expect_fronts(Some(0), (Some(2), None));
    trial.take(Step::Poll(0), Reply::Done);
    trial.refuse(Step::Fair(0));
    trial.refuse(Step::Unregister(0));
    trial.take(Step::Search(0, 5), Reply::Poll(0));
    trial.expect(Phase::Rest, None, 4);
    trial.take(Step::Unregister(0), Reply::Notice);
    trial.expect(Phase::Leaving, None, 5);
    trial.expect_lengths(0, None, 2);
    trial.expect_fronts(None, (Some(2), Some(1)));
    trial.refuse(Step::Register(0));
    trial.refuse(Step::Poll(0));
    trial.refuse(Step::Fair(0));
    trial.refuse(Step::Unregister(0));
    trial.take(Step::Drop(0), Reply::Awake);
    trial.expect(Phase::Ended, None, 5);
    trial.end()
}

#[test]
fn a_run_that_was_notified_rests_once_the_flag_is_stored(rt: HostRuntime) -> Result<(), Fail> {
    let mut trial = Trial::new(World::new(rt.alloc(), 30)?);
    trial.take(Step::Run, Reply::Ticker(0));
    trial.take(Step::Register(0), Reply::Done);
    trial.fall_asleep();
    trial.notify();
    trial.take(Step::Poll(0), Reply::Done);
    trial.take(Step::Search(0, 7), Reply::Poll(0));
    trial.expect(Phase::Wake, None, 1);
    trial.take(Step::Remove(0), Reply::Notified);
    trial.take(Step::Store(0), Reply::Stored(true));
    trial.expect(Phase::Rest, None, 1);
    trial.take(Step::Unregister(0), Reply::Nothing);
    trial.take(Step::Drop(0), Reply::Awake);
    trial.end()
}

#[test]
fn a_run_that_leaves_asleep_needs_the_lock_to_end(rt: HostRuntime) -> Result<(), Fail> {
    let mut trial = Trial::new(World::new(rt.alloc(), 30)?);
    trial.take(Step::Run, Reply::Ticker(0));
    trial.take(Step::Register(0), Reply::Done);
    trial.fall_asleep();
    trial.take(Step::Unregister(0), Reply::Nothing);
    trial.expect(Phase::Leaving, None, 0);
    trial.take(Step::Tick, Reply::Ticker(1));
    trial.take(Step::Poll(1), Reply::Done);
    trial.take(Step::Search(1, 0), Reply::NoTask);
    trial.take(Step::Sleep(1), Reply::Number(2));
    trial.refuse(Step::Drop(0));
    trial.take(Step::Store(1), Reply::Stored(false));
    trial.take(Step::Drop(0), Reply::Unnotified);
    let dropped = Phase::Store(ListChange::Dropped { notified: false });
    trial.expect(dropped, Some(0), 0);
    trial.take(Step::Store(0), Reply::Stored(false));
    trial.expect(Phase::Ended, None, 0);
    trial.end()
}

#[test]
fn a_new_run_is_dropped_before_it_registers(rt: HostRuntime) -> Result<(), Fail> {
    let mut trial = Trial::new(World::new(rt.alloc(), 10)?);
    trial.take(Step::Run, Reply::Ticker(0));
    trial.take(Step::Tick, Reply::Ticker(1));
    trial.refuse(Step::Register(1));
    trial.refuse(Step::Fair(1));
    trial.refuse(Step::Unregister(1));
    trial.take(Step::Drop(0), Reply::Awake);
    trial.refuse(Step::Register(0));
    trial.refuse(Step::Drop(0));
    trial.take(Step::Run, Reply::Ticker(2));
    trial.take(Step::Register(2), Reply::Done);
    let runners = trial.world.cells().runners();
    trial.see(runners == 1);
    trial.end()
}

// Two runs are registered, the second one has task 0 in its queue, and task 1 stands in the global one.
fn queue_apart(trial: &mut Trial) {
    for k in 0..2 {
        trial.take(Step::Run, Reply::Ticker(k));
        trial.take(Step::Register(k), Reply::Done);
    }
    for n in 0..2 {
        trial.take(Step::Spawn(10), Reply::Task(n));
    }
    trial.take(Step::Fair(1), Reply::Moved(1));
}

#[test]
fn a_take_of_any_queue_looks_at_each_in_order(rt: HostRuntime) -> Result<(), Fail> {
    let mut trial = Trial::new(World::new(rt.alloc(), 30)?);
    trial.take(Step::TryAny, Reply::NoTask);
    queue_apart(&mut trial);
    trial.take(Step::Cancel(0), Reply::Nothing);
    trial.take(Step::TryAny, Reply::Poll(1));
    trial.take(Step::TryAny, Reply::Drop(0));
    let taken = [
        Event::Took(1, Purpose::ToPoll),
        Event::Took(0, Purpose::ToDrop),
    ];
    let holds = trial.world.log().ends_with(&taken);
    trial.see(holds);
    trial.take(Step::TryAny, Reply::NoTask);
    trial.expect_counts(4, 0, 2);
    trial.take(Step::Dropped(0), Reply::Gone { awaiter: false });
    trial.take(Step::Pend(1), Reply::Idle(1));
    trial.take(Step::Close, Reply::Notice);
    trial.refuse(Step::TryAny);
    trial.end()
}

// Three idle tasks are left: by rising slot they are 3, 1 and 2.
fn leave_idle(trial: &mut Trial) {
    for n in 0..3 {
        trial.take(Step::Spawn(10), Reply::Task(n));
    }
    trial.take(Step::TryTick, Reply::Poll(0));
    trial.take(Step::Ready(0, 7), Reply::Finished { awaiter: false });
    trial.take(Step::PollHandle(0), Reply::Output(7));
    trial.take(Step::Spawn(10), Reply::Task(3));
    for n in 1..4 {
        trial.take(Step::TryTick, Reply::Poll(n));
        trial.take(Step::Pend(n), Reply::Idle(n));
    }
}

#[test]
fn a_close_takes_the_tasks_by_rising_slot(rt: HostRuntime) -> Result<(), Fail> {
    let mut trial = Trial::new(World::new(rt.alloc(), 30)?);
    leave_idle(&mut trial);
    trial.take(Step::Tick, Reply::Ticker(0));
    trial.refuse(Step::Drain);
    trial.take(Step::Close, Reply::Notice);
    trial.expect(Phase::Forgotten, None, 9);
    trial.expect_fronts(None, (Some(3), Some(1)));
    let log = trial.world.log();
    let cancelled = [
        Event::Cancelled(3),
        Event::Cancelled(1),
        Event::Cancelled(2),
    ];
    let holds = log.ends_with(&cancelled);
    trial.see(holds);
    trial.refuse(Step::Close);
    trial.refuse(Step::Spawn(10));
    for n in [3, 1, 2] {
        trial.take(Step::Drain, Reply::Drop(n));
        trial.take(Step::Dropped(n), Reply::Gone { awaiter: false });
    }
    trial.take(Step::Drain, Reply::NoTask);
    let is_empty = trial.world.cells().is_empty();
    trial.see(is_empty);
    trial.end()
}

#[test]
fn a_leak_wakes_the_tasks_by_rising_slot(rt: HostRuntime) -> Result<(), Fail> {
    let mut trial = Trial::new(World::new(rt.alloc(), 30)?);
    leave_idle(&mut trial);
    trial.take(Step::Spawn(10), Reply::Task(4));
    trial.take(Step::TryTick, Reply::Poll(4));
    trial.refuse(Step::Leak);
    trial.take(Step::Ready(4, 7), Reply::Finished { awaiter: false });
    trial.take(Step::Spawn(10), Reply::Task(5));
    trial.take(Step::Tick, Reply::Ticker(0));
    trial.take(Step::Leak, Reply::Notice);
    trial.expect(Phase::Forgotten, None, 12);
    trial.expect_fronts(None, (Some(5), Some(3)));
    let log = trial.world.log();
    let woken = [
        Event::Spawned(5),
        Event::Woken(3),
        Event::Woken(1),
        Event::Woken(2),
        Event::Woken(5),
    ];
    let holds = log.ends_with(&woken);
    trial.see(holds);
    trial.refuse(Step::Leak);
    trial.refuse(Step::Close);
    trial.refuse(Step::Drain);
    for n in [5, 3, 1, 2] {
        trial.take(Step::TryTick, Reply::Poll(n));
        trial.take(Step::Pend(n), Reply::Idle(n));
    }
    trial.take(Step::TryTick, Reply::NoTask);
    trial.end()
}
