//! Takes the lines of a test in turn.
use super::future::{Asked, Kind, WakerPlace};
use super::halt::Halt;
use super::line::{Answer, Line};
use super::record::{Moment, Record};
use super::kinds::{
    Kind as ExecutorKind, LocalTicker, ShardedTicker, StaticLocalTicker, StaticTicker, Ticker,
};
use super::task::{Entry, FutureWaker, Handle, LentHandle, TaskFuture, TestExecutor};
use super::waker::TestWaker;
use async_executor::Limits;
use executor_core::task::Wake;
use std::alloc::{AllocError, Global};
use std::sync::{Arc, Wait};
use std::test::Fail;
use std::thread;
use std::thread::{JoinHandle, Scope, Threads};
use std::vec::IntoIter;

// More than there are tasks in a test.
const MOST_TICKS: u64 = 1_000;

// Where a call that runs a task looks for one.
#[derive(Clone, Copy)]
enum Queue {
    // In the queue that all share, as `try_tick`.
    Shared,
    // In any queue, as `try_tick_any`.
    Any,
    // The same, and so many more tasks, as a sleeper's `help`.
    Helped(u32),
}

// A call that another thread makes.
#[derive(Drop)]
enum Call<R: Wait + Clone + Drop + Send + Sync + 'static> {
    Tick(Arc<TestExecutor<R>>, Queue),
    Spawn(Arc<TestExecutor<R>>, TaskFuture<R>),
    SpawnMany(Arc<TestExecutor<R>>, Asked<IntoIter<TaskFuture<R>>>, Global),
    Poll(LentHandle<Ticker<'static, R>, R>),
    Wake(FutureWaker<R>),
    Cancel(Handle<Ticker<'static, R>, R>),
    Detach(Handle<Ticker<'static, R>, R>),
    Drop(Handle<Ticker<'static, R>, R>),
    DropExecutor(Arc<TestExecutor<R>>),
}

// What a call gives back: its answer, and the handle that it polled.
#[derive(Drop)]
struct Return<R: Wait + Clone + Drop + Send + Sync + 'static> {
    answer: Answer,
    polled: Option<LentHandle<Ticker<'static, R>, R>>,
}

impl<R: Wait + Clone + Drop + Send + Sync + 'static> Call<R> {
    fn make(self) -> Return<R> {
        let answer = match self {
            Call::Tick(ex, queue) => answer_of_tick(&ex, queue),
            Call::Spawn(ex, future) => answer_of_spawn(&ex, future),
            Call::SpawnMany(ex, futures, alloc) => answer_of_spawn_many(&ex, futures, alloc),
            Call::Poll(mut lent) => {
                let answer = lent.poll();
                return Return {
                    answer,
                    polled: Some(lent),
                };
            }
            Call::Wake(waker) => {
                waker.wake();
                Answer::Gone
            }
            Call::Cancel(handle) => {
                drop(handle.cancel());
                Answer::Gone
            }
            Call::Detach(handle) => {
                handle.detach();
                Answer::Gone
            }
            Call::Drop(handle) => {
                drop(handle);
                Answer::Gone
            }
            Call::DropExecutor(ex) => {
                drop(ex);
                Answer::Gone
            }
        };
        Return {
            answer,
            polled: None,
        }
    }
}

fn answer_of_tick<R: Wait + Clone + Drop + Send + Sync>(
    ex: &TestExecutor<R>,
    queue: Queue,
) -> Answer {
    let ran = match queue {
        Queue::Shared => ex.try_tick(),
        Queue::Any => ex.try_tick_any(),
        Queue::Helped(more) => match ex.sleeper() {
            Ok(mut sleeper) => sleeper.help(more),
            Err(_) => return Answer::Gone,
        },
    };
    if ran {
        Answer::Ticked
    } else {
        Answer::Idle
    }
}

fn answer_of_spawn<R: Wait + Clone + Drop + Send + Sync>(
    ex: &TestExecutor<R>,
    future: TaskFuture<R>,
) -> Answer {
    match ex.spawn(future) {
        Ok(task) => {
            task.detach();
            Answer::Gone
        }
        Err(_) => Answer::Idle,
    }
}

fn answer_of_spawn_many<R: Wait + Clone + Drop + Send + Sync>(
    ex: &TestExecutor<R>,
    futures: Asked<IntoIter<TaskFuture<R>>>,
    alloc: Global,
) -> Answer {
    let mut tasks = Vec::new(alloc);
    let spawned = ex.spawn_many(futures, &mut tasks);
    for task in tasks {
        task.detach();
    }
    match spawned {
        Ok(_) => Answer::Gone,
        Err(_) => Answer::Idle,
    }
}

#[derive(Drop)]
struct Player<'s, E: 's, T: ExecutorKind<R>, R: Wait + Threads + Clone + Drop + Send + Sync> {
    scope: &'s Scope<'s, E>,
    entries: Vec<Entry<T, R>>,
    many: Record,
    ex: Option<T::Share>,
    halt: Halt,
    alloc: Global,
    rt: R,
}

impl<'s, E: 's, T: ExecutorKind<R> + 's, R: Wait + Threads + Clone + Drop + Send + Sync + 's> Player<
    's,
    E,
    T,
    R,
> {
    fn new(
        scope: &'s Scope<'s, E>,
        rt: R,
        alloc: Global,
        limits: Option<Limits>,
    ) -> Result<Player<'s, E, T, R>, Fail> {
        let ex = T::new(rt.clone()?, alloc, limits)?;
        Ok(Player {
            scope,
            entries: Vec::new(alloc),
            many: Record::new(alloc)?,
            ex: Some(ex),
            halt: Halt::new(alloc)?,
            alloc,
            rt,
        })
    }

    // Whether what comes of the line is what has to.
    fn holds(&mut self, line: Line) -> Result<bool, Fail> {
        match line {
            Line::Spawn(kind) => self.spawn(kind),
            Line::SpawnMany(count) => self.spawn_many(count),
            Line::ManyRan(count) => Ok(self.many.times(Moment::FuturePoll) == count),
            Line::ManyDropped(count) => Ok(self.many.times(Moment::FutureDrop) == count),
            Line::Tick(answer) => Ok(self.tick(Queue::Shared) == Some(answer)),
            Line::Ticks(count) => Ok(self.tick_all(Queue::Shared) == Some(count)),
            Line::TickAny(answer) => Ok(self.tick(Queue::Any) == Some(answer)),
            Line::TicksAny(count) => Ok(self.tick_all(Queue::Any) == Some(count)),
            Line::MakeTick => self.make_tick(),
            Line::MakeRun(kind) => self.make_run(kind),
            Line::Empty(answer) => Ok(self.is_empty(answer)),
            Line::Shows(active, global, locals, sleepers) => {
                self.shows(active, global, locals, sleepers)
            }
            Line::DropExecutor => Ok(self.ex.take().is_some()),
            Line::Used => self.is_used(),
            Line::WakeElsewhere(task) => self.wake_elsewhere(task),
            Line::HandWaker(from, to) => Ok(self.hand_waker(from, to)),
            Line::Poll(task, _)
            | Line::Finished(task, _)
            | Line::Cancel(task)
            | Line::Fallible(task)
            | Line::Detach(task)
            | Line::DropHandle(task)
            | Line::ForgetHandle(task)
            | Line::DropOutput(task)
            | Line::Wake(task)
            | Line::WakeCopy(task)
            | Line::AnotherWaker(task)
            | Line::OtherWoken(task, _)
            | Line::Refuse(task)
            | Line::HaltAt(task, _)
            | Line::PassOnAt(task, _)
            | Line::Count(task, _, _) => match self.entries.get_mut(task) {
                Some(entry) => entry.holds(line),
                None => Ok(false),
            },
            _ => Ok(false),
        }
    }

    fn spawn(&mut self, kind: Kind) -> Result<bool, Fail> {
        let Some(ex) = &self.ex else {
            return Ok(false);
        };
        let entry = Entry::spawn(ex, kind, self.alloc, &self.halt)?;
        self.entries.push(entry)?;
        Ok(true)
    }

    fn spawn_many(&self, count: u64) -> Result<bool, Fail> {
        let Some(ex) = &self.ex else {
            return Ok(false);
        };
        for _ in 0..count {
            let future = ready_future(&self.many, self.alloc)?;
            T::detach(T::spawn(ex, future)?);
        }
        Ok(true)
    }

    fn make_tick(&mut self) -> Result<bool, Fail> {
        let Some(ex) = &self.ex else {
            return Ok(false);
        };
        let entry = Entry::tick(ex, self.alloc, &self.halt)?;
        self.entries.push(entry)?;
        Ok(true)
    }

    fn make_run(&mut self, kind: Kind) -> Result<bool, Fail> {
        let Some(ex) = &self.ex else {
            return Ok(false);
        };
        let entry = Entry::run(ex, kind, self.alloc, &self.halt)?;
        self.entries.push(entry)?;
        Ok(true)
    }

    fn tick(&self, queue: Queue) -> Option<bool> {
        match (&self.ex, queue) {
            (Some(ex), Queue::Shared) => Some(T::try_tick(ex)),
            (Some(ex), Queue::Any) => Some(T::try_tick_any(ex)),
            // A sleeper is that of an executor which threads share.
            (Some(_), Queue::Helped(_)) | (None, _) => None,
        }
    }

    // How many tasks ticks run until there is none.
    fn tick_all(&self, queue: Queue) -> Option<u64> {
        for count in 0..MOST_TICKS {
            if self.tick(queue) != Some(true) {
                return Some(count);
            }
        }
        None
    }

    // Whether the executor answers that it is empty, or not.
    fn is_empty(&self, answer: bool) -> bool {
        match &self.ex {
            Some(ex) => T::is_empty(ex) == answer,
            None => false,
        }
    }

    // Whether the text of the executor has these counts. If it is static, it has 0 futures.
    fn shows(
        &self,
        active: usize,
        global: usize,
        locals: &[usize],
        sleepers: usize,
    ) -> Result<bool, Fail> {
        let Some(ex) = &self.ex else {
            return Ok(false);
        };
        let name = T::name();
        let active = if T::is_closed_by_drop() { active } else { 0 };
        let wanted = format!(in self.alloc;
            "{name} {{ active: {active}, global_tasks: {global}, local_runners: {locals:?}, sleepers: {sleepers} }}")?;
        let text = T::text(ex, self.alloc)?;
        if text.as_str() == wanted.as_str() {
            return Ok(true);
        }
        let text = text.as_str();
        Err(Fail::new(format_args!("the text is {text}")))
    }

    // Asks all of the executor, by a task that is spawned and given up while a tick sleeps.
    fn is_used(&mut self) -> Result<bool, Fail> {
        let Some(ex) = &self.ex else {
            return Ok(false);
        };
        let ex = T::share(ex)?;
        let waker = TestWaker::new(&self.many)?;
        Ok(self.spawns_asleep(&ex, &waker)? && self.gives_up_last())
    }

    // Spawns a task that does not end while a tick of this executor sleeps.
    fn spawns_asleep(&mut self, ex: &T::Share, waker: &TestWaker) -> Result<bool, Fail> {
        let mut tick = T::tick(ex, self.alloc)?;
        tick.poll(waker);
        T::is_empty(ex);
        let was_spawned = self.spawn(Kind::Never);
        drop(tick);
        was_spawned
    }

    // Gives up the task that was spawned last, which has not ended, and has a tick drop its future.
    fn gives_up_last(&mut self) -> bool {
        let given_up = match self.entries.last_mut() {
            Some(entry) => entry.give_up(),
            None => false,
        };
        given_up && self.tick(Queue::Shared) == Some(true)
    }

    // The waker that the task's future left.
    fn taken_waker(&mut self, task: usize) -> Option<FutureWaker<R>> {
        match self.entries.get_mut(task) {
            Some(entry) => entry.take_left(),
            None => None,
        }
    }

    // Puts the waker that one task's future left where another one left its own.
    fn hand_waker(&mut self, from: usize, to: usize) -> bool {
        let Some(waker) = self.taken_waker(from) else {
            return false;
        };
        match self.entries.get_mut(to) {
            Some(entry) => {
                entry.put_left(waker);
                true
            }
            None => false,
        }
    }

    fn taken_handle(&mut self, task: usize) -> Option<Handle<T, R>> {
        match self.entries.get_mut(task) {
            Some(entry) => entry.handle.take(),
            None => None,
        }
    }

    fn wake_elsewhere(&mut self, task: usize) -> Result<bool, Fail> {
        let Some(waker) = self.taken_waker(task) else {
            return Ok(false);
        };
        let child = self.scope.spawn(move || waker.wake())?;
        child.join(&self.rt);
        Ok(true)
    }
}

// A player of an executor that threads share, and the call that another thread makes.
#[derive(Drop)]
struct Pair<'s, E: 's, R: Wait + Threads + Clone + Drop + Send + Sync + 'static> {
    one: Player<'s, E, Ticker<'static, R>, R>,
    other: Option<JoinHandle<Return<R>>>,
}

impl<'s, E: 's, R: Wait + Threads + Clone + Drop + Send + Sync + 'static> Pair<'s, E, R> {
    // Whether what comes of the line is what has to.
    fn holds(&mut self, line: Line) -> Result<bool, Fail> {
        match line {
            Line::TickHalts => self.tick_halts(Queue::Shared),
            Line::TickAnyHalts => self.tick_halts(Queue::Any),
            Line::HelpHalts(more) => self.tick_halts(Queue::Helped(more)),
            Line::SpawnHalts => self.spawn_halts(),
            Line::SpawnManyHalts(count) => self.spawn_many_halts(count),
            Line::PollHalts(task) => self.poll_halts(task),
            Line::WakeHalts(task) => self.wake_halts(task),
            Line::CancelHalts(task) => self.cancel_halts(task),
            Line::DetachHalts(task) => self.detach_halts(task),
            Line::DropHalts(task) => self.drop_halts(task),
            Line::DropExecutorHalts => self.drop_executor_halts(),
            Line::HaltsAgain => {
                self.one.halt.release();
                Ok(self.one.halt.await_other())
            }
            Line::Returns(answer) => Ok(self.returned() == Some(answer)),
            _ => self.one.holds(line),
        }
    }

    // Has another thread make the call, and waits until it halts.
    fn start(&mut self, call: Call<R>) -> Result<bool, Fail> {
        self.other = Some(self.one.scope.spawn(move || call.make())?);
        Ok(self.one.halt.await_other())
    }

    fn tick_halts(&mut self, queue: Queue) -> Result<bool, Fail> {
        let Some(ex) = &self.one.ex else {
            return Ok(false);
        };
        let ex = Arc::try_clone(ex)?;
        self.start(Call::Tick(ex, queue))
    }

    fn spawn_halts(&mut self) -> Result<bool, Fail> {
        let Some(ex) = &self.one.ex else {
            return Ok(false);
        };
        let future = ready_future(&self.one.many, self.one.alloc)?;
        let ex = Arc::try_clone(ex)?;
        self.start(Call::Spawn(ex, future))
    }

    fn spawn_many_halts(&mut self, count: u64) -> Result<bool, Fail> {
        let Some(ex) = &self.one.ex else {
            return Ok(false);
        };
        let mut futures = Vec::new(self.one.alloc);
        for _ in 0..count {
            futures.push(ready_future(&self.one.many, self.one.alloc)?)?;
        }
        let asked = Record::with_halt(self.one.alloc, &self.one.halt)?;
        asked.halt_at(Moment::Ask);
        let ex = Arc::try_clone(ex)?;
        self.start(Call::SpawnMany(ex, Asked::new(futures.into_iter(), asked), self.one.alloc))
    }

    fn poll_halts(&mut self, task: usize) -> Result<bool, Fail> {
        let lent = match self.one.entries.get_mut(task) {
            Some(entry) => entry.lend(task),
            None => None,
        };
        match lent {
            Some(lent) => self.start(Call::Poll(lent)),
            None => Ok(false),
        }
    }

    fn wake_halts(&mut self, task: usize) -> Result<bool, Fail> {
        match self.one.taken_waker(task) {
            Some(waker) => self.start(Call::Wake(waker)),
            None => Ok(false),
        }
    }

    fn cancel_halts(&mut self, task: usize) -> Result<bool, Fail> {
        match self.one.taken_handle(task) {
            Some(handle) => self.start(Call::Cancel(handle)),
            None => Ok(false),
        }
    }

    fn detach_halts(&mut self, task: usize) -> Result<bool, Fail> {
        match self.one.taken_handle(task) {
            Some(handle) => self.start(Call::Detach(handle)),
            None => Ok(false),
        }
    }

    fn drop_halts(&mut self, task: usize) -> Result<bool, Fail> {
        match self.one.taken_handle(task) {
            Some(handle) => self.start(Call::Drop(handle)),
            None => Ok(false),
        }
    }

    fn drop_executor_halts(&mut self) -> Result<bool, Fail> {
        match self.one.ex.take() {
            Some(ex) => self.start(Call::DropExecutor(ex)),
            None => Ok(false),
        }
    }

    // Lets the other thread go on, and gives what its call answers, if it halted in time.
    fn returned(&mut self) -> Option<Answer> {
        let other = self.other.take()?;
        self.one.halt.open();
        let returned = other.join(&self.one.rt);
        let answer = self.take_back(returned);
        if self.one.halt.was_passed() {
            Some(answer)
        } else {
            None
        }
    }

    // Puts the handle that was polled back, and gives the answer.
    fn take_back(&mut self, returned: Return<R>) -> Answer {
        let Return { answer, polled } = returned;
        if let Some(lent) = polled {
            match self.one.entries.get_mut(lent.task) {
                Some(entry) => entry.put_back(lent),
                None => drop(lent),
            }
        }
        answer
    }
}

// Ready at its first poll.
fn ready_future<R: Wait + Clone + Drop + Send + Sync>(
    record: &Record,
    alloc: Global,
) -> Result<TaskFuture<R>, AllocError> {
    let place = WakerPlace::new(alloc)?;
    TaskFuture::new(Kind::Ready(0), place, record)
}

/// Takes the lines in turn, on a new executor that threads share. If they need no other thread, they
/// are taken on each other kind of executors too, but for those that are not closed by their drop if a
/// line drops the executor. The test fails at the first line that does not hold.
pub fn play<R: AllocGlobal + Wait + Threads + Clone + Drop + Send + Sync + 'static>(
    rt: &R,
    lines: &[Line],
) -> Result<(), Fail> {
    play_unsharded(rt, lines)?;
    thread::scope(thread::scope_env(), rt, |scope| play_sharded(scope, rt, None, lines))
}

/// The same, but not on shards: their run begins a poll with a handful of tasks if it was notified, takes no
/// word for its own shard, and leaves all shards if a copy of its waker is refused.
pub fn play_unsharded<R: AllocGlobal + Wait + Threads + Clone + Drop + Send + Sync + 'static>(
    rt: &R,
    lines: &[Line],
) -> Result<(), Fail> {
    thread::scope(thread::scope_env(), rt, |scope| play_all(scope, rt, None, lines))
}

/// The same, on a new executor that threads share alone: for lines that take seconds.
pub fn play_once<R: AllocGlobal + Wait + Threads + Clone + Drop + Send + Sync + 'static>(
    rt: &R,
    lines: &[Line],
) -> Result<(), Fail> {
    thread::scope(thread::scope_env(), rt, |scope| play_shared(scope, rt, None, lines))
}

/// The same on executors with these limits.
pub fn play_with<R: AllocGlobal + Wait + Threads + Clone + Drop + Send + Sync + 'static>(
    rt: &R,
    limits: Limits,
    lines: &[Line],
) -> Result<(), Fail> {
    thread::scope(thread::scope_env(), rt, |scope| {
        play_all(scope, rt, Some(limits), lines)?;
        play_sharded(scope, rt, Some(limits), lines)
    })
}

// The same, with other threads in this scope.
fn play_all<'s, E: 's, R: AllocGlobal + Wait + Threads + Clone + Drop + Send + Sync + 'static>(
    scope: &'s Scope<'s, E>,
    rt: &R,
    limits: Option<Limits>,
    lines: &[Line],
) -> Result<(), Fail> {
    play_shared(scope, rt, limits, lines)?;
    if lines.iter().any(|line| line.needs_another_thread()) {
        return Ok(());
    }
    play_alone::<'s, E, LocalTicker<'static, R>, R>(scope, rt, limits, lines)?;
    play_alone::<'s, E, StaticTicker<'static, R>, R>(scope, rt, limits, lines)?;
    play_alone::<'s, E, StaticLocalTicker<'static, R>, R>(scope, rt, limits, lines)
}

// On a sharded executor of one shard, if the lines need no other thread.
fn play_sharded<
    's,
    E: 's,
    R: AllocGlobal + Wait + Threads + Clone + Drop + Send + Sync + 'static,
>(
    scope: &'s Scope<'s, E>,
    rt: &R,
    limits: Option<Limits>,
    lines: &[Line],
) -> Result<(), Fail> {
    if lines.iter().any(|line| line.needs_another_thread()) {
        return Ok(());
    }
    play_alone::<'s, E, ShardedTicker<'static, R>, R>(scope, rt, limits, lines)
}

fn play_shared<'s, E: 's, R: AllocGlobal + Wait + Threads + Clone + Drop + Send + Sync + 'static>(
    scope: &'s Scope<'s, E>,
    rt: &R,
    limits: Option<Limits>,
    lines: &[Line],
) -> Result<(), Fail> {
    let one = Player::new(scope, rt.clone()?, rt.alloc(), limits)?;
    let mut pair = Pair { one, other: None };
    for (before, line) in lines.iter().enumerate() {
        if !pair.holds(*line)? {
            pair.one.halt.open();
            return Err(does_not_hold(before, line));
        }
    }
    Ok(())
}

fn play_alone<
    's,
    E: 's,
    T: ExecutorKind<R> + 's,
    R: AllocGlobal + Wait + Threads + Clone + Drop + Send + Sync + 's,
>(
    scope: &'s Scope<'s, E>,
    rt: &R,
    limits: Option<Limits>,
    lines: &[Line],
) -> Result<(), Fail> {
    if !T::is_closed_by_drop() && lines.iter().any(|line| matches!(line, Line::DropExecutor)) {
        return Ok(());
    }
    let mut player = Player::<'s, E, T, R>::new(scope, rt.clone()?, rt.alloc(), limits)?;
    for (before, line) in lines.iter().enumerate() {
        if !player.holds(*line)? {
            return Err(does_not_hold(before, line));
        }
    }
    Ok(())
}

fn does_not_hold(before: usize, line: &Line) -> Fail {
    let place = before.saturating_add(1);
    Fail::new(format_args!("line {place} does not hold: {line:?}"))
}
