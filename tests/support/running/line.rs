//! The lines that a test is made of.
use super::future::Kind;
use super::record::Moment;

/// What a call answers.
#[derive(Clone, Copy, PartialEq, Eq, Debug)]
pub enum Answer {
    /// A poll of a handle, a tick or a run is pending.
    Pending,
    /// A poll of a handle or a run gives this output.
    Output(u64),
    /// A poll of a handle gives `Cancelled`, or `None`.
    Cancelled,
    /// A tick ran a task.
    Ticked,
    /// A tick found no task.
    Idle,
    /// A handle, a tick or a run is gone.
    Gone,
}

/// What is done, and what has to come of it. A task has the number of its spawn. Ticks and runs are
/// numbered among the tasks, and what a line says of a handle goes for them as well; what it says of
/// a task's future goes for the future beside which a run runs tasks.
#[derive(Clone, Copy, Debug)]
pub enum Line {
    /// A task of this future is spawned.
    Spawn(Kind),
    /// So many tasks that are ready at their first poll are spawned and detached.
    SpawnMany(u64),
    /// So many of those were polled.
    ManyRan(u64),
    /// The futures of so many of those were dropped.
    ManyDropped(u64),
    /// A `try_tick` by this thread answers this.
    Tick(bool),
    /// So many of them answer true, and the next one false.
    Ticks(u64),
    /// A `try_tick_any` by this thread answers this.
    TickAny(bool),
    /// So many of them answer true, and the next one false.
    TicksAny(u64),
    /// A tick is made.
    MakeTick,
    /// A run is made, beside this future.
    MakeRun(Kind),
    /// The executor is empty, or not.
    Empty(bool),
    /// The text of the executor has these counts: the futures that are not dropped, the tasks in the
    /// global queue and in the queue of each runner, and the sleepers. That of a static one has 0
    /// futures.
    Shows(usize, usize, &'static [usize], usize),
    /// The executor is dropped.
    DropExecutor,

    /// A poll of this task's handle answers this. An output is kept.
    Poll(usize, Answer),
    /// The task is finished, or not.
    Finished(usize, bool),
    /// The task is cancelled.
    Cancel(usize),
    /// The task's handle becomes a fallible one.
    Fallible(usize),
    /// The task is detached.
    Detach(usize),
    /// The task's handle is dropped.
    DropHandle(usize),
    /// The task's handle is forgotten.
    ForgetHandle(usize),
    /// The output that the task's handle gave is dropped.
    DropOutput(usize),

    /// The waker that the task's future left is woken.
    Wake(usize),
    /// A copy of it is woken.
    WakeCopy(usize),
    /// It is sent to another thread, and woken and dropped there.
    WakeElsewhere(usize),
    /// It is put where the other task's future left its own, which is dropped.
    HandWaker(usize, usize),

    /// The waker that the task's handle is polled by refuses to be copied.
    Refuse(usize),
    /// The task's handle is polled by another waker from now on.
    AnotherWaker(usize),
    /// That other waker was woken so often.
    OtherWoken(usize, u64),
    /// This came so often for the task's future, its output, or the first waker of its handle.
    Count(usize, Moment, u64),

    /// The thread that meets this halts.
    HaltAt(usize, Moment),
    /// The thread that meets this lets the other one go on, and waits until that halts again.
    PassOnAt(usize, Moment),
    /// Another thread calls `try_tick`, and halts.
    TickHalts,
    /// Another thread calls `try_tick_any`, and halts.
    TickAnyHalts,
    /// Another thread calls `help` of a sleeper, for so many more tasks, and halts.
    HelpHalts(u32),
    /// Another thread polls the task's handle, and halts.
    PollHalts(usize),
    /// Another thread wakes the waker that the task's future left, and halts.
    WakeHalts(usize),
    /// Another thread cancels the task and drops its handle, and halts.
    CancelHalts(usize),
    /// Another thread detaches the task, and halts.
    DetachHalts(usize),
    /// Another thread drops the task's handle, and halts.
    DropHalts(usize),
    /// Another thread drops the executor, and halts.
    DropExecutorHalts,
    /// Another thread spawns a task, and halts.
    SpawnHalts,
    /// Another thread spawns so many tasks that are ready at their first poll, by an iterator that
    /// halts whenever it is asked, and detaches them.
    SpawnManyHalts(u64),
    /// The executor can be used: a tick and a task are made and given up, and a task is run.
    Used,
    /// The other thread goes on, and halts again.
    HaltsAgain,
    /// The other thread goes on, and its call answers this.
    Returns(Answer),
}

impl Line {
    /// Whether another thread halts for it, or goes on.
    pub fn needs_another_thread(self) -> bool {
        matches!(
            self,
            Line::HaltAt(_, _)
                | Line::PassOnAt(_, _)
                | Line::TickHalts
                | Line::TickAnyHalts
                | Line::HelpHalts(_)
                | Line::PollHalts(_)
                | Line::WakeHalts(_)
                | Line::CancelHalts(_)
                | Line::DetachHalts(_)
                | Line::DropHalts(_)
                | Line::DropExecutorHalts
                | Line::SpawnHalts
                | Line::SpawnManyHalts(_)
        )
    }
}
