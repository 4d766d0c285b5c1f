//! What is written down of the steps of a running executor, and of the calls that they belong to.
//!
//! A line has a word, up to two numbers that it is said of, and an answer with a number of its own. The
//! names of the words and of the answers are read from here by `checks/lib/replay.py`.

mod cells;
mod flag;
mod list;

use crate::limits::Limits;
use crate::sleepers::Sleepers;
use crate::task::Cells;

pub use list::removed;

unsafe extern "C" {
    safe fn write_down(word: u32, of: u64, with: u64, answer: u32, value: u64);

    safe fn number_of_ticker() -> u64;

    safe fn last_number_of_ticker() -> u64;

    safe fn halt_behind(word: u32);

    safe fn is_halted() -> u32;

    safe fn let_go_on();

    safe fn restrict_programs(each: u64, places: u64);

    safe fn is_copy_refused() -> u32;

    safe fn room_of_queues() -> u64;

    safe fn number_tables_from(number: u64);

    safe fn number_of_play() -> u64;

    safe fn print_log(kind: u32, number: u64, ending: u32) -> u32;
}

/// What a line is about: a call that begins, or ends; a step on what is shared; or what a caller's own
/// type says.
#[derive(Clone, Copy)]
pub enum Word {
    CallSpawn,
    CallSpawnMany,
    CallWake,
    CallLent,
    CallTryTick,
    CallTryAny,
    CallPollHandle,
    CallCancel,
    CallDetach,
    CallDropHandle,
    CallTick,
    CallRun,
    CallPollTick,
    CallPollRun,
    CallDropTick,
    CallDropRun,
    CallLeak,
    CallClose,
    CallFuture,
    CallDisposal,
    CallOwn,
    End,
    Given,
    Spawn,
    Wake,
    Take,
    TakeAny,
    Search,
    InVain,
    Pend,
    Ready,
    Dropped,
    PollHandle,
    Cancel,
    Detach,
    DropHandle,
    WakeAll,
    Close,
    Drain,
    ReserveRunner,
    ReleaseRunner,
    Register,
    Unregister,
    Fair,
    ReserveSleeper,
    ReleaseSleeper,
    Insert,
    Update,
    SleepOn,
    Remove,
    Leave,
    NoCopy,
    Yield,
    Store,
    ExchangeBegins,
    Exchange,
    Notify,
    ShowGlobal,
    ShowRunner,
    ShowLocal,
    Show,
    Limits,
    Made,
    LetGo,
    Forgotten,
    Ending,
}

/// What a step answered.
#[derive(Clone, Copy)]
pub enum Answer {
    Nothing,
    Task,
    Notice,
    Poll,
    Drop,
    None,
    Idle,
    Queued,
    Finished,
    FinishedAwaiter,
    Unwanted,
    UnwantedAwaiter,
    Gone,
    GoneAwaiter,
    Output,
    Cancelled,
    Pending,
    NoticeOutput,
    Runner,
    Done,
    Refused,
    Moved,
    Number,
    Again,
    Parked,
    Unknown,
    Notified,
    Unnotified,
    True,
    False,
    Pick,
    Sleeper,
    Nobody,
}

/// A line without an answer.
pub fn say(word: Word, of: u64) {
    write_down(word as u32, of, 0, Answer::Nothing as u32, 0);
}

/// A step of this number.
pub fn step(word: Word, of: u64, answer: Answer, value: u64) {
    write_down(word as u32, of, 0, answer as u32, value);
}

/// A step of two numbers.
pub fn step_with(word: Word, of: u64, with: u64, answer: Answer, value: u64) {
    write_down(word as u32, of, with, answer as u32, value);
}

/// The number of a new ticker.
pub fn new_ticker() -> u64 {
    number_of_ticker()
}

/// That of the ticker that this thread makes.
pub fn last_ticker() -> u64 {
    last_number_of_ticker()
}

/// The state of an executor that is at rest: its global queue, those of its runners, how many sleepers have
/// numbers, which is notified, the flag, and how many futures are not dropped.
pub fn show<W>(cells: &Cells<(), (), W>, sleepers: &Sleepers<W>, flag: bool) {
    for number in cells.global_numbers() {
        say(Word::ShowGlobal, number);
    }
    for runner in 0..cells.runners() {
        say(Word::ShowRunner, runner as u64);
        let mut place = 0;
        while let Some(number) = cells.local_at(runner, place) {
            say(Word::ShowLocal, number);
            place += 1;
        }
    }
    let (numbers, notified) = (sleepers.numbers() as u64, sleepers.notified() as u64);
    let answer = if flag { Answer::True } else { Answer::False };
    step_with(Word::Show, numbers, notified, answer, cells.undropped() as u64);
}

/// A call, which ends as this is dropped.
pub struct Call;

impl Call {
    /// The call begins, which is one of this task or this ticker.
    pub fn begin(word: Word, of: u64) -> Call {
        say(word, of);
        Call
    }
}

impl Drop for Call {
    fn drop(self) {
        let Call = self;
        say(Word::End, 0);
    }
}

/// Has this thread halt behind its next line of this word, also if it holds a lock.
pub fn halt(word: Word) {
    halt_behind(word as u32);
}

/// Whether a thread halts.
pub fn has_halted() -> bool {
    is_halted() != 0
}

/// Lets those go on that halt.
pub fn go_on() {
    let_go_on();
}

/// From now on each copy of a waker is refused whose number this one divides, or none if it is 0, and
/// executors have queues for so many tasks, with short turns, or the usual limits if that is 0.
pub fn restrict(each: u64, places: u64) {
    restrict_programs(each, places);
}

/// Whether this copy of a waker is to be refused.
pub fn refuses_copy() -> bool {
    is_copy_refused() != 0
}

/// The limits of the next executor, which are written down if they are not the usual ones.
pub fn limits() -> Limits {
    let places = room_of_queues();
    if places == 0 {
        return Limits::default();
    }
    say(Word::Limits, places);
    Limits {
        local: places as usize,
        turn: 7,
        fair: 3,
    }
}

/// What kind of program was taken. Of the last kind, each thread takes one of its own at the same time, and
/// says behind it which it was and how it ended.
#[derive(Clone, Copy)]
pub enum Kind {
    Fixed,
    Alone,
    Local,
    Storm,
    Locals,
    Table,
}

/// How a program ended: its executor was closed or leaked, or what it found at its end is wrong, or its
/// executor is kept.
#[derive(Clone, Copy)]
pub enum Ending {
    Closed,
    Leaked,
    Wrong,
    Kept,
}

/// Says that this thread's program of this number ended so.
pub fn say_ending(number: u64, ending: Ending) {
    step(Word::Ending, number, Answer::Done, ending as u64);
}

/// The table of this number begins. What is played of it has ten numbers.
pub fn begin_table(number: u64) {
    number_tables_from(number * 10);
}

/// The number of what was played.
pub fn next_of_table() -> u64 {
    number_of_play()
}

/// Prints the log of the program of this kind and number, and begins a new one. It says whether there was
/// room for all of it.
pub fn print(kind: Kind, number: u64, ending: Ending) -> bool {
    print_log(kind as u32, number, ending as u32) != 0
}
