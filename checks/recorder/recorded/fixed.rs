//! Programs that are the same each time: one thread halts at a named step while another one goes on, or one
//! thread does what random programs do seldom.
mod alone;
mod beside;
mod parts;

use executor_core::recorder::Ending;
use std::sync::Wait;
use std::test::Fail;
use std::thread::Threads;

/// Which of these programs it is.
#[derive(Clone, Copy)]
pub enum Fixed {
    /// A task is woken while another thread has the table, since it spawns.
    WakeBesideSpawn,
    /// A task is cancelled while another thread has the table.
    CancelBesideSpawn,
    /// Two tasks are spawned while a tick sleeps. The first thread halts before its exchange.
    TwoExchanges,
    /// A run takes all tasks of another one, whose thread halts before a poll, and sleeps.
    Steal,
    /// A task is spawned while a tick sleeps, and another thread has the list, since its tick goes to sleep.
    NotifyBesideSleep,
    /// A run whose turn ends before its tasks do, and which is dropped then, on one thread.
    Turn,
    /// An executor is leaked with an idle task, which is woken by that, on one thread.
    Leak,
    /// Three tasks are spawned by one call while a tick sleeps, on one thread.
    Many,
    /// Each request for memory of a tick, a run, a spawn and a spawn of many is refused in turn, on one
    /// thread.
    Refused,
    /// An executor without tasks is leaked, on one thread.
    LeakOfNone,
    /// A task is spawned while a tick sleeps, and the first thread halts before its exchange. Another one
    /// takes the task, and so wins the exchange.
    TakeBesideSpawn,
    /// A task is spawned while a tick sleeps, and the first thread halts behind its exchange. Another one
    /// drops the tick, so nobody is left to be notified.
    DropBesideSpawn,
}

impl Fixed {
    /// All of them.
    pub const ALL: [Fixed; 12] = [
        Fixed::WakeBesideSpawn,
        Fixed::CancelBesideSpawn,
        Fixed::TwoExchanges,
        Fixed::Steal,
        Fixed::NotifyBesideSleep,
        Fixed::Turn,
        Fixed::Leak,
        Fixed::Many,
        Fixed::Refused,
        Fixed::LeakOfNone,
        Fixed::TakeBesideSpawn,
        Fixed::DropBesideSpawn,
    ];

    /// Whether it has as many steps as all others together.
    pub fn is_long(self) -> bool {
        matches!(self, Fixed::Turn)
    }

    /// How it ends, if nothing is wrong.
    pub fn ending(self) -> Ending {
        match self {
            Fixed::Leak | Fixed::LeakOfNone => Ending::Leaked,
            _ => Ending::Closed,
        }
    }
}

/// Takes this program, and drops its executor, or what a leak of it gave.
pub fn take<R: AllocGlobal + Wait + Threads + Clone + Drop + Send + Sync>(
    rt: &R,
    program: Fixed,
) -> Result<(), Fail> {
    match program {
        Fixed::WakeBesideSpawn => beside::wake_beside_spawn(rt),
        Fixed::CancelBesideSpawn => beside::cancel_beside_spawn(rt),
        Fixed::TwoExchanges => beside::two_exchanges(rt),
        Fixed::Steal => beside::steal(rt),
        Fixed::NotifyBesideSleep => beside::notify_beside_sleep(rt),
        Fixed::Turn => alone::turn(rt),
        Fixed::Leak => alone::leak(rt),
        Fixed::Many => alone::many(rt),
        Fixed::Refused => alone::refused(rt),
        Fixed::LeakOfNone => alone::leak_of_none(rt),
        Fixed::TakeBesideSpawn => beside::take_beside_spawn(rt),
        Fixed::DropBesideSpawn => beside::drop_beside_spawn(rt),
    }
}
