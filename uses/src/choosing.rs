//! Futures made of others: one after another, and the first of several.
ghost use Rattle.std.specs.Prelude.{Some};

use async_executor::{Future, Poll};
use async_utilities::{
    AnyOf, Change, Race, Ready, Then, ThreadWaker, YieldNow, block_on, poll_until_ready,
};
use std::alloc::Global;
use std::io;
use std::sync::Wait;

/// Begins a second future with what the first one gave.
#[derive(Drop)]
struct Begins {
    number: u64,
}

impl Change<u64> for Begins {
    type Output = Ready<(u64, u64)>;

    ghost makes = { λ begins output. record { value = Some (output, begins.number) } };

    fn change(self, output: u64) -> Ready<(u64, u64)> {
        Ready::new((output, self.number))
    }
}

/// Awaits a number, and then a future that is made of it.
pub fn follows<R: Wait>(rt: &R, alloc: Global) -> io::Result<(u64, u64)> {
    let mine = ThreadWaker::new(alloc)?;
    let mut both = Then::new(Ready::new(2), Begins { number: 1 });
    // (2, 1)
    Ok(poll_until_ready(rt, &mine, |w| both.poll(w)))
}

/// Awaits three futures one after another with one waker, which takes no memory for that.
pub fn reuses<R: Wait>(rt: &R, alloc: Global) -> io::Result<u64> {
    let waker = ThreadWaker::new(alloc)?;
    let first = waker.block_on(rt, Ready::new(1u64));
    waker.block_on(rt, YieldNow::new());
    let second = waker.block_on(rt, Ready::new(2u64));
    // 3
    Ok(first.saturating_add(second))
}

/// A number that comes at the second poll, for which it asks.
#[derive(Drop)]
struct Late {
    first: YieldNow,
    number: u64,
}

impl Late {
    fn new(number: u64) -> Late {
        Late {
            first: YieldNow::new(),
            number,
        }
    }
}

impl Future<ThreadWaker> for Late {
    type Output = u64;

    fn poll(&mut self, w: &ThreadWaker) -> Poll<u64> {
        match self.first.poll(w) {
            Poll::Ready(()) => Poll::Ready(self.number),
            Poll::Pending => Poll::Pending,
        }
    }
}

/// Races two futures that are both ready at the second poll of the race, which begins with the right
/// one.
pub fn alternates(alloc: Global) -> io::Result<[Poll<u64>; 2]> {
    let mine = ThreadWaker::new(alloc)?;
    let mut race = Race::new(Late::new(1), Late::new(2));
    let first = race.poll(&mine);
    // [Pending, Ready(2)]: the right one goes first at the second poll
    Ok([first, race.poll(&mine)])
}

/// Gives the first of three futures that is ready: its place, its output, and how many others are left.
pub fn picks<R: Wait>(rt: &R, alloc: Global) -> io::Result<(usize, u64, usize)> {
    let futures = vec![in alloc; Late::new(0), Late::new(1), Late::new(2)]?;
    let first = block_on(rt, alloc, AnyOf::new(futures))?;
    // (0, 0, 2)
    Ok((first.place, first.output, first.others.len()))
}
