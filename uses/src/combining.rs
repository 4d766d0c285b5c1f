//! Small futures, and futures made of others, which one thread waits for.
use async_executor::Future;
use async_utilities::{Change, Either, Map, Or, Ready, ThreadWaker, YieldNow, poll_until_ready};
use std::alloc::Global;
use std::io;
use std::sync::Wait;

/// Gives its number in place of an output that says nothing.
#[derive(Drop)]
struct Gives {
    number: u64,
}

impl Change<()> for Gives {
    type Output = u64;

    ghost makes = { λ gives _. gives.number };

    fn change(self, _output: ()) -> u64 {
        self.number
    }
}

/// A number that is there, or one that comes at the second poll: one type for both.
type Number = Either<Ready<u64>, Map<YieldNow, Gives>>;

/// Races a number that comes later with one that is there, and gives the first that is ready.
pub fn races<R: Wait>(rt: &R, alloc: Global) -> io::Result<u64> {
    let mine = ThreadWaker::new(alloc)?;
    let later = Number::Right(Map::new(YieldNow::new(), Gives { number: 1 }));
    let there = Number::Left(Ready::new(2));
    let mut first = Or::new(later, there);
    // 2
    Ok(poll_until_ready(rt, &mine, |w| first.poll(w)))
}
