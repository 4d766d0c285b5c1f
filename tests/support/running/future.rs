//! Futures that are written by hand.
ghost use Rattle.std.specs.Prelude.{◌≡◌};

use super::record::{AtDrop, Moment, Record};
use executor_core::task::{Future, Poll, Wake};
use std::alloc::{AllocError, Global};
use std::sync::atomic::{AtomicU64, Ordering};
use std::sync::{Arc, Mutex};

/// Ready with its output at the first poll.
#[derive(Drop)]
pub struct Ready<T> {
    output: Option<T>,
}

impl<T> Ready<T> {
    pub fn new(output: T) -> Ready<T> {
        Ready {
            output: Some(output),
        }
    }
}

impl<T: Drop, W> Future<W> for Ready<T> {
    type Output = T;

    fn poll(&mut self, _w: &W) -> Poll<T> {
        match self.output.take() {
            Some(output) => Poll::Ready(output),
            None => Poll::Pending,
        }
    }
}

/// Ready once a count that others add to is so high.
#[derive(Drop)]
pub struct Until {
    count: Arc<AtomicU64>,
    all: u64,
}

impl Until {
    pub fn new(count: &Arc<AtomicU64>, all: u64) -> Result<Until, AllocError> {
        Ok(Until {
            count: Arc::try_clone(count)?,
            all,
        })
    }
}

impl<W> Future<W> for Until {
    type Output = ();

    fn poll(&mut self, _w: &W) -> Poll<()> {
        if self.count.load(Ordering::SeqCst) >= self.all {
            Poll::Ready(())
        } else {
            Poll::Pending
        }
    }
}

/// The futures of an iterator, each of which is asked for at a moment of the record.
#[derive(Drop)]
pub struct Asked<I> {
    futures: I,
    record: Record,
}

impl<I> Asked<I> {
    pub fn new(futures: I, record: Record) -> Asked<I>
        ensures { result.futures ≡ futures }
    {
        Asked { futures, record }
    }
}

impl<I: Iterator> Iterator for Asked<I> {
    type Item = I::Item;

    ghost can_next = { λ s. I.can_next s.futures };

    ghost remaining = { λ s. I.remaining s.futures };

    fn next(&mut self) -> Option<I::Item> {
        self.record.meet(Moment::Ask);
        self.futures.next()
    }
}

/// What a future does at its polls.
#[derive(Clone, Copy, Debug)]
pub enum Kind {
    /// It is ready with this at its first poll.
    Ready(u64),
    /// It wakes itself at its first poll, and is ready with this.
    WakesAndReady(u64),
    /// It wakes itself twice at its first poll, and is ready with the number of its polls at the
    /// next.
    WakesTwice,
    /// It is never ready.
    Never,
    /// It wakes itself at this number of polls, and is ready with the number of its polls at the
    /// next.
    Yields(u64),
    /// It leaves its waker where others find it at this number of polls, and is ready with the
    /// number of its polls at the next.
    LeavesWaker(u64),
    /// It keeps its own waker, and is never ready.
    KeepsWaker,
    /// It is never ready. It leaves its waker as `LeavesWaker` does, and as it is dropped it wakes the
    /// waker that it finds there.
    WakesAtDrop,
}

/// Where a future leaves its waker, and others find it.
#[derive(Drop)]
pub struct WakerPlace<W> {
    waker: Arc<Mutex<Option<W>>>,
}

impl<W: Drop> WakerPlace<W> {
    /// A place where no waker is yet.
    pub fn new(alloc: Global) -> Result<WakerPlace<W>, AllocError> {
        Ok(WakerPlace {
            waker: Arc::new(alloc, Mutex::new(None))?,
        })
    }

    /// The same place.
    pub fn share(&self) -> Result<WakerPlace<W>, AllocError> {
        Ok(WakerPlace {
            waker: Arc::try_clone(&self.waker)?,
        })
    }

    /// Leaves a waker here, and gives the one that was here before.
    pub fn replace(&self, waker: Option<W>) -> Option<W> {
        match self.waker.try_lock() {
            Some(mut place) => std::mem::replace(&mut *place, waker),
            None => waker,
        }
    }

    /// Takes the waker that is here.
    pub fn take(&self) -> Option<W> {
        self.replace(None)
    }
}

/// A number that counts its drop.
#[derive(Drop)]
pub struct Output {
    pub number: u64,
    drops: AtDrop,
}

/// A future of one of the kinds, which counts its polls, its drop, and the drop of its output.
#[derive(Drop)]
pub struct TestFuture<W: Wake> {
    kind: Kind,
    polls: u64,
    kept: Option<W>,
    place: WakerPlace<W>,
    last: LastAct<W>,
    output: Option<Record>,
    parts: AtDrop,
}

/// Wakes the waker that it finds at a place, if it has one, as it is dropped.
struct LastAct<W: Wake> {
    place: Option<WakerPlace<W>>,
}

impl<W: Wake> Drop for LastAct<W> {
    fn drop(self) {
        let LastAct { place } = self;
        let Some(place) = place else {
            return;
        };
        if let Some(waker) = place.take() {
            waker.wake();
        }
    }
}

impl<W: Wake> TestFuture<W> {
    pub fn new(
        kind: Kind,
        place: WakerPlace<W>,
        record: &Record,
    ) -> Result<TestFuture<W>, AllocError> {
        let last = match kind {
            Kind::WakesAtDrop => Some(place.share()?),
            _ => None,
        };
        Ok(TestFuture {
            kind,
            polls: 0,
            kept: None,
            place,
            last: LastAct { place: last },
            output: Some(record.share()?),
            parts: AtDrop::new(record.share()?, Moment::FutureDrop),
        })
    }

    // What the future does with its waker, and then the number that it is ready with.
    fn act(&mut self, w: &W) -> Option<u64> {
        match self.kind {
            Kind::Ready(number) => return Some(number),
            Kind::WakesAndReady(number) => {
                w.wake();
                return Some(number);
            }
            Kind::WakesTwice => {
                self.kind = Kind::Yields(0);
                w.wake();
                w.wake();
            }
            Kind::Yields(0) | Kind::LeavesWaker(0) => return Some(self.polls),
            Kind::Yields(left) => {
                self.kind = Kind::Yields(left - 1);
                w.wake();
            }
            Kind::LeavesWaker(left) => {
                self.kind = Kind::LeavesWaker(left - 1);
                drop(self.place.replace(w.copy().ok()));
            }
            Kind::WakesAtDrop => drop(self.place.replace(w.copy().ok())),
            Kind::KeepsWaker => self.kept = w.copy().ok(),
            Kind::Never => {}
        }
        None
    }
}

impl<W: Wake> Future<W> for TestFuture<W> {
    type Output = Output;

    fn poll(&mut self, w: &W) -> Poll<Output> {
        self.polls = self.polls.saturating_add(1);
        let number = self.act(w);
        self.parts.record().meet(Moment::FuturePoll);
        let Some(number) = number else {
            return Poll::Pending;
        };
        match self.output.take() {
            Some(record) => Poll::Ready(Output {
                number,
                drops: AtDrop::new(record, Moment::OutputDrop),
            }),
            None => Poll::Pending,
        }
    }
}
