//! What became of the parts of a task.
use super::halt::Halt;
use std::alloc::{AllocError, Global};
use std::sync::Arc;
use std::sync::atomic::{AtomicBool, AtomicU64, Ordering};

/// What a part of a task meets.
#[derive(Clone, Copy, Debug)]
pub enum Moment {
    /// A future is polled.
    FuturePoll,
    /// A future is dropped.
    FutureDrop,
    /// An output is dropped.
    OutputDrop,
    /// A waker is woken.
    WakerWake,
    /// A waker is to be copied.
    WakerCopy,
    /// A waker is dropped.
    WakerDrop,
    /// An iterator is asked for a future.
    Ask,
}

// How often a moment came, and whether the thread halts there, or lets another one go on.
#[derive(Drop)]
struct Point {
    times: AtomicU64,
    halts: AtomicBool,
    passes_on: AtomicBool,
}

impl Point {
    fn new() -> Point {
        Point {
            times: AtomicU64::new(0),
            halts: AtomicBool::new(false),
            passes_on: AtomicBool::new(false),
        }
    }
}

#[derive(Drop)]
struct Points {
    poll: Point,
    future_drop: Point,
    output_drop: Point,
    wake: Point,
    copy: Point,
    waker_drop: Point,
    ask: Point,
    refuses: AtomicBool,
    halt: Halt,
}

/// Counts the moments of a future and its output, or of a waker and its copies, which share it.
#[derive(Drop)]
pub struct Record {
    points: Arc<Points>,
}

impl Record {
    /// A record of parts that halt nowhere.
    pub fn new(alloc: Global) -> Result<Record, AllocError> {
        Record::with_halt(alloc, &Halt::new(alloc)?)
    }

    /// A record of parts that halt at this point, if they are told to.
    pub fn with_halt(alloc: Global, halt: &Halt) -> Result<Record, AllocError> {
        let halt = halt.share()?;
        let points = Points {
            poll: Point::new(),
            future_drop: Point::new(),
            output_drop: Point::new(),
            wake: Point::new(),
            copy: Point::new(),
            waker_drop: Point::new(),
            ask: Point::new(),
            refuses: AtomicBool::new(false),
            halt,
        };
        Ok(Record {
            points: Arc::new(alloc, points)?,
        })
    }

    /// The same record.
    pub fn share(&self) -> Result<Record, AllocError> {
        Ok(Record {
            points: Arc::try_clone(&self.points)?,
        })
    }

    fn point(&self, moment: Moment) -> &Point {
        match moment {
            Moment::FuturePoll => &self.points.poll,
            Moment::FutureDrop => &self.points.future_drop,
            Moment::OutputDrop => &self.points.output_drop,
            Moment::WakerWake => &self.points.wake,
            Moment::WakerCopy => &self.points.copy,
            Moment::WakerDrop => &self.points.waker_drop,
            Moment::Ask => &self.points.ask,
        }
    }

    /// Has the thread halt that meets this moment.
    pub fn halt_at(&self, moment: Moment) {
        self.point(moment).halts.store(true, Ordering::SeqCst);
    }

    /// Has the thread that meets this moment let another one go on, which halts, and wait until it
    /// halts again.
    pub fn pass_on_at(&self, moment: Moment) {
        self.point(moment).passes_on.store(true, Ordering::SeqCst);
    }

    /// Has copies be refused from now on.
    pub fn refuse(&self) {
        self.points.refuses.store(true, Ordering::SeqCst);
    }

    /// Whether copies are refused.
    pub fn refuses(&self) -> bool {
        self.points.refuses.load(Ordering::SeqCst)
    }

    /// Counts the moment, and halts or lets another thread go on if it is told to.
    pub fn meet(&self, moment: Moment) {
        let point = self.point(moment);
        point.times.fetch_add(1, Ordering::SeqCst);
        if point.halts.load(Ordering::SeqCst) {
            self.points.halt.halt();
        }
        if point.passes_on.load(Ordering::SeqCst) {
            self.points.halt.pass_on();
        }
    }

    /// How often the moment came.
    pub fn times(&self, moment: Moment) -> u64 {
        self.point(moment).times.load(Ordering::SeqCst)
    }
}

/// A value whose drop is a moment.
pub struct AtDrop {
    record: Record,
    moment: Moment,
}

impl AtDrop {
    pub fn new(record: Record, moment: Moment) -> AtDrop {
        AtDrop { record, moment }
    }

    /// The record that the drop goes to.
    pub fn record(&self) -> &Record {
        &self.record
    }
}

impl Drop for AtDrop {
    fn drop(self) {
        let AtDrop { record, moment } = self;
        record.meet(moment);
    }
}
