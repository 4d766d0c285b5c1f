//! A waker for those who poll handles.
use super::halt::Halt;
use super::record::{AtDrop, Moment, Record};
use executor_core::task::{OutOfMemory, Wake};
use std::alloc::{AllocError, Global};

/// Counts how often it and its copies are woken, copied and dropped. It halts, and refuses to be
/// copied, if its record says so.
#[derive(Drop)]
pub struct TestWaker {
    parts: AtDrop,
}

impl TestWaker {
    pub fn new(record: &Record) -> Result<TestWaker, AllocError> {
        Ok(TestWaker {
            parts: AtDrop::new(record.share()?, Moment::WakerDrop),
        })
    }

    /// One that halts at this moment, as its copies do, and its halt.
    pub fn halting(alloc: Global, moment: Moment) -> Result<(TestWaker, Halt), AllocError> {
        let halt = Halt::new(alloc)?;
        let record = Record::with_halt(alloc, &halt)?;
        record.halt_at(moment);
        Ok((TestWaker::new(&record)?, halt))
    }

    /// Its record, and that of its copies.
    pub fn record(&self) -> &Record {
        self.parts.record()
    }
}

impl Wake for TestWaker {
    fn wake(&self) {
        self.record().meet(Moment::WakerWake);
    }

    fn copy(&self) -> Result<Self, OutOfMemory> {
        let record = self.record();
        record.meet(Moment::WakerCopy);
        if record.refuses() {
            return Err(OutOfMemory);
        }
        Ok(TestWaker::new(record)?)
    }
}
