//! Files that tasks read, and the owner of the executor opens.
use async_executor::{Executor, Future, Poll, Wake};
use async_utilities::run_until;
use std::alloc::Global;
use std::fs::File;
use std::io::{self, Read};
use std::rt::Files;
use std::sync::Wait;

// So many bytes are read in a poll at most.
const BLOCK: usize = 4_096;

/// Counts the bytes of a file. A poll reads once, and asks for the next one.
#[derive(Drop)]
struct Length {
    file: File,
    bytes: u64,
}

impl<W: Wake> Future<W> for Length {
    type Output = io::Result<u64>;

    fn poll(&mut self, w: &W) -> Poll<io::Result<u64>> {
        let mut block = [0u8; BLOCK];
        match self.file.read(&mut block) {
            Ok(0) => Poll::Ready(Ok(self.bytes)),
            Ok(read) => {
                self.bytes = self.bytes.saturating_add(read as u64);
                w.wake();
                Poll::Pending
            }
            Err(error) => Poll::Ready(Err(error)),
        }
    }
}

/// Has a task read a file, and gives how many bytes it has.
pub fn reads<R: Wait + Files<File = File> + Clone + Drop + Send + Sync>(
    rt: &R,
    alloc: Global,
    name: &str,
) -> io::Result<u64> {
    let file = File::open(rt, name)?;
    let executor = Executor::new(rt.clone()?, alloc)?;
    let task = executor.spawn(Length { file, bytes: 0 })?;
    run_until(rt, alloc, &executor, task)??
}
