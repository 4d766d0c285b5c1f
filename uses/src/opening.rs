//! A task of a pool that opens the file that it reads.
use async_executor::{Future, Poll, Wake};
use async_utilities::{Pool, block_on};
use std::alloc::Global;
use std::fs::File;
use std::io::{self, Read};
use std::rt::Files;
use std::sync::Wait;
use std::thread::Threads;

// So many bytes are read in a poll at most.
const BLOCK: usize = 4_096;

/// Opens a file in its first poll, and counts its bytes. Each poll asks for the next one.
#[derive(Drop)]
struct Opening<R: Drop> {
    rt: R,
    name: String,
    file: Option<File>,
    bytes: u64,
}

impl<R: Files<File = File> + Drop> Opening<R> {
    // Opens the file, or reads a block of it. Says whether that was its end.
    fn step(&mut self) -> io::Result<bool> {
        let Some(file) = &mut self.file else {
            self.file = Some(File::open(&self.rt, &self.name)?);
            return Ok(false);
        };
        let mut block = [0u8; BLOCK];
        let read = file.read(&mut block)?;
        self.bytes = self.bytes.saturating_add(read as u64);
        Ok(read == 0)
    }
}

impl<W: Wake, R: Files<File = File> + Drop> Future<W> for Opening<R> {
    type Output = io::Result<u64>;

    fn poll(&mut self, w: &W) -> Poll<io::Result<u64>> {
        match self.step() {
            Ok(true) => Poll::Ready(Ok(self.bytes)),
            Ok(false) => {
                w.wake();
                Poll::Pending
            }
            Err(error) => Poll::Ready(Err(error)),
        }
    }
}

/// Has a task of a pool open a file and read it, and gives how many bytes it has.
///
/// Its proof asks for the bound of `R::Dir`, the type of an open folder: a thread that has a copy of the right
/// to open files may open folders by it, too.
pub fn opens<R>(rt: &R, alloc: Global, name: &str) -> io::Result<u64>
where
    R: Wait + Threads + Files<File = File> + Clone + Drop + Send + Sync + 'static,
    R::Dir: Send,
{
    let pool: Pool<Opening<R>, R> = Pool::new(rt.clone()?, alloc, 2)?;
    let opening = Opening {
        rt: rt.clone()?,
        name: format!(in alloc; "{name}")?,
        file: None,
        bytes: 0,
    };
    let task = pool.executor().spawn(opening)?;
    block_on(rt, alloc, task)??
}
