//! A server: jobs come through a channel, each is a task, and the answers come in the order of the
//! jobs.
use async_executor::{Future, Poll, Task};
use async_utilities::{JoinAll, Pool, Receiver, Sender, ThreadWaker, block_on, bounded};
use std::alloc::Global;
use std::io::{self, ErrorKind};
use std::sync::Wait;
use std::thread::{self, Threads};

/// Where the jobs arrive. Both sides are polled with the wakers of threads, by `block_on`.
type Jobs<R> = Receiver<u32, ThreadWaker, ThreadWaker, R>;

/// Doubles the number of its job.
#[derive(Debug, Drop)]
struct Double {
    number: u32,
}

impl<W> Future<W> for Double {
    type Output = u64;

    fn poll(&mut self, _w: &W) -> Poll<u64> {
        Poll::Ready(u64::from(self.number) * 2)
    }
}

// Spawns a task for each job, until there is no client.
fn take_jobs<R: Wait + Threads + Clone + Drop + Send + Sync + 'static>(
    rt: &R,
    alloc: Global,
    pool: &Pool<Double, R>,
    jobs: Jobs<R>,
) -> io::Result<Vec<Task<Double, ThreadWaker, R>>> {
    let mut tasks = Vec::new(alloc);
    for _ in rt.forever() {
        let Some(number) = block_on(rt, alloc, jobs.receive())? else {
            break;
        };
        tasks.push(pool.executor().spawn(Double { number })?)?;
    }
    Ok(tasks)
}

// Has a pool of two threads run the jobs.
fn serve<R: Wait + Threads + Clone + Drop + Send + Sync + 'static>(
    rt: &R,
    alloc: Global,
    jobs: Jobs<R>,
) -> io::Result<Vec<u64>> {
    let pool: Pool<Double, R> = Pool::new(rt.clone()?, alloc, 2)?;
    let tasks = take_jobs(rt, alloc, &pool, jobs)?;
    let all = JoinAll::new(alloc, tasks)?;
    let mut answers = Vec::new(alloc);
    for answer in block_on(rt, alloc, all)? {
        answers.push(answer?)?;
    }
    Ok(answers)
}

/// Has one thread send twenty jobs, with room for four, and another one serve them by a pool of two
/// threads. Gives the answers in the order of the jobs, if all were sent.
pub fn answers_in_order<R: Wait + Threads + Clone + Drop + Send + Sync + 'static>(
    rt: &R,
    alloc: Global,
) -> io::Result<Vec<u64>> {
    let (client, jobs) = bounded(rt.clone()?, alloc, 4)?;
    let (sent, answers) = thread::join(
        rt,
        move || send_jobs(rt, alloc, client),
        move || serve(rt, alloc, jobs),
    );
    sent?;
    answers
}

// Sends the numbers below twenty, and parks while there is no room. Its end is dropped then, which says that
// there are no more.
fn send_jobs<R: Wait + Drop>(
    rt: &R,
    alloc: Global,
    client: Sender<u32, ThreadWaker, ThreadWaker, R>,
) -> io::Result<()> {
    for number in 0..20 {
        if block_on(rt, alloc, client.send(number))?.is_err() {
            return Err(io::Error::from(ErrorKind::BrokenPipe));
        }
    }
    Ok(())
}
