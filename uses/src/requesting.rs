//! A task that wants more tasks: it sends what it wants through a channel, and the owner of the
//! executor spawns it between two polls of a run.
//!
//! What goes through the channel is a plain value, of which the owner makes a future. So the type of
//! the tasks contains neither their executor nor itself. The owner is no future: a poll has no proof
//! that R may be sent, which a spawn asks for.
use async_executor::{Executor, Future, Poll, Task, TaskWaker};
use async_utilities::{Never, Receiver, Sender, ThreadWaker, bounded};
use std::alloc::Global;
use std::io;
use std::sync::Wait;

/// Sends how deep the tree below a new task is. It is polled by tasks, and received from by the owner's
/// thread.
type Requests<R> = Sender<u32, TaskWaker<ThreadWaker, R>, ThreadWaker, R>;

type Wanted<R> = Receiver<u32, TaskWaker<ThreadWaker, R>, ThreadWaker, R>;

/// Asks for two more tasks, unless it is a leaf, and is ready once both requests are sent.
#[derive(Drop)]
struct Branch<R: Wait + Drop> {
    requests: Requests<R>,
    left: Option<u32>,
    right: Option<u32>,
}

impl<R: Wait + Drop> Branch<R> {
    fn new(requests: &Requests<R>, depth: u32) -> io::Result<Branch<R>> {
        let below = depth.checked_sub(1);
        Ok(Branch {
            requests: requests.copy()?,
            left: below,
            right: below,
        })
    }
}

impl<R: Wait + Drop> Future<TaskWaker<ThreadWaker, R>> for Branch<R> {
    type Output = ();

    // A request that was sent is gone from its place, so the next poll sends what is left.
    fn poll(&mut self, w: &TaskWaker<ThreadWaker, R>) -> Poll<()> {
        let Poll::Ready(_) = self.requests.poll_send(w, &mut self.left) else {
            return Poll::Pending;
        };
        let Poll::Ready(_) = self.requests.poll_send(w, &mut self.right) else {
            return Poll::Pending;
        };
        Poll::Ready(())
    }
}

type Tree<R> = Executor<Branch<R>, ThreadWaker, R>;

/// Both ends of the channel, and the handles of all tasks, of which the first ones have ended.
#[derive(Drop)]
struct Owner<R: Wait + Drop + Send + Sync> {
    requests: Requests<R>,
    wanted: Wanted<R>,
    tasks: Vec<Task<Branch<R>, ThreadWaker, R>>,
    ended: usize,
}

impl<R: Wait + Clone + Drop + Send + Sync> Owner<R> {
    fn new(rt: &R, alloc: Global) -> io::Result<Owner<R>> {
        let (requests, wanted) = bounded(rt.clone()?, alloc, 4)?;
        Ok(Owner {
            requests,
            wanted,
            tasks: Vec::new(alloc),
            ended: 0,
        })
    }

    // Spawns a task with a tree of this depth below it.
    fn spawn(&mut self, executor: &Tree<R>, depth: u32) -> io::Result<()> {
        let branch = Branch::new(&self.requests, depth)?;
        self.tasks.push(executor.spawn(branch)?)?;
        Ok(())
    }

    // Whether all tasks have ended. The waker is woken once the first that has not ended does.
    fn have_ended(&mut self, w: &ThreadWaker) -> bool {
        for place in self.ended..self.tasks.len() {
            let Some(task) = self.tasks.get_mut(place) else {
                break;
            };
            if task.poll(w) == Poll::Pending {
                return false;
            }
            self.ended = place + 1;
        }
        true
    }
}

// Spawns what is wanted, and runs tasks while nothing is. A task has sent all that it wants before it
// ends: if all have ended and nothing is wanted, nothing will be.
fn spawn_all<R: Wait + Clone + Drop + Send + Sync>(
    rt: &R,
    mine: &ThreadWaker,
    executor: &Tree<R>,
    owner: &mut Owner<R>,
) -> io::Result<usize> {
    let mut run = executor.run(Never::<()>::new())?;
    for _ in rt.forever() {
        let have_ended = owner.have_ended(mine);
        if let Poll::Ready(Some(depth)) = owner.wanted.poll_receive(mine) {
            owner.spawn(executor, depth)?;
        } else if have_ended {
            break;
        } else {
            run.poll(mine);
            mine.park(rt);
        }
    }
    Ok(owner.ended)
}

/// Spawns a task that asks for two more, each of which does the same, three levels deep. Gives how
/// many tasks ended.
pub fn requests_tasks<R: Wait + Clone + Drop + Send + Sync>(
    rt: &R,
    alloc: Global,
) -> io::Result<usize> {
    let mine = ThreadWaker::new(alloc)?;
    let executor = Executor::new(rt.clone()?, alloc)?;
    let mut owner = Owner::new(rt, alloc)?;
    owner.spawn(&executor, 3)?;
    spawn_all(rt, &mine, &executor, &mut owner)
}
