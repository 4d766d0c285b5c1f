//! Tasks that hand in jobs, of each of which a pool makes a task.
use crate::tests::support::running::refusal::{MOST, is_order_left, refuse};
use async_executor::{Cancelled, Executor, Future, Poll, Task, Wake};
use async_utilities::{
    JobLimits, Jobs, JoinAll, MakeTask, Pool, Server, Spawner, ThreadWaker, Unsent, block_on,
    servers,
};
use std::alloc::Global;
use std::sync::atomic::{AtomicBool, AtomicUsize, Ordering};
use std::sync::{Arc, Mutex, Wait};
use std::test::Fail;
use std::thread::{Threads, yield_now};

// So many tasks at once, with room for all jobs.
fn limits(tasks: usize) -> JobLimits {
    JobLimits { tasks, room: None }
}

type Servers<M, R> = Pool<Server<u32, M, R>, R>;

type Handle<M, R> = Task<Server<u32, M, R>, ThreadWaker, R>;

// Has the servers run on this pool, and gives their handles.
fn spawned<M, R>(
    rt: &R,
    pool: &Servers<M, R>,
    servers: Vec<Server<u32, M, R>>,
) -> Result<Vec<Handle<M, R>>, Fail>
where
    M: MakeTask<u32, R> + Send + Sync + 'static,
    M::Task: Send,
    R: AllocGlobal + Wait + Threads + Clone + Drop + Send + Sync + 'static,
{
    let mut tasks = Vec::new(rt.alloc());
    match pool.executor().spawn_many(servers.into_iter(), &mut tasks) {
        Ok(_) => Ok(tasks),
        Err(_) => Err("no memory for the servers".into()),
    }
}

// Waits for all jobs, and says how many tasks ended.
fn ended<M, R>(rt: &R, jobs: Jobs<u32, R>, tasks: Vec<Handle<M, R>>) -> Result<u64, Fail>
where
    M: MakeTask<u32, R> + Send + Sync + 'static,
    M::Task: Send,
    R: AllocGlobal + Wait + Threads + Clone + Drop + Send + Sync + 'static,
{
    drop(jobs);
    let Ok(all) = JoinAll::new(rt.alloc(), tasks) else {
        return Err("no memory for the outputs".into());
    };
    let mut ended = 0u64;
    for done in block_on(rt, rt.alloc(), all)? {
        ended = ended.saturating_add(done?);
    }
    Ok(ended)
}

// Makes the branches of a tree, each of a job that says how deep the tree below it is. So many jobs are
// refused a task first.
#[derive(Drop)]
struct Tree {
    refusals: AtomicUsize,
}

impl Tree {
    fn refusing(count: usize) -> Tree {
        Tree {
            refusals: AtomicUsize::new(count),
        }
    }
}

impl<R: Wait + Clone + Drop> MakeTask<u32, R> for Tree {
    type Task = Branch<R>;

    fn make(&self, depth: u32, spawner: &Spawner<u32, R>) -> Result<Branch<R>, u32> {
        let left = self.refusals.load(Ordering::SeqCst);
        if left > 0 {
            self.refusals
                .store(left.saturating_sub(1), Ordering::SeqCst);
            return Err(depth);
        }
        match spawner.copy() {
            Ok(spawner) => Ok(Branch {
                depth,
                spawner,
                is_polled: false,
            }),
            Err(_) => Err(depth),
        }
    }
}

// Hands in two jobs at its second poll, for which it asks, unless it is a leaf.
#[derive(Drop)]
struct Branch<R: Wait + Clone + Drop> {
    depth: u32,
    spawner: Spawner<u32, R>,
    is_polled: bool,
}

impl<W: Wake, R: Wait + Clone + Drop> Future<W> for Branch<R> {
    type Output = ();

    fn poll(&mut self, w: &W) -> Poll<()> {
        if !self.is_polled {
            self.is_polled = true;
            w.wake();
            return Poll::Pending;
        }
        if let Some(below) = self.depth.checked_sub(1) {
            let _ = self.spawner.spawn(below);
            let _ = self.spawner.spawn(below);
        }
        Poll::Ready(())
    }
}

// How many tasks of a tree of this depth ended, and what a spawner answers after that.
fn grown<R: AllocGlobal + Wait + Threads + Clone + Drop + Send + Sync + 'static>(
    rt: &R,
    threads: usize,
    tasks: usize,
    tree: Tree,
    depth: u32,
) -> Result<(u64, Result<(), Unsent<u32>>), Fail> {
    let (jobs, servers) = servers(rt.clone()?, rt.alloc(), limits(tasks), tree)?;
    let pool: Servers<Tree, R> = Pool::new(rt.clone()?, rt.alloc(), threads)?;
    let tasks = spawned(rt, &pool, servers)?;
    let spawner = jobs.spawner().copy()?;
    if spawner.spawn(depth).is_err() {
        return Err("no room for the first job".into());
    }
    let ended = ended(rt, jobs, tasks)?;
    Ok((ended, spawner.spawn(9)))
}

#[test]
fn each_job_becomes_one_task(rt: HostRuntime) -> Result<(), Fail> {
    for (threads, tasks) in [(1, 1), (1, 3), (2, 2), (4, 8)] {
        let grown = grown(&rt, threads, tasks, Tree::refusing(0), 6)?;
        assert_eq!(rt; grown, (127, Err(Unsent::Closed(9))));
    }
    Ok(())
}

#[test]
fn a_job_that_is_refused_a_task_is_not_lost(rt: HostRuntime) -> Result<(), Fail> {
    let grown = grown(&rt, 1, 2, Tree::refusing(5), 3)?;
    assert_eq!(rt; grown.0, 15);
    Ok(())
}

// How many tasks ended of servers that get no job.
fn idle<R: AllocGlobal + Wait + Threads + Clone + Drop + Send + Sync + 'static>(
    rt: &R,
) -> Result<u64, Fail> {
    let (jobs, servers) = servers(rt.clone()?, rt.alloc(), limits(2), Tree::refusing(0))?;
    let pool: Servers<Tree, R> = Pool::new(rt.clone()?, rt.alloc(), 2)?;
    let tasks = spawned(rt, &pool, servers)?;
    ended(rt, jobs, tasks)
}

#[test]
fn servers_without_jobs_end(rt: HostRuntime) -> Result<(), Fail> {
    assert_eq!(rt; idle(&rt)?, 0);
    Ok(())
}

// What tasks tell who waits for them: how many there are, and how many there were at most.
#[derive(Drop)]
struct Gate {
    is_open: AtomicBool,
    running: AtomicUsize,
    most: AtomicUsize,
    begun: Mutex<Vec<u32>>,
}

impl Gate {
    fn new(alloc: Global) -> Result<Arc<Gate>, Fail> {
        let gate = Gate {
            is_open: AtomicBool::new(false),
            running: AtomicUsize::new(0),
            most: AtomicUsize::new(0),
            begun: Mutex::new(Vec::new(alloc)),
        };
        match Arc::new(alloc, gate) {
            Ok(gate) => Ok(gate),
            Err(_) => Err("no memory for a gate".into()),
        }
    }

    // One task more runs.
    fn enter(&self) {
        let running = self.running.fetch_add(1, Ordering::SeqCst) + 1;
        self.most.fetch_max(running, Ordering::SeqCst);
    }
}

// Makes tasks that wait for a gate.
#[derive(Drop)]
struct Waiters<R: Wait + Clone + Drop> {
    gate: Arc<Gate>,
    rt: R,
}

impl<R: Wait + Clone + Drop> MakeTask<u32, R> for Waiters<R> {
    type Task = Waiter;

    fn make(&self, number: u32, _spawner: &Spawner<u32, R>) -> Result<Waiter, u32> {
        let Ok(gate) = Arc::try_clone(&self.gate) else {
            return Err(number);
        };
        if self.gate.begun.lock(&self.rt).push(number).is_err() {
            return Err(number);
        }
        gate.enter();
        Ok(Waiter { gate, polls: 0 })
    }
}

// Asks for another poll until the gate is open, and for two more then.
#[derive(Drop)]
struct Waiter {
    gate: Arc<Gate>,
    polls: u32,
}

impl<W: Wake> Future<W> for Waiter {
    type Output = ();

    fn poll(&mut self, w: &W) -> Poll<()> {
        if self.polls == 2 {
            self.gate.running.fetch_sub(1, Ordering::SeqCst);
            return Poll::Ready(());
        }
        if self.gate.is_open.load(Ordering::SeqCst) {
            self.polls += 1;
        }
        w.wake();
        Poll::Pending
    }
}

// Hands in ten jobs, opens the gate once as many tasks run as may, and gives how many ran at once at
// most, how many ended, and whether they began in order.
fn passes<R: AllocGlobal + Wait + Threads + Clone + Drop + Send + Sync + 'static>(
    rt: &R,
    tasks: usize,
) -> Result<(usize, u64, bool), Fail> {
    let gate = Gate::new(rt.alloc())?;
    let waiters = Waiters {
        gate: Arc::try_clone(&gate)?,
        rt: rt.clone()?,
    };
    let (jobs, servers) = servers(rt.clone()?, rt.alloc(), limits(tasks), waiters)?;
    let pool: Servers<Waiters<R>, R> = Pool::new(rt.clone()?, rt.alloc(), 1)?;
    let handles = spawned(rt, &pool, servers)?;
    for number in 0..10 {
        if jobs.spawner().spawn(number).is_err() {
            return Err("no room for a job".into());
        }
    }
    for _ in rt.forever() {
        if gate.running.load(Ordering::SeqCst) >= tasks {
            break;
        }
        yield_now();
    }
    gate.is_open.store(true, Ordering::SeqCst);
    let ended = ended(rt, jobs, handles)?;
    let begun = gate.begun.lock(rt);
    let is_in_order = begun
        .iter()
        .enumerate()
        .all(|(at, number)| at == *number as usize);
    Ok((gate.most.load(Ordering::SeqCst), ended, is_in_order))
}

#[test]
fn so_many_tasks_run_at_once(rt: HostRuntime) -> Result<(), Fail> {
    for tasks in [1, 2, 3] {
        assert_eq!(rt; passes(&rt, tasks)?, (tasks, 10, true));
    }
    Ok(())
}

type TreeExecutor<R> = Executor<Server<u32, Tree, R>, ThreadWaker, R>;

// An executor with a task that is a server of a tree.
fn served<R: AllocGlobal + Wait + Clone + Drop + Send + Sync>(
    rt: &R,
) -> Result<(TreeExecutor<R>, Jobs<u32, R>, Handle<Tree, R>), Fail> {
    let executor = Executor::new(rt.clone()?, rt.alloc())?;
    let (jobs, mut servers) = servers(rt.clone()?, rt.alloc(), limits(1), Tree::refusing(0))?;
    let Some(server) = servers.pop() else {
        return Err("no server".into());
    };
    match executor.spawn(server) {
        Ok(task) => Ok((executor, jobs, task)),
        Err(_) => Err("no memory for a server".into()),
    }
}

// Hands in a job for a tree of this depth.
fn hand_in<R: Wait + Clone + Drop>(jobs: &Jobs<u32, R>, depth: u32) -> Result<(), Fail> {
    match jobs.spawner().spawn(depth) {
        Ok(()) => Ok(()),
        Err(_) => Err("no room for a job".into()),
    }
}

// Ticks until nothing is left to run.
fn run_all<R: Wait + Clone + Drop + Send + Sync>(executor: &TreeExecutor<R>) {
    for _ in 0..100 {
        if !executor.try_tick() {
            break;
        }
    }
}

// Ticks a server of three jobs. Gives what its handle says then.
fn ticks<R: AllocGlobal + Wait + Clone + Drop + Send + Sync>(
    rt: &R,
) -> Result<Poll<Result<u64, Cancelled>>, Fail> {
    let (executor, jobs, mut task) = served(rt)?;
    for _ in 0..3 {
        hand_in(&jobs, 0)?;
    }
    drop(jobs);
    run_all(&executor);
    Ok(task.poll(&ThreadWaker::new(rt.alloc())?))
}

#[test]
fn a_server_that_is_ticked_does_its_jobs(rt: HostRuntime) -> Result<(), Fail> {
    assert_eq!(rt; ticks(&rt)?, Poll::Ready(Ok(3)));
    Ok(())
}

// Does so many jobs, so that the server waits, and then one that hands in two more once the owner is gone.
fn hands_on<R: AllocGlobal + Wait + Clone + Drop + Send + Sync>(
    rt: &R,
    before: u64,
) -> Result<Poll<Result<u64, Cancelled>>, Fail> {
    let (executor, jobs, mut task) = served(rt)?;
    for _ in 0..before {
        hand_in(&jobs, 0)?;
        run_all(&executor);
    }
    hand_in(&jobs, 1)?;
    executor.try_tick();
    drop(jobs);
    run_all(&executor);
    Ok(task.poll(&ThreadWaker::new(rt.alloc())?))
}

#[test]
fn a_task_hands_in_jobs_once_the_owner_is_gone(rt: HostRuntime) -> Result<(), Fail> {
    assert_eq!(rt; hands_on(&rt, 0)?, Poll::Ready(Ok(3)));
    assert_eq!(rt; hands_on(&rt, 2)?, Poll::Ready(Ok(5)));
    Ok(())
}

// Hands in jobs until one comes back, of whose tasks none ends before. Says whether those that there is room
// for were taken and another one came back, and whether all that were taken were done.
fn fills<R: AllocGlobal + Wait + Threads + Clone + Drop + Send + Sync + 'static>(
    rt: &R,
) -> Result<(bool, bool), Fail> {
    let gate = Gate::new(rt.alloc())?;
    let waiters = Waiters {
        gate: Arc::try_clone(&gate)?,
        rt: rt.clone()?,
    };
    let limits = JobLimits {
        tasks: 1,
        room: Some(2),
    };
    let (jobs, servers) = servers(rt.clone()?, rt.alloc(), limits, waiters)?;
    let pool: Servers<Waiters<R>, R> = Pool::new(rt.clone()?, rt.alloc(), 1)?;
    let handles = spawned(rt, &pool, servers)?;
    let mut taken = 0u32;
    let mut is_full = false;
    // One task runs, and two jobs wait: two are taken at least, and one of four comes back at least.
    for number in 0..4 {
        match jobs.spawner().spawn(number) {
            Ok(()) => taken += 1,
            Err(Unsent::Full(back)) => is_full = back == number,
            Err(_) => return Err("another answer".into()),
        }
    }
    gate.is_open.store(true, Ordering::SeqCst);
    Ok((is_full && taken >= 2, ended(rt, jobs, handles)? == u64::from(taken)))
}

#[test]
fn a_job_comes_back_if_there_is_no_room(rt: HostRuntime) -> Result<(), Fail> {
    assert_eq!(rt; fills(&rt)?, (true, true));
    Ok(())
}

// Drops a pool that has a task which never ends, and jobs that wait. Gives what a spawner answers then.
fn leaves<R: AllocGlobal + Wait + Threads + Clone + Drop + Send + Sync + 'static>(
    rt: &R,
) -> Result<Result<(), Unsent<u32>>, Fail> {
    let gate = Gate::new(rt.alloc())?;
    let waiters = Waiters {
        gate: Arc::try_clone(&gate)?,
        rt: rt.clone()?,
    };
    let (jobs, servers) = servers(rt.clone()?, rt.alloc(), limits(1), waiters)?;
    let pool: Servers<Waiters<R>, R> = Pool::new(rt.clone()?, rt.alloc(), 1)?;
    let handles = spawned(rt, &pool, servers)?;
    let spawner = jobs.spawner().copy()?;
    for number in 0..3 {
        if spawner.spawn(number).is_err() {
            return Err("no room for a job".into());
        }
    }
    drop(pool);
    drop(handles);
    drop(jobs);
    Ok(spawner.spawn(9))
}

#[test]
fn a_job_comes_back_if_the_pool_is_gone(rt: HostRuntime) -> Result<(), Fail> {
    assert_eq!(rt; leaves(&rt)?, Err(Unsent::Closed(9)));
    Ok(())
}

// Drops a server that has a task, and hands in a job. Gives what the other server answers then.
fn outlives<R: AllocGlobal + Wait + Clone + Drop + Send + Sync>(
    rt: &R,
) -> Result<Poll<Result<u64, Cancelled>>, Fail> {
    let gate = Gate::new(rt.alloc())?;
    let waiters = Waiters {
        gate: Arc::try_clone(&gate)?,
        rt: rt.clone()?,
    };
    let (jobs, mut servers) = servers(rt.clone()?, rt.alloc(), limits(2), waiters)?;
    let ex: Executor<Server<u32, Waiters<R>, R>, ThreadWaker, R> =
        Executor::new(rt.clone()?, rt.alloc())?;
    let (Some(other), Some(first)) = (servers.pop(), servers.pop()) else {
        return Err("no server".into());
    };
    let (Ok(first), Ok(mut other)) = (ex.spawn(first), ex.spawn(other)) else {
        return Err("no memory for a server".into());
    };
    let is_taken = jobs.spawner().spawn(1).is_ok();
    ex.try_tick();
    drop(first);
    gate.is_open.store(true, Ordering::SeqCst);
    let is_next_taken = jobs.spawner().spawn(2).is_ok();
    drop(jobs);
    // A tick for each poll of the tasks, and one for each drop.
    for _ in 0..20 {
        ex.try_tick();
    }
    if !is_taken || !is_next_taken {
        return Err("no room for a job".into());
    }
    Ok(other.poll(&ThreadWaker::new(rt.alloc())?))
}

#[test]
fn a_server_that_is_dropped_keeps_no_other(rt: HostRuntime) -> Result<(), Fail> {
    assert_eq!(rt; outlives(&rt)?, Poll::Ready(Ok(1)));
    Ok(())
}

// Hands in a job that is refused memory, and another one.
fn refused<R: AllocGlobal + Wait + Clone + Drop>(
    rt: &R,
) -> Result<(Result<(), Unsent<u32>>, Result<(), Unsent<u32>>), Fail> {
    let (jobs, _servers) = servers(rt.clone()?, rt.alloc(), limits(1), Tree::refusing(0))?;
    refuse(rt.alloc(), 1);
    let refused = jobs.spawner().spawn(7);
    Ok((refused, jobs.spawner().spawn(8)))
}

#[test]
fn a_job_comes_back_if_memory_is_refused(rt: HostRuntime) -> Result<(), Fail> {
    assert_eq!(rt; refused(&rt)?, (Err(Unsent::Refused(7)), Ok(())));
    Ok(())
}

// Requests of the places of servers and of their order, of what is shared, of the Vec, and of two servers.
const OWN_REQUESTS: usize = 7;

// Makes servers with this request refused. Says whether the refusal was the answer, or none was met.
fn are_made_or_refused<R: AllocGlobal + Wait + Clone + Drop + Send + Sync>(
    rt: &R,
    request: usize,
) -> Result<bool, Fail> {
    let right = rt.clone()?;
    refuse(rt.alloc(), request);
    let is_made = servers(right, rt.alloc(), limits(2), Tree::refusing(0)).is_ok();
    Ok(is_made == is_order_left(rt.alloc()))
}

#[test]
fn a_refusal_is_an_answer(rt: HostRuntime) -> Result<(), Fail> {
    for request in 1..=MOST {
        assert!(rt; are_made_or_refused(&rt, request)?);
    }
    for request in 1..=OWN_REQUESTS {
        refuse(rt.alloc(), request);
        let made = servers(rt.clone()?, rt.alloc(), limits(2), Tree::refusing(0));
        assert!(rt; made.is_err());
    }
    Ok(())
}
