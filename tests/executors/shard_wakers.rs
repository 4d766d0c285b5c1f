//! Wakers of runs of a sharded executor that use every shard, by another thread, while they are copied,
//! woken and dropped.
use crate::tests::support::running::halt::Halt;
use crate::tests::support::running::job::{Job, digit};
use crate::tests::support::running::record::{Moment, Record};
use crate::tests::support::running::waker::TestWaker;
use async_executor::Future;
use async_utilities::Never;
use sharded_executor::{ShardedExecutor, ShardedRun};
use std::sync::atomic::AtomicU64;
use std::sync::{Arc, Wait};
use std::test::Fail;
use std::thread::{self, Threads};

const SHARDS: usize = 3;

// The shards in the order in which the run of shard 1 sleeps in them, and leaves them.
const ORDER: [usize; SHARDS] = [1, 2, 0];

type TestRun<'a, R> = ShardedRun<'a, Job<R>, TestWaker, R, Never<()>>;

// An executor, a waker for its runs that halts if it is told to, and of what its tasks have a share.
#[derive(Drop)]
struct Fixture<R: Wait + Clone + Drop + Send + Sync> {
    ex: ShardedExecutor<Job<R>, TestWaker, R>,
    halt: Halt,
    record: Record,
    waker: TestWaker,
    ran: Arc<AtomicU64>,
}

impl<R: Wait + AllocGlobal + Clone + Drop + Send + Sync> Fixture<R> {
    fn new(rt: &R) -> Result<Fixture<R>, Fail> {
        let alloc = rt.alloc();
        let halt = Halt::new(alloc)?;
        let record = Record::with_halt(alloc, &halt)?;
        let waker = TestWaker::new(&record)?;
        Ok(Fixture {
            ex: ShardedExecutor::new(rt.clone()?, alloc, SHARDS)?,
            halt,
            record,
            waker,
            ran: Arc::new(alloc, AtomicU64::new(0))?,
        })
    }
}

impl<R: Wait + Clone + Drop + Send + Sync> Fixture<R> {
    fn run(&self) -> Result<TestRun<'_, R>, Fail> {
        Ok(self.ex.run(1, Never::new()).ok().ok_or("refused")?)
    }

    // Whether a task of this shard is spawned, and let run on.
    fn leaves(&self, shard: usize) -> bool {
        match digit(1, &self.ran) {
            Ok(job) => match self.ex.shard(shard).spawn(job) {
                Ok(task) => {
                    task.detach();
                    true
                }
                Err(_) => false,
            },
            Err(_) => false,
        }
    }

    // Spawns a task in each of these shards, and runs all that there are. Says whether none is left.
    fn uses(&self, shards: &[usize]) -> bool {
        let are_left = shards.iter().all(|shard| self.leaves(*shard));
        while self.ex.try_tick_any() {}
        are_left && self.ex.is_empty()
    }
}

// Has another thread make this call, which halts once for each shard. Meanwhile this one uses every
// shard, or only those before which it halted. Says whether that went well.
fn used_beside<R: Wait + Threads + Clone + Drop + Send + Sync, C: FnOnce() + Send + Drop>(
    rt: &R,
    it: &Fixture<R>,
    uses_every: bool,
    call: C,
) -> bool {
    thread::scope(thread::scope_env(), rt, |scope| {
        if scope.spawn(call).is_err() {
            return false;
        }
        let mut is_right = true;
        for halted in 1..=SHARDS {
            let used = if uses_every { SHARDS } else { halted };
            is_right &= it.halt.await_other() && it.uses(&ORDER[..used]);
            it.halt.release();
        }
        it.halt.open();
        is_right
    }) && it.halt.was_passed()
}

// The waker is copied once for each shard as the run goes to sleep.
fn used_beside_copies<R: Wait + Threads + AllocGlobal + Clone + Drop + Send + Sync>(
    rt: &R,
) -> Result<bool, Fail> {
    let it = Fixture::new(rt)?;
    let mut run = it.run()?;
    it.record.halt_at(Moment::WakerCopy);
    let (all, polled) = (&it, &mut run);
    Ok(used_beside(rt, &it, true, move || drop(polled.poll(&all.waker))))
}

#[test]
fn every_shard_is_used_while_the_waker_of_a_run_is_copied(rt: HostRuntime) -> Result<(), Fail> {
    assert!(rt; used_beside_copies(&rt)?);
    Ok(())
}

// A run that sleeps is woken by a task of each shard in turn.
fn used_beside_wakes<R: Wait + Threads + AllocGlobal + Clone + Drop + Send + Sync>(
    rt: &R,
    shard: usize,
) -> Result<bool, Fail> {
    let it = Fixture::new(rt)?;
    let mut run = it.run()?;
    let _ = run.poll(&it.waker);
    it.record.halt_at(Moment::WakerWake);
    let all = &it;
    thread::scope(thread::scope_env(), rt, |scope| {
        if scope.spawn(move || drop(all.leaves(shard))).is_err() {
            return Ok(false);
        }
        // The run leaves all shards here, so nobody is left whom this thread would wake.
        let is_right = all.halt.await_other();
        drop(run);
        let is_used = all.uses(&ORDER);
        all.halt.open();
        Ok(is_right && is_used && all.halt.was_passed())
    })
}

#[test]
fn every_shard_is_used_while_the_waker_of_a_run_is_woken(rt: HostRuntime) -> Result<(), Fail> {
    for shard in 0..SHARDS {
        assert!(rt; used_beside_wakes(&rt, shard)?);
    }
    Ok(())
}

// What a run left in each shard is dropped as it leaves that. A task that comes to a shard where it still
// sleeps would have this thread drop that, and halt.
fn used_beside_drops<R: Wait + Threads + AllocGlobal + Clone + Drop + Send + Sync>(
    rt: &R,
) -> Result<bool, Fail> {
    let it = Fixture::new(rt)?;
    let mut run = it.run()?;
    let _ = run.poll(&it.waker);
    it.record.halt_at(Moment::WakerDrop);
    Ok(used_beside(rt, &it, false, move || drop(run)))
}

#[test]
fn every_shard_is_used_while_the_wakers_of_a_run_are_dropped(rt: HostRuntime) -> Result<(), Fail> {
    assert!(rt; used_beside_drops(&rt)?);
    Ok(())
}
