//! The order of a lone runner.
use executor_core::interleave::{Reply, Step, World};
use executor_core::limits::Limits;
use std::alloc::Global;
use std::process::Abort;
use std::test::Fail;

// A world with one run, and the tasks that were queued in it and those that the run took, in order.
#[derive(Drop)]
struct Stretch {
    world: World<u8, u64>,
    queued: Vec<u64>,
    taken: Vec<u64>,
}

impl Stretch {
    fn new(alloc: Global, limits: Limits) -> Result<Stretch, Fail> {
        Ok(Stretch {
            world: World::new_with(alloc, 50, limits)?,
            queued: Vec::new(alloc),
            taken: Vec::new(alloc),
        })
    }

    // Takes the step, which has to get this reply.
    fn take(&mut self, rt: &impl Abort, step: Step<u8, u64>, reply: Reply<u64>) {
        assert!(rt; self.world.step(step) == reply);
    }

    // Takes the step, which queues this task and has to get this reply.
    fn queue(&mut self, rt: &impl Abort, n: u64, step: Step<u8, u64>, reply: Reply<u64>) {
        self.take(rt, step, reply);
        self.queued.push(n).expect(rt, "memory for a number");
    }

    // Seven tasks are spawned, and so queued.
    fn spawn_seven(&mut self, rt: &impl Abort) {
        for n in 0..7 {
            self.queue(rt, n, Step::Spawn(10), Reply::Task(n));
        }
    }

    // The run is polled so many times, and takes what its search finds each time.
    fn search(&mut self, rt: &impl Abort, times: u64) {
        for _ in 0..times {
            self.take(rt, Step::Poll(0), Reply::Done);
            if let Reply::Poll(n) | Reply::Drop(n) = self.world.step(Step::Search(0, 7)) {
                self.taken.push(n).expect(rt, "memory for a number");
            }
        }
    }

    // The run finds no more, and took ten tasks in the order in which they were queued.
    fn end(&mut self, rt: &impl Abort) {
        self.take(rt, Step::Poll(0), Reply::Done);
        self.take(rt, Step::Search(0, 7), Reply::NoTask);
        assert_eq!(rt; self.taken.as_slice(), self.queued.as_slice());
        assert_eq!(rt; self.taken.len(), 10);
    }
}

// A run of a world with these limits takes ten tasks, and its fair part is so large.
fn take_ten(rt: &impl Abort, alloc: Global, limits: Limits, part: usize) -> Result<(), Fail> {
    let mut stretch = Stretch::new(alloc, limits)?;
    stretch.take(rt, Step::Run, Reply::Ticker(0));
    stretch.take(rt, Step::Register(0), Reply::Done);
    stretch.spawn_seven(rt);
    // Task 0 is taken, and of the other six three go to the run's own queue, if it has room for them.
    stretch.search(rt, 1);
    stretch.take(rt, Step::Pend(0), Reply::Idle(0));
    stretch.queue(rt, 0, Step::Wake(0), Reply::Notice);
    stretch.search(rt, 1);
    stretch.take(rt, Step::Wake(1), Reply::Nothing);
    stretch.queue(rt, 1, Step::Pend(1), Reply::Queued(1));
    // These go behind those that stand there.
    stretch.take(rt, Step::Fair(0), Reply::Moved(part));
    stretch.search(rt, 5);
    stretch.take(rt, Step::Pend(2), Reply::Idle(2));
    stretch.queue(rt, 2, Step::DropHandle(2), Reply::Notice);
    stretch.search(rt, 3);
    stretch.end(rt);
    Ok(())
}

#[test]
fn a_lone_run_takes_tasks_in_the_order_in_which_they_were_queued(
    rt: HostRuntime,
) -> Result<(), Fail> {
    let limits = Limits::default();
    // Three of the five that stand in the global queue.
    take_ten(&rt, rt.alloc(), limits, 3)?;
    // One of the six, beside one that stands in its own.
    take_ten(&rt, rt.alloc(), Limits { local: 2, ..limits }, 1)
}
