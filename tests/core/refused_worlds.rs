//! Each request for memory of a world refused in turn: a refused step changes nothing, and the same
//! step goes well afterwards, with no number skipped.
use crate::tests::support::running::record::Moment::FutureDrop;
use crate::tests::support::running::record::{AtDrop, Record};
use crate::tests::support::running::refusal::{MOST, is_order_left, refuse};
use executor_core::interleave::{Reply, Step, World};
use std::alloc::Global;
use std::test::Fail;

// The futures of these worlds count their drops.
type Counted = World<AtDrop, u64>;

// How often the calls were refused, and how often something was wrong.
#[derive(Clone, Copy)]
struct Met {
    new: u32,
    spawn: u32,
    ticker: u32,
    run: u32,
    wrong: u32,
}

impl Met {
    fn none() -> Met {
        Met {
            new: 0,
            spawn: 0,
            ticker: 0,
            run: 0,
            wrong: 0,
        }
    }

    fn expect(&mut self, holds: bool) {
        if !holds {
            self.wrong += 1;
        }
    }

    fn refusals(&self) -> u32 {
        self.new + self.spawn + self.ticker + self.run
    }

    fn add(&mut self, other: Met) {
        self.new += other.new;
        self.spawn += other.spawn;
        self.ticker += other.ticker;
        self.run += other.run;
        self.wrong += other.wrong;
    }
}

// What a world shows: its log, its queue, what is out, and where its last ticker stands.
fn shown(world: &Counted, ticker: usize) -> (usize, usize, u32, u32, bool) {
    (
        world.log().len(),
        world.cells().global_len(),
        world.notices(),
        world.picks(),
        world.phase(ticker).is_some(),
    )
}

// Spawns a task, again if that is refused, whose future is dropped then.
fn spawn(world: &mut Counted, n: u64, record: &Record, met: &mut Met) -> Result<(), Fail> {
    let before = shown(world, 0);
    let drops = record.times(FutureDrop);
    let mut reply = world.step(Step::Spawn(AtDrop::new(record.share()?, FutureDrop)));
    if reply == Reply::OutOfMemory {
        met.spawn += 1;
        met.expect(shown(world, 0) == before && record.times(FutureDrop) == drops + 1);
        reply = world.step(Step::Spawn(AtDrop::new(record.share()?, FutureDrop)));
    }
    met.expect(reply == Reply::Task(n));
    Ok(())
}

// Makes a tick or a run, again if that is refused.
fn make(world: &mut Counted, k: usize, is_run: bool, met: &mut Met) {
    let before = shown(world, k);
    let step = || if is_run { Step::Run } else { Step::Tick };
    let mut reply = world.step(step());
    if reply == Reply::OutOfMemory {
        met.ticker += 1;
        met.expect(shown(world, k) == before);
        reply = world.step(step());
    }
    met.expect(reply == Reply::Ticker(k));
}

// A list of steps on the first task.
fn steps(alloc: Global) -> Result<Vec<Step<AtDrop, u64>>, Fail> {
    let mut steps = Vec::new(alloc);
    steps.push(Step::TryTick)?;
    steps.push(Step::Pend(0))?;
    steps.push(Step::Wake(0))?;
    Ok(steps)
}

const EACH: u64 = 5;

// A world is made, with tasks, ticks and runs, and takes a list of steps.
fn once(request: usize, alloc: Global) -> Result<Met, Fail> {
    let mut met = Met::none();
    let record = Record::new(alloc)?;
    let (list, again) = (steps(alloc)?, steps(alloc)?);
    refuse(alloc, request);
    let mut world = match Counted::new(alloc, 20) {
        Ok(world) => world,
        Err(_) => {
            met.new += 1;
            Counted::new(alloc, 20)?
        }
    };
    for n in 0..EACH {
        spawn(&mut world, n, &record, &mut met)?;
        make(&mut world, 2 * n as usize, false, &mut met);
        make(&mut world, 2 * n as usize + 1, true, &mut met);
    }
    let before = shown(&world, 0);
    let replies = match world.run(list) {
        Ok(replies) => replies,
        Err(_) => {
            met.run += 1;
            met.expect(shown(&world, 0) == before);
            world.run(again)?
        }
    };
    met.expect(replies.as_slice() == [Reply::Poll(0), Reply::Idle(0), Reply::Notice].as_slice());
    Ok(met)
}

#[test]
fn each_step_is_refused_and_goes_on(rt: HostRuntime) -> Result<(), Fail> {
    let alloc = rt.alloc();
    let mut all = Met::none();
    let mut is_over = false;
    for request in 1..MOST {
        let mut met = once(request, alloc)?;
        let was_refused = met.refusals() > 0;
        met.expect(met.refusals() <= 1 && is_order_left(alloc) != was_refused);
        all.add(met);
        if !was_refused {
            is_over = true;
            break;
        }
    }
    assert_eq!(rt; (all.wrong, is_over), (0, true));
    assert!(rt; all.new > 0 && all.spawn > 1 && all.ticker > 3 && all.run > 0);
    Ok(())
}
