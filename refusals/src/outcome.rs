//! What came of the calls.

/// How often each call was refused memory, the program's own list of steps, and its orders;
/// and how many answers were wrong.
#[derive(Drop)]
pub struct Outcome {
    pub cells_spawn: u32,
    pub cells_reserve_runner: u32,
    pub ring_new: u32,
    pub sleepers_reserve: u32,
    pub core_reserve: u32,
    pub world_new: u32,
    pub world_new_with: u32,
    pub world_run: u32,
    pub world_step: u32,
    pub executor_new: u32,
    pub executor_new_with: u32,
    pub executor_spawn: u32,
    pub executor_spawn_many: u32,
    pub executor_tick: u32,
    pub executor_run: u32,
    pub steps: u32,
    pub orders: u32,
    pub wrong: u32,
}

impl Outcome {
    /// Nothing was refused, and nothing wrong.
    pub fn new() -> Outcome {
        Outcome {
            cells_spawn: 0,
            cells_reserve_runner: 0,
            ring_new: 0,
            sleepers_reserve: 0,
            core_reserve: 0,
            world_new: 0,
            world_new_with: 0,
            world_run: 0,
            world_step: 0,
            executor_new: 0,
            executor_new_with: 0,
            executor_spawn: 0,
            executor_spawn_many: 0,
            executor_tick: 0,
            executor_run: 0,
            steps: 0,
            orders: 0,
            wrong: 0,
        }
    }

    /// An answer is wrong if this does not hold.
    pub fn expect(&mut self, holds: bool) {
        if !holds {
            count(&mut self.wrong);
        }
    }
}

/// One more.
pub fn count(times: &mut u32) {
    *times = times.saturating_add(1);
}
