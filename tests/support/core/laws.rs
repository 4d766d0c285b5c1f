//! What a world promises, by plain functions over its public readers.
use executor_core::interleave::{Event, ListChange, Phase, Purpose, World};
use std::alloc::{AllocError, Global};

/// The worlds of lists of steps.
pub type ListWorld = World<(), u64>;

// What the log says of one task.
#[derive(Clone, Copy)]
struct Story {
    spawned: bool,
    cancelled: bool,
    // It was taken, and neither went back nor was dropped since.
    held: bool,
    was_taken: bool,
    // It was woken or cancelled since it was taken last.
    due: bool,
    dropped: bool,
    // A poll that began has not ended.
    open: bool,
    polls: u64,
    wakes: u64,
    finished: Option<u64>,
    got: bool,
    // Each event came where it may.
    is_right: bool,
}

const UNTOLD: Story = Story {
    spawned: false,
    cancelled: false,
    held: false,
    was_taken: false,
    due: false,
    dropped: false,
    open: false,
    polls: 0,
    wakes: 0,
    finished: None,
    got: false,
    is_right: true,
};

impl Story {
    fn owed(&self) -> bool {
        self.spawned && !self.dropped && !self.held && (!self.was_taken || self.due)
    }

    fn idle(&self) -> bool {
        self.spawned && !self.dropped && !self.held && !self.owed()
    }

    // What one more event makes of it.
    fn tell(&mut self, event: &Event<u64>) {
        match event {
            Event::Spawned(_) => {
                self.is_right &= !self.spawned;
                self.spawned = true;
            }
            Event::Woken(_) => {
                self.wakes += 1;
                self.due = true;
            }
            Event::Cancelled(_) => {
                self.cancelled = true;
                self.due = true;
            }
            Event::Took(_, purpose) => self.take(*purpose),
            Event::Returned(_) => {
                self.open = false;
                self.held = false;
            }
            Event::Finished(_, output) => {
                self.is_right &= !self.cancelled && self.finished.is_none();
                self.finished = Some(*output);
                self.open = false;
            }
            Event::Dropped(_) => {
                self.is_right &= !self.dropped;
                self.dropped = true;
                self.held = false;
                self.open = false;
            }
            Event::Got(_, output) => {
                self.is_right &= !self.got && self.finished == Some(*output);
                self.got = true;
            }
        }
    }

    fn take(&mut self, purpose: Purpose) {
        self.is_right &= !self.dropped
            && !self.open
            && self.cancelled == (purpose == Purpose::ToDrop);
        if purpose == Purpose::ToPoll {
            self.polls += 1;
        }
        self.held = true;
        self.was_taken = true;
        self.due = false;
        self.open = true;
    }
}

// Of which task an event is.
fn number_of(event: &Event<u64>) -> u64 {
    match event {
        Event::Spawned(n)
        | Event::Woken(n)
        | Event::Cancelled(n)
        | Event::Took(n, _)
        | Event::Returned(n)
        | Event::Finished(n, _)
        | Event::Dropped(n)
        | Event::Got(n, _) => *n,
    }
}

// The stories of all tasks, and one more, of none.
fn stories(world: &ListWorld, alloc: Global) -> Result<Vec<Story>, AllocError> {
    let mut stories = Vec::new(alloc);
    stories.push(UNTOLD)?;
    for event in world.log() {
        let n = number_of(event) as usize;
        while stories.len() <= n + 1 {
            stories.push(UNTOLD)?;
        }
        stories[n].tell(event);
    }
    Ok(stories)
}

// How often each task stands in the queues.
fn places(world: &ListWorld, tasks: usize, alloc: Global) -> Result<Vec<u32>, AllocError> {
    let cells = world.state().cells();
    let mut places = Vec::new(alloc);
    for _ in 0..tasks {
        places.push(0u32)?;
    }
    let mut global = 0;
    while let Some(n) = cells.global_at(global) {
        places[n as usize] += 1;
        global += 1;
    }
    for runner in 0..cells.runners() {
        let mut place = 0;
        while let Some(n) = cells.local_at(runner, place) {
            places[n as usize] += 1;
            place += 1;
        }
    }
    Ok(places)
}

// Whether some ticker is in search.
fn is_searching(world: &ListWorld) -> bool {
    let mut k = 0;
    while let Some(phase) = world.phase(k) {
        if phase == Phase::Search {
            return true;
        }
        k += 1;
    }
    false
}

// The change of the list that the holder of the lock has still to store the flag for.
fn open_change(world: &ListWorld) -> Option<ListChange> {
    match world.phase(world.holder()?) {
        Some(Phase::Store(change)) => Some(change),
        _ => None,
    }
}

// Whether somebody answers for a task that is queued beside a sleeper.
fn is_answered_for(world: &ListWorld) -> bool {
    let has_again = open_change(world) == Some(ListChange::Slept);
    world.state().sleepers().notified() != 0
        || world.notices() > 0
        || world.picks() > 0
        || has_again
        || is_searching(world)
}

// What has to hold if the flag is true.
fn keeps_flag_law(world: &ListWorld) -> bool {
    let sleepers = world.state().sleepers();
    let has_news = match open_change(world) {
        Some(ListChange::Slept | ListChange::Woke { .. }) => true,
        Some(ListChange::Dropped { notified }) => notified,
        None => false,
    };
    !world.state().flag().get()
        || sleepers.numbers() == 0
        || sleepers.notified() != 0
        || world.picks() > 0
        || has_news
}

// Whether a task is queued: globally, or if all tickers are runs, in any queue.
fn is_queued(world: &ListWorld, has_ticks: bool) -> bool {
    let cells = world.state().cells();
    let mut queued = cells.global_len();
    if !has_ticks {
        for runner in 0..cells.runners() {
            queued += cells.local_len(runner).unwrap_or(0);
        }
    }
    queued > 0
}

/// Which promise the world does not keep, if any. It is told whether a tick was made.
pub fn broken(
    world: &ListWorld,
    has_ticks: bool,
    alloc: Global,
) -> Result<Option<&'static str>, AllocError> {
    let stories = stories(world, alloc)?;
    let places = places(world, stories.len(), alloc)?;
    for (n, story) in stories.iter().enumerate() {
        let n = n as u64;
        if places[n as usize] != u32::from(story.owed()) {
            return Ok(Some("one place"));
        }
        if world.keeps(n) != (story.owed() || story.idle()) {
            return Ok(Some("a future in its cell"));
        }
        if world.is_out(n) != story.held {
            return Ok(Some("a future that is out"));
        }
        if !story.is_right {
            return Ok(Some("in order"));
        }
        if story.polls > story.wakes + 1 {
            return Ok(Some("few polls"));
        }
    }
    let sleeps = world.state().sleepers().numbers() > 0;
    if is_queued(world, has_ticks) && sleeps && !is_answered_for(world) {
        return Ok(Some("covered"));
    }
    if !keeps_flag_law(world) {
        return Ok(Some("flag law"));
    }
    Ok(None)
}
