//! Random programs: what each thread asks of one executor.
use async_executor::runner::RandomGenerator;
use std::alloc::{AllocError, Global};

/// So many handles are kept where all threads find them.
pub const PLACES: usize = 8;

const THREADS: usize = 4;

const CALLS: usize = 48;

/// A call that a thread makes. The handle at a place is anybody's; a tick and a run are the thread's
/// own, and are made if there is none.
#[derive(Clone, Copy, Debug)]
pub enum Call {
    /// A task is spawned, whose future goes by this word, and its handle comes to a place. The one that
    /// was there is dropped.
    Spawn {
        task: usize,
        place: usize,
        word: u64,
    },
    /// The waker that this task's future left is woken.
    Wake {
        task: usize,
    },
    PollHandle {
        place: usize,
    },
    Cancel {
        place: usize,
    },
    Detach {
        place: usize,
    },
    DropHandle {
        place: usize,
    },
    TryTick,
    PollTick,
    DropTick,
    PollRun,
    DropRun,
}

/// The calls of each thread, in two halves. If the executor is leaked, that comes between them; else it
/// is closed by its drop in the end.
#[derive(Drop)]
pub struct Program {
    pub leaks: bool,
    pub tasks: usize,
    pub halves: [Vec<Vec<Call>>; 2],
}

impl Program {
    /// That of this seed, for four threads.
    pub fn new(seed: u64, alloc: Global) -> Result<Program, AllocError> {
        let mut words = RandomGenerator::new(seed);
        let leaks = words.next() % 4 == 0;
        let mut tasks = 0;
        let first = half(&mut words, &mut tasks, alloc)?;
        let second = half(&mut words, &mut tasks, alloc)?;
        Ok(Program {
            leaks,
            tasks,
            halves: [first, second],
        })
    }

    /// The same calls by one thread: the first of each, then the second, and so on.
    pub fn alone(&self, alloc: Global) -> Result<Program, AllocError> {
        Ok(Program {
            leaks: self.leaks,
            tasks: self.tasks,
            halves: [
                one_after_another(&self.halves[0], alloc)?,
                one_after_another(&self.halves[1], alloc)?,
            ],
        })
    }

    /// The same without the call at this place, counted over all threads of both halves. There is none
    /// if there are not so many.
    pub fn without(&self, place: usize, alloc: Global) -> Result<Option<Program>, AllocError> {
        let mut seen = 0usize;
        let first = without(&self.halves[0], place, &mut seen, alloc)?;
        let second = without(&self.halves[1], place, &mut seen, alloc)?;
        if place >= seen {
            return Ok(None);
        }
        Ok(Some(Program {
            leaks: self.leaks,
            tasks: self.tasks,
            halves: [first, second],
        }))
    }
}

fn half(words: &mut RandomGenerator, tasks: &mut usize, alloc: Global) -> Result<Vec<Vec<Call>>, AllocError> {
    let mut threads = Vec::new(alloc);
    for _ in 0..THREADS {
        let mut calls = Vec::with_capacity(alloc, CALLS)?;
        for _ in 0..CALLS {
            calls.push(call(words, tasks))?;
        }
        threads.push(calls)?;
    }
    Ok(threads)
}

fn call(words: &mut RandomGenerator, tasks: &mut usize) -> Call {
    let (kind, word) = (words.next() % 32, words.next());
    let place = words.next() as usize % PLACES;
    let task = words.next() as usize % tasks.saturating_add(1);
    match kind {
        0..=8 => {
            let task = *tasks;
            *tasks += 1;
            Call::Spawn { task, place, word }
        }
        9..=13 => Call::Wake { task },
        14..=16 => Call::PollHandle { place },
        17 => Call::Cancel { place },
        18 => Call::Detach { place },
        19 => Call::DropHandle { place },
        20..=22 => Call::TryTick,
        23..=25 => Call::PollTick,
        26 => Call::DropTick,
        27..=30 => Call::PollRun,
        _ => Call::DropRun,
    }
}

fn one_after_another(
    threads: &Vec<Vec<Call>>,
    alloc: Global,
) -> Result<Vec<Vec<Call>>, AllocError> {
    let mut calls = Vec::new(alloc);
    for place in 0..CALLS {
        for thread in threads.iter() {
            if let Some(call) = thread.get(place) {
                calls.push(*call)?;
            }
        }
    }
    let mut alone = Vec::new(alloc);
    alone.push(calls)?;
    Ok(alone)
}

fn without(
    threads: &Vec<Vec<Call>>,
    place: usize,
    seen: &mut usize,
    alloc: Global,
) -> Result<Vec<Vec<Call>>, AllocError> {
    let mut left = Vec::new(alloc);
    for thread in threads.iter() {
        let mut calls = Vec::new(alloc);
        for call in thread.iter() {
            if *seen != place {
                calls.push(*call)?;
            }
            *seen += 1;
        }
        left.push(calls)?;
    }
    Ok(left)
}
