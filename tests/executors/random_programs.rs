//! Random programs on four threads, and on one. `checks/by_hand/soak` takes as many as there is time for.
use crate::tests::support::running::programs::Program;
use crate::tests::support::running::shard_trial::tried_on;
use crate::tests::support::running::trial::{tried, tried_locally};
use std::sync::Wait;
use std::test::Fail;
use std::thread::Threads;

const PROGRAMS: u64 = 100;

// How the programs of a test are taken.
#[derive(Clone, Copy)]
enum By {
    FourThreads,
    OneThread,
    OneThreadLocally,
    FourThreadsOnShards,
    OneThreadOnShards,
}

// That nothing is wrong in the end of the programs of these seeds.
fn try_all<R: AllocGlobal + Wait + Threads + Clone + Drop + Send + Sync>(
    rt: &R,
    by: By,
) -> Result<(), Fail> {
    let alloc = rt.alloc();
    for seed in 0..PROGRAMS {
        let program = Program::new(seed, alloc)?;
        let wrong = match by {
            By::FourThreads => tried(rt, &program)?,
            By::OneThread => tried(rt, &program.alone(alloc)?)?,
            By::OneThreadLocally => tried_locally(rt, &program.alone(alloc)?)?,
            By::FourThreadsOnShards => tried_on(rt, &program, 3)?,
            By::OneThreadOnShards => tried_on(rt, &program.alone(alloc)?, 3)?,
        };
        if let Some(wrong) = wrong {
            return Err(Fail::new(format_args!("seed {seed}: {wrong}")));
        }
    }
    Ok(())
}

#[test]
fn programs_of_four_threads_come_to_a_right_end(rt: HostRuntime) -> Result<(), Fail> {
    try_all(&rt, By::FourThreads)
}

#[test]
fn programs_of_one_thread_come_to_a_right_end(rt: HostRuntime) -> Result<(), Fail> {
    try_all(&rt, By::OneThread)
}

#[test]
fn programs_on_local_executors_come_to_a_right_end(rt: HostRuntime) -> Result<(), Fail> {
    try_all(&rt, By::OneThreadLocally)
}

#[test]
fn programs_of_four_threads_on_shards_come_to_a_right_end(rt: HostRuntime) -> Result<(), Fail> {
    try_all(&rt, By::FourThreadsOnShards)
}

#[test]
fn programs_of_one_thread_on_shards_come_to_a_right_end(rt: HostRuntime) -> Result<(), Fail> {
    try_all(&rt, By::OneThreadOnShards)
}
