//! The rows by their names on the command line, a table for each kind.
use crate::crossing::Crossing;
use crate::locking::Locking;
use crate::messaging::Messaging;
use crate::rows::{Row, Staying};
use crate::sharding::Sharded;
use crate::timers::Times;
use std::alloc::{AllocError, Global};

/// A row, with its name.
pub type Named = (&'static str, Row);

/// Rows of executors on one thread.
const ON_ONE_THREAD: [Named; 35] = [
    ("spawn_try_tick", Row::SpawnTryTick),
    ("spawn_drain", Row::SpawnDrain),
    ("yield_try_tick", Row::YieldTryTick),
    ("empty_try_tick", Row::EmptyTryTick),
    ("spawn_drop", Row::SpawnDrop),
    ("spawn_cancel", Row::SpawnCancel),
    ("poll_handle_pending", Row::PollHandlePending),
    ("wake_idle", Row::WakeIdle),
    ("idle_thousand", Row::WakeOneOf(1_000)),
    ("idle_million", Row::WakeOneOf(1_000_000)),
    ("spawn_tick", Row::SpawnTick),
    ("spawner_job", Row::SpawnerJob),
    ("spawner_jobs", Row::SpawnerJobs),
    ("yield_tick", Row::YieldTick),
    ("sleep_wake", Row::SleepWake),
    ("priority_try_tick", Row::PriorityTryTick),
    ("yield_run", Row::YieldRun),
    ("yield_beside_15_runs", Row::YieldBesideRuns(15)),
    ("many_yield", Row::ThreadsYield(1)),
    ("ping_pong", Row::PingPong),
    ("idle_run_0", Row::IdleRun(0)),
    ("idle_run_1", Row::IdleRun(1)),
    ("idle_run_3", Row::IdleRun(3)),
    ("idle_run_15", Row::IdleRun(15)),
    ("spawn_await_run", Row::SpawnAwaitRun),
    ("spawn_all_await_run", Row::SpawnAllAwaitRun),
    ("spawn_many_run", Row::SpawnManyRun),
    ("drop_idle", Row::DropIdle),
    ("close_idle", Row::CloseIdle),
    ("close_queued", Row::CloseQueued),
    ("search_own", Row::SearchOwn),
    ("search_steal", Row::SearchSteal),
    ("search_empty_4", Row::SearchEmpty4),
    ("spawn_try_tick_4k", Row::SpawnTryTick4k),
    ("spawn_try_tick_4k_boxed", Row::SpawnTryTick4kBoxed),
];

/// Rows of executors on several threads, or between two.
const ON_THREADS: [Named; 16] = [
    ("threads_try_tick_1", Row::ThreadsTryTick(1)),
    ("threads_try_tick_2", Row::ThreadsTryTick(2)),
    ("threads_try_tick_4", Row::ThreadsTryTick(4)),
    ("threads_yield_1", Row::ThreadsYield(1)),
    ("threads_yield_2", Row::ThreadsYield(2)),
    ("threads_yield_4", Row::ThreadsYield(4)),
    ("threads_spawn_1", Row::ThreadsSpawn(1)),
    ("threads_spawn_2", Row::ThreadsSpawn(2)),
    ("threads_spawn_4", Row::ThreadsSpawn(4)),
    ("parked_yield_1", Row::ParkedYield(1)),
    ("parked_yield_2", Row::ParkedYield(2)),
    ("parked_yield_4", Row::ParkedYield(4)),
    ("one_spawner_1", Row::OneSpawner(1)),
    ("one_spawner_3", Row::OneSpawner(3)),
    ("one_spawner_4", Row::OneSpawner(4)),
    ("wake_latency", Row::WakeLatency),
];

/// Rows of local and static executors.
const STAYING: [Named; 10] = [
    (
        "local_spawn_try_tick",
        Row::Staying(Staying::LocalSpawnTryTick),
    ),
    ("local_spawn_drain", Row::Staying(Staying::LocalSpawnDrain)),
    (
        "local_yield_try_tick",
        Row::Staying(Staying::LocalYieldTryTick),
    ),
    ("local_yield_run", Row::Staying(Staying::LocalYieldRun(1))),
    (
        "local_many_yield",
        Row::Staying(Staying::LocalYieldRun(1_000)),
    ),
    (
        "static_spawn_try_tick",
        Row::Staying(Staying::StaticSpawnTryTick),
    ),
    (
        "static_spawn_drain",
        Row::Staying(Staying::StaticSpawnDrain),
    ),
    ("static_yield_run", Row::Staying(Staying::StaticYieldRun)),
    ("awaited_yield_run", Row::Staying(Staying::AwaitedYieldRun)),
    (
        "static_local_spawn_try_tick",
        Row::Staying(Staying::StaticLocalSpawnTryTick),
    ),
];

/// Rows of timers, and of a thread that waits.
const TIMES: [Named; 8] = [
    ("timer_set_10", Row::Times(Times::Set(10))),
    ("timer_set_1000", Row::Times(Times::Set(1_000))),
    ("timer_set_100000", Row::Times(Times::Set(100_000))),
    ("timer_fire_10", Row::Times(Times::Fire(10))),
    ("timer_fire_1000", Row::Times(Times::Fire(1_000))),
    ("timer_fire_100000", Row::Times(Times::Fire(100_000))),
    ("block_on_ready", Row::Times(Times::BlockOn)),
    ("block_on_kept_ready", Row::Times(Times::BlockOnKept)),
];

/// Rows of sharded executors.
const SHARDED: [Named; 31] = [
    ("sharded_yield_1", Row::Sharded(Sharded::Yield(1))),
    ("sharded_yield_2", Row::Sharded(Sharded::Yield(2))),
    ("sharded_yield_4", Row::Sharded(Sharded::Yield(4))),
    ("sharded_spawn_1", Row::Sharded(Sharded::Spawn(1))),
    ("sharded_spawn_2", Row::Sharded(Sharded::Spawn(2))),
    ("sharded_spawn_4", Row::Sharded(Sharded::Spawn(4))),
    ("sharded_parked_1", Row::Sharded(Sharded::Parked(1))),
    ("sharded_parked_2", Row::Sharded(Sharded::Parked(2))),
    ("sharded_parked_4", Row::Sharded(Sharded::Parked(4))),
    (
        "sharded_one_spawner_1",
        Row::Sharded(Sharded::OneSpawner(1)),
    ),
    (
        "sharded_one_spawner_2",
        Row::Sharded(Sharded::OneSpawner(2)),
    ),
    (
        "sharded_one_spawner_4",
        Row::Sharded(Sharded::OneSpawner(4)),
    ),
    ("sharded_one_shard_1", Row::Sharded(Sharded::OneShard(1))),
    ("sharded_one_shard_2", Row::Sharded(Sharded::OneShard(2))),
    ("sharded_one_shard_4", Row::Sharded(Sharded::OneShard(4))),
    (
        "sharded_unbalanced_1us_1",
        Row::Sharded(Sharded::Unbalanced(10, 1)),
    ),
    (
        "sharded_unbalanced_1us_2",
        Row::Sharded(Sharded::Unbalanced(10, 2)),
    ),
    (
        "sharded_unbalanced_1us_4",
        Row::Sharded(Sharded::Unbalanced(10, 4)),
    ),
    (
        "sharded_unbalanced_3us_1",
        Row::Sharded(Sharded::Unbalanced(30, 1)),
    ),
    (
        "sharded_unbalanced_3us_2",
        Row::Sharded(Sharded::Unbalanced(30, 2)),
    ),
    (
        "sharded_unbalanced_3us_4",
        Row::Sharded(Sharded::Unbalanced(30, 4)),
    ),
    (
        "sharded_unbalanced_10us_1",
        Row::Sharded(Sharded::Unbalanced(100, 1)),
    ),
    (
        "sharded_unbalanced_10us_2",
        Row::Sharded(Sharded::Unbalanced(100, 2)),
    ),
    (
        "sharded_unbalanced_10us_4",
        Row::Sharded(Sharded::Unbalanced(100, 4)),
    ),
    (
        "sharded_wake_latency_1",
        Row::Sharded(Sharded::WakeLatency(1)),
    ),
    (
        "sharded_wake_latency_2",
        Row::Sharded(Sharded::WakeLatency(2)),
    ),
    (
        "sharded_wake_latency_4",
        Row::Sharded(Sharded::WakeLatency(4)),
    ),
    ("sharded_cycle_1", Row::Sharded(Sharded::Cycle(1))),
    ("sharded_cycle_4", Row::Sharded(Sharded::Cycle(4))),
    ("sharded_cycle_16", Row::Sharded(Sharded::Cycle(16))),
    ("sharded_cycle_64", Row::Sharded(Sharded::Cycle(64))),
];

/// Rows of channels.
const MESSAGING: [Named; 7] = [
    ("channel_try", Row::Messaging(Messaging::TryPair(64))),
    ("channel_round_trip", Row::Messaging(Messaging::RoundTrip)),
    ("channel_flow_1", Row::Messaging(Messaging::Flow(1))),
    ("channel_flow_64", Row::Messaging(Messaging::Flow(64))),
    ("channel_waits_1", Row::Messaging(Messaging::Waits(1))),
    ("channel_waits_100", Row::Messaging(Messaging::Waits(100))),
    (
        "channel_waits_10000",
        Row::Messaging(Messaging::Waits(10_000)),
    ),
];

/// Rows of channels between threads.
const CROSSING: [Named; 4] = [
    (
        "channel_threads_2",
        Row::Crossing(Crossing {
            four: false,
            keeps: false,
        }),
    ),
    (
        "channel_threads_4",
        Row::Crossing(Crossing {
            four: true,
            keeps: false,
        }),
    ),
    (
        "channel_kept_threads_2",
        Row::Crossing(Crossing {
            four: false,
            keeps: true,
        }),
    ),
    (
        "channel_kept_threads_4",
        Row::Crossing(Crossing {
            four: true,
            keeps: true,
        }),
    ),
];

/// Rows of locks and signals.
const LOCKING: [Named; 6] = [
    ("semaphore_16", Row::Locking(Locking::Semaphore(16))),
    ("mutex_alone", Row::Locking(Locking::MutexAlone)),
    ("mutex_tasks_4", Row::Locking(Locking::MutexTasks(4))),
    ("signal_waits_1", Row::Locking(Locking::SignalWaits(1))),
    (
        "signal_waits_1000",
        Row::Locking(Locking::SignalWaits(1_000)),
    ),
    (
        "signal_waits_10000",
        Row::Locking(Locking::SignalWaits(10_000)),
    ),
];

/// Each row whose tasks do not work.
pub fn all(alloc: Global) -> Result<Vec<Named>, AllocError> {
    let mut rows = Vec::new(alloc);
    rows.extend_from_slice(&ON_ONE_THREAD)?;
    rows.extend_from_slice(&ON_THREADS)?;
    rows.extend_from_slice(&STAYING)?;
    rows.extend_from_slice(&TIMES)?;
    rows.extend_from_slice(&SHARDED)?;
    rows.extend_from_slice(&MESSAGING)?;
    rows.extend_from_slice(&CROSSING)?;
    rows.extend_from_slice(&LOCKING)?;
    Ok(rows)
}
