//! Executors with levels.
use super::{Line, compare};
use async_executor::Poll;
use std::alloc::Global;
use std::io;
use std::sync::Wait;
use std::test::Fail;
use std::thread::Threads;
use uses::{accepts, overtakes, prefers, runs_levels, serves_by_levels, serves_levels};

fn levels<R: Wait + Threads + Clone + Drop + Send + Sync + 'static>(
    rt: &R,
    alloc: Global,
) -> io::Result<[Line; 6]> {
    let first = (Poll::Ready(Ok(0)), 1_001);
    Ok([
        ("overtakes", overtakes(rt, alloc)? == first),
        ("accepts", accepts(rt, alloc)? == Poll::Ready(Ok(3))),
        ("runs_levels", runs_levels(rt, alloc)? == 3),
        ("serves_levels", serves_levels(rt, alloc)? == 3),
        ("serves_by_levels", serves_by_levels(rt, alloc)? == 190),
        ("prefers", prefers([false, true, true]) == (Some(1), 2)),
    ])
}

#[test]
fn the_most_urgent_goes_first(rt: HostRuntime) -> Result<(), Fail> {
    compare(&levels(&rt, rt.alloc())?)
}
