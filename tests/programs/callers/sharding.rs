//! Executors with shards, and one who serves two executors.
use super::{Line, compare};
use async_executor::Executor;
use std::alloc::Global;
use std::io;
use std::sync::Wait;
use std::test::Fail;
use std::thread::Threads;
use uses::{empties_shards, serves_two, shards, sums_on_shards};

fn sharded<R: Wait + Threads + Clone + Drop + Send + Sync + 'static>(
    rt: &R,
    alloc: Global,
) -> io::Result<[Line; 4]> {
    let one = Executor::new(rt.clone()?, alloc)?;
    let two = Executor::new(rt.clone()?, alloc)?;
    Ok([
        ("shards", shards(rt, alloc)? == 10),
        ("empties_shards", empties_shards(rt, alloc)? == 8),
        ("serves_two", serves_two(&one, &two)? == [true, true, true]),
        ("sums_on_shards", sums_on_shards(rt, alloc)? == 500_500),
    ])
}

#[test]
fn shards_share_the_work(rt: HostRuntime) -> Result<(), Fail> {
    compare(&sharded(&rt, rt.alloc())?)
}
