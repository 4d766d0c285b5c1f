//! Executors that stay on their thread.
use super::{Line, compare};
use async_executor::{Cancelled, Poll};
use std::alloc::Global;
use std::io;
use std::sync::Wait;
use std::test::Fail;
use uses::{gathers, stays};

fn alone<R: Wait + Clone + Drop>(rt: &R, alloc: Global) -> io::Result<[Line; 2]> {
    let gathered = [Poll::Ready(Ok(3)), Poll::Ready(Err(Cancelled))];
    Ok([
        ("stays", stays(rt, alloc)? == (5, true)),
        ("gathers", gathers(rt, alloc)? == gathered),
    ])
}

#[test]
fn local_executors_run_what_is_spawned(rt: HostRuntime) -> Result<(), Fail> {
    compare(&alone(&rt, rt.alloc())?)
}
