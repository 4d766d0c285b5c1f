//! Executors of their own, futures of several kinds, and wakers.
use super::{Line, compare};
use async_executor::{Cancelled, Poll};
use std::alloc::Global;
use std::io::{self, ErrorKind};
use std::sync::Wait;
use std::test::Fail;
use uses::{
    boxes_kinds, closes, interleaves, keeps_turns, mixes, nests, opens, prints, reads, receives, runs,
    squares,
};

fn spawned<R: Wait + Clone + Drop + Send + Sync>(rt: &R, alloc: Global) -> io::Result<[Line; 5]> {
    let cancelled = Poll::Ready(Err(Cancelled));
    Ok([
        ("runs", runs(rt, alloc)? == Poll::Ready(Ok(3))),
        ("closes", closes(rt, alloc)? == cancelled),
        ("keeps_turns, 16", keeps_turns(rt, alloc, 16)? == 4),
        ("keeps_turns, 200", keeps_turns(rt, alloc, 200)? == 1),
        ("nests", nests(rt, alloc)? == 3),
    ])
}

fn kinds<R: Wait + Clone + Drop + Send + Sync>(rt: &R, alloc: Global) -> io::Result<[Line; 5]> {
    let received = (false, Poll::Ready(Ok(5)));
    Ok([
        ("mixes", mixes(rt, alloc)? == (3, 7)),
        ("boxes_kinds", boxes_kinds(rt, alloc)? == (0, 7)),
        ("squares", squares(rt, alloc)? == (3, 14)),
        ("receives", receives(rt, alloc)? == received),
        ("interleaves", interleaves(alloc) == Some(true)),
    ])
}

#[test]
fn executors_run_what_is_spawned(rt: HostRuntime) -> Result<(), Fail> {
    compare(&spawned(&rt, rt.alloc())?)
}

#[test]
fn futures_of_several_kinds_are_run(rt: HostRuntime) -> Result<(), Fail> {
    compare(&kinds(&rt, rt.alloc())?)
}

#[test]
fn a_task_reads_a_file(rt: HostRuntime) -> Result<(), Fail> {
    assert_eq!(rt; reads(&rt, rt.alloc(), "/dev/null")?, 0);
    assert!(rt; reads(&rt, rt.alloc(), "/proc/self/stat")? > 0);
    match reads(&rt, rt.alloc(), "/dev/null/none") {
        Err(error) => assert_eq!(rt; error.kind(), ErrorKind::NotADirectory),
        Ok(_) => return Err("there is such a file".into()),
    }
    Ok(())
}

#[test]
fn a_task_of_a_pool_opens_a_file(rt: HostRuntime) -> Result<(), Fail> {
    assert_eq!(rt; opens(&rt, rt.alloc(), "/dev/null")?, 0);
    assert!(rt; opens(&rt, rt.alloc(), "/proc/self/stat")? > 0);
    match opens(&rt, rt.alloc(), "/dev/null/none") {
        Err(error) => assert_eq!(rt; error.kind(), ErrorKind::NotADirectory),
        Ok(_) => return Err("there is such a file".into()),
    }
    Ok(())
}

#[test]
fn a_static_executor_prints_what_is_left(rt: HostRuntime) -> Result<(), Fail> {
    assert_eq!(rt;
        prints(&rt, rt.alloc())?.as_str(),
        "StaticExecutor { active: 0, global_tasks: 1, local_runners: [], sleepers: 0 }"
    );
    Ok(())
}
