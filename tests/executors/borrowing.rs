//! Outputs that borrow.
use crate::tests::support::running::future::Ready;
use crate::tests::support::running::record::Record;
use crate::tests::support::running::task::output_on;
use crate::tests::support::running::waker::TestWaker;
use async_executor::{Executor, LocalExecutor, StaticExecutor, StaticLocalExecutor};
use executor_core::task::{Future, Poll};
use std::sync::Wait;
use std::test::Fail;

// What a future that borrows this text gives on each type of executors. What a static one is given
// need not live as long as the program.
fn given<'a, R: AllocGlobal + Wait + Clone + Drop + Send + Sync>(
    rt: &R,
    text: &'a str,
) -> Option<[&'a str; 4]> {
    Some([
        output_on!(Executor, rt, Ready::new(text))?,
        output_on!(LocalExecutor, rt, Ready::new(text))?,
        output_on!(StaticExecutor, rt, Ready::new(text))?,
        output_on!(StaticLocalExecutor, rt, Ready::new(text))?,
    ])
}

#[test]
fn a_borrow_is_given(rt: HostRuntime) -> Result<(), Fail> {
    let hello = String::from_str(rt.alloc(), "hello")?;
    assert_eq!(rt; given(&rt, hello.as_str()), Some(["hello"; 4]));
    Ok(())
}
