//! What a future that was refused, and a handle that is asked twice, give.
use super::compare;
use async_executor::{Cancelled, Executor, Poll};
use async_utilities::{NoopWaker, Ready};
use std::test::Fail;
use uses::{asks_again, gives_back};

#[test]
fn an_output_goes_out_once(rt: HostRuntime) -> Result<(), Fail> {
    let executor = Executor::new(rt.clone()?, rt.alloc())?;
    let Ok(mut task) = gives_back(&executor, Ready::new(3u64)) else {
        return Err("gives_back gives another answer".into());
    };
    executor.try_tick();
    let twice = (Poll::Ready(Ok(3)), Poll::Ready(Err(Cancelled)));
    compare(&[("asks_again", asks_again(&mut task, &NoopWaker) == twice)])
}
