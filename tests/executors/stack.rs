//! Futures that are larger than a stack has room for.
use crate::tests::support::running::task::output_of;
use executor_core::task::{Future, Poll};
use std::test::Fail;
use std::thread::Builder;

const FUTURE_BYTES: usize = 256 * 1024;

const STACK_BYTES: usize = 2 * 1024 * 1024;

// Ready at its first poll, and large.
#[derive(Drop)]
struct Large {
    output: u64,
    _room: [u8; FUTURE_BYTES],
}

impl<W> Future<W> for Large {
    type Output = u64;

    fn poll(&mut self, _w: &W) -> Poll<u64> {
        Poll::Ready(self.output)
    }
}

#[test]
fn a_large_future_runs_in_a_box(rt: HostRuntime) -> Result<(), Fail> {
    let large = Large {
        output: 7,
        _room: [0; FUTURE_BYTES],
    };
    let future = Box::new(rt.alloc(), large)?;
    let own = rt.clone()?;
    let child = Builder::new()
        .stack_size(STACK_BYTES)
        .spawn(&rt, move || output_of(own, future))?;
    assert_eq!(rt; child.join(&rt), Some(7));
    Ok(())
}
