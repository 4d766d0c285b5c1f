//! How long a thread of a test waits for another one, which may never come.
//!
//! Over the right bodies it waits on and on, since a busy machine may keep the other thread from a processor
//! for any time. If that one never comes, the test fails once its own time is over. Over a wrong body the
//! thread gives up, so that each fails soon.
use executor_core::choice::chosen;

/// How often a thread looks for what another one is to do.
pub fn turns() -> u64 {
    without_end_unless_wrong(2_000_000)
}

/// How often a thread parks for a tenth of a second.
pub fn parks() -> u64 {
    without_end_unless_wrong(50)
}

fn without_end_unless_wrong(times: u64) -> u64 {
    if chosen() == 0 { u64::MAX } else { times }
}
