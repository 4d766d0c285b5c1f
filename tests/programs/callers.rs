//! Runs each caller of the crate `uses`, and compares what it gives. Each line of a table has the name of a caller, and
//! whether its answer is the one that is wanted.
mod calls;
mod executors;
mod handles;
mod library_calls;
mod local;
mod priorities;
mod sharding;
mod threads;
mod timers;

use std::test::Fail;

type Line = (&'static str, bool);

// Fails with the name of the first caller whose answer is another one.
fn compare(lines: &[Line]) -> Result<(), Fail> {
    for (caller, holds) in lines {
        if !*holds {
            return Err(Fail::new(format_args!("{caller} gives another answer")));
        }
    }
    Ok(())
}
