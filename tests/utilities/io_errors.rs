//! What each error of the crates is as an `io::Error`: a future or a message that it has is let go, and the
//! text is its own.
use async_executor::{
    Cancelled, NewError, OutOfMemory, RunError, RunnerError, SpawnError, SpawnMany,
};
use async_utilities::{NoMessage, PoolError, TimerError, TooManyPermits, Unavailable, Unsent};
use std::fmt::Display;
use std::io::{self, ErrorKind};
use std::test::Fail;

// An error that is told by its own text as an `io::Error`, with its kind.
fn is_told<R: AllocGlobal, E: Display + Into<io::Error> + Drop>(
    rt: &R,
    error: E,
    kind: ErrorKind,
) -> Result<bool, Fail> {
    let own = format!(in rt.alloc(); "{error}")?;
    let told: io::Error = error.into();
    let text = format!(in rt.alloc(); "{told}")?;
    Ok(own == text && told.kind() == kind)
}

#[test]
fn an_error_keeps_its_text(rt: HostRuntime) -> Result<(), Fail> {
    let (memory, other) = (ErrorKind::OutOfMemory, ErrorKind::Other);
    assert!(rt; is_told(&rt, OutOfMemory, memory)?);
    assert!(rt; is_told(&rt, SpawnError::OutOfMemory(1u8), memory)?);
    assert!(rt; is_told(&rt, SpawnError::Exhausted(1u8), other)?);
    assert!(rt; is_told(&rt, RunnerError::OutOfMemory, memory)?);
    assert!(rt; is_told(&rt, RunnerError::Exhausted, other)?);
    assert!(rt; is_told(&rt, NewError::OutOfMemory, memory)?);
    assert!(rt; is_told(&rt, NewError::BadLimits, ErrorKind::InvalidInput)?);
    assert!(rt; is_told(&rt, Cancelled, other)?);
    assert!(rt; is_told(&rt, RunError::OutOfMemory(1u8), memory)?);
    assert!(rt; is_told(&rt, RunError::Exhausted(1u8), other)?);
    assert!(rt; is_told(&rt, PoolError::OutOfMemory, memory)?);
    assert!(rt; is_told(&rt, PoolError::Exhausted, other)?);
    assert!(rt; is_told(&rt, PoolError::NoThread, ErrorKind::WouldBlock)?);
    assert!(rt; is_told(&rt, TimerError::OutOfMemory, memory)?);
    let clock = TimerError::Clock(io::Error::other("the clock stands"));
    assert!(rt; is_told(&rt, clock, other)?);
    Ok(())
}

// The text of what has no text of its own, or another one.
fn text_of<R: AllocGlobal, E: Into<io::Error> + Drop>(rt: &R, error: E) -> Result<String, Fail> {
    let told: io::Error = error.into();
    Ok(format!(in rt.alloc(); "{told}")?)
}

#[test]
fn what_has_no_text_of_its_own_is_given_one(rt: HostRuntime) -> Result<(), Fail> {
    let many = SpawnMany {
        spawned: 3,
        refused: Some(1u8),
        cause: RunnerError::Exhausted,
    };
    assert_eq!(rt; text_of(&rt, many)?.as_str(), "task numbers are exhausted");
    assert_eq!(rt;
        text_of(&rt, Unsent::Full(1u8))?.as_str(),
        "the channel is full"
    );
    assert_eq!(rt;
        text_of(&rt, Unsent::Closed(1u8))?.as_str(),
        "the channel is closed"
    );
    assert_eq!(rt;
        text_of(&rt, Unsent::Refused(1u8))?.as_str(),
        "out of memory"
    );
    assert_eq!(rt;
        text_of(&rt, NoMessage::Empty)?.as_str(),
        "the channel is empty"
    );
    assert_eq!(rt;
        text_of(&rt, NoMessage::Closed)?.as_str(),
        "the channel is closed"
    );
    assert_eq!(rt;
        text_of(&rt, Unavailable::Taken)?.as_str(),
        "others have it, or wait for it"
    );
    assert_eq!(rt;
        text_of(&rt, Unavailable::OutOfMemory)?.as_str(),
        "out of memory"
    );
    assert_eq!(rt;
        text_of(&rt, TooManyPermits)?.as_str(),
        "more permits than can be counted"
    );
    Ok(())
}
