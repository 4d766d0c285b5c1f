//! Limits that a caller hands in: the turns of a run, its fair parts, the places of its queue, and
//! which limits are refused.
use crate::tests::support::running::future::Kind::{Never, Ready};
use crate::tests::support::running::future::WakerPlace;
use crate::tests::support::running::kinds::OwnFuture;
use crate::tests::support::running::line::Answer::Pending;
use crate::tests::support::running::line::Line::{
    Count, Empty, HaltAt, HaltsAgain, MakeRun, ManyRan, Poll, PollHalts, Returns, Spawn, SpawnMany,
    Ticks,
};
use crate::tests::support::running::player::play_with;
use crate::tests::support::running::record::Moment::{FutureDrop, FuturePoll, WakerWake};
use crate::tests::support::running::record::Record;
use crate::tests::support::running::task::TaskFuture;
use crate::tests::support::running::waker::TestWaker;
use async_executor::{
    Executor, Limits, LocalExecutor, NewError, StaticExecutor, StaticLocalExecutor,
};
use executor_core::task::{Future, Poll as Polled};
use std::sync::Wait;
use std::test::Fail;

#[test]
fn a_run_yields_after_its_turn(rt: HostRuntime) -> Result<(), Fail> {
    play_with(
        &rt,
        Limits {
            turn: 3,
            ..Limits::default()
        },
        &[
            SpawnMany(7),
            MakeRun(Never),
            Poll(0, Pending),
            ManyRan(3),
            Count(0, WakerWake, 1),
            Poll(0, Pending),
            ManyRan(6),
            Count(0, WakerWake, 2),
            Poll(0, Pending),
            ManyRan(7),
            Count(0, WakerWake, 2),
            Empty(true),
        ],
    )
}

#[test]
fn a_run_takes_its_part_before_each_third_task(rt: HostRuntime) -> Result<(), Fail> {
    play_with(
        &rt,
        Limits {
            fair: 3,
            ..Limits::default()
        },
        &[
            SpawnMany(1),
            Spawn(Ready(7)),
            Spawn(Ready(8)),
            HaltAt(0, FuturePoll),
            HaltAt(1, FuturePoll),
            SpawnMany(100),
            MakeRun(Never),
            PollHalts(2),
            ManyRan(1),
            // What is left to all since the first search.
            Ticks(51),
            SpawnMany(100),
            HaltsAgain,
            Ticks(50),
            Returns(Pending),
        ],
    )
}

#[test]
fn the_queue_of_a_run_has_room_for_its_limit(rt: HostRuntime) -> Result<(), Fail> {
    play_with(
        &rt,
        Limits {
            local: 5,
            ..Limits::default()
        },
        &[
            Spawn(Ready(7)),
            HaltAt(0, FuturePoll),
            SpawnMany(99),
            MakeRun(Never),
            PollHalts(1),
            Ticks(94),
            Returns(Pending),
        ],
    )
}

// What comes of these limits: whether an executor is made, and else why not.
macro_rules! made {
    ($executor:ident, $rt:expr, $limits:expr) => {
        match $executor::<TaskFuture<R>, TestWaker, R>::new_with($rt.clone()?, $rt.alloc(), $limits)
        {
            Ok(_) => None,
            Err(error) => Some(error),
        }
    };
}

// Whether each kind of executor answers so to these limits.
fn answers<R: AllocGlobal + Wait + Clone + Drop + Send + Sync>(
    rt: &R,
    limits: Limits,
    answer: Option<NewError>,
) -> Result<bool, Fail> {
    let answers = [
        made!(Executor, rt, limits),
        made!(LocalExecutor, rt, limits),
        made!(StaticExecutor, rt, limits),
        made!(StaticLocalExecutor, rt, limits),
    ];
    Ok(answers == [answer; 4])
}

#[test]
fn limits_out_of_their_range_are_refused(rt: HostRuntime) -> Result<(), Fail> {
    let limits = Limits::default();
    let local = |local| Limits { local, ..limits };
    let turn = |turn| Limits { turn, ..limits };
    let fair = |fair| Limits { fair, ..limits };
    let answered = [
        answers(&rt, local(0), Some(NewError::BadLimits))?,
        answers(&rt, local(1), None)?,
        answers(&rt, local(65_536), None)?,
        answers(&rt, local(65_537), Some(NewError::BadLimits))?,
        answers(&rt, turn(0), Some(NewError::BadLimits))?,
        answers(&rt, turn(1), None)?,
        answers(&rt, turn(u32::MAX), None)?,
        answers(&rt, fair(0), Some(NewError::BadLimits))?,
        answers(&rt, fair(1), None)?,
        answers(&rt, fair(u32::MAX), None)?,
    ];
    assert_eq!(rt; answered, [true; 10]);
    Ok(())
}

// How many of seven tasks ran after each of three polls of a run of an executor with turns of three,
// which was leaked.
macro_rules! ran_leaked {
    ($executor:ident, $rt:expr) => {{
        let limits = Limits {
            turn: 3,
            ..Limits::default()
        };
        let ex =
            $executor::<TaskFuture<R>, TestWaker, R>::new_with($rt.clone()?, $rt.alloc(), limits)?;
        let record = Record::new($rt.alloc())?;
        for _ in 0..7 {
            let place = WakerPlace::new($rt.alloc())?;
            match ex.spawn(TaskFuture::new(Ready(1), place, &record)?) {
                Ok(task) => task.detach(),
                Err(_) => return Err("refused".into()),
            }
        }
        let server = ex.leak();
        let w = TestWaker::new(&Record::new($rt.alloc())?)?;
        let own = Record::new($rt.alloc())?;
        let own = OwnFuture::new(Never, WakerPlace::new($rt.alloc())?, &own)?;
        let Ok(mut run) = server.run(own) else {
            return Err("refused".into());
        };
        let mut ran = [0; 3];
        for polls in &mut ran {
            let Polled::Pending = run.poll(&w) else {
                return Err("an endless run is ready".into());
            };
            *polls = record.times(FutureDrop);
        }
        ran
    }};
}

fn ran_leaked<R: AllocGlobal + Wait + Clone + Drop + Send + Sync>(
    rt: &R,
) -> Result<[[u64; 3]; 2], Fail> {
    Ok([
        ran_leaked!(Executor, rt),
        ran_leaked!(LocalExecutor, rt),
    ])
}

#[test]
fn a_leak_keeps_the_limits(rt: HostRuntime) -> Result<(), Fail> {
    assert_eq!(rt; ran_leaked(&rt)?, [[3, 6, 7]; 2]);
    Ok(())
}
