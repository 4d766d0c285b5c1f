//! Makes each call that takes memory, and prints what came. If one request for memory is
//! refused, as `checks/refusals.sh` orders, the call that met it has to say so, to give back what
//! it was handed and to leave all as it was, and the same call made again has to succeed. If the first
//! request is to be refused, the calls are made again for the second, and so on until none is.
#![tactic(auto)]

mod core_calls;
mod growth;
mod outcome;
mod rooms;
mod running;
mod timers;
mod utilities;

use executor_core::choice::{refuse_request, refused_request, was_request_refused};
use outcome::Outcome;
use std::io::{self, Print};
use std::process::ExitCode;
use std::sync::Wait;
use std::thread::Threads;
use std::time::Clock;
use utilities::Refused;

/// More requests than there are.
const MOST: u64 = 1000;

fn main(rt: HostRuntime) -> io::Result<ExitCode> {
    let mut wrong = 0;
    match refused_request() {
        0 => wrong = make_calls(&rt)?,
        first => for number in first..MOST {
            refuse_request(number);
            println!(rt; "request {number}")?;
            wrong = make_calls(&rt)?.saturating_add(wrong);
            if was_request_refused() == 0 {
                break;
            }
        },
    }
    Ok(if wrong == 0 {
        ExitCode::SUCCESS
    } else {
        ExitCode::FAILURE
    })
}

/// Makes each call, and prints which of them met the refusal. Gives how many answers are wrong.
fn make_calls<R>(rt: &R) -> io::Result<u32>
where
    R: AllocGlobal + Print + Wait + Threads + Clock + Clone + Drop + Send + Sync + 'static,
{
    let alloc = rt.alloc();
    let mut outcome = Outcome::new();
    // From here on requests are counted.
    rooms::order(alloc, 0);
    core_calls::spawn_task(alloc, &mut outcome);
    core_calls::reserve_runners(alloc, &mut outcome);
    core_calls::make_ring(alloc, &mut outcome);
    core_calls::reserve_place(alloc, &mut outcome);
    core_calls::reserve_in_core(alloc, &mut outcome);
    core_calls::run_world(alloc, &mut outcome);
    core_calls::make_world_with(alloc, &mut outcome);
    core_calls::make_ticker(alloc, &mut outcome, false);
    core_calls::make_ticker(alloc, &mut outcome, true);
    running::make_with(rt, alloc, &mut outcome);
    running::spawn_and_run(rt, alloc, &mut outcome);
    running::spawn_many_and_run(rt, alloc, &mut outcome);
    running::tick_and_run(rt, alloc, &mut outcome);
    let mut refused = Refused::new();
    utilities::wait(rt, alloc, &mut refused);
    utilities::wait_in_run(rt, alloc, &mut outcome, &mut refused);
    utilities::join(alloc, &mut refused);
    utilities::wait_for_signal(rt, alloc, &mut refused);
    utilities::send(rt, alloc, &mut refused);
    timers::wait_for_time(rt, alloc, &mut refused);
    timers::wait_in_time(rt, alloc, &mut refused);
    timers::drive(rt, alloc, &mut refused);
    timers::start_pools(rt, alloc, &mut refused);
    timers::ask_for_job(rt, alloc, &mut refused);
    if let Some((sleepers, runners)) = rooms::keep_rooms(rt, alloc, &mut outcome) {
        println!(rt; "room for {sleepers} sleepers and {runners} runners")?;
    }
    if let Some((spawns, inserts)) = growth::count_requests(alloc, &mut outcome) {
        println!(rt; "requests for memory: {spawns} of the spawns, {inserts} of the inserts")?;
    }
    let wrong = outcome.wrong.saturating_add(refused.wrong);
    println!(rt;
        "refused: Cells::spawn {}, Cells::reserve_runner {}, Ring::new {}, Sleepers::reserve {}, Core::reserve {}, World::new {}, World::new_with {}, World::run {}, World::step {}, Executor::new {}, Executor::new_with {}, Executor::spawn {}, Executor::spawn_many {}, Executor::tick {}, Executor::run {}, block_on {}, run_until {}, JoinAll::new {}, Signal::new {}, Signal::waiting {}, bounded {}, Sender::copy {}, Receiver::copy {}, Timer::new {}, After::poll {}, Timeout::poll {}, Timer::block_on {}, Pool::new {}, ShardedPool::new {}, PoolOf::new {}, Pool::unblock {}, lists {}, steps {}, orders {}; wrong: {}",
        outcome.cells_spawn,
        outcome.cells_reserve_runner,
        outcome.ring_new,
        outcome.sleepers_reserve,
        outcome.core_reserve,
        outcome.world_new,
        outcome.world_new_with,
        outcome.world_run,
        outcome.world_step,
        outcome.executor_new,
        outcome.executor_new_with,
        outcome.executor_spawn,
        outcome.executor_spawn_many,
        outcome.executor_tick,
        outcome.executor_run,
        refused.block_on,
        refused.run_until,
        refused.join_all,
        refused.signal,
        refused.waiting,
        refused.bounded,
        refused.sender,
        refused.receiver,
        refused.timer,
        refused.after,
        refused.timeout,
        refused.driver,
        refused.pool,
        refused.sharded_pool,
        refused.priority_pool,
        refused.unblock,
        refused.list,
        outcome.steps,
        outcome.orders,
        wrong
    )?;
    Ok(wrong)
}
