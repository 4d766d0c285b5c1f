//! The lines of tickers.
use super::{Turn, expect_runs, expect_turns};
use std::test::Fail;

// What is read, and what is written.
const RUNS: [(&str, &str); 7] = [
    // The ticker that slept last is notified, finds the task, and its notice wakes the other one.
    (
        "tick\npoll 0\nsearch 0 0\nsleep 0\nstore 0\nsearch 0 0\nsleep 0\ntick\npoll 1\n\
         search 1 0\nspawn\nexchange\nsleep 1\nexchange\nstore 1\nnotify\nshow\nsearch 1 0\n\
         remove 1\nnotify\nstore 1\nexchange\nnotify\nready 0 5\n",
        "ticker 0\ndone\nnone\nnumber 1\nfalse\nnone\nparked\nticker 1\ndone\nnone\ntask 0\npick\n\
         number 2\nnot now\nfalse\nsleeper 2\nglobal [0] locals [] flag false numbers 2 notified \
         2 notices 0 picks 0 undropped 1\npoll 0\nnotified\nnot now\nfalse\npick\nsleeper 1\n\
         finished\n",
    ),
    // Both sleeping tickers are dropped.
    (
        "tick\npoll 0\nsearch 0 0\nsleep 0\nstore 0\nsearch 0 0\nsleep 0\ntick\npoll 1\n\
         search 1 0\nsleep 1\nstore 1\nsearch 1 0\nsleep 1\nspawn\nexchange\nnotify\ndrop 0\n\
         store 0\ndrop 1\nstore 1\nexchange\nshow\n",
        "ticker 0\ndone\nnone\nnumber 1\nfalse\nnone\nparked\nticker 1\ndone\nnone\nnumber 2\n\
         false\nnone\nparked\ntask 0\npick\nsleeper 2\nunnotified\ntrue\nnotified\ntrue\nnothing\n\
         global [0] locals [] flag true numbers 0 notified 0 notices 0 picks 0 undropped 1\n",
    ),
    // A ticker that finds no task is polled again, and a dropped one is not.
    (
        "tick\npoll 0\nsearch 0 0\nyield 0\npoll 0\nsearch 0 0\nyield 0\ndrop 0\npoll 0\ndrop 0\n\
         show\n",
        "ticker 0\ndone\nnone\ndone\ndone\nnone\ndone\nawake\nnot now\nnot now\nglobal [] locals \
         [] flag true numbers 0 notified 0 notices 0 picks 0 undropped 0\n",
    ),
    // A notified ticker to whom the task was lost sleeps again, under its number.
    (
        "tick\npoll 0\nsearch 0 0\nsleep 0\nstore 0\nsearch 0 0\nsleep 0\nspawn\nexchange\n\
         notify\ntrytick\npoll 0\nsearch 0 0\nsleep 0\nstore 0\nshow\nsearch 0 0\nsleep 0\n\
         drop 0\nstore 0\n",
        "ticker 0\ndone\nnone\nnumber 1\nfalse\nnone\nparked\ntask 0\npick\nsleeper 1\npoll 0\n\
         done\nnone\nagain\nfalse\nglobal [] locals [] flag false numbers 1 notified 0 notices 1 \
         picks 0 undropped 1\nnone\nparked\nunnotified\ntrue\n",
    ),
    // A ticker that is awake ends with the task that it finds, whatever the word.
    (
        "spawn\nspawn\ncancel 0\ntick\ntick\npoll 0\npoll 1\nsearch 0 18446744073709551615\n\
         search 1 7\ndropped 0\nready 1 5\npoll 0\npoll 1\nshow\n",
        "task 0\ntask 1\nnothing\nticker 0\nticker 1\ndone\ndone\ndrop 0\npoll 1\ngone\nfinished\n\
         not now\nnot now\nglobal [] locals [] flag true numbers 0 notified 0 notices 4 picks 0 \
         undropped 0\n",
    ),
    // No such ticker.
    (
        "tick\npoll 1\nsearch 1 0\nsleep 1\nyield 1\nremove 1\nstore 1\ndrop 1\n\
         poll 18446744073709551615\n",
        "ticker 0\nnot now\nnot now\nnot now\nnot now\nnot now\nnot now\nnot now\nnot now\n",
    ),
    // What waits for the store of a ticker that changed the list.
    (
        "tick\npoll 0\nsearch 0 0\nsleep 0\nstore 0\nsearch 0 0\nsleep 0\ntick\npoll 1\n\
         search 1 0\ntick\nsleep 1\ndrop 0\ndrop 2\npoll 0\nsearch 0 0\nsleep 0\nyield 0\nspawn\n\
         exchange\nnotify\npoll 0\nsearch 0 0\nremove 0\nstore 0\nstore 1\nnotify\nremove 0\n\
         search 1 0\nsleep 1\nstore 0\nsleep 1\n",
        "ticker 0\ndone\nnone\nnumber 1\nfalse\nnone\nparked\nticker 1\ndone\nnone\nticker 2\n\
         number 2\nnot now\nawake\ndone\nnone\nnot now\ndone\ntask 0\npick\nnot now\ndone\n\
         poll 0\nnot now\nnot now\nfalse\nsleeper 2\nunnotified\nnone\nnot now\ntrue\nagain\n",
    ),
];

#[test]
fn tickers_search_sleep_and_end(rt: HostRuntime) {
    expect_runs(&rt, rt.alloc(), &RUNS);
}

// The lines of a ticker.
const LINES: [&[u8]; 7] = [
    b"poll 0\n",
    b"search 0 0\n",
    b"sleep 0\n",
    b"yield 0\n",
    b"remove 0\n",
    b"store 0\n",
    b"drop 0\n",
];

// How a tick goes through its phases.
const TURNS: [Turn<'static>; 8] = [
    (b"tick\n", "ticker 0\n", &[b"poll 0\n", b"drop 0\n"]),
    (b"poll 0\n", "done\n", &[b"search 0 0\n"]),
    (b"search 0 0\n", "none\n", &[b"sleep 0\n", b"yield 0\n"]),
    (b"sleep 0\n", "number 1\n", &[b"store 0\n"]),
    (b"store 0\nspawn\n", "false\ntask 0\n", &[b"search 0 0\n"]),
    (b"search 0 0\n", "poll 0\n", &[b"remove 0\n"]),
    (b"remove 0\n", "unnotified\n", &[b"store 0\n"]),
    (b"store 0\n", "true\n", &[]),
];

#[test]
fn a_ticker_takes_no_step_out_of_turn(rt: HostRuntime) -> Result<(), Fail> {
    expect_turns(&rt, rt.alloc(), &LINES, &TURNS)
}
