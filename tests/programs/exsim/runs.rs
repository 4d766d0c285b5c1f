//! The lines of runs.
use super::{Turn, expect_runs, expect_turns};
use std::test::Fail;

// What is read, and what is written.
const RUNS: [(&str, &str); 6] = [
    // A search takes the front of the global queue, and half of what is left. What a runner that
    // goes still has stands at the global end.
    (
        "spawn\nspawn\nspawn\nspawn\nspawn\nrun\nregister 0\npoll 0\nsearch 0 9\nshow\n\
         unregister 0\nshow\ndrop 0\n",
        "task 0\ntask 1\ntask 2\ntask 3\ntask 4\nticker 0\ndone\ndone\npoll 0\n\
         global [3, 4] locals [[1, 2]] flag true numbers 0 notified 0 notices 6 picks 0 undropped \
         5\nnotice\n\
         global [3, 4, 1, 2] locals [] flag true numbers 0 notified 0 notices 7 picks 0 undropped \
         5\nawake\n",
    ),
    // A take of any queue takes from the global one first, and then from those of the runners.
    (
        "spawn\nspawn\nspawn\nspawn\nspawn\nrun\nregister 0\npoll 0\nsearch 0 9\nshow\n\
         tryany\ntryany\ntryany\ntryany\ntryany\nshow\n",
        "task 0\ntask 1\ntask 2\ntask 3\ntask 4\nticker 0\ndone\ndone\npoll 0\n\
         global [3, 4] locals [[1, 2]] flag true numbers 0 notified 0 notices 6 picks 0 undropped \
         5\npoll 3\npoll 4\npoll 1\npoll 2\nnone\n\
         global [] locals [[]] flag true numbers 0 notified 0 notices 10 picks 0 undropped 5\n",
    ),
    // Another run takes from the global queue, then its own task, and then steals from the first.
    (
        "spawn\nspawn\nspawn\nspawn\nspawn\nrun\nregister 0\npoll 0\nsearch 0 9\nshow\n\
         run\nregister 1\npoll 1\nsearch 1 0\npoll 1\nsearch 1 0\npoll 1\nsearch 1 7\nshow\n\
         fair 0\n",
        "task 0\ntask 1\ntask 2\ntask 3\ntask 4\nticker 0\ndone\ndone\npoll 0\n\
         global [3, 4] locals [[1, 2]] flag true numbers 0 notified 0 notices 6 picks 0 undropped \
         5\nticker 1\ndone\ndone\npoll 3\ndone\npoll 4\ndone\npoll 1\n\
         global [] locals [[2], []] flag true numbers 0 notified 0 notices 9 picks 0 undropped 5\n\
         moved 0\n",
    ),
    // A fair part is half of the global queue. A tick does not look at the queues of the runners.
    (
        "run\nregister 0\nspawn\nspawn\nspawn\nfair 0\nshow\ntick\npoll 1\nsearch 1 0\ntick\n\
         poll 2\nsearch 2 0\nfair 0\nshow\n",
        "ticker 0\ndone\ntask 0\ntask 1\ntask 2\nmoved 2\n\
         global [2] locals [[0, 1]] flag true numbers 0 notified 0 notices 3 picks 0 undropped 3\n\
         ticker 1\ndone\npoll 2\nticker 2\ndone\nnone\nmoved 0\n\
         global [] locals [[0, 1]] flag true numbers 0 notified 0 notices 4 picks 0 undropped 3\n",
    ),
    // A run that sleeps is notified, keeps the notice of the task that it found, and rests after
    // the store.
    (
        "run\nregister 0\npoll 0\nsearch 0 0\nsleep 0\nstore 0\nsearch 0 0\nsleep 0\nspawn\n\
         exchange\nnotify\npoll 0\nsearch 0 0\nshow\nremove 0\nstore 0\nshow\nunregister 0\n\
         drop 0\npoll 0\n",
        "ticker 0\ndone\ndone\nnone\nnumber 1\nfalse\nnone\nparked\ntask 0\npick\nsleeper 1\n\
         done\npoll 0\n\
         global [] locals [[]] flag true numbers 1 notified 1 notices 1 picks 0 undropped 1\n\
         notified\ntrue\n\
         global [] locals [[]] flag true numbers 0 notified 0 notices 1 picks 0 undropped 1\n\
         nothing\nawake\nnot now\n",
    ),
    // A run that leaves with a number gives it back when it is dropped.
    (
        "run\nregister 0\npoll 0\nsearch 0 0\nsleep 0\nstore 0\nsearch 0 0\nsleep 0\n\
         unregister 0\npoll 0\ndrop 0\nshow\nstore 0\nrun\ndrop 1\nregister 1\ndrop 7\n\
         register 7\nfair 7\nunregister 7\n",
        "ticker 0\ndone\ndone\nnone\nnumber 1\nfalse\nnone\nparked\nnothing\nnot now\n\
         unnotified\nglobal [] locals [] flag false numbers 0 notified 0 notices 0 picks 0 \
         undropped 0\ntrue\nticker 1\nawake\nnot now\nnot now\nnot now\nnot now\nnot now\n",
    ),
];

#[test]
fn runs_search_steal_and_end(rt: HostRuntime) {
    expect_runs(&rt, rt.alloc(), &RUNS);
}

// The lines of a run.
const LINES: [&[u8]; 10] = [
    b"register 0\n",
    b"poll 0\n",
    b"search 0 0\n",
    b"sleep 0\n",
    b"yield 0\n",
    b"remove 0\n",
    b"store 0\n",
    b"fair 0\n",
    b"unregister 0\n",
    b"drop 0\n",
];

// How a run goes through its phases.
const TURNS: [Turn<'static>; 11] = [
    (b"run\n", "ticker 0\n", &[b"register 0\n", b"drop 0\n"]),
    (
        b"register 0\n",
        "done\n",
        &[b"poll 0\n", b"fair 0\n", b"unregister 0\n"],
    ),
    (b"poll 0\n", "done\n", &[b"search 0 0\n"]),
    (b"search 0 0\n", "none\n", &[b"sleep 0\n", b"yield 0\n"]),
    (b"sleep 0\n", "number 1\n", &[b"store 0\n"]),
    (b"store 0\nspawn\n", "false\ntask 0\n", &[b"search 0 0\n"]),
    (b"search 0 0\n", "poll 0\n", &[b"remove 0\n"]),
    (b"remove 0\n", "unnotified\n", &[b"store 0\n"]),
    (
        b"store 0\n",
        "true\n",
        &[b"poll 0\n", b"fair 0\n", b"unregister 0\n"],
    ),
    (b"unregister 0\n", "nothing\n", &[b"drop 0\n"]),
    (b"drop 0\n", "awake\n", &[]),
];

#[test]
fn a_run_takes_no_step_out_of_turn(rt: HostRuntime) -> Result<(), Fail> {
    expect_turns(&rt, rt.alloc(), &LINES, &TURNS)
}
