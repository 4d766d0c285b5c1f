//! The lines of an executor that is closed and drained.
use super::expect_runs;

// What is read, and what is written.
const RUNS: [(&str, &str); 4] = [
    // What is idle is queued behind what stands in the queue, and each task is drained once.
    (
        "spawn\nspawn\ntrytick\npend 0\nclose\ndrain\ndropped 1\ndrain\ndropped 0\ndrain\n\
         pollhandle 0\n",
        "task 0\ntask 1\npoll 0\nidle 0\nnotice\ndrop 1\ngone\ndrop 0\ngone\nnone\ncancelled\n",
    ),
    // A task that has finished gives its output after the close, and nothing is spawned.
    (
        "spawn\ntrytick\nready 0 5\nclose\nspawn\ndrain\npollhandle 0\n",
        "task 0\npoll 0\nfinished\nnothing\nnot now\nnone\noutput 5\n",
    ),
    // An executor is closed once, while no task is held and no ticker is polled. A ticker at rest is
    // forgotten then, and keeps its number. The tasks of a runner's queue stand at the global end.
    (
        "drain\nspawn\nspawn\nspawn\nrun\nregister 0\nfair 0\ntick\npoll 1\nclose\nsearch 1 0\n\
         close\npend 2\nclose\nclose\nshow\n",
        "not now\ntask 0\ntask 1\ntask 2\nticker 0\ndone\nmoved 2\nticker 1\ndone\nnot now\n\
         poll 2\nnot now\nidle 2\nnotice\nnot now\n\
         global [2, 0, 1] locals [[]] flag true numbers 0 notified 0 notices 5 picks 0 undropped \
         3\n",
    ),
    // After the close wakes, handles, notices and drops go on, and tickers do not.
    (
        "tick\npoll 0\nsearch 0 0\nsleep 0\nstore 0\nsearch 0 0\nsleep 0\nrun\nspawn\nspawn\n\
         close\nspawn\ntrytick\ntryany\ntick\nrun\npoll 0\ndrop 0\nregister 1\ndrop 1\nwake 0\n\
         exchange\nnotify\npollhandle 0\ncancel 1\ndrain\nwake 0\ndropped 0\ndetach 0\n\
         drophandle 1\nshow\ndrain\ndropped 1\nshow\n",
        "ticker 0\ndone\nnone\nnumber 1\nfalse\nnone\nparked\nticker 1\ntask 0\ntask 1\n\
         nothing\nnot now\nnot now\nnot now\nnot now\nnot now\nnot now\nnot now\nnot now\n\
         not now\nnothing\npick\nsleeper 1\npending\nnothing\ndrop 0\nnothing\ngone awaiter\nnothing\nnothing\n\
         global [1] locals [] flag true numbers 1 notified 1 notices 1 picks 0 undropped 1\n\
         drop 1\ngone\n\
         global [] locals [] flag true numbers 1 notified 1 notices 1 picks 0 undropped 0\n",
    ),
];

#[test]
fn a_closed_executor_is_drained(rt: HostRuntime) {
    expect_runs(&rt, rt.alloc(), &RUNS);
}
