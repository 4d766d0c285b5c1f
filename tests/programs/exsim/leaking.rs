//! The lines of an executor that is leaked.
use super::expect_runs;

// What is read, and what is written.
const RUNS: [(&str, &str); 5] = [
    // What is idle is queued, once, and tasks are spawned on.
    (
        "spawn\ntrytick\npend 0\nleak\nleak\nspawn\nshow\n",
        "task 0\npoll 0\nidle 0\nnotice\nnot now\ntask 1\n\
         global [0, 1] locals [] flag true numbers 0 notified 0 notices 4 picks 0 undropped 2\n",
    ),
    // A leak of no idle task queues nothing, and a cancelled task stays so. It takes the place of a
    // close.
    (
        "spawn\ncancel 0\nleak\nclose\ndrain\ntrytick\ndropped 0\npollhandle 0\nclose\nleak\n",
        "task 0\nnothing\nnothing\nnot now\nnot now\ndrop 0\ngone\ncancelled\nnot now\nnot now\n",
    ),
    // An executor is leaked while no task is held and no ticker is polled. The queue of a runner
    // stays as it is, and other runs steal from it.
    (
        "spawn\nspawn\nspawn\nrun\nregister 0\nfair 0\ntick\npoll 1\nleak\nsearch 1 0\n\
         leak\npend 2\nleak\nshow\nunregister 0\npoll 0\nrun\nregister 2\npoll 2\nsearch 2 0\n\
         pend 2\npoll 2\nsearch 2 0\npend 0\nshow\n",
        "task 0\ntask 1\ntask 2\nticker 0\ndone\nmoved 2\nticker 1\ndone\nnot now\npoll 2\n\
         not now\nidle 2\nnotice\n\
         global [2] locals [[0, 1]] flag true numbers 0 notified 0 notices 5 picks 0 undropped 3\n\
         not now\nnot now\nticker 2\ndone\ndone\npoll 2\nidle 2\ndone\npoll 0\nidle 0\n\
         global [] locals [[1], []] flag true numbers 0 notified 0 notices 7 picks 0 undropped 3\n",
    ),
    // A ticker that sleeps keeps its number over the leak, and is notified as before.
    (
        "tick\npoll 0\nsearch 0 0\nsleep 0\nstore 0\nsearch 0 0\nsleep 0\nleak\npoll 0\ndrop 0\n\
         spawn\nexchange\nnotify\nshow\n",
        "ticker 0\ndone\nnone\nnumber 1\nfalse\nnone\nparked\nnothing\nnot now\nnot now\n\
         task 0\npick\nsleeper 1\n\
         global [0] locals [] flag true numbers 1 notified 1 notices 0 picks 0 undropped 1\n",
    ),
    // A closed executor is not leaked.
    ("close\nleak\n", "nothing\nnot now\n"),
];

#[test]
fn a_leaked_executor_goes_on(rt: HostRuntime) {
    expect_runs(&rt, rt.alloc(), &RUNS);
}
