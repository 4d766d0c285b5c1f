//! The line of limits, which only the first one may be.
use super::{expect_run, expect_runs, guarded};

// What is read, and what is written.
const TAKEN: [(&str, &str); 4] = [
    // Half of the four that are left would be two.
    (
        "local 1\nspawn\nspawn\nspawn\nspawn\nspawn\nrun\nregister 0\npoll 0\nsearch 0 9\nshow\n",
        "done\ntask 0\ntask 1\ntask 2\ntask 3\ntask 4\nticker 0\ndone\ndone\npoll 0\n\
         global [2, 3, 4] locals [[1]] flag true numbers 0 notified 0 notices 6 picks 0 undropped \
         5\n",
    ),
    // A fair part is no larger.
    (
        "local 2\nrun\nregister 0\nspawn\nspawn\nspawn\nspawn\nspawn\nspawn\nfair 0\nfair 0\nshow\n",
        "done\nticker 0\ndone\ntask 0\ntask 1\ntask 2\ntask 3\ntask 4\ntask 5\nmoved 2\nmoved 0\n\
         global [2, 3, 4, 5] locals [[0, 1]] flag true numbers 0 notified 0 notices 6 picks 0 \
         undropped 6\n",
    ),
    ("local 65536\nrun\nregister 0\n", "done\nticker 0\ndone\n"),
    ("local 1", "done\n"),
];

// What is read, what is written and the status. Nothing else is read.
const REFUSED: [(&str, &str, u8); 8] = [
    ("local 0\n", "bad limits\n", 5),
    ("local 65537\n", "bad limits\n", 5),
    ("local 70000\n", "bad limits\n", 5),
    ("local 18446744073709551615\n", "bad limits\n", 5),
    ("local 18446744073709551616\n", "bad line 1\n", 1),
    ("local 1\nlocal 1\n", "done\nbad line 2\n", 1),
    ("spawn\nlocal 1\n", "task 0\nbad line 2\n", 1),
    (
        "show\nlocal 0\n",
        "global [] locals [] flag true numbers 0 notified 0 notices 0 picks 0 undropped 0\nbad line 2\n",
        1,
    ),
];

#[test]
fn the_first_line_may_say_for_how_many_tasks_a_queue_has_room(rt: HostRuntime) {
    expect_runs(&rt, rt.alloc(), &TAKEN);
}

#[test]
fn after_limits_that_are_refused_nothing_is_read(rt: HostRuntime) {
    for &(input, output, status) in &REFUSED {
        expect_run(&rt, rt.alloc(), guarded(input.as_bytes()), output, status);
    }
}
