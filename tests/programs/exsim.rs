//! Whole runs over readers and writers in memory, which may fail.
mod closing;
mod leaking;
mod limits;
mod runs;
mod tickers;

use simulation::run_lines;
use std::alloc::Global;
use std::io;
use std::io::{ErrorKind, Read, Write};
use std::process::Abort;
use std::test::Fail;

// Gives its text, at most `most` bytes a read. After that it ends, or fails if `fails` is set.
#[derive(Drop)]
struct Source<'a> {
    text: &'a [u8],
    most: usize,
    fails: bool,
}

impl Read for Source<'_> {
    fn read(&mut self, buf: &mut [u8]) -> io::Result<usize> {
        if self.fails && self.text.is_empty() {
            return Err(io::Error::from(ErrorKind::BrokenPipe));
        }
        let count = self.text.len().min(self.most).min(buf.len());
        let (given, rest) = self.text.split_at(count);
        buf[..count].copy_from_slice(given);
        self.text = rest;
        Ok(count)
    }
}

// The text in one read, and then the end.
fn whole(text: &[u8]) -> Source<'_> {
    Source {
        text,
        most: usize::MAX,
        fails: false,
    }
}

// The text byte by byte, and then a failure.
fn guarded(text: &[u8]) -> Source<'_> {
    Source {
        text,
        most: 1,
        fails: true,
    }
}

// Keeps what is written. The write with this number from 0 fails, and so does the flush if
// `fails_flush` is set; later ones don't.
#[derive(Drop)]
struct Sink {
    kept: Vec<u8>,
    writes: usize,
    fails_write: Option<usize>,
    fails_flush: bool,
}

impl Write for Sink {
    fn write(&mut self, buf: &[u8]) -> io::Result<usize> {
        let number = self.writes;
        self.writes = self.writes.saturating_add(1);
        if self.fails_write == Some(number) {
            return Err(io::Error::from(ErrorKind::BrokenPipe));
        }
        self.kept.extend_from_slice(buf)?;
        Ok(buf.len())
    }

    fn flush(&mut self) -> io::Result<()> {
        if self.fails_flush {
            self.fails_flush = false;
            return Err(io::Error::from(ErrorKind::BrokenPipe));
        }
        Ok(())
    }
}

fn empty_sink(alloc: Global) -> Sink {
    Sink {
        kept: Vec::new(alloc),
        writes: 0,
        fails_write: None,
        fails_flush: false,
    }
}

// The status of the run over this input into this sink, and whether it writes this text. It asserts
// nothing itself: a sink that is alive at an assertion is dear to prove.
fn run_into(alloc: Global, input: Source<'_>, mut sink: Sink, output: &[u8]) -> (u8, bool) {
    let status = run_lines(alloc, input, &mut sink);
    (status, sink.kept.as_slice() == output)
}

// That the run over this input writes this text and ends with this status.
fn expect_run(rt: &impl Abort, alloc: Global, input: Source<'_>, output: &str, status: u8) {
    let text = input.text;
    let ended = run_into(alloc, input, empty_sink(alloc), output.as_bytes());
    assert_eq!(rt; ended, (status, true), "of {text:?}");
}

// That the run over each of these inputs writes the text beside it and ends at its end.
fn expect_runs(rt: &impl Abort, alloc: Global, runs: &[(&str, &str)]) {
    for &(input, output) in runs {
        expect_run(rt, alloc, whole(input.as_bytes()), output, 0);
    }
}

// These texts, each so many times.
fn joined(alloc: Global, texts: &[(&[u8], usize)]) -> Result<Vec<u8>, Fail> {
    let mut all = Vec::new(alloc);
    for (text, times) in texts {
        for _ in 0..*times {
            all.extend_from_slice(text)?;
        }
    }
    Ok(all)
}

// What is read, what is written and the status.
const RUNS: [(&str, &str, u8); 14] = [
    ("", "", 0),
    (
        "spawn\ntrytick\nready 0 7\npollhandle 0\ntrytick\n",
        "task 0\npoll 0\nfinished\noutput 7\nnone\n",
        0,
    ),
    (
        "spawn\ntrytick\nwake 0\npend 0\nwake 0\nshow\n",
        "task 0\npoll 0\nnothing\nqueued 0\nnothing\nglobal [0] locals [] flag true numbers 0 \
         notified 0 notices 3 picks 0 undropped 1\n",
        0,
    ),
    (
        "show\nspawn\nspawn\nspawn\ntrytick\npend 0\nshow",
        "global [] locals [] flag true numbers 0 notified 0 notices 0 picks 0 undropped 0\n\
         task 0\ntask 1\ntask 2\npoll 0\nidle 0\nglobal [1, 2] locals [] flag true numbers 0 \
         notified 0 notices 4 picks 0 undropped 3\n",
        0,
    ),
    (
        "spawn\ntrytick\npollhandle 0\nready 0 18446744073709551615\npollhandle 0\n\
         pollhandle 0\nwake 0",
        "task 0\npoll 0\npending\nfinished awaiter\noutput 18446744073709551615\nnot now\n\
         nothing\n",
        0,
    ),
    (
        "pend 0\nwake 3\ntrytick\nwake 18446744073709551615\n",
        "not now\nnot now\nnone\nnot now\n",
        0,
    ),
    ("pend 0\n", "not now\n", 0),
    (
        "spawn\ntrytick\nready 0 7\npollhandle 0\nspawn\ntrytick\npend 1\nwake 0\nshow\nwake 1\n",
        "task 0\npoll 0\nfinished\noutput 7\ntask 1\npoll 1\nidle 1\nnothing\nglobal [] locals [] \
         flag true numbers 0 notified 0 notices 4 picks 0 undropped 1\nnotice\n",
        0,
    ),
    (
        "exchange\nspawn\nexchange\nnotify\nshow\n",
        "not now\ntask 0\nnothing\nnot now\nglobal [0] locals [] flag true numbers 0 notified 0 \
         notices 0 picks 0 undropped 1\n",
        0,
    ),
    (
        "spawn\ntrytick\nwake 0\ncancel 0\npollhandle 0\nready 0 7\npollhandle 0\nshow\n",
        "task 0\npoll 0\nnothing\nnothing\npending\nunwanted 7 awaiter\ncancelled\nglobal [] \
         locals [] flag true numbers 0 notified 0 notices 2 picks 0 undropped 0\n",
        0,
    ),
    (
        "spawn\nspawn\ntrytick\ntrytick\ncancel 1\nwake 1\npend 1\nwake 1\ndropped 1\nwake 0\n\
         wake 0\npend 0\npollhandle 1\nwake 1\ncancel 1\nshow\n",
        "task 0\ntask 1\npoll 0\npoll 1\nnothing\nnothing\ndrop 1\nnothing\ngone\nnothing\n\
         nothing\nqueued 0\ncancelled\nnothing\nnot now\nglobal [0] locals [] flag true \
         numbers 0 notified 0 notices 5 picks 0 undropped 1\n",
        0,
    ),
    (
        "spawn\ntrytick\nready 0 7\ndetach 0\nspawn\ndrophandle 1\npollhandle 1\ntrytick\n\
         pend 1\ndropped 1\nspawn\ntrytick\npollhandle 2\npend 2\ncancel 2\ntrytick\n\
         dropped 2\npollhandle 2\n",
        "task 0\npoll 0\nfinished\noutput 7\ntask 1\nnothing\nnot now\ndrop 1\nnot now\ngone\n\
         task 2\npoll 2\npending\nidle 2\nnotice\ndrop 2\ngone awaiter\ncancelled\n",
        0,
    ),
    ("spawn\nspwan\nspawn\n", "task 0\nbad line 2\n", 1),
    ("spawn\n\n", "task 0\nbad line 2\n", 1),
];

// Lines that are taken, the replies, and which of a party's lines may come next.
type Turn<'a> = (&'a [u8], &'a str, &'a [&'a [u8]]);

// Adds the lines of a turn, and each of the party's other lines, with the replies.
fn push_turn(
    input: &mut Vec<u8>,
    output: &mut String,
    lines: &[&[u8]],
    turn: &Turn<'_>,
) -> Result<(), Fail> {
    let (taken, replies, next) = turn;
    input.extend_from_slice(taken)?;
    output.push_str(replies)?;
    for line in lines {
        if !next.contains(line) {
            input.extend_from_slice(line)?;
            output.push_str("not now\n")?;
        }
    }
    Ok(())
}

// Takes the turns, and tries each of the party's other lines after each turn.
fn expect_turns(
    rt: &impl Abort,
    alloc: Global,
    lines: &[&[u8]],
    turns: &[Turn<'_>],
) -> Result<(), Fail> {
    let mut input = Vec::new(alloc);
    let mut output = String::new(alloc);
    for turn in turns {
        push_turn(&mut input, &mut output, lines, turn)?;
    }
    expect_run(rt, alloc, whole(&input), &output, 0);
    Ok(())
}

#[test]
fn runs_print_their_replies_however_the_input_is_cut(rt: HostRuntime) {
    for &(input, output, status) in &RUNS {
        for &most in &[1, 2, 7, usize::MAX] {
            let source = Source {
                most,
                ..whole(input.as_bytes())
            };
            expect_run(&rt, rt.alloc(), source, output, status);
        }
    }
}

const NO_STEPS: [&[u8]; 49] = [
    b"",
    b"\r",
    b"spwan",
    b"Spawn",
    b"spawn\r",
    b"spawn\t",
    b" spawn",
    b"spawn ",
    b"spawn 0",
    b"spawnspawn",
    b"trytick 0",
    b"tryany 0",
    b"show ",
    b"show 0",
    b"\xef\xbb\xbfspawn",
    b"spawn\xff",
    b"\xc3",
    b"spawn\0",
    b"wake",
    b"wake ",
    b"wake  0",
    b"wake\t0",
    b"wake 0 ",
    b"wake 0 0",
    b"wake 00",
    b"wake 01",
    b"wake +1",
    b"wake -1",
    b"wake 1x",
    b"wake 0x1",
    b"wake \xd9\xa1",
    b"wake 18446744073709551616",
    b"wake 340282366920938463463374607431768211456",
    b"pend 0 0",
    b"pollhandle",
    b"ready 0",
    b"ready 0  0",
    b"ready 0 0 0",
    b"cancel",
    b"poll",
    b"poll 0 0",
    b"search 0",
    b"tick 0",
    b"close 0",
    b"leak 0",
    b"local",
    b"local ",
    b"local 01",
    b"local 1 1",
];

// What is written if such a line comes third.
const LATER: &str = "task 0\nglobal [0] locals [] flag true numbers 0 notified 0 notices 1 picks 0 \
                     undropped 1\nbad line 3\n";

// That this line ends the run with this text, if these lines stand before it.
fn expect_no_step<'a>(
    rt: &impl Abort,
    alloc: Global,
    front: &'a [u8],
    line: &'a [u8],
    output: &str,
) -> Result<(), Fail> {
    let input = joined(alloc, &[(front, 1), (line, 1), (b"\n", 1)])?;
    expect_run(rt, alloc, guarded(&input), output, 1);
    Ok(())
}

#[test]
fn a_line_that_is_no_step_ends_the_run_and_nothing_after_it_is_read(
    rt: HostRuntime,
) -> Result<(), Fail> {
    for line in &NO_STEPS {
        expect_no_step(&rt, rt.alloc(), b"", line, "bad line 1\n")?;
        expect_no_step(&rt, rt.alloc(), b"spawn\nshow\n", line, LATER)?;
    }
    Ok(())
}

#[test]
fn a_line_is_too_long_from_its_sixty_fifth_byte_on(rt: HostRuntime) {
    let long = [b'1'; 65];
    expect_run(&rt, rt.alloc(), guarded(&long[..64]), "read failed\n", 3);
    expect_run(&rt, rt.alloc(), guarded(&long), "bad line 1\n", 1);
}

#[test]
fn a_failed_read_ends_the_run_after_the_replies_to_whole_lines(rt: HostRuntime) {
    let inputs = [
        ("", "read failed\n"),
        ("spawn\ntrytick\n", "task 0\npoll 0\nread failed\n"),
        ("spawn\ntrytick", "task 0\nread failed\n"),
    ];
    for &(input, output) in &inputs {
        expect_run(&rt, rt.alloc(), guarded(input.as_bytes()), output, 3);
    }
}

// Of the run over this input whose write of this number fails: the status, how many writes it tried,
// whether what it wrote begins what is written if no write fails, and whether it wrote nothing.
fn run_with_failed_write(alloc: Global, input: &[u8], fails: usize) -> (u8, usize, bool, bool) {
    let mut all = empty_sink(alloc);
    run_lines(alloc, whole(input), &mut all);
    let mut written = Sink {
        fails_write: Some(fails),
        ..empty_sink(alloc)
    };
    let status = run_lines(alloc, whole(input), &mut written);
    let begins = all.kept.starts_with(&written.kept);
    (status, written.writes, begins, written.kept.is_empty())
}

// That the run over this input ends with its write of this number, which fails.
fn expect_failed_write(rt: &impl Abort, alloc: Global, input: &[u8], fails: usize) {
    let ended = run_with_failed_write(alloc, input, fails);
    let bytes = input.len();
    let tried = fails.saturating_add(1);
    assert_eq!(rt; ended, (4, tried, true, fails == 0), "of {bytes} bytes");
}

#[test]
fn nothing_is_written_after_a_failed_write(rt: HostRuntime) -> Result<(), Fail> {
    expect_failed_write(&rt, rt.alloc(), b"spawn\n", 0);
    expect_failed_write(&rt, rt.alloc(), b"spawn\nspwan\n", 0);
    // The replies to the long input take several writes.
    let long = joined(rt.alloc(), &[(b"spawn\n", 3000), (b"cancel 0\n", 1)])?;
    for fails in 0..3 {
        expect_failed_write(&rt, rt.alloc(), &long, fails);
    }
    Ok(())
}

#[test]
fn a_failed_flush_is_a_failed_write(rt: HostRuntime) {
    let sink = Sink {
        fails_flush: true,
        ..empty_sink(rt.alloc())
    };
    let ended = run_into(rt.alloc(), whole(b"spawn\n"), sink, b"task 0\n");
    assert_eq!(rt; ended, (4, true));
}

// The state of a new world.
const NEW: &[u8] =
    b"global [] locals [] flag true numbers 0 notified 0 notices 0 picks 0 undropped 0\n";

// The status of a run of a hundred thousand steps and one more, and whether each has its reply. What
// is not enabled counts as no step, and neither does the line of limits.
fn run_past_the_limit(alloc: Global) -> Result<(u8, bool), Fail> {
    let steps: [(&[u8], usize); 3] = [
        (b"local 1\nshow\npend 0\n", 1),
        (b"trytick\n", 100_000),
        (b"pend 0\nshow\n", 1),
    ];
    let replies: [(&[u8], usize); 6] = [
        (b"done\n", 1),
        (NEW, 1),
        (b"not now\n", 1),
        (b"none\n", 100_000),
        (b"log full\n", 1),
        (NEW, 1),
    ];
    let input = joined(alloc, &steps)?;
    let output = joined(alloc, &replies)?;
    Ok(run_into(alloc, whole(&input), empty_sink(alloc), &output))
}

#[test]
fn a_run_accepts_a_hundred_thousand_steps(rt: HostRuntime) -> Result<(), Fail> {
    assert_eq!(rt; run_past_the_limit(rt.alloc())?, (0, true));
    Ok(())
}
