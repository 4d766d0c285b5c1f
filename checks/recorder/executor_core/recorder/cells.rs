//! The calls of the table, each of which is written down.
use super::{Answer, Word, step, step_with};
use crate::queue::{Ring, RunnerError, RunnerKey};
use crate::task::handles::PollHandle;
use crate::task::{
    Again, Cells, EndPending, EndReady, Held, Notice, SpawnError, Taken, TaskId, Wakeup,
};

// Whether there is a notice, as an answer.
fn noticed(notice: &Option<Notice>) -> Answer {
    if notice.is_some() { Answer::Notice } else { Answer::Nothing }
}

// Writes down for what a task was taken.
fn took<P>(word: Word, of: u64, with: u64, taken: &Taken<P>) {
    let answer = if taken.cancelled { Answer::Drop } else { Answer::Poll };
    step_with(word, of, with, answer, taken.id.number);
}

// Writes down that no task was taken.
fn took_none(word: Word, of: u64, with: u64) {
    step_with(word, of, with, Answer::None, 0);
}

// Whether one who goes to sleep searches, as a number.
fn searches_again(again: &Option<Again>) -> u64 {
    u64::from(again.is_some())
}

impl<P, T, W> Cells<P, T, W> {
    pub fn spawn(&mut self, future: P) -> Result<(TaskId, Notice), SpawnError<P>> {
        let spawned = self.spawn_it(future);
        match &spawned {
            Ok((id, _)) => step(Word::Spawn, 0, Answer::Task, id.number),
            Err(_) => step(Word::Spawn, 0, Answer::Refused, 0),
        }
        spawned
    }

    pub fn wake(&mut self, id: TaskId) -> Option<Notice> {
        let notice = self.wake_it(id);
        step(Word::Wake, id.number, noticed(&notice), 0);
        notice
    }

    pub fn end_pending(&mut self, held: Held, future: P) -> EndPending<P> {
        let number = held.id.number;
        let ended = self.end_it_pending(held, future);
        let answer = match &ended {
            EndPending::Back(None) => Answer::Idle,
            EndPending::Back(Some(_)) => Answer::Queued,
            EndPending::Drop(_, _) => Answer::Drop,
        };
        step(Word::Pend, number, answer, number);
        ended
    }

    // As the two steps that it makes as one. If it is refused, it makes none.
    pub fn end_woken(&mut self, held: Held, future: P) -> Result<Notice, (Held, P)> {
        let number = held.id.number;
        let ended = self.end_it_woken(held, future);
        if ended.is_ok() {
            step(Word::Wake, number, Answer::Nothing, 0);
            step(Word::Pend, number, Answer::Queued, number);
        }
        ended
    }

    pub fn end_ready(&mut self, held: Held, output: T) -> EndReady<T, W> {
        let number = held.id.number;
        let ended = self.end_it_ready(held, output);
        let answer = match (ended.unwanted.is_some(), ended.awaiter.is_some()) {
            (false, false) => Answer::Finished,
            (false, true) => Answer::FinishedAwaiter,
            (true, false) => Answer::Unwanted,
            (true, true) => Answer::UnwantedAwaiter,
        };
        step(Word::Ready, number, answer, 0);
        ended
    }

    pub fn end_dropped(&mut self, held: Held) -> Option<Wakeup<W>> {
        let number = held.id.number;
        let awaiter = self.end_it_dropped(held);
        let answer = if awaiter.is_some() { Answer::GoneAwaiter } else { Answer::Gone };
        step(Word::Dropped, number, answer, 0);
        awaiter
    }

    pub fn poll_handle(&mut self, id: TaskId, waker: W) -> PollHandle<T, W> {
        let polled = self.poll_its_handle(id, waker);
        let answer = match &polled {
            PollHandle::Output(_, _) => Answer::Output,
            PollHandle::Cancelled(_) => Answer::Cancelled,
            PollHandle::Pending(_) => Answer::Pending,
        };
        step(Word::PollHandle, id.number, answer, 0);
        polled
    }

    pub fn cancel(&mut self, id: TaskId) -> Option<Notice> {
        let notice = self.cancel_it(id);
        step(Word::Cancel, id.number, noticed(&notice), 0);
        notice
    }

    pub fn detach(&mut self, id: TaskId) -> (Option<T>, Option<W>) {
        let (output, awaiter) = self.detach_it(id);
        let answer = if output.is_some() { Answer::Output } else { Answer::Nothing };
        step(Word::Detach, id.number, answer, 0);
        (output, awaiter)
    }

    pub fn drop_handle(&mut self, id: TaskId) -> (Option<Notice>, Option<T>, Option<W>) {
        let (notice, output, awaiter) = self.drop_its_handle(id);
        let answer = match (notice.is_some(), output.is_some()) {
            (true, false) => Answer::Notice,
            (false, true) => Answer::Output,
            (false, false) => Answer::Nothing,
            (true, true) => Answer::NoticeOutput,
        };
        step(Word::DropHandle, id.number, answer, 0);
        (notice, output, awaiter)
    }

    pub fn take_global(&mut self, again: Option<Again>) -> Option<(Taken<P>, Notice)> {
        let again_too = searches_again(&again);
        let taken = self.take_global_front(again);
        match &taken {
            Some((taken, _)) => took(Word::Take, again_too, 0, taken),
            None => took_none(Word::Take, again_too, 0),
        }
        taken
    }

    pub fn take_any(&mut self, again: Option<Again>) -> Option<(Taken<P>, Notice)> {
        let taken = self.take_any_front(again);
        match &taken {
            Some((taken, _)) => took(Word::TakeAny, 0, 0, taken),
            None => took_none(Word::TakeAny, 0, 0),
        }
        taken
    }

    pub fn drain_next(&mut self) -> Option<Taken<P>> {
        let taken = self.drain_front();
        match &taken {
            Some(taken) => took(Word::Drain, 0, 0, taken),
            None => took_none(Word::Drain, 0, 0),
        }
        taken
    }

    pub fn search(
        &mut self,
        key: RunnerKey,
        word: u64,
        again: Option<Again>,
    ) -> Option<(Taken<P>, Notice)> {
        let again_too = searches_again(&again);
        let taken = self.search_for(key, word, again);
        match &taken {
            Some((taken, _)) => took(Word::Search, again_too, word, taken),
            None => took_none(Word::Search, again_too, word),
        }
        taken
    }

    pub fn fair(&mut self, key: RunnerKey) -> usize {
        let moved = self.move_fair_part(key);
        step(Word::Fair, key.number, Answer::Moved, moved as u64);
        moved
    }

    pub fn reserve_runner(&mut self) -> Result<RunnerKey, RunnerError> {
        let reserved = self.reserve_a_runner();
        match &reserved {
            Ok(key) => step(Word::ReserveRunner, 0, Answer::Runner, key.number),
            Err(_) => step(Word::ReserveRunner, 0, Answer::Refused, 0),
        }
        reserved
    }

    pub fn release_runner(&mut self, key: RunnerKey) {
        self.release_its_runner(key);
        step(Word::ReleaseRunner, key.number, Answer::Done, 0);
    }

    pub fn register(&mut self, key: RunnerKey, ring: Ring) -> Result<(), Ring> {
        let registered = self.register_it(key, ring);
        let answer = if registered.is_ok() { Answer::Done } else { Answer::Refused };
        step(Word::Register, key.number, answer, 0);
        registered
    }

    pub fn unregister(&mut self, key: RunnerKey) -> Option<Notice> {
        let notice = self.unregister_it(key);
        step(Word::Unregister, key.number, noticed(&notice), 0);
        notice
    }

    pub fn wake_all(&mut self) -> Option<Notice> {
        let notice = self.wake_each();
        step(Word::WakeAll, 0, noticed(&notice), 0);
        notice
    }

    pub fn close(&mut self) -> Option<Notice> {
        let notice = self.close_it();
        step(Word::Close, 0, noticed(&notice), 0);
        notice
    }
}
