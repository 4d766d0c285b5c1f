//! The calls of the list of sleepers, each of which is written down.
use super::{Answer, Word, step};
use crate::sleepers::{Removed, Sleepers, Update};
use crate::task::{Again, Change, OutOfMemory, Pick, Wakeup};

impl<W> Sleepers<W> {
    pub fn reserve(&mut self) -> Result<(), OutOfMemory> {
        let reserved = self.reserve_place();
        let answer = if reserved.is_ok() { Answer::Done } else { Answer::Refused };
        step(Word::ReserveSleeper, 0, answer, 0);
        reserved
    }

    pub fn release(&mut self) {
        self.release_place();
        step(Word::ReleaseSleeper, 0, Answer::Done, 0);
    }

    pub fn insert(&mut self, waker: W) -> Result<(usize, Change<Again>), W> {
        let inserted = self.insert_it(waker);
        match &inserted {
            Ok((number, _)) => step(Word::Insert, 0, Answer::Number, *number as u64),
            Err(_) => step(Word::Insert, 0, Answer::Refused, 0),
        }
        inserted
    }

    pub fn update(&mut self, number: usize, waker: W) -> Update<W> {
        let updated = self.update_it(number, waker);
        let answer = match &updated {
            Update::Asleep(_) => Answer::Parked,
            Update::WasNotified(_) => Answer::Again,
            Update::Unknown(_) => Answer::Unknown,
        };
        step(Word::Update, number as u64, answer, 0);
        updated
    }

    pub fn notify(&mut self, pick: Pick) -> Option<Wakeup<W>> {
        let last = self.at(self.len().saturating_sub(1));
        let wakeup = self.notify_one(pick);
        match last {
            Some(number) if wakeup.is_some() => step(Word::Notify, 0, Answer::Sleeper, number as u64),
            _ => step(Word::Notify, 0, Answer::Nobody, 0),
        }
        wakeup
    }
}

/// Writes down that a number was removed, by one who found a task, or by one who leaves.
pub fn removed<W>(word: Word, number: usize, change: &Change<Removed<W>>) {
    let answer = if change.carried.notice.is_some() {
        Answer::Notified
    } else {
        Answer::Unnotified
    };
    step(word, number as u64, answer, 0);
}
