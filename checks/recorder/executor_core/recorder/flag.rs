//! The calls of the flag, each of which is written down. An exchange takes no lock, so it has two lines:
//! one before it and one behind. A store comes under the lock of the list, behind the change that it is for,
//! so that change has the first line of it.
use super::{Answer, Word, say, step};
use crate::sleepers::{Flag, Sleepers};
use crate::task::{Change, Notice, Pick};

impl Flag {
    pub fn exchange(&self, notice: Notice) -> Option<Pick> {
        say(Word::ExchangeBegins, 0);
        let pick = self.exchange_it(notice);
        let answer = if pick.is_some() { Answer::Pick } else { Answer::Nothing };
        step(Word::Exchange, 0, answer, 0);
        pick
    }

    pub fn store<X, W>(&self, change: Change<X>, sleepers: &mut Sleepers<W>) -> X {
        let answer = if change.notified { Answer::True } else { Answer::False };
        let carried = self.store_it(change, sleepers);
        step(Word::Store, 0, answer, 0);
        carried
    }
}
