//! A channel beside a queue of numbers, who waits at either side, in order, and who was told and has not
//! come.
use super::{Dice, FUTURES, RECEIVES, SENDS, Wakers, places};
use crate::tests::support::running::wakes::NumberedWaker;
use async_utilities::{NoMessage, Receive, Receiver, Send, Sender, Unsent};
use executor_core::task::{Future, Poll};
use std::alloc::Global;
use std::collections::VecDeque;
use std::sync::Wait;
use std::test::Fail;

pub type Sends<R> = Sender<u64, NumberedWaker, NumberedWaker, R>;
pub type Receives<R> = Receiver<u64, NumberedWaker, NumberedWaker, R>;

// How many messages a batch has at most.
const BATCH: usize = 2;

// One side of the model.
#[derive(Drop)]
struct Line {
    kind: u64,
    waiting: VecDeque<usize>,
    told: Vec<usize>,
}

impl Line {
    fn new(alloc: Global, kind: u64) -> Line {
        Line {
            kind,
            waiting: VecDeque::new(alloc),
            told: Vec::new(alloc),
        }
    }

    // The first one is told, if more is there than others were told of.
    fn tell(&mut self, there: usize, wakers: &Wakers) -> Result<(), Fail> {
        if self.told.len() < there {
            if let Some(first) = self.waiting.pop_front() {
                self.told.push(first)?;
                wakers.wake(self.kind, first);
            }
        }
        Ok(())
    }

    fn tell_all(&mut self, wakers: &Wakers) {
        while let Some(first) = self.waiting.pop_front() {
            wakers.wake(self.kind, first);
        }
        self.told.clear();
    }

    fn leave(&mut self, one: usize) {
        self.told.retain(|other| *other != one);
        self.waiting.retain(|other| *other != one);
    }

    // One waits: where it did, or behind all others.
    fn wait(&mut self, one: usize) -> Result<(), Fail> {
        self.told.retain(|other| *other != one);
        if !self.waiting.iter().any(|other| *other == one) {
            self.waiting.push_back(one)?;
        }
        Ok(())
    }
}

#[derive(Drop)]
struct Model {
    messages: VecDeque<u64>,
    capacity: usize,
    is_closed: bool,
    senders: Line,
    receivers: Line,
}

impl Model {
    fn room(&self) -> usize {
        self.capacity.saturating_sub(self.messages.len())
    }

    fn send(
        &mut self,
        message: u64,
        one: usize,
        wakers: &Wakers,
    ) -> Result<Result<(), Unsent<u64>>, Fail> {
        if self.is_closed {
            return Ok(Err(Unsent::Closed(message)));
        }
        if self.room() == 0 {
            return Ok(Err(Unsent::Full(message)));
        }
        self.messages.push_back(message)?;
        self.receivers.tell(self.messages.len(), wakers)?;
        self.senders.leave(one);
        Ok(Ok(()))
    }

    fn receive(&mut self, one: usize, wakers: &Wakers) -> Result<Result<u64, NoMessage>, Fail> {
        match self.messages.pop_front() {
            Some(message) => {
                self.senders.tell(self.room(), wakers)?;
                self.receivers.leave(one);
                Ok(Ok(message))
            }
            None if self.is_closed => Ok(Err(NoMessage::Closed)),
            None => Ok(Err(NoMessage::Empty)),
        }
    }
}

/// A channel, by its ends, their futures, and the model beside them.
#[derive(Drop)]
pub struct ChannelWalk<'a, R: Wait + Drop> {
    sender: &'a Sends<R>,
    receiver: &'a Receives<R>,
    sends: Vec<Option<(Send<'a, u64, NumberedWaker, NumberedWaker, R>, u64)>>,
    receives: Vec<Option<Receive<'a, u64, NumberedWaker, NumberedWaker, R>>>,
    // Has room for a batch.
    taken: Vec<u64>,
    model: Model,
    next: u64,
}

impl<'a, R: Wait + Drop> ChannelWalk<'a, R> {
    pub fn new(
        alloc: Global,
        sender: &'a Sends<R>,
        receiver: &'a Receives<R>,
    ) -> Result<ChannelWalk<'a, R>, Fail> {
        let model = Model {
            messages: VecDeque::new(alloc),
            capacity: sender.channel().capacity(),
            is_closed: false,
            senders: Line::new(alloc, SENDS),
            receivers: Line::new(alloc, RECEIVES),
        };
        Ok(ChannelWalk {
            sender,
            receiver,
            sends: places(alloc)?,
            receives: places(alloc)?,
            taken: Vec::with_capacity(alloc, BATCH)?,
            model,
            next: 0,
        })
    }

    // Polls a send, of a new message if there is none.
    fn send(&mut self, one: usize, wakers: &Wakers) -> Result<bool, Fail> {
        let (mut send, message) = match self.sends[one].take() {
            Some(old) => old,
            None => (self.sender.send(self.next), self.next),
        };
        self.next = self.next.max(message + 1);
        let wanted = match self.model.send(message, one, wakers)? {
            Ok(()) => Poll::Ready(Ok(())),
            Err(Unsent::Full(_)) => Poll::Pending,
            Err(_) => Poll::Ready(Err(message)),
        };
        let answer = send.poll(&wakers.waker(SENDS, one)?);
        if answer == Poll::Pending {
            self.model.senders.wait(one)?;
            self.sends[one] = Some((send, message));
        }
        Ok(answer == wanted)
    }

    // Polls a receive.
    fn receive(&mut self, one: usize, wakers: &Wakers) -> Result<bool, Fail> {
        let mut receive = match self.receives[one].take() {
            Some(old) => old,
            None => self.receiver.receive(),
        };
        let wanted = match self.model.receive(one, wakers)? {
            Ok(message) => Poll::Ready(Some(message)),
            Err(NoMessage::Closed) => Poll::Ready(None),
            Err(NoMessage::Empty) => Poll::Pending,
        };
        let answer = receive.poll(&wakers.waker(RECEIVES, one)?);
        if answer == Poll::Pending {
            self.model.receivers.wait(one)?;
            self.receives[one] = Some(receive);
        }
        Ok(answer == wanted)
    }

    fn try_send(&mut self, wakers: &Wakers) -> Result<bool, Fail> {
        self.next += 1;
        Ok(self.sender.try_send(self.next) == self.model.send(self.next, FUTURES, wakers)?)
    }

    // Takes a batch of two, which are one after another in the model.
    fn take_two(&mut self, wakers: &Wakers) -> Result<bool, Fail> {
        self.taken.clear();
        let answer = self.receiver.try_receive_many(&mut self.taken, BATCH);
        let first = match self.model.receive(FUTURES, wakers)? {
            Ok(first) => first,
            Err(none) => return Ok(answer == Err(none) && self.taken.is_empty()),
        };
        match self.model.receive(FUTURES, wakers)? {
            Ok(second) => Ok(answer == Ok(BATCH) && self.taken.as_slice() == [first, second].as_slice()),
            Err(_) => Ok(answer == Ok(1) && self.taken.as_slice() == [first].as_slice()),
        }
    }

    // Gives a send up, whose message has to come back.
    fn give_up(&mut self, one: usize, wakers: &Wakers) -> Result<bool, Fail> {
        let Some((send, message)) = self.sends[one].take() else {
            return Ok(true);
        };
        self.model.senders.leave(one);
        self.model.senders.tell(self.model.room(), wakers)?;
        Ok(send.into_message() == Some(message))
    }

    fn drop_receive(&mut self, one: usize, wakers: &Wakers) -> Result<bool, Fail> {
        if self.receives[one].take().is_some() {
            self.model.receivers.leave(one);
            self.model.receivers.tell(self.model.messages.len(), wakers)?;
        }
        Ok(true)
    }

    fn close(&mut self, wakers: &Wakers) -> bool {
        let was_open = !self.model.is_closed;
        self.model.is_closed = true;
        self.model.senders.tell_all(wakers);
        self.model.receivers.tell_all(wakers);
        self.sender.channel().close() == was_open
    }

    /// Takes a step. Says whether its answer, and what the channel has, are those of the model.
    pub fn step(&mut self, dice: &mut Dice, wakers: &Wakers) -> Result<bool, Fail> {
        let (one, more) = (dice.future(), dice.below(8));
        let is_right = match dice.below(16) {
            0..=4 => self.send(one, wakers)?,
            5..=9 => self.receive(one, wakers)?,
            10 => self.give_up(one, wakers)?,
            11 => self.drop_receive(one, wakers)?,
            12 | 13 => self.try_send(wakers)?,
            14 if more % 2 == 0 => self.take_two(wakers)?,
            14 => self.receiver.try_receive() == self.model.receive(FUTURES, wakers)?,
            _ => more > 0 || self.close(wakers),
        };
        let channel = self.receiver.channel();
        let is_same = channel.is_closed() == self.model.is_closed;
        Ok(is_right && is_same && channel.len() == self.model.messages.len())
    }

    /// How many wakers the model keeps.
    pub fn kept(&self) -> usize {
        self.model.senders.waiting.len() + self.model.receivers.waiting.len()
    }
}
