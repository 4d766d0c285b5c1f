//! Each value that must be spent, made or taken apart from outside.
#![tactic(auto)]

use executor_core::task::{Again, Change, Held, Notice, Pick, Taken, TaskId, Wakeup};

pub fn notice_taken_apart(x: Notice) { let Notice { unspent: _ } = x; } //~ private-field
pub fn notice_made() -> Notice { Notice { unspent: () } } //~ private-field

pub fn pick_taken_apart(x: Pick) { let Pick { unspent: _ } = x; } //~ private-field
pub fn pick_made() -> Pick { Pick { unspent: () } } //~ private-field

pub fn again_taken_apart(x: Again) { let Again { unspent: _ } = x; } //~ private-field
pub fn again_made() -> Again { Again { unspent: () } } //~ private-field

pub fn change_taken_apart(x: Change<u8>) -> u8 { let Change { notified: _, carried } = x; carried } //~ private-field
pub fn change_read(x: &Change<u8>) -> u8 { x.carried } //~ private-field
pub fn change_made() -> Change<u8> { Change { notified: true, carried: 1 } } //~ private-field

pub fn wakeup_taken_apart(x: Wakeup<u8>) -> u8 { let Wakeup { waker } = x; waker } //~ private-field
pub fn wakeup_read(x: &Wakeup<u8>) -> u8 { x.waker } //~ private-field
pub fn wakeup_made() -> Wakeup<u8> { Wakeup { waker: 1 } } //~ private-field

pub fn held_taken_apart(x: Held) { let Held { id: _, to_drop: _ } = x; } //~ private-field
pub fn held_read(x: &Held) -> bool { x.to_drop } //~ private-field
pub fn held_made(id: TaskId) -> Held { Held { id, to_drop: false } } //~ private-field

pub fn taken_taken_apart(x: Taken<u8>) -> u8 { let Taken { id: _, future, cancelled: _ } = x; future } //~ private-field
pub fn taken_future(x: Taken<u8>) -> u8 { x.future } //~ private-field
pub fn taken_made(id: TaskId) -> Taken<u8> { Taken { id, future: 1, cancelled: false } } //~ private-field
pub fn id_made() -> TaskId { TaskId { number: 0, slot: 0 } } //~ private-field
