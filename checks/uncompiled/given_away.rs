//! Each value that must be spent, handed to what would lose it.
#![tactic(auto)]

use executor_core::task::{Again, Change, Held, Notice, Pick, Taken, Wakeup};
use std::mem::ManuallyDrop;

pub fn notice_by_drop(x: Notice) { drop(x); } //~ unsatisfied-bound
pub fn notice_by_forget(x: Notice) { std::mem::forget(x); } //~ unsatisfied-bound
pub fn notice_kept_from_drop(x: Notice) { let _kept = ManuallyDrop::new(x); } //~ unsatisfied-bound
pub fn notice_by_a_leaked_box(x: Box<Notice>) { let _kept = Box::leak(x); } //~ unsatisfied-bound
pub fn notice_by_a_raw_box(x: Box<Notice>) { let _kept = Box::into_raw(x); } //~ unsatisfied-bound
pub fn notice_by_a_leaked_vec(x: Vec<Notice>) { let _kept = x.leak(); } //~ unsatisfied-bound
pub fn notice_by_a_copy(x: &Notice) -> Notice { x.clone() } //~ unsupported-method

pub fn pick_by_drop(x: Pick) { drop(x); } //~ unsatisfied-bound
pub fn pick_by_forget(x: Pick) { std::mem::forget(x); } //~ unsatisfied-bound
pub fn pick_kept_from_drop(x: Pick) { let _kept = ManuallyDrop::new(x); } //~ unsatisfied-bound
pub fn pick_by_a_leaked_box(x: Box<Pick>) { let _kept = Box::leak(x); } //~ unsatisfied-bound
pub fn pick_by_a_raw_box(x: Box<Pick>) { let _kept = Box::into_raw(x); } //~ unsatisfied-bound
pub fn pick_by_a_leaked_vec(x: Vec<Pick>) { let _kept = x.leak(); } //~ unsatisfied-bound
pub fn pick_by_a_copy(x: &Pick) -> Pick { x.clone() } //~ unsupported-method

pub fn again_by_drop(x: Again) { drop(x); } //~ unsatisfied-bound
pub fn again_by_forget(x: Again) { std::mem::forget(x); } //~ unsatisfied-bound
pub fn again_kept_from_drop(x: Again) { let _kept = ManuallyDrop::new(x); } //~ unsatisfied-bound
pub fn again_by_a_leaked_box(x: Box<Again>) { let _kept = Box::leak(x); } //~ unsatisfied-bound
pub fn again_by_a_raw_box(x: Box<Again>) { let _kept = Box::into_raw(x); } //~ unsatisfied-bound
pub fn again_by_a_leaked_vec(x: Vec<Again>) { let _kept = x.leak(); } //~ unsatisfied-bound
pub fn again_by_a_copy(x: &Again) -> Again { x.clone() } //~ unsupported-method

pub fn change_by_drop(x: Change<u8>) { drop(x); } //~ unsatisfied-bound
pub fn change_by_forget(x: Change<u8>) { std::mem::forget(x); } //~ unsatisfied-bound
pub fn change_kept_from_drop(x: Change<u8>) { let _kept = ManuallyDrop::new(x); } //~ unsatisfied-bound
pub fn change_by_a_leaked_box(x: Box<Change<u8>>) { let _kept = Box::leak(x); } //~ unsatisfied-bound
pub fn change_by_a_raw_box(x: Box<Change<u8>>) { let _kept = Box::into_raw(x); } //~ unsatisfied-bound
pub fn change_by_a_leaked_vec(x: Vec<Change<u8>>) { let _kept = x.leak(); } //~ unsatisfied-bound
pub fn change_by_a_copy(x: &Change<u8>) -> Change<u8> { x.clone() } //~ unsupported-method

pub fn wakeup_by_drop(x: Wakeup<u8>) { drop(x); } //~ unsatisfied-bound
pub fn wakeup_by_forget(x: Wakeup<u8>) { std::mem::forget(x); } //~ unsatisfied-bound
pub fn wakeup_kept_from_drop(x: Wakeup<u8>) { let _kept = ManuallyDrop::new(x); } //~ unsatisfied-bound
pub fn wakeup_by_a_leaked_box(x: Box<Wakeup<u8>>) { let _kept = Box::leak(x); } //~ unsatisfied-bound
pub fn wakeup_by_a_raw_box(x: Box<Wakeup<u8>>) { let _kept = Box::into_raw(x); } //~ unsatisfied-bound
pub fn wakeup_by_a_leaked_vec(x: Vec<Wakeup<u8>>) { let _kept = x.leak(); } //~ unsatisfied-bound
pub fn wakeup_by_a_copy(x: &Wakeup<u8>) -> Wakeup<u8> { x.clone() } //~ unsupported-method

pub fn held_by_drop(x: Held) { drop(x); } //~ unsatisfied-bound
pub fn held_by_forget(x: Held) { std::mem::forget(x); } //~ unsatisfied-bound
pub fn held_kept_from_drop(x: Held) { let _kept = ManuallyDrop::new(x); } //~ unsatisfied-bound
pub fn held_by_a_leaked_box(x: Box<Held>) { let _kept = Box::leak(x); } //~ unsatisfied-bound
pub fn held_by_a_raw_box(x: Box<Held>) { let _kept = Box::into_raw(x); } //~ unsatisfied-bound
pub fn held_by_a_leaked_vec(x: Vec<Held>) { let _kept = x.leak(); } //~ unsatisfied-bound
pub fn held_by_a_copy(x: &Held) -> Held { x.clone() } //~ unsupported-method

pub fn taken_by_drop(x: Taken<u8>) { drop(x); } //~ unsatisfied-bound
pub fn taken_by_forget(x: Taken<u8>) { std::mem::forget(x); } //~ unsatisfied-bound
pub fn taken_kept_from_drop(x: Taken<u8>) { let _kept = ManuallyDrop::new(x); } //~ unsatisfied-bound
pub fn taken_by_a_leaked_box(x: Box<Taken<u8>>) { let _kept = Box::leak(x); } //~ unsatisfied-bound
pub fn taken_by_a_raw_box(x: Box<Taken<u8>>) { let _kept = Box::into_raw(x); } //~ unsatisfied-bound
pub fn taken_by_a_leaked_vec(x: Vec<Taken<u8>>) { let _kept = x.leak(); } //~ unsatisfied-bound
pub fn taken_by_a_copy(x: &Taken<u8>) -> Taken<u8> { x.clone() } //~ unsupported-method
