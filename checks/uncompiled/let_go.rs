//! Each value that must be spent, let go in each way that a block has.
#![tactic(auto)]

use executor_core::task::{Again, Change, Held, Notice, Pick, Taken, Wakeup};

pub fn notice_as_a_parameter(_x: Notice) {} //~ linear-value-let-go
pub fn notice_by_underscore(x: Notice) { let _ = x; } //~ linear-value-let-go
pub fn notice_by_a_rest_pattern(x: Notice) { let Notice { .. } = x; } //~ linear-value-let-go
pub fn notice_in_an_option(_x: Option<Notice>) {} //~ linear-value-let-go
pub fn notice_in_a_vec(_x: Vec<Notice>) {} //~ linear-value-let-go
pub fn notice_as_a_result(x: Notice) { Some(x); } //~ linear-value-let-go
pub fn notice_on_a_path(x: Notice, keep: bool) -> Option<Notice> { if keep { Some(x) } else { None } } //~ linear-value-let-go
pub fn notice_by_overwriting(place: &mut Option<Notice>) { *place = None; } //~ linear-value-let-go

pub fn pick_as_a_parameter(_x: Pick) {} //~ linear-value-let-go
pub fn pick_by_underscore(x: Pick) { let _ = x; } //~ linear-value-let-go
pub fn pick_by_a_rest_pattern(x: Pick) { let Pick { .. } = x; } //~ linear-value-let-go
pub fn pick_in_an_option(_x: Option<Pick>) {} //~ linear-value-let-go
pub fn pick_in_a_vec(_x: Vec<Pick>) {} //~ linear-value-let-go
pub fn pick_as_a_result(x: Pick) { Some(x); } //~ linear-value-let-go
pub fn pick_on_a_path(x: Pick, keep: bool) -> Option<Pick> { if keep { Some(x) } else { None } } //~ linear-value-let-go
pub fn pick_by_overwriting(place: &mut Option<Pick>) { *place = None; } //~ linear-value-let-go

pub fn again_as_a_parameter(_x: Again) {} //~ linear-value-let-go
pub fn again_by_underscore(x: Again) { let _ = x; } //~ linear-value-let-go
pub fn again_by_a_rest_pattern(x: Again) { let Again { .. } = x; } //~ linear-value-let-go
pub fn again_in_an_option(_x: Option<Again>) {} //~ linear-value-let-go
pub fn again_in_a_vec(_x: Vec<Again>) {} //~ linear-value-let-go
pub fn again_as_a_result(x: Again) { Some(x); } //~ linear-value-let-go
pub fn again_on_a_path(x: Again, keep: bool) -> Option<Again> { if keep { Some(x) } else { None } } //~ linear-value-let-go
pub fn again_by_overwriting(place: &mut Option<Again>) { *place = None; } //~ linear-value-let-go

pub fn change_as_a_parameter(_x: Change<u8>) {} //~ linear-value-let-go
pub fn change_by_underscore(x: Change<u8>) { let _ = x; } //~ linear-value-let-go
pub fn change_by_a_rest_pattern(x: Change<u8>) { let Change { .. } = x; } //~ linear-value-let-go
pub fn change_in_an_option(_x: Option<Change<u8>>) {} //~ linear-value-let-go
pub fn change_in_a_vec(_x: Vec<Change<u8>>) {} //~ linear-value-let-go
pub fn change_as_a_result(x: Change<u8>) { Some(x); } //~ linear-value-let-go
pub fn change_on_a_path(x: Change<u8>, keep: bool) -> Option<Change<u8>> { if keep { Some(x) } else { None } } //~ linear-value-let-go
pub fn change_by_overwriting(place: &mut Option<Change<u8>>) { *place = None; } //~ linear-value-let-go

pub fn wakeup_as_a_parameter(_x: Wakeup<u8>) {} //~ linear-value-let-go
pub fn wakeup_by_underscore(x: Wakeup<u8>) { let _ = x; } //~ linear-value-let-go
pub fn wakeup_by_a_rest_pattern(x: Wakeup<u8>) { let Wakeup { .. } = x; } //~ linear-value-let-go
pub fn wakeup_in_an_option(_x: Option<Wakeup<u8>>) {} //~ linear-value-let-go
pub fn wakeup_in_a_vec(_x: Vec<Wakeup<u8>>) {} //~ linear-value-let-go
pub fn wakeup_as_a_result(x: Wakeup<u8>) { Some(x); } //~ linear-value-let-go
pub fn wakeup_on_a_path(x: Wakeup<u8>, keep: bool) -> Option<Wakeup<u8>> { if keep { Some(x) } else { None } } //~ linear-value-let-go
pub fn wakeup_by_overwriting(place: &mut Option<Wakeup<u8>>) { *place = None; } //~ linear-value-let-go

pub fn held_as_a_parameter(_x: Held) {} //~ linear-value-let-go
pub fn held_by_underscore(x: Held) { let _ = x; } //~ linear-value-let-go
pub fn held_by_a_rest_pattern(x: Held) { let Held { .. } = x; } //~ linear-value-let-go
pub fn held_in_an_option(_x: Option<Held>) {} //~ linear-value-let-go
pub fn held_in_a_vec(_x: Vec<Held>) {} //~ linear-value-let-go
pub fn held_as_a_result(x: Held) { Some(x); } //~ linear-value-let-go
pub fn held_on_a_path(x: Held, keep: bool) -> Option<Held> { if keep { Some(x) } else { None } } //~ linear-value-let-go
pub fn held_by_overwriting(place: &mut Option<Held>) { *place = None; } //~ linear-value-let-go

pub fn taken_as_a_parameter(_x: Taken<u8>) {} //~ linear-value-let-go
pub fn taken_by_underscore(x: Taken<u8>) { let _ = x; } //~ linear-value-let-go
pub fn taken_by_a_rest_pattern(x: Taken<u8>) { let Taken { .. } = x; } //~ linear-value-let-go
pub fn taken_in_an_option(_x: Option<Taken<u8>>) {} //~ linear-value-let-go
pub fn taken_in_a_vec(_x: Vec<Taken<u8>>) {} //~ linear-value-let-go
pub fn taken_as_a_result(x: Taken<u8>) { Some(x); } //~ linear-value-let-go
pub fn taken_on_a_path(x: Taken<u8>, keep: bool) -> Option<Taken<u8>> { if keep { Some(x) } else { None } } //~ linear-value-let-go
pub fn taken_by_overwriting(place: &mut Option<Taken<u8>>) { *place = None; } //~ linear-value-let-go
