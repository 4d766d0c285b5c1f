//! Requests for memory that are refused by order, of which the build of the tests has the library of
//! `checks/lib/fail_nth.c`; and a text that takes no memory.
use executor_core::queue::Ring;
use std::alloc::Global;
use std::fmt::{self, Write};

// The request for a ring of this capacity and N places more is an order.
const ORDER: usize = 1 << 16;

/// More requests than an order may name.
pub const MOST: usize = 64;

/// Has this request be refused, of those that follow; none if it is 0.
pub fn refuse(alloc: Global, request: usize) {
    drop(Ring::new(alloc, ORDER.saturating_add(request)));
}

/// Whether the next request is refused.
pub fn is_next_refused(alloc: Global) -> bool {
    Ring::new(alloc, 1).is_err()
}

/// Whether a request is still to be refused, which is then none any more.
pub fn is_order_left(alloc: Global) -> bool {
    for _ in 0..=MOST {
        if is_next_refused(alloc) {
            return true;
        }
    }
    false
}

const LENGTH: usize = 640;

/// A short text. Nothing of it is written to the heap.
#[derive(Clone, Copy, PartialEq, Eq)]
pub struct ShortText {
    bytes: [u8; LENGTH],
    length: usize,
}

impl ShortText {
    pub fn new() -> ShortText {
        ShortText {
            bytes: [0; LENGTH],
            length: 0,
        }
    }

    /// Whether it ends with this text.
    pub fn ends_with(&self, text: &str) -> bool {
        self.bytes[..self.length].ends_with(text.as_bytes())
    }
}

impl Write for ShortText {
    fn write_str(&mut self, text: &str) -> fmt::Result {
        for byte in text.as_bytes() {
            if self.length == LENGTH {
                return Err(fmt::Error);
            }
            self.bytes[self.length] = *byte;
            self.length += 1;
        }
        Ok(())
    }
}

/// The text of an executor, or none if it was refused.
macro_rules! text_of {
    ($ex:expr) => {{
        let mut text = ShortText::new();
        match write!(text, "{:?}", $ex) {
            Ok(()) => Some(text),
            Err(_) => None,
        }
    }};
}

pub(crate) use text_of;
