//! The handlers of a method by their numbers, and the search for the one that
//! takes an exception.
//!
//! Numbers go from the end: 0 is the last handler in the text, and the first
//! one has the highest number. So the first line that fits is the highest
//! number that fits.

use crate::program::{Handler, Method, Program};

impl Handler {
    /// Whether the address lies in its range.
    #[inline]
    pub fn covers(&self, address: u8) -> bool {
        self.from <= address && address < self.to
    }
}

impl Method {
    /// The handlers by rising number.
    #[inline]
    pub fn by_number(&self) -> impl DoubleEndedIterator<Item = &Handler> + ExactSizeIterator {
        self.handlers.iter().rev()
    }

    /// The handler of this number, which the method has.
    #[inline]
    pub fn handler(&self, number: usize) -> &Handler {
        self.by_number().nth(number).expect("the method has a handler of this number")
    }
}

/// The number of the handler that takes an exception of this class at this
/// address, if one does.
pub fn handler_for(program: &Program, method: &Method, address: u8, class: u8) -> Option<usize> {
    search(method.by_number(), |handler| {
        handler.covers(address) && upward(program, class).any(|above| above == handler.class)
    })
}

/// The highest number of a handler that fits, of handlers by rising number.
#[inline]
pub fn search<'h>(
    by_number: impl Iterator<Item = &'h Handler>,
    fits: impl Fn(&Handler) -> bool,
) -> Option<usize> {
    let mut found = None;
    for (number, handler) in by_number.enumerate() {
        if fits(handler) {
            found = Some(number);
        }
    }
    found
}

/// The class itself and every class above it; class 0 is above all others.
fn upward(program: &Program, class: u8) -> impl Iterator<Item = u8> + '_ {
    let above = |&class: &u8| (class != 0).then(|| program.classes[usize::from(class)].superclass);
    std::iter::successors(Some(class), above)
}
