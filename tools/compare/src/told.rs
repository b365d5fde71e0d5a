//! Which test of the original settled a verdict. build.rs puts the calls into the text of the told build and of the one with slips.

use crate::slips;
use std::cell::Cell;

thread_local! {
    static KEPT: Cell<u8> = const { Cell::new(0) };
}

/// Keeps the number of a test that holds. The answer is the test's own, so that nothing else changes.
pub fn told(number: u8, holds: bool) -> bool {
    if holds {
        KEPT.set(slips::recorded(number));
    }
    holds
}

/// The number that was kept last since this was called before, 0 for none.
pub fn taken() -> u8 {
    KEPT.take()
}

/// A test that a slip asks before another one of the same "or".
pub fn earlier(later: u8, earlier: u8, holds: bool) -> bool {
    slips::asked_first(later, earlier) && told(later, holds)
}
