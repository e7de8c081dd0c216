//! Which arguments above 1 in size avian's angle limits asked an arc sine of: the comparison counts them, and no answer depends on them.

use std::cell::Cell;

/// How many there were, and how many of these were the next above 1, above 2 and infinite.
#[derive(Clone, Copy, Debug, Default, PartialEq)]
pub struct AboveOne {
    pub all: u64,
    pub next: u64,
    pub far: u64,
    pub infinite: u64,
}

thread_local! {
    static SEEN: Cell<AboveOne> = Cell::default();
}

#[inline]
pub(crate) fn note(v: f32) {
    if v.abs() > 1.0 {
        count(v.abs());
    }
}

#[cold]
fn count(size: f32) {
    let seen = SEEN.get();
    SEEN.set(AboveOne {
        all: seen.all + 1,
        next: seen.next + (size == 1f32.next_up()) as u64,
        far: seen.far + (size > 2.0 && size.is_finite()) as u64,
        infinite: seen.infinite + size.is_infinite() as u64,
    });
}

/// Those of a piece of work on this thread.
pub fn of<T>(work: impl FnOnce() -> T) -> (T, AboveOne) {
    let outer = SEEN.take();
    let answer = work();
    (answer, SEEN.replace(outer))
}
