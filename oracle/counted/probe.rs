//! What engine.rs's counting lines tell, since the last `reset` in this thread.
use std::cell::Cell;

thread_local! {
    /// an apply ended with a count at or over the limit
    pub static FLAG: Cell<bool> = const { Cell::new(false) };
    /// bytes of the longest text that entered a set
    pub static LONGEST: Cell<usize> = const { Cell::new(0) };
    /// texts in the largest set that a final pass gave
    pub static MOST: Cell<usize> = const { Cell::new(0) };
}

pub fn reset() {
    FLAG.set(false);
    LONGEST.set(0);
    MOST.set(0);
}

pub fn applied(count: usize, limit: usize) {
    FLAG.set(FLAG.get() || count >= limit);
}

pub fn texts(longest: Option<usize>) {
    LONGEST.set(LONGEST.get().max(longest.unwrap_or(0)));
}

pub fn final_set(count: usize) {
    MOST.set(MOST.get().max(count));
}
