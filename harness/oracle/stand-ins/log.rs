//! Stand-in for the crate log: warnings go into a list, and are spelled out only after `listen(true)`, as the real crate does it only for a logger.

use std::cell::{Cell, RefCell};

thread_local! {
    static MESSAGES: RefCell<Vec<String>> = const { RefCell::new(Vec::new()) };
    static LISTENS: Cell<bool> = const { Cell::new(false) };
}

pub fn listen(yes: bool) {
    LISTENS.set(yes);
}

pub fn listens() -> bool {
    LISTENS.get()
}

pub fn record(s: String) {
    MESSAGES.with(|m| m.borrow_mut().push(s));
}

pub fn take() -> Vec<String> {
    MESSAGES.with(|m| std::mem::take(&mut *m.borrow_mut()))
}

#[macro_export]
macro_rules! warn {
    ($($arg:tt)*) => { if $crate::listens() { $crate::record(format!($($arg)*)) } };
}
