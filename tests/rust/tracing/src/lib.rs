//! Stand-in for `tracing`: the log statements check the types of what they are given and print nothing.

#[cfg(feature = "hook")]
mod hook {
    use std::cell::Cell;
    thread_local! { static HOOK: Cell<Option<fn()>> = const { Cell::new(None) }; }

    /// What every log statement calls from now on: it may look, and alter nothing.
    pub fn set_hook(look: Option<fn()>) {
        HOOK.with(|h| h.set(look));
    }

    pub fn statement() {
        if let Some(look) = HOOK.with(|h| h.get()) {
            look()
        }
    }
}

#[cfg(feature = "hook")]
pub use hook::{set_hook, statement};

#[cfg(not(feature = "hook"))]
#[inline(always)]
pub fn statement() {}

#[macro_export]
macro_rules! event {
    ($($arg:tt)+) => {{
        $crate::statement();
        if false {
            let _ = ::std::format!($($arg)+);
        }
    }};
}

#[macro_export]
macro_rules! trace { ($($arg:tt)+) => { $crate::event!($($arg)+) }; }
#[macro_export]
macro_rules! debug { ($($arg:tt)+) => { $crate::event!($($arg)+) }; }
#[macro_export]
macro_rules! info { ($($arg:tt)+) => { $crate::event!($($arg)+) }; }
#[macro_export]
macro_rules! warn { ($($arg:tt)+) => { $crate::event!($($arg)+) }; }
#[macro_export]
macro_rules! error { ($($arg:tt)+) => { $crate::event!($($arg)+) }; }
