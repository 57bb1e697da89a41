//! What the Rust source uses of the crate log: macros that check their arguments' types and
//! evaluate nothing.

#![no_std]

#[doc(hidden)]
pub use core::format_args;

#[macro_export]
macro_rules! error {
    ($($arg:tt)+) => {
        if false {
            let _ = $crate::format_args!($($arg)+);
        }
    };
}

#[macro_export]
macro_rules! debug {
    ($($arg:tt)+) => {
        if false {
            let _ = $crate::format_args!($($arg)+);
        }
    };
}
