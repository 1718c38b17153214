//! The macros of the crate `log` with every level switched off: the arguments are type-checked and never evaluated.

#[macro_export]
macro_rules! trace {
    ($($arg:tt)*) => { if false { let _ = format_args!($($arg)*); } };
}

#[macro_export]
macro_rules! debug {
    ($($arg:tt)*) => { if false { let _ = format_args!($($arg)*); } };
}

#[macro_export]
macro_rules! warn {
    ($($arg:tt)*) => { if false { let _ = format_args!($($arg)*); } };
}
