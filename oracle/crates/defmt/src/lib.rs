//! Stands in for `defmt`: a line's arguments are evaluated, its format string is handed
//! to the tape (which counts it when asked to), and nothing is printed.

pub use tape::line;

#[macro_export]
macro_rules! warn {
    ($fmt:literal $(, $arg:expr)* $(,)?) => {{ $( let _ = &$arg; )* $crate::line($fmt); }};
}

#[macro_export]
macro_rules! info {
    ($fmt:literal $(, $arg:expr)* $(,)?) => {{ $( let _ = &$arg; )* $crate::line($fmt); }};
}

#[macro_export]
macro_rules! debug {
    ($fmt:literal $(, $arg:expr)* $(,)?) => {{ $( let _ = &$arg; )* $crate::line($fmt); }};
}
