//! The logging macros, of which only a failed task's `error!` is looked at (it is the one sign of E), and `with!`.

macro_rules! info { ($($arg:tt)*) => {{ let _ = format_args!($($arg)*); }}; }
macro_rules! debug { ($($arg:tt)*) => {{ let _ = format_args!($($arg)*); }}; }
macro_rules! warn { ($($arg:tt)*) => {{ let _ = format_args!($($arg)*); }}; }
macro_rules! error { ($($arg:tt)*) => { $crate::play::log_error(&format!($($arg)*)) }; }

macro_rules! with {
    (required; $($id:path)|+) => { &[$($id as u32),+] };
    ($($id:path)|+) => { &[$($id as u32),+] };
}
