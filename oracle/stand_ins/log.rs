// What the original uses of log: two macros, here silent.
#[macro_export]
macro_rules! info { ($($arg:tt)*) => { { let _ = format_args!($($arg)*); } } }
#[macro_export]
macro_rules! warn { ($($arg:tt)*) => { { let _ = format_args!($($arg)*); } } }
