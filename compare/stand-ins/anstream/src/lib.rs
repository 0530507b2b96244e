//! Stands in for anstream: what is printed is noted.
pub fn print(text: std::fmt::Arguments) {
    seen::note(seen::Seen::Printed(text.to_string()));
}

#[macro_export]
macro_rules! println {
    ($($arg:tt)*) => { $crate::print(format_args!($($arg)*)) };
}
