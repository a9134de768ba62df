//! `log` and `anyhow` as far as the two files use them: a log line is dropped, an error keeps its text and its line.

#[derive(Debug)]
pub enum Level {
    Debug,
}

#[derive(Debug)]
pub struct Text {
    pub line: u32,
    pub text: String,
}

macro_rules! anyhow {
    ($($t:tt)*) => { $crate::shim_macros::Text { line: line!(), text: format!($($t)*) } };
}

macro_rules! warn {
    ($($t:tt)*) => { if false { let _ = format!($($t)*); } };
}

macro_rules! error {
    ($($t:tt)*) => { if false { let _ = format!($($t)*); } };
}

#[macro_export]
macro_rules! debug {
    ($($t:tt)*) => { if false { let _ = format!($($t)*); } };
}

#[macro_export]
macro_rules! log_enabled {
    ($level:expr) => {
        matches!($level, $crate::Level::Debug) && false
    };
}
