//! Stand-in for tracing: the log lines of the control files say nothing and cost nothing.

pub use chalk_derive::instrument;

#[macro_export]
macro_rules! debug {
    ($($line:tt)*) => {{}};
}

#[macro_export]
macro_rules! info {
    ($($line:tt)*) => {{}};
}

#[macro_export]
macro_rules! debug_span {
    ($($line:tt)*) => {
        $crate::Span
    };
}

pub struct Span;

impl Span {
    pub fn enter(&self) {}
}
