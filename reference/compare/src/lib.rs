//! What the comparison needs no archive for: what a suite is made of, how
//! written forms are compared, and the suites over any machine and any printer
//! behind the proved calls' form.

#![forbid(unsafe_code)]

pub mod forms;
pub mod machine;
pub mod printed;
pub mod suite;
