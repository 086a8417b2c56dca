//! The step machine, the clock rule, the shelf question and the written forms
//! in plain Rust, the calls for C on bytes, a text form of schedules and random
//! schedules.

#![forbid(unsafe_code)]

pub mod calls;
pub mod clock;
pub mod generate;
pub mod layout;
pub mod machine;
pub mod numbers;
pub mod printer;
pub mod records;
pub mod refusal;
pub mod rng;
pub mod roles;
pub mod scan_table;
pub mod schedule;
pub mod sets;
pub mod shelf;
pub mod text;
