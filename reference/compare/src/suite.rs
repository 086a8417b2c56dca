//! What a suite is made of: tests that count their comparisons.

use std::fmt::{Arguments, Debug};

use reference::rng::Rng;

/// How many comparisons a test made, or the difference that ended it.
pub type Outcome = Result<u64, String>;

/// A test. What it draws comes from the given generator.
pub type Test = fn(&mut Rng) -> Outcome;

/// The tests of a suite, by name.
pub type Tests = &'static [(&'static str, Test)];

/// The comparisons a test makes; the first difference ends it.
#[derive(Default)]
pub struct Comparisons {
    made: u64,
}

impl Comparisons {
    /// No comparison yet.
    pub fn new() -> Comparisons {
        Comparisons::default()
    }

    /// Compares the two programs' answers to an input.
    #[inline]
    pub fn same<T: PartialEq + Debug>(
        &mut self,
        input: Arguments,
        proved: T,
        second: T,
    ) -> Result<(), String> {
        self.made += 1;
        if proved == second {
            return Ok(());
        }
        Err(format!(
            "{input}: the proved function gives {proved:?}, the second program {second:?}"
        ))
    }

    /// Compares each program's answer to an input with the stated answer.
    #[inline]
    pub fn stated<T: PartialEq + Debug>(
        &mut self,
        input: Arguments,
        proved: T,
        second: T,
        stated: T,
    ) -> Result<(), String> {
        self.made += 2;
        if proved == stated && second == stated {
            return Ok(());
        }
        Err(format!(
            "{input}: the proved function gives {proved:?}, the second program {second:?}, \
             stated is {stated:?}"
        ))
    }

    /// Compares what the two programs leave behind, by its first difference.
    #[inline]
    pub fn left(&mut self, input: Arguments, difference: Option<String>) -> Result<(), String> {
        self.made += 1;
        match difference {
            None => Ok(()),
            Some(difference) => Err(format!("{input}: {difference}")),
        }
    }

    /// How many comparisons were made.
    pub fn made(self) -> Outcome {
        Ok(self.made)
    }
}
