//! What a call leaves: its answer, its cell and the lent memory.

use std::fmt::{Arguments, Debug};

use super::lent::{Lent, Value};
use crate::suite::Comparisons;

/// What a call leaves.
pub struct Left<C, T> {
    pub answer: u8,
    pub cell: C,
    pub lent: Lent<T>,
}

/// What is reported of it. Of the lent memory that is the first place that
/// differs, counted from the first lent one, and its value.
#[derive(Debug, PartialEq)]
struct Report<C, T> {
    answer: u8,
    cell: C,
    differs: Option<(isize, T)>,
}

impl<C: Copy + Debug + PartialEq, T: Value + Debug> Left<C, T> {
    fn report(&self, place: Option<usize>) -> Report<C, T> {
        Report {
            answer: self.answer,
            cell: self.cell,
            differs: place.map(|place| self.lent.at(place)),
        }
    }
}

/// Compares what the two programs leave.
pub fn same<C: Copy + Debug + PartialEq, T: Value + Debug>(
    comparisons: &mut Comparisons,
    input: Arguments,
    proved: &Left<C, T>,
    second: &Left<C, T>,
) -> Result<(), String> {
    let place = proved.lent.first_difference(&second.lent);
    comparisons.same(input, proved.report(place), second.report(place))
}

/// Compares what each program leaves with what is stated.
pub fn stated<C: Copy + Debug + PartialEq, T: Value + Debug>(
    comparisons: &mut Comparisons,
    input: Arguments,
    proved: &Left<C, T>,
    second: &Left<C, T>,
    stated: &Left<C, T>,
) -> Result<(), String> {
    let of_proved = proved.lent.first_difference(&stated.lent);
    let place = of_proved.or_else(|| second.lent.first_difference(&stated.lent));
    comparisons.stated(
        input,
        proved.report(place),
        second.report(place),
        stated.report(place),
    )
}
