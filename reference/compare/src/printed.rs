//! Printed text: what is compared of any printer behind the proved call's
//! form.

use std::marker::PhantomData;

use crate::suite::Tests;

mod damaged;
mod output;
mod runs;
mod said;
mod second;
mod stated;
#[cfg(test)]
mod wrong;

/// The call of a printer.
pub trait Printer: 'static {
    /// Prints the text of the schedule to the start of the output and leaves
    /// the text's length: answers 0, or 8 where the output is shorter.
    fn print(output: &mut [u8], bytes: &[u8], length: &mut usize) -> u8;
}

/// The suite of a printer.
pub struct Suite<P>(PhantomData<P>);

impl<P: Printer> Suite<P> {
    pub const TESTS: Tests = &[
        ("example", stated::example::<P>),
        ("samples", stated::samples::<P>),
        ("edges", stated::edges::<P>),
        ("refused_schedules", stated::refused_schedules::<P>),
        ("longest_schedule", stated::longest_schedule::<P>),
        ("calm", runs::calm::<P>),
        ("contention", runs::contention::<P>),
        ("lossy", runs::lossy::<P>),
        ("crashes", runs::crashes::<P>),
        ("full", runs::full::<P>),
        ("edge_sizes", runs::edges::<P>),
        ("wild", runs::wild::<P>),
        ("most_events", runs::most_events::<P>),
        ("changed", damaged::changed::<P>),
        ("cut", damaged::cut::<P>),
        ("appended", damaged::appended::<P>),
        ("doubled", damaged::doubled::<P>),
        ("damaged", damaged::damaged::<P>),
        ("damaged_most_events", damaged::most_events::<P>),
        ("headers", damaged::headers::<P>),
        ("rubbish", damaged::rubbish::<P>),
        ("rubbish_events", damaged::rubbish_events::<P>),
    ];
}
