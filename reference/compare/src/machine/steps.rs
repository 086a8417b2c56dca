//! Single events on lent records, within their ranges and past them, as a run of
//! one event and as a single step. A refusal leaves every record and slot as it
//! was.

use std::fmt::{Display, Formatter};

use reference::refusal::OUTSIDE_RANGE;

use super::form::Sizes;
use super::lent::Lent;
use super::second::Second;
use super::{Machine, BEFORE, EVENT, LOG};
use crate::suite::Comparisons;

mod events;
pub mod numbers;
pub mod outside;
pub mod refused;
pub mod room;
pub mod within;

/// How often a stated refusal is compared, on other records each time.
const REPEATS: u64 = 8;

/// What a call is given beside the records.
struct Call<'a> {
    sizes: Sizes,
    events: &'a [u64],
    log: usize,
    n: u16,
}

impl Call<'_> {
    /// The call of one event.
    fn one(sizes: Sizes, event: &[u64; EVENT]) -> Call<'_> {
        Call {
            sizes,
            events: event,
            log: LOG,
            n: 1,
        }
    }

    /// The log before the call, with room after the lent numbers for a call
    /// that does not look at their length.
    fn log_before(&self) -> Vec<u64> {
        vec![BEFORE; self.log.max(LOG * usize::from(self.n)) + 1]
    }

    /// The first event, where it is lent.
    fn first(&self) -> Option<[u64; EVENT]> {
        let numbers = self.events.get(..EVENT)?;
        numbers.try_into().ok()
    }

    /// Makes the call on a copy of the lent records.
    fn make<M: Machine>(&self, lent: &Lent) -> Left {
        let mut left = Left {
            answer: 0,
            log: self.log_before(),
            lent: lent.clone(),
        };
        left.answer = M::run(
            self.sizes,
            &mut left.lent,
            self.events,
            &mut left.log[..self.log],
            self.n,
        );
        left
    }
}

impl Display for Call<'_> {
    fn fmt(&self, formatter: &mut Formatter) -> std::fmt::Result {
        let shown = &self.events[..self.events.len().min(12)];
        write!(
            formatter,
            "{:?}, {} events of {} numbers {shown:?}, {} numbers of log",
            self.sizes,
            self.n,
            self.events.len(),
            self.log
        )
    }
}

/// What a call leaves.
struct Left {
    answer: u8,
    log: Vec<u64>,
    lent: Lent,
}

/// Compares a single step of the call's first event: what both programs say of
/// it, and what they leave.
fn compare_step<M: Machine>(
    comparisons: &mut Comparisons,
    call: &Call,
    lent: &Lent,
) -> Result<(), String> {
    let event = match call.first() {
        Some(event) => event,
        None => return Ok(()),
    };
    let (mut proved, mut second) = (lent.clone(), lent.clone());
    comparisons.same(
        format_args!("a step of {call}, {lent:?}"),
        M::step(call.sizes, &mut proved, event),
        Second::step(call.sizes, &mut second, event),
    )?;
    comparisons.left(
        format_args!("a step of {call}, {lent:?}"),
        proved.difference(&second),
    )
}

/// Compares what both programs leave.
fn compare<M: Machine>(
    comparisons: &mut Comparisons,
    call: &Call,
    lent: &Lent,
) -> Result<Left, String> {
    let proved = call.make::<M>(lent);
    let second = call.make::<Second>(lent);
    comparisons.same(
        format_args!("{call}, {lent:?}"),
        (proved.answer, &proved.log),
        (second.answer, &second.log),
    )?;
    comparisons.left(
        format_args!("{call}, {lent:?}"),
        proved.lent.difference(&second.lent),
    )?;
    compare_step::<M>(comparisons, call, lent)?;
    Ok(proved)
}

/// Compares with what is stated: the answer, what the log says of the first
/// event, and that every record and slot is as it was.
fn compare_refused<M: Machine>(
    comparisons: &mut Comparisons,
    name: &dyn Display,
    call: &Call,
    lent: &Lent,
    answer: u8,
    said: Option<u8>,
) -> Result<(), String> {
    let proved = call.make::<M>(lent);
    let second = call.make::<Second>(lent);
    let mut log = call.log_before();
    if let Some(refusal) = said {
        log[..LOG].copy_from_slice(&[refusal.into(), 0]);
    }
    comparisons.stated(
        format_args!("{name}, {call}"),
        (proved.answer, proved.log),
        (second.answer, second.log),
        (answer, log),
    )?;
    for left in [&proved.lent, &second.lent] {
        comparisons.left(format_args!("{name}, {call}"), left.difference(lent))?;
    }
    compare_step::<M>(comparisons, call, lent)
}

/// Refused with 1, by the call itself.
fn compare_out_of_range<M: Machine>(
    comparisons: &mut Comparisons,
    name: &dyn Display,
    call: &Call,
    lent: &Lent,
) -> Result<(), String> {
    compare_refused::<M>(comparisons, name, call, lent, OUTSIDE_RANGE, None)
}
