//! The second program doing events on records that it has not tested, or has
//! tested otherwise.

use reference::machine::{Message, ACKNOWLEDGEMENT, DELIVER, FREE, INTERNAL, PROPOSAL, REJECTION};
use reference::refusal::OUTSIDE_RANGE;
use reference::schedule::{test_sizes, Event};

use crate::machine::form::Sizes;
use crate::machine::lent::Lent;
use crate::machine::second::State;
use crate::machine::LOG;

/// Changes what is lent to what a machine tests in its place.
pub type Mend = fn(&Sizes, &mut Lent);

/// Does the events on what is lent as it is.
pub fn run(sizes: Sizes, lent: &mut Lent, events: &[u64], log: &mut [u64], n: u16) -> u8 {
    State::of(&sizes, lent).run(lent, events, log, n, step)
}

/// Does the events on what is lent as it is; what is tested is that, mended.
pub fn run_mended(
    mend: Mend,
    sizes: Sizes,
    lent: &mut Lent,
    events: &[u64],
    log: &mut [u64],
    n: u16,
) -> u8 {
    if test_sizes(&sizes.second()).is_err() {
        return OUTSIDE_RANGE;
    }
    let mut mended = lent.clone();
    mend(&sizes, &mut mended);
    match State::tested(&sizes, &mended) {
        Err(refusal) => refusal,
        Ok(_) => run(sizes, lent, events, log, n),
    }
}

/// Does the events in a run of the sizes; what is tested is that the records
/// and slots, as many as the sizes say, would do for the sizes `tested`.
pub fn run_resized(
    tested: Sizes,
    sizes: Sizes,
    lent: &mut Lent,
    events: &[u64],
    log: &mut [u64],
    n: u16,
) -> u8 {
    let mut state = State::of(&tested, lent);
    state.slots.resize(tested.slots.into(), Message::FREE);
    match lent.is_of(&sizes) && state.test().is_ok() {
        false => OUTSIDE_RANGE,
        true => run(sizes, lent, events, log, n),
    }
}

/// One event on the records as they are: the two numbers that a log has for
/// it. A message that names a party which is not there is noticed when it is
/// delivered, and refused 1.
fn step(state: &mut State, event: &Event) -> [u64; LOG] {
    match delivers_past_the_parties(state, event) {
        true => [OUTSIDE_RANGE.into(), 0],
        false => state.step(event),
    }
}

/// Whether the event delivers a message that names a party which is not there.
fn delivers_past_the_parties(state: &State, event: &Event) -> bool {
    let message = state.slots.get(event.a as usize);
    event.code == DELIVER && message.map_or(false, |message| !names_parties(state, message))
}

/// Whether the parties that the message names are there. A kind past the last
/// is delivered as the last.
fn names_parties(state: &State, message: &Message) -> bool {
    let sizes = &state.records.sizes;
    let is_for = |count: u64| u64::from(message.addressee) < count;
    let is_of_proposer = u64::from(message.proposer) < sizes.p;
    let is_of_acceptor = u64::from(message.acceptor) < sizes.a;
    match message.kind {
        FREE => true,
        INTERNAL => is_for(sizes.p),
        PROPOSAL => is_for(sizes.a) && is_of_proposer,
        ACKNOWLEDGEMENT | REJECTION => is_for(sizes.p) && is_of_acceptor,
        _ => is_for(sizes.l) && is_of_proposer && is_of_acceptor,
    }
}

#[cfg(test)]
mod tests {
    use reference::machine::CRASH;
    use reference::rng::Rng;

    use super::*;
    use crate::machine::drawn::Within;
    use crate::machine::fields;
    use crate::machine::sizes::SIZES;

    /// Whatever field is past its range, every slot can be delivered, and every
    /// other event done.
    #[test]
    fn events_on_records_past_their_ranges() {
        let rng = &mut Rng::new(45);
        let sizes = SIZES[1];
        let base = Within::new(rng, &sizes).lent(rng);
        for change in fields::past(&sizes) {
            let mut changed = base.clone();
            change.make(&mut changed);
            let slots = (0..sizes.slots.into()).map(|slot| [DELIVER, slot, 0]);
            let others = (0..=CRASH).map(|code| [code, 1, 0]);
            for event in slots.chain(others) {
                let mut log = [0; LOG];
                let answer = run(sizes, &mut changed.clone(), &event, &mut log, 1);
                assert_eq!(answer, 0, "{}, {event:?}", change.name);
            }
        }
    }
}
