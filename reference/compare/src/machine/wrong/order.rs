//! Machines that test in another order, or leave a test out.

use reference::machine::{
    DECIDE, DELIVER, DROP, DUPLICATE, FREE, INTERNAL, PROPOSAL, PROPOSE, RECEIVE, REFINE,
};

use super::spoilt::{is_ok, Done};
use crate::machine::form::{Flag, Message, Sizes};
use crate::machine::lent::Lent;

/// Whether the slot of argument a is one of the table's, and free.
fn names_free_slot(done: &Done) -> bool {
    let slot = done.before.slots.lent().get(done.a);
    (DELIVER..=DUPLICATE).contains(&done.code)
        && slot.map_or(false, |slot| u32::from(slot.kind) == FREE)
}

/// Whether a proposer of number 1,000 is to propose or refine.
fn is_spent(done: &Done) -> bool {
    let number = done.proposer().map(|was| was.number);
    (PROPOSE..=REFINE).contains(&done.code) && number == Some(1_000)
}

/// Whether there is no room for the proposals of a Propose or Refine.
fn lacks_room(done: &Done) -> bool {
    (PROPOSE..=REFINE).contains(&done.code) && done.free() < done.sizes.acceptors.into()
}

/// Whether the message that a Drop or Duplicate names is for a proposer that
/// has crashed.
fn is_for_crashed(done: &Done, code: u64) -> bool {
    let message = done.before.slots.lent().get(done.a);
    let is_internal = |message: &&Message| u32::from(message.kind) == INTERNAL;
    let proposers = done.before.proposers.lent();
    done.code == code
        && message.filter(is_internal).map_or(false, |message| {
            !proposers[usize::from(message.addressee)].alive.is_set()
        })
}

/// What would be said if the proposer had not crashed.
fn said_if_alive(done: &Done) -> u64 {
    let mut lent: Lent = done.before.clone();
    let mut said = [0; 2];
    done.redo(&mut lent, &mut said, |lent| {
        lent.proposers.lent_mut()[done.a].alive = Flag::SET;
    });
    said[0]
}

faults! {
    /// A proposer that has crashed is tested before the scan's number.
    CrashedBeforeScan, STEPS, "arguments": |done, lent, said| {
        let is_crashed = done.proposer().map_or(false, |was| !was.alive.is_set());
        if done.code == RECEIVE && said[0] == 3 && is_crashed {
            done.refuse(lent, said, 5);
        }
    };
    /// A free slot is tested before b.
    FreeBeforeZero, STEPS, "arguments": |done, lent, said| if said[0] == 3 && names_free_slot(done) {
        done.refuse(lent, said, 4);
    };
    /// What is not enabled is tested before who has crashed.
    EnabledBeforeCrashed, RUNS, "crashes": |done, lent, said| {
        let is_turn = (PROPOSE..=DECIDE).contains(&done.code);
        if is_turn && said[0] == 5 && said_if_alive(done) == 6 {
            done.refuse(lent, said, 6);
        }
    };
    /// The number is tested before what is enabled.
    NumberBeforeEnabled, STEPS, "numbers_about_1000": |done, lent, said| if said[0] == 6 && is_spent(done) {
        done.refuse(lent, said, 7);
    };
    /// The number is tested before who has crashed.
    NumberBeforeCrashed, STEPS, "drawn_records": |done, lent, said| if said[0] == 5 && is_spent(done) {
        done.refuse(lent, said, 7);
    };
    /// Room is tested before the number.
    RoomBeforeNumber, STEPS, "drawn_records": |done, lent, said| if said[0] == 7 && lacks_room(done) {
        done.refuse(lent, said, 8);
    };
    /// Room is tested before what is enabled.
    RoomBeforeEnabled, RUNS, "full": |done, lent, said| if said[0] == 6 && lacks_room(done) {
        done.refuse(lent, said, 8);
    };
    /// Room is tested before who has crashed.
    RoomBeforeCrashed, STEPS, "drawn_records": |done, lent, said| {
        let others = usize::from(done.sizes.proposers - 1);
        if done.code == RECEIVE && said[0] == 5 && done.free() < others {
            done.refuse(lent, said, 8);
        }
    };
    /// Room for answers is tested before the acceptor that has crashed.
    RoomBeforeAddressee, STEPS, "drawn_records": |done, lent, said| {
        if let (Some(proposal), 5) = (done.delivered(PROPOSAL), said[0]) {
            let accepted = done.acceptor(proposal.addressee).accepted;
            if accepted & !proposal.set == 0 && done.free() < done.sizes.learners.into() {
                done.refuse(lent, said, 8);
            }
        }
    };
    /// Argument b is not looked at where it must be 0.
    TakesAnyB, RUNS, "wild": |done, lent, said| {
        if (DELIVER..=DECIDE).contains(&done.code) && said[0] == 3 && done.b != 0 {
            let first = Done { before: done.before, b: 0, ..*done };
            first.redo(lent, said, |_| ());
        }
    };
    /// Takes the scan one past the last.
    TakesScansPastTheLast, RUNS, "wild": |done, lent, said| {
        let scans = done.sizes.scans;
        if done.code == RECEIVE && said[0] == 3 && done.b == scans.into() {
            let sizes = Sizes { scans: scans + 1, ..done.sizes };
            Done { sizes, ..*done }.redo(lent, said, |_| ());
        }
    };
    /// Does not take the last scan.
    RefusesScanBelowS, RUNS, "edges": |done, lent, said| {
        if done.code == RECEIVE && done.b + 1 == done.sizes.scans.into() {
            done.refuse(lent, said, 3);
        }
    };
    /// Does not take the last proposer.
    RefusesProposerBelowP, RUNS, "calm": |done, lent, said| {
        if done.code == PROPOSE && done.a + 1 == done.sizes.proposers.into() {
            done.refuse(lent, said, 3);
        }
    };
    /// Does not take the last slot.
    RefusesSlotBelowM, RUNS, "full": |done, lent, said| {
        if done.code == DELIVER && done.a + 1 == done.sizes.slots.into() {
            done.refuse(lent, said, 3);
        }
    };
    /// A Drop of a free slot is ok.
    DropsFreeSlots, RUNS, "lossy": |done, _lent, said| if done.code == DROP && said[0] == 4 {
        said.fill(0);
    };
    /// Code 9 is ok.
    TakesCodeNine, RUNS, "wild": |done, _lent, said| if done.code == 9 {
        said.fill(0);
    };
    /// An argument past every size is tested before the code.
    ArgumentBeforeCode, STEPS, "codes": |done, lent, said| {
        if said[0] == 2 && done.a >= done.sizes.slots.into() {
            done.refuse(lent, said, 3);
        }
    };
    /// A message to a proposer that has crashed is not dropped.
    DropTestsAddressee, RUNS, "crashes": |done, lent, said| if is_for_crashed(done, DROP) && is_ok(said) {
        done.refuse(lent, said, 5);
    };
    /// A message to a proposer that has crashed is not copied.
    DuplicateTestsAddressee, STEPS, "drawn_records": |done, lent, said| {
        if is_for_crashed(done, DUPLICATE) && is_ok(said) {
            done.refuse(lent, said, 5);
        }
    };
    /// A proposer that has crashed is told scans.
    TellsTheCrashed, RUNS, "crashes": |done, lent, said| if said[0] == 5 {
        if let Some(message) = done.delivered(INTERNAL) {
            lent.proposers.lent_mut()[usize::from(message.addressee)].buffered |= message.set;
            lent.slots.lent_mut()[done.a] = Message::FREE;
            said.fill(0);
        }
    };
}
