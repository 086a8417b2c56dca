//! Changes of the second program after which it does the same for every input.
//! Beside each stands why.

use reference::machine::{DUPLICATE, PROPOSAL, PROPOSE, REFINE};

use super::spoilt::is_ok;

faults! {
    /// A Duplicate tests room before the slot is free: a free slot is room.
    DuplicateTestsRoomFirst, RUNS, "full": |done, lent, said| {
        if done.code == DUPLICATE && said[0] == 4 && done.free() == 0 {
            done.refuse(lent, said, 8);
        }
    };
    /// A proposal that is rejected tests room: the slot that it frees is room.
    RejectionTestsRoom, RUNS, "full": |done, lent, said| {
        let is_answered = is_ok(said) && done.delivered(PROPOSAL).is_some();
        if is_answered && done.free() + 1 < done.sent(lent).len() {
            done.refuse(lent, said, 8);
        }
    };
    /// An acceptor that accepts joins the set to its own: its own is contained
    /// in it.
    AcceptorJoins, RUNS, "calm": |done, lent, said| {
        if let (Some(proposal), true) = (done.delivered(PROPOSAL), is_ok(said)) {
            let was = done.acceptor(proposal.addressee).accepted;
            let accepted = &mut lent.acceptors.lent_mut()[usize::from(proposal.addressee)].accepted;
            if *accepted == proposal.set {
                *accepted |= was;
            }
        }
    };
    /// The number is tested for being 1,000, not for being less: a greater one
    /// is outside its range.
    TestsNumberByEquality, STEPS, "numbers_about_1000": |done, lent, said| {
        let number = done.proposer().map_or(0, |was| was.number);
        if [PROPOSE, REFINE].contains(&done.code) && said[0] == 7 && number != 1_000 {
            done.refuse(lent, said, 8);
        }
    };
}
