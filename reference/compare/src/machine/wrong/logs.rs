//! Machines that do every event truly and say something else.

use reference::machine::DECIDE;

use super::spoilt::is_ok;

/// Whether a log says learnt.
fn is_learnt(said: &[u64]) -> bool {
    (256..512).contains(&said[0])
}

/// Whether a log says decided.
fn is_decided(said: &[u64]) -> bool {
    said[0] >= 512
}

faults! {
    /// Does not say that a set was learnt.
    LearnsSilently, RUNS, "calm": |_done, _lent, said| if is_learnt(said) {
        said.fill(0);
    };
    /// Does not say that a set was decided.
    DecidesSilently, RUNS, "calm": |_done, _lent, said| if is_decided(said) {
        said.fill(0);
    };
    /// Says learnt for decided.
    SaysLearntForDecided, RUNS, "calm": |_done, _lent, said| if is_decided(said) {
        said[0] -= 256;
    };
    /// Says that learner 0 learnt, whoever it was.
    SaysLearnerZero, RUNS, "calm": |_done, _lent, said| if is_learnt(said) {
        said[0] = 256;
    };
    /// Says that proposer 0 decided, whoever it was.
    SaysProposerZero, RUNS, "contention": |_done, _lent, said| if is_decided(said) {
        said[0] = 512;
    };
    /// Says 32 bits of a set.
    SaysHalfTheSet, RUNS, "calm": |_done, _lent, said| said[1] &= 0xffff_ffff;
    /// Says what was decided before.
    SaysTheSetBefore, RUNS, "calm": |done, _lent, said| {
        if let (DECIDE, true, Some(was)) = (done.code, is_ok(said), done.proposer()) {
            said[1] = was.decided;
        }
    };
    /// Leaves a set in the log of an ok.
    LeavesASetWithOk, RUNS, "calm": |_done, _lent, said| if said[0] == 0 {
        said[1] = 1;
    };
    /// Leaves a set in the log of a refusal.
    LeavesASetWithRefusals, RUNS, "wild": |_done, _lent, said| if !is_ok(said) {
        said[1] = 1;
    };
    /// Says 6 for every refusal.
    SaysOneRefusal, RUNS, "wild": |_done, _lent, said| if !is_ok(said) {
        said[0] = 6;
    };
}
