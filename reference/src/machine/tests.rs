use super::*;
use crate::rng::Rng;

fn sizes(p: u64, a: u64, l: u64, m: u64, s: u64) -> Sizes {
    Sizes { p, a, l, m, s }
}

fn event(code: u64, a: u64, b: u64) -> Event {
    Event { code, a, b }
}

/// A run: records and their slots.
#[derive(Clone, Debug, PartialEq, Eq)]
struct Run {
    records: Records,
    slots: Vec<Message>,
}

impl Run {
    fn fresh(sizes: Sizes) -> Run {
        let mut slots = vec![Message::FREE; sizes.m as usize];
        let records = fresh(&sizes, &mut slots).unwrap();
        Run { records, slots }
    }

    /// One step; a refusal is seen to change nothing, and records that were
    /// within their ranges stay so.
    fn step(&mut self, code: u64, a: u64, b: u64) -> Result<Outcome, Refusal> {
        let before = self.clone();
        let result = step(&mut self.records, &mut self.slots, &event(code, a, b));
        match result {
            Ok(_) => assert_eq!(self.test(), Ok(())),
            Err(_) => assert_eq!(*self, before),
        }
        result
    }

    fn ok(&mut self, code: u64, a: u64, b: u64) {
        assert_eq!(self.step(code, a, b), Ok(Outcome::Done));
    }

    fn test(&self) -> Result<(), Refusal> {
        test_records(&self.records, &self.slots)
    }

    fn kinds(&self) -> Vec<u32> {
        self.slots.iter().map(|slot| slot.kind).collect()
    }

    fn free(&self) -> usize {
        self.slots.iter().filter(|slot| slot.kind == FREE).count()
    }

    /// Fills every free slot with an internal message to proposer 0.
    fn fill(&mut self) {
        for slot in &mut self.slots {
            if slot.kind == FREE {
                *slot = internal(0, 1);
            }
        }
    }
}

fn internal(addressee: u32, set: u64) -> Message {
    Message {
        kind: INTERNAL,
        addressee,
        set,
        ..Message::FREE
    }
}

fn proposal(addressee: u32, proposer: u32, number: u32, set: u64) -> Message {
    Message {
        kind: PROPOSAL,
        addressee,
        proposer,
        acceptor: 0,
        number,
        set,
    }
}

fn acknowledgement(addressee: u32, acceptor: u32, number: u32, set: u64) -> Message {
    Message {
        kind: ACKNOWLEDGEMENT,
        addressee,
        proposer: 0,
        acceptor,
        number,
        set,
    }
}

fn rejection(addressee: u32, acceptor: u32, number: u32, set: u64) -> Message {
    Message {
        kind: REJECTION,
        ..acknowledgement(addressee, acceptor, number, set)
    }
}

fn to_learner(addressee: u32, proposer: u32, acceptor: u32, number: u32, set: u64) -> Message {
    Message {
        kind: ACKNOWLEDGEMENT_TO_LEARNER,
        addressee,
        proposer,
        acceptor,
        number,
        set,
    }
}

// Fresh.

#[test]
fn fresh_frees_every_slot_and_tests_only_the_sizes_and_the_length() {
    let garbage = Message {
        kind: 77,
        addressee: 9,
        proposer: 9,
        acceptor: 9,
        number: 9,
        set: u64::MAX,
    };
    let mut slots = vec![garbage; 17];
    assert_eq!(fresh(&sizes(1, 1, 1, 16, 1), &mut slots), Err(1));
    assert_eq!(fresh(&sizes(1, 1, 1, 18, 1), &mut slots), Err(1));
    assert_eq!(fresh(&sizes(9, 1, 1, 17, 1), &mut slots), Err(1));
    assert_eq!(slots, vec![garbage; 17]);
    let records = fresh(&sizes(2, 3, 4, 17, 5), &mut slots).unwrap();
    assert_eq!(slots, vec![Message::FREE; 17]);
    assert_eq!(test_records(&records, &slots), Ok(()));
    for (place, proposer) in records.proposers.iter().enumerate() {
        let expected = Proposer {
            alive: place < 2,
            ..Proposer::default()
        };
        assert_eq!(*proposer, expected);
    }
    for (place, acceptor) in records.acceptors.iter().enumerate() {
        assert_eq!((acceptor.alive, acceptor.accepted), (place < 3, 0));
    }
    for (place, learner) in records.learners.iter().enumerate() {
        assert_eq!((learner.alive, learner.learnt), (place < 4, 0));
        assert_eq!(learner.heard, [Heard::default(); 8]);
    }
}

// Refusal 1.

#[test]
fn sizes_and_the_table_length() {
    let mut run = Run::fresh(sizes(8, 7, 8, 512, 64));
    assert_eq!(run.test(), Ok(()));
    run.slots.pop();
    assert_eq!(run.test(), Err(1));
    run.records.sizes.m = 511;
    assert_eq!(run.test(), Ok(()));
    run.records.sizes.p = 9;
    assert_eq!(run.test(), Err(1));
    assert_eq!(run.step(9, u64::MAX, u64::MAX), Err(1));
    run.records.sizes.p = u64::MAX;
    assert_eq!(run.step(1, 0, 0), Err(1));
}

/// Whether a change to a run of P = 2, A = 3, L = 2, M = 16, S = 4 leaves all
/// fields within their ranges.
fn within(change: impl Fn(&mut Run)) -> bool {
    let mut run = Run::fresh(sizes(2, 3, 2, 16, 4));
    change(&mut run);
    let result = run.test();
    let unknown = run.step(9, 0, 0);
    assert_eq!(unknown, Err(if result.is_ok() { 2 } else { 1 }));
    result.is_ok()
}

#[test]
fn proposer_fields() {
    assert!(within(|run| run.records.proposers[1].buffered = 0b1111));
    assert!(!within(|run| run.records.proposers[1].buffered = 0b10000));
    assert!(!within(|run| run.records.proposers[1].proposed = 0b10000));
    assert!(!within(|run| run.records.proposers[1].gathered = 0b10000));
    assert!(!within(|run| run.records.proposers[1].decided = 1 << 63));
    assert!(within(|run| run.records.proposers[1].acknowledged = 0b111));
    assert!(!within(|run| run.records.proposers[1].acknowledged = 0b1000));
    assert!(within(|run| run.records.proposers[0].rejected = 0b111));
    assert!(!within(|run| run.records.proposers[0].rejected = 1 << 31));
    assert!(within(|run| run.records.proposers[0].number = 1_000));
    assert!(!within(|run| run.records.proposers[0].number = 1_001));
    assert!(!within(|run| run.records.proposers[0].active = true));
    assert!(within(|run| {
        run.records.proposers[0].active = true;
        run.records.proposers[0].number = 1;
    }));
    assert!(!within(|run| {
        run.records.proposers[0].active = true;
        run.records.proposers[0].alive = false;
    }));
    assert!(within(|run| {
        run.records.proposers[0].gathered = 0b1;
        run.records.proposers[0].rejected = 0b1;
    }));
}

#[test]
fn acceptor_and_learner_fields() {
    assert!(within(|run| run.records.acceptors[2].accepted = 0b1111));
    assert!(!within(|run| run.records.acceptors[2].accepted = 0b10000));
    assert!(within(|run| run.records.learners[1].learnt = 0b1111));
    assert!(!within(|run| run.records.learners[1].learnt = 0b10000));
    assert!(within(|run| run.records.learners[1].heard[1].number = 1_000));
    assert!(!within(
        |run| run.records.learners[1].heard[1].number = 1_001
    ));
    assert!(within(|run| run.records.learners[0].heard[0].set = 0b1111));
    assert!(!within(|run| run.records.learners[0].heard[0].set = 0b10000));
    assert!(within(
        |run| run.records.learners[0].heard[0].acceptors = 0b111
    ));
    assert!(!within(
        |run| run.records.learners[0].heard[0].acceptors = 0b1000
    ));
}

#[test]
fn places_past_the_parties_are_no_records() {
    assert!(within(|run| run.records.proposers[2].buffered = u64::MAX));
    assert!(within(|run| run.records.acceptors[3].accepted = u64::MAX));
    assert!(within(|run| run.records.learners[2].learnt = u64::MAX));
    assert!(within(|run| run.records.learners[1].heard[2].number = 5_000));
}

#[test]
fn slot_fields() {
    let slot = |message: Message| within(|run| run.slots[15] = message);
    assert!(slot(Message::FREE));
    for kind in [6, 7, 256, u32::MAX] {
        assert!(!slot(Message {
            kind,
            ..Message::FREE
        }));
    }
    for message in [
        Message {
            addressee: 1,
            ..Message::FREE
        },
        Message {
            proposer: 1,
            ..Message::FREE
        },
        Message {
            acceptor: 1,
            ..Message::FREE
        },
        Message {
            number: 1,
            ..Message::FREE
        },
        Message {
            set: 1,
            ..Message::FREE
        },
    ] {
        assert!(!slot(message));
    }

    assert!(slot(internal(1, 0b1111)));
    assert!(slot(internal(1, 0)));
    assert!(!slot(internal(2, 1)));
    assert!(!slot(internal(1, 0b10000)));
    for message in [
        Message {
            proposer: 1,
            ..internal(1, 1)
        },
        Message {
            acceptor: 1,
            ..internal(1, 1)
        },
        Message {
            number: 1,
            ..internal(1, 1)
        },
    ] {
        assert!(!slot(message));
    }

    assert!(slot(proposal(2, 1, 1, 0b1111)));
    assert!(slot(proposal(2, 1, 1_000, 0)));
    assert!(!slot(proposal(3, 1, 1, 1)));
    assert!(!slot(proposal(2, 2, 1, 1)));
    assert!(!slot(proposal(2, 1, 0, 1)));
    assert!(!slot(proposal(2, 1, 1_001, 1)));
    assert!(!slot(proposal(2, 1, 1, 0b10000)));
    assert!(!slot(Message {
        acceptor: 1,
        ..proposal(2, 1, 1, 1)
    }));

    for make in [acknowledgement, rejection] {
        assert!(slot(make(1, 2, 1, 0b1111)));
        assert!(!slot(make(2, 2, 1, 1)));
        assert!(!slot(make(1, 3, 1, 1)));
        assert!(!slot(make(1, 2, 0, 1)));
        assert!(!slot(make(1, 2, 1_001, 1)));
        assert!(!slot(make(1, 2, 1, 0b10000)));
        assert!(!slot(Message {
            proposer: 1,
            ..make(1, 2, 1, 1)
        }));
    }

    assert!(slot(to_learner(1, 1, 2, 1_000, 0b1111)));
    assert!(!slot(to_learner(2, 1, 2, 1, 1)));
    assert!(!slot(to_learner(1, 2, 2, 1, 1)));
    assert!(!slot(to_learner(1, 1, 3, 1, 1)));
    assert!(!slot(to_learner(1, 1, 2, 0, 1)));
    assert!(!slot(to_learner(1, 1, 2, 1_001, 1)));
    assert!(!slot(to_learner(1, 1, 2, 1, 0b10000)));
}

// Refusals 2 and 3.

#[test]
fn codes_and_arguments() {
    let mut run = Run::fresh(sizes(2, 3, 4, 16, 5));
    for code in [0, 9, 65_536, 1 << 32, u64::MAX] {
        assert_eq!(run.step(code, u64::MAX, u64::MAX), Err(2));
    }
    assert_eq!(run.step(RECEIVE, 2, 0), Err(3));
    assert_eq!(run.step(RECEIVE, 0, 5), Err(3));
    assert_eq!(run.step(RECEIVE, 1 << 32, 0), Err(3));
    assert_eq!(run.step(RECEIVE, 0, 1 << 32), Err(3));
    for code in DELIVER..=DUPLICATE {
        assert_eq!(run.step(code, 15, 0), Err(4));
        assert_eq!(run.step(code, 16, 0), Err(3));
        assert_eq!(run.step(code, 15, 1), Err(3));
        assert_eq!(run.step(code, 1 << 32, 0), Err(3));
    }
    for code in PROPOSE..=DECIDE {
        assert_eq!(run.step(code, 1, 0), Err(6));
        assert_eq!(run.step(code, 2, 0), Err(3));
        assert_eq!(run.step(code, 1, 1), Err(3));
        assert_eq!(run.step(code, 1, u64::MAX), Err(3));
    }
    for (role, count) in [(PROPOSER, 2), (ACCEPTOR, 3), (LEARNER, 4)] {
        assert_eq!(run.step(CRASH, role, count), Err(3));
        assert_eq!(run.step(CRASH, role, u64::MAX), Err(3));
        assert_eq!(run.clone().step(CRASH, role, count - 1), Ok(Outcome::Done));
    }
    for role in [0, 4, 1 << 32, u64::MAX] {
        assert_eq!(run.step(CRASH, role, 0), Err(3));
    }
}

#[test]
fn the_highest_scan() {
    let mut run = Run::fresh(sizes(1, 1, 1, 16, 64));
    run.ok(RECEIVE, 0, 63);
    assert_eq!(run.records.proposers[0].buffered, 1 << 63);
    assert_eq!(run.step(RECEIVE, 0, 64), Err(3));
}

// Receive.

#[test]
fn receive_sends_to_every_other_proposer_crashed_ones_too() {
    let mut run = Run::fresh(sizes(4, 1, 1, 16, 3));
    run.ok(CRASH, PROPOSER, 3);
    run.slots[1] = internal(0, 1);
    run.ok(RECEIVE, 1, 2);
    assert_eq!(run.records.proposers[1].buffered, 0b100);
    assert_eq!(
        run.slots[..5],
        [
            internal(0, 0b100),
            internal(0, 1),
            internal(2, 0b100),
            internal(3, 0b100),
            Message::FREE
        ]
    );
    run.ok(RECEIVE, 1, 2);
    assert_eq!(run.records.proposers[1].buffered, 0b100);
    assert_eq!(run.free(), 9);
    assert_eq!(run.step(RECEIVE, 3, 0), Err(5));
}

#[test]
fn receive_needs_a_slot_for_each_other_proposer() {
    let mut run = Run::fresh(sizes(3, 1, 1, 16, 1));
    run.fill();
    assert_eq!(run.step(RECEIVE, 0, 0), Err(8));
    run.slots[9] = Message::FREE;
    assert_eq!(run.step(RECEIVE, 0, 0), Err(8));
    run.records.proposers[0].alive = false;
    assert_eq!(run.step(RECEIVE, 0, 0), Err(5));
    run.records.proposers[0].alive = true;
    run.slots[4] = Message::FREE;
    run.ok(RECEIVE, 0, 0);
    assert_eq!(
        (run.slots[4], run.slots[9]),
        (internal(1, 1), internal(2, 1))
    );
    let mut alone = Run::fresh(sizes(1, 1, 1, 16, 1));
    alone.fill();
    alone.ok(RECEIVE, 0, 0);
}

// Deliver.

#[test]
fn deliver_internal() {
    let mut run = Run::fresh(sizes(2, 1, 1, 16, 3));
    run.records.proposers[1].buffered = 0b001;
    run.slots[3] = internal(1, 0b110);
    run.ok(DELIVER, 3, 0);
    assert_eq!(run.records.proposers[1].buffered, 0b111);
    assert_eq!(run.free(), 16);
    assert_eq!(run.step(DELIVER, 3, 0), Err(4));
}

#[test]
fn an_acceptable_proposal_is_acknowledged() {
    let mut run = Run::fresh(sizes(2, 3, 2, 16, 2));
    run.records.acceptors[2].accepted = 0b01;
    run.slots[0] = internal(0, 1);
    run.slots[4] = proposal(2, 1, 7, 0b01);
    run.ok(DELIVER, 4, 0);
    assert_eq!(run.records.acceptors[2].accepted, 0b01);
    assert_eq!(
        run.slots[..5],
        [
            internal(0, 1),
            acknowledgement(1, 2, 7, 0b01),
            to_learner(0, 1, 2, 7, 0b01),
            to_learner(1, 1, 2, 7, 0b01),
            Message::FREE
        ]
    );
    run.slots[4] = proposal(2, 0, 1, 0b11);
    run.ok(DELIVER, 4, 0);
    assert_eq!(run.records.acceptors[2].accepted, 0b11);
    assert_eq!(run.slots[4], acknowledgement(0, 2, 1, 0b11));
}

#[test]
fn another_proposal_is_rejected_with_the_joined_set() {
    let mut run = Run::fresh(sizes(2, 3, 2, 16, 2));
    run.records.acceptors[1].accepted = 0b01;
    run.slots[0] = proposal(1, 1, 7, 0b10);
    run.ok(DELIVER, 0, 0);
    assert_eq!(run.records.acceptors[1].accepted, 0b11);
    assert_eq!(run.slots[0], rejection(1, 1, 7, 0b11));
    assert_eq!(run.free(), 15);
    run.slots[0] = proposal(1, 1, 8, 0b10);
    run.fill();
    run.ok(DELIVER, 0, 0);
    assert_eq!(run.records.acceptors[1].accepted, 0b11);
    assert_eq!(run.slots[0], rejection(1, 1, 8, 0b11));
}

#[test]
fn a_full_table_refuses_an_acceptable_proposal() {
    let mut run = Run::fresh(sizes(1, 1, 8, 16, 1));
    run.slots[5] = proposal(0, 0, 1, 1);
    run.fill();
    assert_eq!(run.step(DELIVER, 5, 0), Err(8));
    for slot in 8..15 {
        run.slots[slot] = Message::FREE;
    }
    assert_eq!(run.step(DELIVER, 5, 0), Err(8));
    run.slots[15] = Message::FREE;
    run.ok(DELIVER, 5, 0);
    assert_eq!(run.free(), 0);
    assert_eq!(run.slots[5].kind, ACKNOWLEDGEMENT);
    assert_eq!(run.slots[8], to_learner(0, 0, 0, 1, 1));
    assert_eq!(run.slots[15], to_learner(7, 0, 0, 1, 1));
}

#[test]
fn deliver_to_a_crashed_addressee() {
    let mut run = Run::fresh(sizes(2, 2, 2, 16, 1));
    run.records.proposers[1].alive = false;
    run.records.acceptors[1].alive = false;
    run.records.learners[1].alive = false;
    let to_crashed = [
        internal(1, 1),
        proposal(1, 0, 1, 1),
        acknowledgement(1, 0, 1, 1),
        rejection(1, 0, 1, 1),
        to_learner(1, 0, 0, 1, 1),
    ];
    for message in to_crashed {
        run.slots[0] = message;
        assert_eq!(run.step(DELIVER, 0, 0), Err(5));
        run.ok(DUPLICATE, 0, 0);
        run.ok(DROP, 0, 0);
        run.ok(DROP, 1, 0);
    }
    run.slots[0] = proposal(1, 0, 1, 1);
    run.fill();
    assert_eq!(run.step(DELIVER, 0, 0), Err(5));
    let mut from_crashed = Run::fresh(sizes(2, 2, 2, 16, 1));
    from_crashed.records.proposers[1].alive = false;
    from_crashed.slots[0] = proposal(0, 1, 1, 1);
    from_crashed.ok(DELIVER, 0, 0);
    from_crashed.records.acceptors[0].alive = false;
    assert_eq!(from_crashed.slots[1], to_learner(0, 1, 0, 1, 1));
    from_crashed.ok(DELIVER, 1, 0);
}

/// A proposer that is active with number 5, A = 3.
fn active() -> Run {
    let mut run = Run::fresh(sizes(1, 3, 1, 16, 4));
    run.records.proposers[0].active = true;
    run.records.proposers[0].number = 5;
    run.records.proposers[0].proposed = 0b0001;
    run
}

#[test]
fn answers_count_only_while_active_and_current() {
    for (is_active, number, counts) in [
        (true, 5, true),
        (true, 4, false),
        (true, 6, false),
        (false, 5, false),
    ] {
        let mut run = active();
        run.records.proposers[0].active = is_active;
        let before = run.records;
        run.slots[0] = acknowledgement(0, 2, number, 0b1000);
        run.slots[1] = rejection(0, 1, number, 0b0110);
        run.ok(DELIVER, 0, 0);
        run.ok(DELIVER, 1, 0);
        assert_eq!(run.free(), 16);
        let mut expected = before;
        if counts {
            expected.proposers[0].acknowledged = 0b100;
            expected.proposers[0].rejected = 0b010;
            expected.proposers[0].gathered = 0b0110;
        }
        assert_eq!(run.records, expected);
    }
}

#[test]
fn the_same_acknowledgement_twice_is_one_acceptor() {
    let mut run = active();
    run.slots[0] = acknowledgement(0, 1, 5, 1);
    run.ok(DUPLICATE, 0, 0);
    run.ok(DELIVER, 0, 0);
    run.ok(DELIVER, 1, 0);
    assert_eq!(run.records.proposers[0].acknowledged, 0b010);
    assert_eq!(run.step(DECIDE, 0, 0), Err(6));
    run.slots[0] = acknowledgement(0, 0, 5, 1);
    run.ok(DELIVER, 0, 0);
    assert_eq!(
        run.step(DECIDE, 0, 0),
        Ok(Outcome::Decided {
            proposer: 0,
            set: 1
        })
    );
}

#[test]
fn a_learner_follows_one_number_per_proposer() {
    let mut run = Run::fresh(sizes(2, 3, 2, 16, 4));
    let mut deliver = |message: Message| {
        run.slots[7] = message;
        let result = run.step(DELIVER, 7, 0).unwrap();
        (result, run.records.learners[1])
    };

    let (result, learner) = deliver(to_learner(1, 1, 0, 3, 0b0001));
    assert_eq!(result, Outcome::Done);
    let first = Heard {
        number: 3,
        set: 0b0001,
        acceptors: 0b001,
    };
    assert_eq!(
        (learner.heard[0], learner.heard[1]),
        (Heard::default(), first)
    );

    let (result, learner) = deliver(to_learner(1, 1, 0, 3, 0b0001));
    assert_eq!((result, learner.heard[1]), (Outcome::Done, first));

    let (result, learner) = deliver(to_learner(1, 1, 1, 2, 0b0001));
    assert_eq!((result, learner.heard[1]), (Outcome::Done, first));

    let (result, learner) = deliver(to_learner(1, 1, 1, 4, 0b0011));
    let second = Heard {
        number: 4,
        set: 0b0011,
        acceptors: 0b010,
    };
    assert_eq!((result, learner.heard[1]), (Outcome::Done, second));
    assert_eq!(learner.learnt, 0);

    let (result, learner) = deliver(to_learner(1, 1, 2, 4, 0b1111));
    let third = Heard {
        acceptors: 0b110,
        ..second
    };
    assert_eq!(learner.heard[1], third);
    assert_eq!(learner.learnt, 0b0011);
    assert_eq!(
        result,
        Outcome::Learnt {
            learner: 1,
            set: 0b0011
        }
    );

    let (result, learner) = deliver(to_learner(1, 1, 0, 4, 0b0011));
    assert_eq!((result, learner.learnt), (Outcome::Done, 0b0011));
    assert_eq!(learner.heard[1].acceptors, 0b111);

    let (_, learner) = deliver(to_learner(1, 0, 0, 1, 0b0001));
    assert_eq!(learner.heard[0].acceptors, 0b001);
    let (result, learner) = deliver(to_learner(1, 0, 1, 1, 0b0001));
    assert_eq!((result, learner.learnt), (Outcome::Done, 0b0011));

    deliver(to_learner(1, 0, 0, 2, 0b0110));
    let (result, learner) = deliver(to_learner(1, 0, 1, 2, 0b0110));
    assert_eq!((result, learner.learnt), (Outcome::Done, 0b0011));

    deliver(to_learner(1, 0, 2, 9, 0b0111));
    let (result, learner) = deliver(to_learner(1, 0, 0, 9, 0b0111));
    assert_eq!(learner.learnt, 0b0111);
    assert_eq!(
        result,
        Outcome::Learnt {
            learner: 1,
            set: 0b0111
        }
    );
    assert_eq!(run.records.learners[0].learnt, 0);
}

#[test]
fn a_majority_held_before_learns_on_the_next_that_is_not_lower() {
    let mut run = Run::fresh(sizes(1, 3, 1, 16, 4));
    run.records.learners[0].heard[0] = Heard {
        number: 3,
        set: 0b0011,
        acceptors: 0b111,
    };
    run.slots[0] = to_learner(0, 0, 0, 2, 0b1111);
    run.ok(DELIVER, 0, 0);
    assert_eq!(run.records.learners[0].learnt, 0);
    run.slots[0] = to_learner(0, 0, 0, 3, 0b1111);
    assert_eq!(
        run.step(DELIVER, 0, 0),
        Ok(Outcome::Learnt {
            learner: 0,
            set: 0b0011
        })
    );
}

// Drop and Duplicate.

#[test]
fn drop_frees_the_slot() {
    let mut run = Run::fresh(sizes(1, 1, 1, 16, 1));
    run.fill();
    run.ok(DROP, 11, 0);
    assert_eq!(run.slots[11], Message::FREE);
    assert_eq!(run.free(), 1);
    assert_eq!(run.step(DROP, 11, 0), Err(4));
}

#[test]
fn duplicate_copies_to_the_lowest_free_slot() {
    let mut run = Run::fresh(sizes(1, 1, 1, 16, 1));
    let copied = proposal(0, 0, 3, 1);
    run.slots[0] = internal(0, 1);
    run.slots[2] = copied;
    run.ok(DUPLICATE, 2, 0);
    assert_eq!(run.kinds()[..4], [INTERNAL, PROPOSAL, PROPOSAL, FREE]);
    assert_eq!((run.slots[1], run.slots[2]), (copied, copied));
    run.fill();
    assert_eq!(run.step(DUPLICATE, 2, 0), Err(8));
}

// Propose, Refine and Decide.

#[test]
fn propose_sends_to_every_acceptor() {
    let mut run = Run::fresh(sizes(2, 3, 1, 16, 4));
    run.records.acceptors[1].alive = false;
    run.records.proposers[1] = Proposer {
        alive: true,
        active: false,
        buffered: 0b0110,
        proposed: 0b0001,
        gathered: 0b1000,
        number: 4,
        acknowledged: 0b011,
        rejected: 0b100,
        decided: 0b0001,
    };
    run.slots[1] = internal(0, 1);
    run.ok(PROPOSE, 1, 0);
    assert_eq!(
        run.records.proposers[1],
        Proposer {
            alive: true,
            active: true,
            buffered: 0,
            proposed: 0b0111,
            gathered: 0,
            number: 5,
            acknowledged: 0,
            rejected: 0,
            decided: 0b0001,
        }
    );
    assert_eq!(
        run.slots[..5],
        [
            proposal(0, 1, 5, 0b0111),
            internal(0, 1),
            proposal(1, 1, 5, 0b0111),
            proposal(2, 1, 5, 0b0111),
            Message::FREE
        ]
    );
    run.records.proposers[1].buffered = 1;
    assert_eq!(run.step(PROPOSE, 1, 0), Err(6));
}

#[test]
fn propose_refuses_5_then_6_then_7_then_8() {
    let mut run = Run::fresh(sizes(1, 3, 1, 16, 1));
    run.fill();
    run.slots[0] = Message::FREE;
    run.slots[1] = Message::FREE;
    run.records.proposers[0].number = 1_000;
    run.records.proposers[0].alive = false;
    assert_eq!(run.step(PROPOSE, 0, 0), Err(5));
    run.records.proposers[0].alive = true;
    assert_eq!(run.step(PROPOSE, 0, 0), Err(6));
    run.records.proposers[0].buffered = 1;
    assert_eq!(run.step(PROPOSE, 0, 0), Err(7));
    run.records.proposers[0].number = 999;
    assert_eq!(run.step(PROPOSE, 0, 0), Err(8));
    run.slots[2] = Message::FREE;
    run.ok(PROPOSE, 0, 0);
    assert_eq!(run.records.proposers[0].number, 1_000);
    assert_eq!(run.slots[2], proposal(2, 0, 1_000, 1));
}

#[test]
fn propose_of_what_is_proposed_already() {
    let mut run = Run::fresh(sizes(1, 1, 1, 16, 1));
    run.records.proposers[0].buffered = 1;
    run.records.proposers[0].proposed = 1;
    run.ok(PROPOSE, 0, 0);
    assert_eq!(run.records.proposers[0].number, 1);
}

#[test]
fn refine_counts_each_acceptor_once() {
    let mut run = active();
    run.records.proposers[0].acknowledged = 0b010;
    run.records.proposers[0].rejected = 0b010;
    assert_eq!(run.step(REFINE, 0, 0), Err(6));
    run.records.proposers[0].acknowledged = 0b110;
    run.records.proposers[0].rejected = 0b000;
    assert_eq!(run.step(REFINE, 0, 0), Err(6));
    run.records.proposers[0].acknowledged = 0b100;
    run.records.proposers[0].rejected = 0b010;
    run.records.proposers[0].gathered = 0b0110;
    run.records.proposers[0].buffered = 0b1000;
    let mut passive = run.clone();
    passive.records.proposers[0].active = false;
    assert_eq!(passive.step(REFINE, 0, 0), Err(6));
    run.ok(REFINE, 0, 0);
    assert_eq!(
        run.records.proposers[0],
        Proposer {
            alive: true,
            active: true,
            buffered: 0b1000,
            proposed: 0b0111,
            gathered: 0,
            number: 6,
            acknowledged: 0,
            rejected: 0,
            decided: 0,
        }
    );
    assert_eq!(run.slots[0], proposal(0, 0, 6, 0b0111));
    assert_eq!(run.slots[2], proposal(2, 0, 6, 0b0111));
    assert_eq!(run.free(), 13);
}

#[test]
fn refine_refuses_5_then_6_then_7_then_8() {
    let mut run = active();
    run.fill();
    run.slots[3] = Message::FREE;
    run.records.proposers[0].number = 1_000;
    run.records.proposers[0].alive = false;
    assert_eq!(run.step(REFINE, 0, 0), Err(5));
    run.records.proposers[0].alive = true;
    assert_eq!(run.step(REFINE, 0, 0), Err(6));
    run.records.proposers[0].rejected = 0b011;
    assert_eq!(run.step(REFINE, 0, 0), Err(7));
    run.records.proposers[0].number = 999;
    assert_eq!(run.step(REFINE, 0, 0), Err(8));
    run.slots[4] = Message::FREE;
    run.slots[5] = Message::FREE;
    run.ok(REFINE, 0, 0);
    assert_eq!(run.records.proposers[0].number, 1_000);
}

#[test]
fn decide_gives_proposed_without_gathered() {
    let mut run = active();
    run.records.proposers[0].buffered = 0b1000;
    run.slots[0] = acknowledgement(0, 0, 5, 0b0001);
    run.slots[1] = acknowledgement(0, 1, 5, 0b0001);
    run.slots[2] = rejection(0, 2, 5, 0b0101);
    for slot in 0..3 {
        run.ok(DELIVER, slot, 0);
    }
    let before = run.records;
    assert_eq!(
        run.step(DECIDE, 0, 0),
        Ok(Outcome::Decided {
            proposer: 0,
            set: 0b0001
        })
    );
    let mut expected = before;
    expected.proposers[0].decided = 0b0001;
    expected.proposers[0].active = false;
    assert_eq!(run.records, expected);
    assert_eq!(run.step(DECIDE, 0, 0), Err(6));
    assert_eq!(run.step(REFINE, 0, 0), Err(6));
}

#[test]
fn decide_needs_a_majority_of_acknowledgements() {
    for (a, least) in [(1, 1), (2, 2), (3, 2), (7, 4)] {
        let mut run = Run::fresh(sizes(1, a, 1, 16, 1));
        run.records.proposers[0].active = true;
        run.records.proposers[0].number = 1_000;
        run.records.proposers[0].rejected = (1 << a) - 1;
        run.records.proposers[0].acknowledged = (1 << (least - 1)) - 1;
        assert_eq!(run.step(DECIDE, 0, 0), Err(6));
        run.records.proposers[0].acknowledged = (1 << least) - 1;
        run.records.proposers[0].alive = false;
        assert_eq!(run.step(DECIDE, 0, 0), Err(5));
        run.records.proposers[0].alive = true;
        run.fill();
        assert_eq!(
            run.step(DECIDE, 0, 0),
            Ok(Outcome::Decided {
                proposer: 0,
                set: 0
            })
        );
    }
}

// Crash.

#[test]
fn crash_changes_alive_alone() {
    let mut run = active();
    let mut expected = run.clone();
    for role in [PROPOSER, ACCEPTOR, LEARNER] {
        run.ok(CRASH, role, 0);
        assert_eq!(run.step(CRASH, role, 0), Err(5));
        match role {
            PROPOSER => expected.records.proposers[0].alive = false,
            ACCEPTOR => expected.records.acceptors[0].alive = false,
            _ => expected.records.learners[0].alive = false,
        }
        assert_eq!(run, expected);
    }
    for code in PROPOSE..=DECIDE {
        assert_eq!(run.step(code, 0, 0), Err(5));
    }
    assert_eq!(run.step(RECEIVE, 0, 0), Err(5));
}

// Whole runs.

#[test]
fn run_tests_once_and_reports_each_event() {
    let mut run = Run::fresh(sizes(2, 1, 1, 16, 2));
    let events = [
        event(1, 0, 0),
        event(5, 0, 0),
        event(2, 1, 0),
        event(7, 0, 0),
        event(2, 2, 0),
        event(2, 1, 0),
        event(7, 0, 0),
    ];
    let mut reported = Vec::new();
    let counts = super::run(
        &mut run.records,
        &mut run.slots,
        &events,
        |place, result| reported.push((place, result)),
    );
    assert_eq!(counts, Ok(Counts { ok: 6, refused: 1 }));
    let done = Ok(Outcome::Done);
    let learnt = Ok(Outcome::Learnt { learner: 0, set: 1 });
    let decided = Ok(Outcome::Decided {
        proposer: 0,
        set: 1,
    });
    assert_eq!(
        reported,
        [
            (1, done),
            (2, done),
            (3, done),
            (4, Err(6)),
            (5, learnt),
            (6, done),
            (7, decided)
        ]
    );

    run.slots[15].kind = 6;
    let before = run.clone();
    let refused = super::run(&mut run.records, &mut run.slots, &events, |_, _| {
        panic!("nothing is reported")
    });
    assert_eq!(refused, Err(1));
    assert_eq!(run, before);
}

/// An event that is often ok: mostly Deliver of an occupied slot.
fn drawn_event(rng: &mut Rng, run: &Run) -> Event {
    let sizes = run.records.sizes;
    let occupied: Vec<u64> = (0..sizes.m)
        .filter(|slot| run.slots[*slot as usize].kind != FREE)
        .collect();
    let slot = if occupied.is_empty() || rng.one_in(30) {
        rng.below(sizes.m + 1)
    } else {
        occupied[rng.below(occupied.len() as u64) as usize]
    };
    let proposer = rng.below(sizes.p);
    match rng.below(100) {
        0..=9 => event(RECEIVE, proposer, rng.below(sizes.s)),
        10..=61 => event(DELIVER, slot, 0),
        62..=65 => event(DROP, slot, 0),
        66..=69 => event(DUPLICATE, slot, 0),
        70..=79 => event(PROPOSE, proposer, 0),
        80..=87 => event(REFINE, proposer, 0),
        88..=97 => event(DECIDE, proposer, 0),
        98 if rng.one_in(6) => event(CRASH, rng.within(1, 3), rng.below(8)),
        _ => event(rng.below(10), rng.below(20), rng.below(3)),
    }
}

#[test]
fn drawn_runs_stay_within_their_ranges_and_learn_one_chain() {
    let mut rng = Rng::new(2);
    let mut learnt_sets = 0;
    let mut decided_sets = 0;
    let mut refusals = [0; 14];
    for _ in 0..150 {
        let sizes = Sizes {
            p: rng.within(1, 8),
            a: rng.within(1, 7),
            l: rng.within(1, 8),
            m: [16, 24, 64, 512][rng.below(4) as usize],
            s: rng.within(1, 64),
        };
        let mut run = Run::fresh(sizes);
        let mut chain = Vec::new();
        for _ in 0..600 {
            let drawn = drawn_event(&mut rng, &run);
            let mut tested = run.clone();
            let result = run.step(drawn.code, drawn.a, drawn.b);
            let same = step_tested(&mut tested.records, &mut tested.slots, &drawn);
            assert_eq!(same, result);
            assert_eq!(tested, run);
            match result {
                Ok(Outcome::Done) => {}
                Ok(Outcome::Learnt { learner, set }) => {
                    assert_eq!(run.records.learners[learner as usize].learnt, set);
                    chain.push(set);
                    learnt_sets += 1;
                }
                Ok(Outcome::Decided { proposer, set }) => {
                    assert_eq!(run.records.proposers[proposer as usize].decided, set);
                    chain.push(set);
                    decided_sets += 1;
                }
                Err(refusal) => refusals[refusal as usize] += 1,
            }
        }
        for left in &chain {
            for right in &chain {
                assert!(scans::contained(*left, *right) || scans::contained(*right, *left));
            }
        }
    }
    assert!(learnt_sets > 100 && decided_sets > 100);
    for refusal in [2, 3, 4, 5, 6, 8] {
        assert!(refusals[refusal] > 0);
    }
}
