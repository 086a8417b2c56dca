use super::*;
use crate::machine::{self, Acceptor, Heard, Learner, Message, Proposer, Records};
use crate::rng::Rng;

/// How many random records are compared with the step machine.
const DRAWN: u64 = 20_000;

const ALIVE: [u8; 9] = [1, 0, 0, 0, 0, 0, 0, 0, 0];

fn set_of(scans: &[u64]) -> [u8; 8] {
    layout::set_bytes(scans.iter().fold(0, |set, scan| set | 1 << scan))
}

#[test]
fn the_clock_leaves_the_cell_on_a_refusal() {
    let mut time = 7;
    assert_eq!(clock(5, 4_294_967_290, 10, &mut time), Err(9));
    assert_eq!(time, 7);
    assert_eq!(clock(5, 4_294_967_290, 1_000, &mut time), Ok(()));
    assert_eq!(time, 989);
}

#[test]
fn the_shelf_question_reads_the_table_first() {
    let table = [2, 5, 9, 1, 100, 5, 8, 1, 99];
    let mut found = [7; 4];
    assert_eq!(where_is(&table[..8], &[], u64::MAX, &mut found), Err(11));
    assert_eq!(where_is(&table, &[0; 7], 5, &mut found), Err(3));
    assert_eq!(where_is(&table, &[0; 9], 5, &mut found), Err(3));
    assert_eq!(where_is(&table, &set_of(&[2]), 5, &mut found), Err(3));
    assert_eq!(where_is(&table, &set_of(&[]), 1 << 32, &mut found), Err(3));
    let mut followed = table.to_vec();
    followed.push(0);
    assert_eq!(where_is(&followed, &[], 5, &mut found), Err(13));
    assert_eq!(found, [7; 4]);
    assert_eq!(where_is(&table, &set_of(&[0, 1]), 5, &mut found), Ok(()));
    assert_eq!(found, [1, 0, 9, 100]);
    assert_eq!(where_is(&table, &set_of(&[1]), 5, &mut found), Ok(()));
    assert_eq!(found, [1, 1, 8, 99]);
    assert_eq!(where_is(&table, &set_of(&[0, 1]), 6, &mut found), Ok(()));
    assert_eq!(found, [0; 4]);
}

#[test]
fn an_acceptor_answers() {
    let mut kept = ALIVE;
    let mut reply = [7; 9];
    assert_eq!(
        answer_proposal(3, &mut kept, &set_of(&[0]), &mut reply),
        Ok(())
    );
    assert_eq!((kept, reply), ([1, 1, 0, 0, 0, 0, 0, 0, 0], kept));
    assert_eq!(
        answer_proposal(3, &mut kept, &set_of(&[1]), &mut reply),
        Ok(())
    );
    assert_eq!(kept, [1, 3, 0, 0, 0, 0, 0, 0, 0]);
    assert_eq!(reply, [0, 3, 0, 0, 0, 0, 0, 0, 0]);
}

#[test]
fn an_acceptor_is_tested_1_then_3_then_5() {
    let mut reply = [7; 9];
    let cases: [(u64, &[u8], &[u8], Refusal); 10] = [
        (0, &[0; 9], &[9; 8], 1),
        (65, &[0; 9], &[9; 8], 1),
        (3, &[2, 0, 0, 0, 0, 0, 0, 0, 0], &[9; 8], 1),
        (3, &[1, 8, 0, 0, 0, 0, 0, 0, 0], &[0; 8], 1),
        (3, &[0; 8], &[0; 8], 1),
        (3, &[], &[0; 8], 1),
        (3, &[0; 9], &[9; 8], 3),
        (3, &[0; 9], &[0; 7], 3),
        (3, &[0; 9], &[], 3),
        (3, &[0; 9], &[7, 0, 0, 0, 0, 0, 0, 0], 5),
    ];
    for (scans, before, set, refusal) in cases {
        let mut kept = before.to_vec();
        let answer = answer_proposal(scans, &mut kept, set, &mut reply);
        assert_eq!(answer, Err(refusal));
        assert_eq!(kept, before);
    }
    assert_eq!(reply, [7; 9]);
}

#[test]
fn two_acknowledgements_of_one_number_are_learnt() {
    let mut kept = [0; 31];
    kept[0] = 1;
    let mut learns = 7;
    let set = set_of(&[0, 2]);
    let heard = Acknowledgement {
        proposer: 1,
        acceptor: 0,
        number: 4,
        set: &set,
    };
    let run = (2, 3, 3);
    assert_eq!(hear(run, &mut kept, &heard, &mut learns), Ok(()));
    assert_eq!(learns, 0);
    let repeated = hear(run, &mut kept, &heard, &mut learns);
    assert_eq!((repeated, learns), (Ok(()), 0));
    let second = Acknowledgement {
        acceptor: 2,
        ..heard
    };
    assert_eq!(hear(run, &mut kept, &second, &mut learns), Ok(()));
    assert_eq!(learns, 1);
    assert_eq!(kept[..9], [1, 5, 0, 0, 0, 0, 0, 0, 0]);
    assert_eq!(kept[20..], [4, 0, 5, 0, 0, 0, 0, 0, 0, 0, 5]);
    assert_eq!(hear(run, &mut kept, &second, &mut learns), Ok(()));
    assert_eq!(learns, 0);
}

#[test]
fn a_learner_is_tested_1_then_3_then_5() {
    let set = set_of(&[0]);
    let good = Acknowledgement {
        proposer: 0,
        acceptor: 0,
        number: 1,
        set: &set,
    };
    let mut learns = 7;
    let mut crashed = [0; 20];
    let mut refused = |run, heard| {
        let answer = hear(run, &mut crashed, &heard, &mut learns);
        assert_eq!((crashed, learns), ([0; 20], 7));
        answer
    };
    let wrong = Acknowledgement { number: 0, ..good };
    for run in [(0, 1, 1), (9, 1, 1), (2, 1, 1), (1, 0, 1), (1, 8, 1)] {
        assert_eq!(refused(run, wrong), Err(1));
    }
    assert_eq!(refused((1, 1, 0), wrong), Err(1));
    assert_eq!(refused((1, 1, 65), wrong), Err(1));
    let run = (1, 1, 1);
    for heard in [
        Acknowledgement {
            proposer: 1,
            ..good
        },
        Acknowledgement {
            acceptor: 1,
            ..good
        },
        wrong,
        Acknowledgement {
            number: 1_001,
            ..good
        },
        Acknowledgement {
            number: 65_537,
            ..good
        },
        Acknowledgement {
            set: &set[..7],
            ..good
        },
        Acknowledgement {
            set: &[2, 0, 0, 0, 0, 0, 0, 0],
            ..good
        },
    ] {
        assert_eq!(refused(run, heard), Err(3));
    }
    assert_eq!(refused(run, good), Err(5));
}

/// Sizes that end in the bits of one in range, and the greatest.
const WIDE: [u64; 4] = [65_600, 65_536 + 3, (1 << 32) + 64, u64::MAX];

#[test]
fn a_size_of_more_than_16_bits_is_refused_1() {
    let set = set_of(&[0]);
    let mut learner = [0; 42];
    learner[0] = 1;
    let heard = Acknowledgement {
        proposer: 2,
        acceptor: 2,
        number: 1,
        set: &set,
    };
    for wide in WIDE {
        let mut kept = ALIVE;
        let mut reply = [7; 9];
        let answer = answer_proposal(wide, &mut kept, &set, &mut reply);
        assert_eq!((answer, kept, reply), (Err(1), ALIVE, [7; 9]));
        for run in [(wide, 3, 3), (3, wide, 3), (3, 3, wide)] {
            let mut kept = learner;
            let mut learns = 7;
            let answer = hear(run, &mut kept, &heard, &mut learns);
            assert_eq!((answer, kept, learns), (Err(1), learner, 7));
        }
        for (a, s) in [(wide, 3), (3, wide)] {
            let mut kept = [0; 38];
            kept[0] = 1;
            let before = kept;
            assert_eq!(buffer(a, s, &mut kept, &set), Err(1));
            assert_eq!(acknowledged(a, s, &mut kept, 2, 1), Err(1));
            assert_eq!(rejected(a, s, &mut kept, 2, 1, &set), Err(1));
            assert_eq!(propose(a, s, &mut kept), Err(1));
            assert_eq!(refine(a, s, &mut kept), Err(1));
            assert_eq!(decide(a, s, &mut kept), Err(1));
            assert_eq!(kept, before);
        }
    }
}

#[test]
fn the_text_needs_its_whole_length() {
    let schedule = [1, 1, 1, 16, 1, 0];
    let mut text = [0xaa; 11];
    let mut length = 77;
    assert_eq!(run_text(&mut text[..9], &schedule, &mut length), Err(8));
    assert_eq!((text, length), ([0xaa; 11], 77));
    assert_eq!(run_text(&mut text, &schedule, &mut length), Ok(()));
    assert_eq!((&text[..], length), (&b"end 0 0 0\n\xaa"[..], 10));
    let mut refused = [0xaa; 20];
    assert_eq!(run_text(&mut refused, &[], &mut length), Ok(()));
    assert_eq!((&refused[..], length), (&b"schedule refused 11\n"[..], 20));
    assert_eq!(run_text(&mut refused[1..], &[], &mut length), Err(8));
}

/// Records of a run of one proposer, one acceptor and one learner among the
/// sizes, and a table of free slots.
struct Run {
    records: Records,
    slots: Vec<Message>,
}

impl Run {
    fn fresh(sizes: &Sizes) -> Run {
        let mut slots = vec![Message::FREE; sizes.m as usize];
        let records = machine::fresh(sizes, &mut slots).unwrap();
        Run { records, slots }
    }

    /// Delivers a message.
    fn deliver(&mut self, message: Message) -> Result<(), Refusal> {
        self.slots[0] = message;
        self.event(machine::DELIVER)
    }

    /// The event with arguments 0 and 0.
    fn event(&mut self, code: u64) -> Result<(), Refusal> {
        let event = Event { code, a: 0, b: 0 };
        machine::step(&mut self.records, &mut self.slots, &event).map(|_| ())
    }
}

fn random_sizes(rng: &mut Rng) -> Sizes {
    Sizes {
        p: rng.within(1, 8),
        a: rng.within(1, 7),
        l: 1,
        m: 16,
        s: rng.within(1, 64),
    }
}

fn random_set(rng: &mut Rng, s: u64) -> u64 {
    let all = u64::MAX >> (64 - s);
    match rng.below(4) {
        0 => 0,
        1 => all,
        2 => rng.draw() & rng.draw() & all,
        _ => rng.draw() & all,
    }
}

fn random_acceptors(rng: &mut Rng, a: u64) -> u32 {
    (rng.draw() as u32) & ((1 << a) - 1)
}

fn random_number(rng: &mut Rng) -> u32 {
    match rng.below(4) {
        0 => rng.below(4) as u32,
        1 => 1_000 - rng.below(2) as u32,
        _ => rng.below(1_001) as u32,
    }
}

fn random_proposer(rng: &mut Rng, sizes: &Sizes) -> Proposer {
    let number = random_number(rng);
    Proposer {
        alive: !rng.one_in(8),
        active: number > 0 && rng.one_in(2),
        buffered: random_set(rng, sizes.s),
        proposed: random_set(rng, sizes.s),
        gathered: random_set(rng, sizes.s),
        number,
        acknowledged: random_acceptors(rng, sizes.a),
        rejected: random_acceptors(rng, sizes.a),
        decided: random_set(rng, sizes.s),
    }
}

/// The proposer's rules do what the events do that send and deliver.
#[test]
fn proposers_do_as_in_the_step_machine() {
    let rng = &mut Rng::new(21);
    for _ in 0..DRAWN {
        let sizes = random_sizes(rng);
        let (a, s) = (sizes.a, sizes.s);
        let before = random_proposer(rng, &sizes);
        let acceptor = rng.below(sizes.a);
        let number = match rng.one_in(2) {
            true => u64::from(before.number).max(1),
            false => rng.within(1, 1_000),
        };
        let set = random_set(rng, sizes.s);
        let bytes = layout::set_bytes(set);
        let mut kept = layout::proposer_bytes(&before);
        let mut run = Run::fresh(&sizes);
        run.records.proposers[0] = before;
        let answer = Message {
            kind: machine::ACKNOWLEDGEMENT,
            acceptor: acceptor as u32,
            number: number as u32,
            set,
            ..Message::FREE
        };
        let (called, stepped) = match rng.below(6) {
            0 => (
                buffer(a, s, &mut kept, &bytes),
                run.deliver(Message {
                    kind: machine::INTERNAL,
                    set,
                    ..Message::FREE
                }),
            ),
            1 => (
                acknowledged(a, s, &mut kept, acceptor, number),
                run.deliver(answer),
            ),
            2 => (
                rejected(a, s, &mut kept, acceptor, number, &bytes),
                run.deliver(Message {
                    kind: machine::REJECTION,
                    ..answer
                }),
            ),
            3 => (propose(a, s, &mut kept), run.event(machine::PROPOSE)),
            4 => (refine(a, s, &mut kept), run.event(machine::REFINE)),
            _ => (decide(a, s, &mut kept), run.event(machine::DECIDE)),
        };
        assert_eq!(called, stepped);
        assert_eq!(kept, layout::proposer_bytes(&run.records.proposers[0]));
    }
}

#[test]
fn acceptors_do_as_in_the_step_machine() {
    let rng = &mut Rng::new(22);
    for _ in 0..DRAWN {
        let sizes = random_sizes(rng);
        let before = Acceptor {
            alive: !rng.one_in(8),
            accepted: random_set(rng, sizes.s),
        };
        let set = random_set(rng, sizes.s);
        let mut kept = layout::acceptor_bytes(&before);
        let mut reply = [7; 9];
        let mut run = Run::fresh(&sizes);
        run.records.acceptors[0] = before;
        let bytes = layout::set_bytes(set);
        let called = answer_proposal(sizes.s, &mut kept, &bytes, &mut reply);
        let stepped = run.deliver(Message {
            kind: machine::PROPOSAL,
            number: 1,
            set,
            ..Message::FREE
        });
        assert_eq!(called, stepped);
        assert_eq!(kept, layout::acceptor_bytes(&run.records.acceptors[0]));
        let sent = run.slots[0];
        let told = match sent.kind {
            machine::ACKNOWLEDGEMENT => layout::flagged_bytes(true, sent.set),
            machine::REJECTION => layout::flagged_bytes(false, sent.set),
            _ => [7; 9],
        };
        assert_eq!(reply, told);
    }
}

#[test]
fn learners_do_as_in_the_step_machine() {
    let rng = &mut Rng::new(23);
    for _ in 0..DRAWN {
        let sizes = random_sizes(rng);
        let mut before = Learner {
            alive: !rng.one_in(8),
            learnt: random_set(rng, sizes.s),
            ..Learner::default()
        };
        for place in &mut before.heard[..sizes.p as usize] {
            *place = Heard {
                number: random_number(rng),
                set: random_set(rng, sizes.s),
                acceptors: random_acceptors(rng, sizes.a),
            };
        }
        let proposer = rng.below(sizes.p);
        let acceptor = rng.below(sizes.a);
        let number = match rng.one_in(2) {
            true => u64::from(before.heard[proposer as usize].number).max(1),
            false => rng.within(1, 1_000),
        };
        let set = random_set(rng, sizes.s);
        let mut kept = vec![0; layout::learner_length(sizes.p)];
        layout::put_learner(&mut kept, &before);
        let mut learns = 7;
        let mut run = Run::fresh(&sizes);
        run.records.learners[0] = before;
        let heard = Acknowledgement {
            proposer,
            acceptor,
            number,
            set: &layout::set_bytes(set),
        };
        let parties = (sizes.p, sizes.a, sizes.s);
        let called = hear(parties, &mut kept, &heard, &mut learns);
        let stepped = run.deliver(Message {
            kind: machine::ACKNOWLEDGEMENT_TO_LEARNER,
            addressee: 0,
            proposer: proposer as u32,
            acceptor: acceptor as u32,
            number: number as u32,
            set,
        });
        assert_eq!(called, stepped);
        let after = run.records.learners[0];
        let mut stored = kept.clone();
        layout::put_learner(&mut stored, &after);
        assert_eq!(kept, stored);
        match called {
            Ok(()) => assert_eq!(learns, u8::from(after.learnt != before.learnt)),
            Err(_) => assert_eq!(learns, 7),
        }
    }
}
