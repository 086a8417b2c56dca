use super::*;
use crate::machine::{step, Outcome};
use crate::schedule::test_sizes;
use crate::sets::scans;

/// How many schedules of each style are looked at, and how long they are.
const SCHEDULES: u64 = 200;
const EVENTS: usize = 100;

/// What happens in schedules.
#[derive(Debug, Default)]
struct Tally {
    learnt: u64,
    decided: u64,
    /// Schedules in which nothing was learnt, and nothing decided.
    learnt_nothing: u64,
    decided_nothing: u64,
    /// Events that were ok, by code.
    ok: [u64; 9],
    /// Refused events, by number.
    refused: [u64; 9],
    /// Answers to a proposer that was passive or at another number.
    late: u64,
    /// Proposals that were rejected.
    rejected: u64,
    /// Learnt or decided after a party crashed.
    after_crash: u64,
}

impl Tally {
    fn of(style: Style) -> Tally {
        let rng = &mut Rng::new(21);
        let mut tally = Tally::default();
        for _ in 0..SCHEDULES {
            let (sizes, events) = generate(rng, style, EVENTS);
            assert_eq!(test_sizes(&sizes), Ok(()));
            assert_eq!(events.len(), EVENTS);
            tally.add(&sizes, &events);
        }
        println!("{style:?} {tally:?}");
        tally
    }

    fn add(&mut self, sizes: &Sizes, events: &[Event]) {
        let (learnt, decided) = (self.learnt, self.decided);
        let mut slots = vec![Message::FREE; sizes.m as usize];
        let mut records = machine::fresh(sizes, &mut slots).unwrap();
        let mut chain = Vec::new();
        let mut crashed = false;
        for event in events {
            for number in [event.code, event.a, event.b] {
                assert!(number <= SCHEDULE_LIMIT);
            }
            let late = event.code == DELIVER && is_late(&records, &slots, event.a);
            let rejections = count_of(&slots, REJECTION);
            let result = step(&mut records, &mut slots, event);
            match result {
                Err(refusal) => self.refused[refusal as usize] += 1,
                Ok(_) => {
                    self.ok[event.code as usize] += 1;
                    crashed |= event.code == CRASH;
                    self.late += u64::from(late);
                    if event.code == DELIVER && count_of(&slots, REJECTION) > rejections {
                        self.rejected += 1;
                    }
                }
            }
            match result {
                Ok(Outcome::Learnt { set, .. }) => {
                    self.learnt += 1;
                    self.after_crash += u64::from(crashed);
                    chain.push(set);
                }
                Ok(Outcome::Decided { set, .. }) => {
                    self.decided += 1;
                    self.after_crash += u64::from(crashed);
                    chain.push(set);
                }
                _ => {}
            }
        }
        for left in &chain {
            for right in &chain {
                assert!(scans::contained(*left, *right) || scans::contained(*right, *left));
            }
        }
        self.learnt_nothing += u64::from(self.learnt == learnt);
        self.decided_nothing += u64::from(self.decided == decided);
    }

    fn all_ok(&self) -> u64 {
        self.ok.iter().sum()
    }

    fn all_refused(&self) -> u64 {
        self.refused.iter().sum()
    }
}

fn count_of(slots: &[Message], kind: u32) -> usize {
    slots.iter().filter(|slot| slot.kind == kind).count()
}

/// Whether the slot holds an answer that comes too late for its proposer.
fn is_late(records: &Records, slots: &[Message], slot: u64) -> bool {
    let message = match slots.get(slot as usize) {
        Some(message) if [ACKNOWLEDGEMENT, REJECTION].contains(&message.kind) => message,
        _ => return false,
    };
    let proposer = &records.proposers[message.addressee as usize];
    !proposer.active || proposer.number != message.number
}

#[test]
fn calm_runs_learn_and_decide() {
    let tally = Tally::of(Style::Calm);
    assert!(tally.learnt_nothing <= SCHEDULES / 50);
    assert!(tally.decided_nothing <= SCHEDULES / 50);
    assert!(tally.learnt >= 5 * SCHEDULES && tally.decided >= 3 * SCHEDULES);
    assert!(tally.all_refused() < tally.all_ok() / 20);
}

#[test]
fn contending_proposers_are_rejected_and_refine() {
    let tally = Tally::of(Style::Contention);
    assert!(tally.learnt_nothing <= SCHEDULES / 10);
    assert!(tally.decided_nothing <= SCHEDULES / 10);
    assert!(tally.rejected >= 3 * SCHEDULES);
    assert!(tally.ok[REFINE as usize] >= SCHEDULES / 2);
    assert!(tally.late >= SCHEDULES);
}

#[test]
fn lossy_runs_lose_copy_and_deliver_late() {
    let tally = Tally::of(Style::Lossy);
    assert!(tally.learnt_nothing <= SCHEDULES / 5);
    assert!(tally.ok[DROP as usize] >= 4 * SCHEDULES);
    assert!(tally.ok[DUPLICATE as usize] >= 5 * SCHEDULES);
    assert!(tally.late >= SCHEDULES);
    assert!(tally.decided >= SCHEDULES && tally.learnt >= SCHEDULES);
}

#[test]
fn runs_go_on_after_crashes() {
    let tally = Tally::of(Style::Crashes);
    assert!(tally.ok[CRASH as usize] >= SCHEDULES);
    assert!(tally.refused[5] >= SCHEDULES);
    assert!(tally.after_crash >= SCHEDULES);
}

#[test]
fn full_tables_refuse_and_go_on() {
    let tally = Tally::of(Style::Full);
    assert!(tally.refused[8] >= 5 * SCHEDULES);
    assert!(tally.learnt_nothing <= SCHEDULES / 4);
    assert!(tally.learnt >= 2 * SCHEDULES && tally.decided >= SCHEDULES);
}

#[test]
fn sizes_at_their_edges() {
    let tally = Tally::of(Style::Edges);
    assert!(tally.learnt_nothing <= SCHEDULES / 3);
    for refusal in 2..=8 {
        assert_eq!(tally.refused[refusal] > 0, refusal != 7);
    }
    let rng = &mut Rng::new(22);
    let sizes: Vec<Sizes> = (0..SCHEDULES).map(|_| Style::Edges.sizes(rng)).collect();
    for m in [LEAST_M, LEAST_M + 1, GREATEST_M - 1, GREATEST_M] {
        assert!(sizes.iter().any(|sizes| sizes.m == m));
    }
    for s in [1, 2, GREATEST_S - 1, GREATEST_S] {
        assert!(sizes.iter().any(|sizes| sizes.s == s));
    }
}

#[test]
fn wild_runs_are_mostly_refused() {
    let tally = Tally::of(Style::Wild);
    assert!(tally.all_refused() > tally.all_ok());
    assert!(tally.refused[2] >= 10 * SCHEDULES && tally.refused[3] >= 10 * SCHEDULES);
    assert!(tally.learnt >= SCHEDULES / 2);
}

#[test]
fn every_style_does_every_event_but_some_crashes() {
    for (name, style) in STYLES {
        let tally = Tally::of(style);
        for code in RECEIVE..CRASH {
            assert!(tally.ok[code as usize] > 0, "{name}, code {code}");
        }
    }
}

#[test]
fn the_same_seed_gives_the_same_schedule() {
    for (name, style) in STYLES {
        assert_eq!(Style::named(name), Some(style));
        let first = generate(&mut Rng::new(5), style, EVENTS);
        assert_eq!(generate(&mut Rng::new(5), style, EVENTS), first);
        assert_ne!(generate(&mut Rng::new(6), style, EVENTS), first);
    }
    assert_eq!(Style::named("Calm"), None);
    assert_eq!(Style::named(""), None);
}

#[test]
fn long_runs_do_not_stall() {
    for (name, style) in STYLES {
        let (sizes, events) = generate(&mut Rng::new(7), style, 4_096);
        let mut halves = [Tally::default(), Tally::default()];
        halves[0].add(&sizes, &events[..2_048]);
        halves[1].add(&sizes, &events);
        // Acceptors that crash may leave every proposer waiting.
        if style != Style::Crashes {
            assert!(halves[1].decided > halves[0].decided, "{name}");
        }
    }
}
