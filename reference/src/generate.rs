//! Random schedules that make progress. Events are drawn along a run of the
//! machine: most are useful, which is to say not refused; how many are not,
//! and what becomes of messages, is a matter of style.

use crate::machine::{
    self, Message, Records, ACCEPTOR, ACKNOWLEDGEMENT, ACKNOWLEDGEMENT_TO_LEARNER, CRASH, DECIDE,
    DELIVER, DROP, DUPLICATE, FREE, INTERNAL, LEARNER, PROPOSAL, PROPOSE, PROPOSER, RECEIVE,
    REFINE, REJECTION,
};
use crate::numbers::SCHEDULE_LIMIT;
use crate::rng::Rng;
use crate::schedule::{
    Event, Sizes, GREATEST_A, GREATEST_L, GREATEST_M, GREATEST_P, GREATEST_S, LEAST_M,
};
use crate::sets::acceptors;

/// What happens in a schedule.
#[derive(Clone, Copy, Debug, PartialEq, Eq)]
pub enum Style {
    /// Few losses.
    Calm,
    /// Several proposers that have not heard of each other's scans.
    Contention,
    /// Drops, duplicates and late deliveries.
    Lossy,
    /// Parties of every role crash.
    Crashes,
    /// 16 slots, most of them taken.
    Full,
    /// Sizes at the ends of their ranges.
    Edges,
    /// Mostly codes and arguments out of range.
    Wild,
}

/// The styles, by name.
pub const STYLES: [(&str, Style); 7] = [
    ("calm", Style::Calm),
    ("contention", Style::Contention),
    ("lossy", Style::Lossy),
    ("crashes", Style::Crashes),
    ("full", Style::Full),
    ("edges", Style::Edges),
    ("wild", Style::Wild),
];

/// How often, of 1,000 events, another than a useful one is drawn, and what
/// becomes of messages: those of one kind at a time are held back for a while.
struct Habits {
    drops: u64,
    duplicates: u64,
    crashes: u64,
    /// Events with arguments within range, drawn without a look at the run.
    blind: u64,
    /// Codes or arguments out of range.
    wild: u64,
    /// A crowded table is given more messages once in so many times.
    patience: u64,
    /// `FREE` stands for a while in which none is held back.
    held: &'static [u32],
}

impl Habits {
    /// Useful events alone, and no message held back.
    const NONE: Habits = Habits {
        drops: 0,
        duplicates: 0,
        crashes: 0,
        blind: 0,
        wild: 0,
        patience: 8,
        held: &[FREE],
    };
}

/// Every kind, and none.
const ANY_KIND: &[u32] = &[
    FREE,
    INTERNAL,
    PROPOSAL,
    ACKNOWLEDGEMENT,
    REJECTION,
    ACKNOWLEDGEMENT_TO_LEARNER,
];

/// How often a useful event is looked for before the run counts as stuck.
const TRIES: u64 = 24;

/// Messages are delivered in one order, and those of one kind held back, for
/// so many events on average.
const WHILE: u64 = 16;

/// How many scans are the newest ones.
const NEWEST: u64 = 4;

/// Codes that are no event's; some are where their low byte is taken for the
/// code.
const OTHER_CODES: [u64; 9] = [0, 9, 10, 11, 255, 256, 257, 258, SCHEDULE_LIMIT];

impl Style {
    /// The style of that name.
    pub fn named(name: &str) -> Option<Style> {
        let found = STYLES.iter().find(|(known, _)| *known == name);
        found.map(|(_, style)| *style)
    }

    /// Sizes for a run in this style.
    pub fn sizes(self, rng: &mut Rng) -> Sizes {
        let (p, a, l, m) = match self {
            Style::Calm => ([1, 3], [1, 5], [1, 3], [32, 96]),
            Style::Contention => ([2, 4], [3, 7], [1, 2], [48, 128]),
            Style::Lossy => ([2, 4], [2, 7], [1, 3], [32, 128]),
            Style::Crashes => ([2, 4], [3, 7], [1, 4], [32, 96]),
            Style::Full => ([2, 5], [1, 5], [1, 5], [LEAST_M, LEAST_M]),
            Style::Edges => return edge_sizes(rng),
            Style::Wild => ([1, 8], [1, 7], [1, 8], [LEAST_M, 64]),
        };
        let mut within = |[least, greatest]: [u64; 2]| rng.within(least, greatest);
        Sizes {
            p: within(p),
            a: within(a),
            l: within(l),
            m: within(m),
            s: within([2, GREATEST_S]),
        }
    }

    fn habits(self) -> Habits {
        match self {
            Style::Calm => Habits {
                drops: 5,
                duplicates: 5,
                blind: 20,
                ..Habits::NONE
            },
            Style::Contention => Habits {
                drops: 5,
                duplicates: 15,
                blind: 40,
                wild: 2,
                held: &[INTERNAL, INTERNAL, INTERNAL, REJECTION, FREE],
                ..Habits::NONE
            },
            Style::Lossy => Habits {
                drops: 80,
                duplicates: 110,
                blind: 40,
                wild: 2,
                held: ANY_KIND,
                ..Habits::NONE
            },
            Style::Crashes => Habits {
                drops: 10,
                duplicates: 10,
                crashes: 25,
                blind: 130,
                wild: 2,
                held: ANY_KIND,
                ..Habits::NONE
            },
            Style::Full => Habits {
                drops: 15,
                duplicates: 160,
                crashes: 2,
                blind: 250,
                wild: 5,
                patience: 1,
                ..Habits::NONE
            },
            Style::Edges => Habits {
                drops: 20,
                duplicates: 30,
                crashes: 4,
                blind: 100,
                wild: 30,
                held: ANY_KIND,
                ..Habits::NONE
            },
            Style::Wild => Habits {
                drops: 5,
                duplicates: 10,
                crashes: 2,
                blind: 100,
                wild: 550,
                ..Habits::NONE
            },
        }
    }
}

/// A schedule in the style: its sizes and so many events.
pub fn generate(rng: &mut Rng, style: Style, events: usize) -> (Sizes, Vec<Event>) {
    let sizes = style.sizes(rng);
    let events = events_on(rng, style, &sizes, events);
    (sizes, events)
}

/// So many events in the style, for a run of sizes within their ranges.
pub fn events_on(rng: &mut Rng, style: Style, sizes: &Sizes, events: usize) -> Vec<Event> {
    let mut course = Course::fresh(rng, style, sizes);
    let event_at = |place: usize| {
        course.scans_out = scans_out_at(sizes, place, events);
        course.next_event()
    };
    (0..events).map(event_at).collect()
}

/// How many scans are out to be received at that place of so many events: one
/// at first, and in the end all.
fn scans_out_at(sizes: &Sizes, place: usize, events: usize) -> u64 {
    1 + sizes.s * place as u64 / events as u64
}

/// Each size at an end of its range or next to it.
fn edge_sizes(rng: &mut Rng) -> Sizes {
    let mut edge = |least: u64, greatest: u64| match rng.below(8) {
        0 => least + 1,
        1 => greatest - 1,
        2..=4 => least,
        _ => greatest,
    };
    Sizes {
        p: edge(1, GREATEST_P),
        a: edge(1, GREATEST_A),
        l: edge(1, GREATEST_L),
        m: edge(LEAST_M, GREATEST_M),
        s: edge(1, GREATEST_S),
    }
}

/// Which of the taken slots is delivered next.
#[derive(Clone, Copy)]
enum Order {
    Lowest,
    Highest,
    Any,
}

/// A run, and how its next event is drawn.
struct Course<'a> {
    rng: &'a mut Rng,
    habits: Habits,
    records: Records,
    slots: Vec<Message>,
    order: Order,
    held: u32,
    scans_out: u64,
}

impl Course<'_> {
    fn fresh<'a>(rng: &'a mut Rng, style: Style, sizes: &Sizes) -> Course<'a> {
        let mut slots = vec![Message::FREE; sizes.m as usize];
        let records = machine::fresh(sizes, &mut slots).expect("the sizes are within their ranges");
        Course {
            rng,
            habits: style.habits(),
            records,
            slots,
            order: Order::Any,
            held: FREE,
            scans_out: sizes.s,
        }
    }

    /// Draws an event and does it.
    fn next_event(&mut self) -> Event {
        if self.rng.one_in(WHILE) {
            self.change_deliveries();
        }
        if let Some(event) = self.draw_other() {
            self.accepts(event);
            return event;
        }
        if let Some(event) = self.do_useful() {
            return event;
        }
        self.held = FREE;
        if let Some(event) = self.do_useful() {
            return event;
        }
        let event = self.unstick();
        self.accepts(event);
        event
    }

    /// Does the event: whether it was ok. A refusal changes nothing.
    fn accepts(&mut self, event: Event) -> bool {
        machine::step_tested(&mut self.records, &mut self.slots, &event).is_ok()
    }

    /// Draws the order of deliveries and the kind that is held back.
    fn change_deliveries(&mut self) {
        self.order = match self.rng.below(4) {
            0 => Order::Lowest,
            1 => Order::Highest,
            _ => Order::Any,
        };
        let held = self.habits.held;
        self.held = held[self.rng.below(held.len() as u64) as usize];
    }

    // Useful events.

    /// Draws events until one is ok, which is done then.
    fn do_useful(&mut self) -> Option<Event> {
        for _ in 0..TRIES {
            let done = match self.rng.below(16) {
                0 => self.do_receipt(),
                1..=6 => self.do_turn(),
                _ => self.do_delivery(),
            };
            if done.is_some() {
                return done;
            }
        }
        None
    }

    /// Does the first of the events that is ok.
    fn do_first_of<const N: usize>(&mut self, events: [Event; N]) -> Option<Event> {
        events.into_iter().find(|event| self.accepts(*event))
    }

    /// A scan is received, mostly where there is room for more messages.
    fn do_receipt(&mut self) -> Option<Event> {
        if self.is_crowded() && !self.rng.one_in(self.habits.patience) {
            return None;
        }
        let receive = self.receive();
        self.do_first_of([receive])
    }

    /// Whether more than a quarter of the slots are taken.
    fn is_crowded(&self) -> bool {
        let taken = self.slots.iter().filter(|slot| slot.kind != FREE);
        4 * taken.count() > self.slots.len()
    }

    /// Any proposer receives any of the scans that are out, half of the time
    /// one of the newest.
    fn receive(&mut self) -> Event {
        let out = self.scans_out.min(self.records.sizes.s);
        let newest = out.saturating_sub(NEWEST);
        Event {
            code: RECEIVE,
            a: self.rng.below(self.records.sizes.p),
            b: match self.rng.one_in(2) {
                true => self.rng.within(newest, out - 1),
                false => self.rng.below(out),
            },
        }
    }

    /// A proposer decides, refines or proposes, as it can.
    fn do_turn(&mut self) -> Option<Event> {
        let a = self.rng.below(self.records.sizes.p);
        let of = |code: u64| Event { code, a, b: 0 };
        match self.rng.one_in(3) {
            true => self.do_first_of([of(REFINE), of(DECIDE), of(PROPOSE)]),
            false => self.do_first_of([of(DECIDE), of(REFINE), of(PROPOSE)]),
        }
    }

    /// Delivers the next message that is not held back.
    fn do_delivery(&mut self) -> Option<Event> {
        let m = self.slots.len();
        let held = self.held;
        let is_next = |slot: &usize| {
            let kind = self.slots[*slot].kind;
            kind != FREE && kind != held
        };
        let next = match self.order {
            Order::Lowest => (0..m).find(is_next),
            Order::Highest => (0..m).rev().find(is_next),
            Order::Any => {
                let first = self.rng.below(m as u64) as usize;
                (first..m).chain(0..first).find(is_next)
            }
        };
        self.do_first_of([of_slot(DELIVER, next?)])
    }

    /// An event for a run in which no useful one was found: a message is lost,
    /// where one may be.
    fn unstick(&mut self) -> Event {
        match self.lost_slot() {
            Some(slot) => of_slot(DROP, slot),
            None => self.receive(),
        }
    }

    // Other events.

    /// As often as the habits say, an event that is not looked for among the
    /// useful ones.
    fn draw_other(&mut self) -> Option<Event> {
        let Habits {
            drops,
            duplicates,
            crashes,
            blind,
            wild,
            ..
        } = self.habits;
        let drawn = self.rng.below(1_000);
        let mut upto = drops;
        if drawn < upto {
            return self.lost_slot().map(|slot| of_slot(DROP, slot));
        }
        upto += duplicates;
        if drawn < upto {
            return Some(of_slot(DUPLICATE, self.taken_slot()?));
        }
        upto += crashes;
        if drawn < upto {
            return self.crash();
        }
        upto += blind;
        if drawn < upto {
            return Some(self.blind());
        }
        upto += wild;
        if drawn < upto {
            return Some(self.wild());
        }
        None
    }

    /// A taken slot, if there is one.
    fn taken_slot(&mut self) -> Option<usize> {
        let mut slots = self.any_order();
        slots.find(|slot| self.slots[*slot].kind != FREE)
    }

    /// A taken slot whose message may be lost, if there is one.
    fn lost_slot(&mut self) -> Option<usize> {
        let mut slots = self.any_order();
        slots.find(|slot| self.slots[*slot].kind != FREE && !self.is_awaited(*slot))
    }

    /// All slots, from any of them on.
    fn any_order(&mut self) -> impl Iterator<Item = usize> {
        let m = self.slots.len();
        let first = self.rng.below(m as u64) as usize;
        (first..m).chain(0..first)
    }

    /// Whether a proposer would wait for ever for a majority of answers to its
    /// proposal without the slot's message.
    fn is_awaited(&self, slot: usize) -> bool {
        let (index, _) = match self.answer_of(slot) {
            Some(answer) => answer,
            None => return false,
        };
        let proposer = &self.records.proposers[index];
        let mut answers = acceptors::union(proposer.acknowledged, proposer.rejected);
        for other in (0..self.slots.len()).filter(|other| *other != slot) {
            match self.answer_of(other) {
                Some((of, acceptor)) if of == index => answers = acceptors::with(answers, acceptor),
                _ => {}
            }
        }
        !acceptors::is_majority(answers, self.records.sizes.a as u32)
    }

    /// The proposer that the slot's message brings, or may bring, an answer to
    /// its proposal, and the acceptor whose answer it is.
    fn answer_of(&self, slot: usize) -> Option<(usize, u32)> {
        let message = &self.slots[slot];
        let (index, acceptor) = match message.kind {
            PROPOSAL if self.records.acceptors[message.addressee as usize].alive => {
                (message.proposer as usize, message.addressee)
            }
            ACKNOWLEDGEMENT | REJECTION => (message.addressee as usize, message.acceptor),
            _ => return None,
        };
        let proposer = &self.records.proposers[index];
        if !proposer.active || proposer.number != message.number {
            return None;
        }
        Some((index, acceptor))
    }

    /// A crash that leaves a proposer, a majority of acceptors and a learner
    /// alive, if the drawn role has one.
    fn crash(&mut self) -> Option<Event> {
        let records = &self.records;
        let (role, alive, least) = match self.rng.below(3) {
            0 => (PROPOSER, living(&records.proposers, |p| p.alive), 1),
            1 => {
                let majority = acceptors::majority(records.sizes.a as u32);
                (ACCEPTOR, living(&records.acceptors, |a| a.alive), majority)
            }
            _ => (LEARNER, living(&records.learners, |l| l.alive), 1),
        };
        if alive.len() <= least as usize {
            return None;
        }
        Some(Event {
            code: CRASH,
            a: role,
            b: alive[self.rng.below(alive.len() as u64) as usize],
        })
    }

    /// Arguments within range, a slot that is mostly taken; a crash of a party
    /// that has crashed already.
    fn blind(&mut self) -> Event {
        let sizes = self.records.sizes;
        match self.rng.within(RECEIVE, CRASH) {
            RECEIVE => self.receive(),
            code @ (DELIVER | DROP | DUPLICATE) => {
                let any = self.rng.below(sizes.m) as usize;
                let slot = match self.rng.one_in(4) {
                    true => any,
                    false => self.taken_slot().unwrap_or(any),
                };
                match code {
                    // A drop is not refused where the slot is taken.
                    DROP if self.slots[slot].kind != FREE => of_slot(DELIVER, slot),
                    code => of_slot(code, slot),
                }
            }
            CRASH => self.second_crash(),
            code => Event {
                code,
                a: self.rng.below(sizes.p),
                b: 0,
            },
        }
    }

    /// A crash of a party that has crashed, if the drawn one has.
    fn second_crash(&mut self) -> Event {
        let sizes = self.records.sizes;
        let a = self.rng.within(PROPOSER, LEARNER);
        let b = match a {
            PROPOSER => self.rng.below(sizes.p),
            ACCEPTOR => self.rng.below(sizes.a),
            _ => self.rng.below(sizes.l),
        };
        let alive = match a {
            PROPOSER => self.records.proposers[b as usize].alive,
            ACCEPTOR => self.records.acceptors[b as usize].alive,
            _ => self.records.learners[b as usize].alive,
        };
        match alive {
            true => of_slot(DELIVER, self.rng.below(sizes.m) as usize),
            false => Event { code: CRASH, a, b },
        }
    }

    /// An event whose code, a or b is out of range.
    fn wild(&mut self) -> Event {
        let sizes = self.records.sizes;
        let code = self.rng.within(RECEIVE, CRASH);
        let (a_count, b_count) = match code {
            RECEIVE => (sizes.p, sizes.s),
            DELIVER | DROP | DUPLICATE => (sizes.m, 1),
            CRASH => (LEARNER + 1, GREATEST_P),
            _ => (sizes.p, 1),
        };
        let a = self.rng.below(a_count);
        let b = self.rng.below(b_count);
        match self.rng.below(3) {
            0 => {
                let place = self.rng.below(OTHER_CODES.len() as u64) as usize;
                let code = OTHER_CODES[place];
                Event { code, a, b }
            }
            1 => {
                let a = self.past(a_count);
                Event { code, a, b }
            }
            _ => {
                let b = self.past(b_count);
                Event { code, a, b }
            }
        }
    }

    /// A schedule's number that is not below the count; some are where their
    /// low byte is taken for the number.
    fn past(&mut self, count: u64) -> u64 {
        let number = match self.rng.below(4) {
            0 | 1 => count,
            2 => 256 * self.rng.within(1, 200) + self.rng.below(count),
            _ => self.rng.below(SCHEDULE_LIMIT + 1),
        };
        number.clamp(count, SCHEDULE_LIMIT)
    }
}

/// The numbers of the parties that are alive. A place past the run's own
/// parties is not.
fn living<T>(parties: &[T], is_alive: fn(&T) -> bool) -> Vec<u64> {
    let alive = (0..).zip(parties).filter(|(_, party)| is_alive(party));
    alive.map(|(number, _)| number).collect()
}

/// The event of that code on a slot.
fn of_slot(code: u64, slot: usize) -> Event {
    Event {
        code,
        a: slot as u64,
        b: 0,
    }
}

#[cfg(test)]
mod tests;
