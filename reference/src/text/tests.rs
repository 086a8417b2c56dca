use super::*;
use crate::generate::{generate, STYLES};
use crate::rng::Rng;

/// The example of document 01, as bytes and as text.
const EXAMPLE: [u8; 27] = [
    0x02, 0x01, 0x01, 0x10, 0x02, 0x07, 0x01, 0x00, 0x00, 0x05, 0x00, 0x00, 0x02, 0x01, 0x00, 0x07,
    0x00, 0x00, 0x02, 0x02, 0x00, 0x02, 0x01, 0x00, 0x07, 0x00, 0x00,
];
const EXAMPLE_TEXT: &str = "sizes proposers 2 acceptors 1 learners 1 slots 16 scans 2\n\
                            receive 0 0\n\
                            propose 0\n\
                            deliver 1\n\
                            decide 0\n\
                            deliver 2\n\
                            deliver 1\n\
                            decide 0\n";

const HEAD: &str = "sizes proposers 1 acceptors 1 learners 1 slots 16 scans 1\n";

/// The error of a text.
fn error(text: &str) -> String {
    assemble(text).unwrap_err().to_string()
}

/// The error of an event's line after the sizes.
fn event_error(line: &str) -> String {
    error(&format!("{HEAD}{line}\n"))
}

#[test]
fn the_example() {
    assert_eq!(disassemble(&EXAMPLE).unwrap(), EXAMPLE_TEXT);
    assert_eq!(assemble(EXAMPLE_TEXT).unwrap(), EXAMPLE);
}

#[test]
fn comments_and_spaces() {
    let text = "# a story\n\
                \n\
                \tsizes  scans 2 slots 16 learners 1 acceptors 1 proposers 2 # any order\n\
                  receive 0 0 # the first scan\n\
                #receive 1 1\n\
                propose 0\r\n\
                deliver 1\ndecide 0\n\n\n  \ndeliver 2#\ndeliver 1\nevent 7 0 0";
    assert_eq!(assemble(text).unwrap(), EXAMPLE);
}

#[test]
fn every_event_by_name() {
    let text = "sizes proposers 8 acceptors 7 learners 8 slots 512 scans 64\n\
                receive 0 3\n\
                deliver 5\n\
                drop 511\n\
                duplicate 6\n\
                propose 1\n\
                refine 2\n\
                decide 3\n\
                crash proposer 1\n\
                crash acceptor 2\n\
                crash learner 65535\n\
                event 9 0 0\n\
                event 0 1 2\n\
                event 2 5 1\n\
                event 8 0 0\n\
                event 8 4 7\n\
                event 65535 65535 65535\n";
    let bytes = assemble(text).unwrap();
    assert_eq!(disassemble(&bytes).unwrap(), text);
    let mut room = [Event::default(); 16];
    let (sizes, e) = schedule::read(&bytes, &mut room).unwrap();
    assert_eq!(
        (sizes.p, sizes.a, sizes.l, sizes.m, sizes.s),
        (8, 7, 8, 512, 64)
    );
    assert_eq!(e, 16);
    let numbers: Vec<_> = room
        .iter()
        .map(|event| (event.code, event.a, event.b))
        .collect();
    let limit = SCHEDULE_LIMIT;
    assert_eq!(
        numbers,
        [
            (1, 0, 3),
            (2, 5, 0),
            (3, 511, 0),
            (4, 6, 0),
            (5, 1, 0),
            (6, 2, 0),
            (7, 3, 0),
            (8, 1, 1),
            (8, 2, 2),
            (8, 3, limit),
            (9, 0, 0),
            (0, 1, 2),
            (2, 5, 1),
            (8, 0, 0),
            (8, 4, 7),
            (limit, limit, limit)
        ]
    );
}

#[test]
fn a_named_event_may_be_written_as_numbers() {
    let named = format!("{HEAD}receive 0 3\ndeliver 5\ncrash learner 2\n");
    let raw = format!("{HEAD}event 1 0 3\nevent 2 5 0\nevent 8 3 2\n");
    let bytes = assemble(&raw).unwrap();
    assert_eq!(bytes, assemble(&named).unwrap());
    assert_eq!(disassemble(&bytes).unwrap(), named);
}

#[test]
fn generated_schedules_come_back() {
    let rng = &mut Rng::new(11);
    for (name, style) in STYLES {
        for events in [0, 1, 40, 300] {
            let (sizes, events) = generate(rng, style, events);
            let mut bytes = vec![0; LONGEST];
            let length = schedule::write(&sizes, &events, &mut bytes).unwrap();
            bytes.truncate(length);
            let text = disassemble(&bytes).unwrap();
            assert_eq!(text.lines().count(), 1 + events.len(), "{name}");
            assert_eq!(assemble(&text).unwrap(), bytes, "{name}");
        }
    }
}

#[test]
fn any_numbers_come_back() {
    let rng = &mut Rng::new(12);
    for _ in 0..500 {
        let sizes = Sizes {
            p: rng.within(1, 8),
            a: rng.within(1, 7),
            l: rng.within(1, 8),
            m: rng.within(16, 512),
            s: rng.within(1, 64),
        };
        let number = |rng: &mut Rng| rng.below(SCHEDULE_LIMIT + 1) >> rng.below(17);
        let events: Vec<Event> = (0..rng.below(40))
            .map(|_| Event {
                code: rng.below(12),
                a: number(rng),
                b: number(rng),
            })
            .collect();
        let mut bytes = vec![0; LONGEST];
        let length = schedule::write(&sizes, &events, &mut bytes).unwrap();
        let text = disassemble(&bytes[..length]).unwrap();
        assert_eq!(assemble(&text).unwrap(), &bytes[..length]);
    }
}

#[test]
fn the_longest_schedule() {
    let mut text = "sizes proposers 8 acceptors 7 learners 8 slots 512 scans 64\n".to_string();
    text.push_str(&"event 65535 65535 65535\n".repeat(4_096));
    let bytes = assemble(&text).unwrap();
    assert_eq!(bytes.len(), LONGEST);
    assert_eq!(disassemble(&bytes).unwrap(), text);
    text.push_str("deliver 0\n");
    assert_eq!(
        error(&text),
        "line 4098: a schedule has at most 4096 events"
    );
}

#[test]
fn refused_schedules_have_no_text() {
    assert_eq!(disassemble(&[]), Err(11));
    assert_eq!(disassemble(&[1, 1, 1, 15, 1, 0]), Err(1));
    assert_eq!(disassemble(&[1, 1, 1, 16, 1, 0x81, 0x20]), Err(3));
    assert_eq!(disassemble(&[0x80, 0]), Err(12));
    assert_eq!(disassemble(&[1, 1, 1, 16, 1, 0, 0]), Err(13));
}

#[test]
fn errors_in_the_sizes() {
    let missing = format!("the sizes are missing, as in `{FIRST_LINE}`");
    assert_eq!(error(""), format!("line 1: {missing}"));
    assert_eq!(error("# nothing\n\n"), format!("line 1: {missing}"));
    assert_eq!(
        error("\nreceive 0 0\n"),
        format!("line 2: the sizes come first, as in `{FIRST_LINE}`, and not `receive`")
    );
    assert_eq!(
        error("sizes proposer 2"),
        "line 1: `proposer` is no size; sizes are proposers, acceptors, learners, slots, scans"
    );
    assert_eq!(
        error("sizes proposers"),
        "line 1: the number of proposers is missing"
    );
    assert_eq!(
        error("sizes proposers 2 acceptors 3 learners 1 slots 64"),
        "line 1: the number of scans is missing"
    );
    assert_eq!(
        error("sizes proposers 2 proposers 2"),
        "line 1: proposers are given twice"
    );
    assert_eq!(
        error("# first\nsizes slots 15"),
        "line 2: slots are 16 to 512, and not 15"
    );
    for (line, reason) in [
        ("proposers 9", "proposers are 1 to 8, and not 9"),
        ("acceptors 8", "acceptors are 1 to 7, and not 8"),
        ("learners 0", "learners are 1 to 8, and not 0"),
        ("slots 513", "slots are 16 to 512, and not 513"),
        ("scans 65", "scans are 1 to 64, and not 65"),
        ("scans many", "`many` is no number"),
    ] {
        assert_eq!(error(&format!("sizes {line}")), format!("line 1: {reason}"));
    }
}

#[test]
fn errors_in_events() {
    assert_eq!(
        event_error("\nreceive 0"),
        "line 3: `receive` takes 2 numbers (proposer, scan), and not 1"
    );
    assert_eq!(
        event_error("deliver 1 0"),
        "line 2: `deliver` takes 1 number (slot), and not 2"
    );
    assert_eq!(
        event_error("event 9"),
        "line 2: `event` takes 3 numbers (code, a, b), and not 1"
    );
    assert_eq!(
        event_error("delivr 1"),
        "line 2: `delivr` is no event; events are receive, deliver, drop, duplicate, propose, \
         refine, decide, crash and event"
    );
    assert_eq!(
        event_error("crash"),
        "line 2: `crash` takes proposer, acceptor or learner, and a number"
    );
    assert_eq!(
        event_error("crash 1 2"),
        "line 2: `crash` takes proposer, acceptor or learner, and not `1`"
    );
    assert_eq!(
        event_error("crash learner"),
        "line 2: `crash` takes 1 number (learner), and not 0"
    );
    for word in ["-1", "+1", "0x1", "1.0", "one"] {
        assert_eq!(
            event_error(&format!("deliver {word}")),
            format!("line 2: `{word}` is no number")
        );
    }
    for word in ["65536", "99999999999999999999999"] {
        assert_eq!(
            event_error(&format!("deliver {word}")),
            format!("line 2: {word} is above 65535, the greatest number of a schedule")
        );
    }
    assert_eq!(
        event_error("sizes proposers 1"),
        "line 2: `sizes` is no event; events are receive, deliver, drop, duplicate, propose, \
         refine, decide, crash and event"
    );
}
