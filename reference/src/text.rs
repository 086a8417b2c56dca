//! The text form of a schedule: the sizes by name in the first line, then one
//! event by name in each line. `#` begins a comment; empty lines are passed
//! over.

use std::fmt::{self, Display, Formatter, Write};

use crate::machine::{
    ACCEPTOR, CRASH, DECIDE, DELIVER, DROP, DUPLICATE, LEARNER, PROPOSE, PROPOSER, RECEIVE, REFINE,
};
use crate::numbers::SCHEDULE_LIMIT;
use crate::refusal::Refusal;
use crate::schedule::{
    self, Event, Sizes, GREATEST_A, GREATEST_E, GREATEST_L, GREATEST_M, GREATEST_P, GREATEST_S,
    LEAST_M, LONGEST,
};

/// A size as the first line names it, with its range.
struct SizeName {
    name: &'static str,
    least: u64,
    greatest: u64,
}

/// The sizes in their order: P, A, L, M, S.
const SIZES: [SizeName; 5] = [
    SizeName {
        name: "proposers",
        least: 1,
        greatest: GREATEST_P,
    },
    SizeName {
        name: "acceptors",
        least: 1,
        greatest: GREATEST_A,
    },
    SizeName {
        name: "learners",
        least: 1,
        greatest: GREATEST_L,
    },
    SizeName {
        name: "slots",
        least: LEAST_M,
        greatest: GREATEST_M,
    },
    SizeName {
        name: "scans",
        least: 1,
        greatest: GREATEST_S,
    },
];

/// An event as its line names it: the name, the code and what its numbers
/// are. Where there is one number, b is 0.
struct EventName {
    name: &'static str,
    code: u64,
    numbers: &'static [&'static str],
}

/// Every event whose line has numbers alone. A crash names a role too, and
/// `event` gives code, a and b as they are.
const EVENTS: [EventName; 7] = [
    EventName {
        name: "receive",
        code: RECEIVE,
        numbers: &["proposer", "scan"],
    },
    EventName {
        name: "deliver",
        code: DELIVER,
        numbers: &["slot"],
    },
    EventName {
        name: "drop",
        code: DROP,
        numbers: &["slot"],
    },
    EventName {
        name: "duplicate",
        code: DUPLICATE,
        numbers: &["slot"],
    },
    EventName {
        name: "propose",
        code: PROPOSE,
        numbers: &["proposer"],
    },
    EventName {
        name: "refine",
        code: REFINE,
        numbers: &["proposer"],
    },
    EventName {
        name: "decide",
        code: DECIDE,
        numbers: &["proposer"],
    },
];

/// The roles of a crash, by name.
const ROLES: [(&str, u64); 3] = [
    ("proposer", PROPOSER),
    ("acceptor", ACCEPTOR),
    ("learner", LEARNER),
];

/// A first line, as an error shows it.
const FIRST_LINE: &str = "sizes proposers 2 acceptors 3 learners 1 slots 64 scans 8";

/// What is wrong with a text, and in which line from 1.
#[derive(Clone, Debug, PartialEq, Eq)]
pub struct TextError {
    pub line: usize,
    pub reason: String,
}

impl Display for TextError {
    fn fmt(&self, formatter: &mut Formatter) -> fmt::Result {
        write!(formatter, "line {}: {}", self.line, self.reason)
    }
}

/// The schedule that the text describes.
pub fn assemble(text: &str) -> Result<Vec<u8>, TextError> {
    let (sizes, events) = parse(text)?;
    let mut bytes = vec![0; LONGEST];
    let length = schedule::write(&sizes, &events, &mut bytes)
        .expect("a parsed text has sizes, events and numbers within their ranges");
    bytes.truncate(length);
    Ok(bytes)
}

/// The text of a schedule; the refusal of one that the reader refuses.
pub fn disassemble(bytes: &[u8]) -> Result<String, Refusal> {
    let mut events = vec![Event::default(); GREATEST_E as usize];
    let (sizes, e) = schedule::read(bytes, &mut events)?;
    let mut text = sizes_line(&sizes);
    text.push('\n');
    for event in &events[..e] {
        text.push_str(&event_line(event));
        text.push('\n');
    }
    Ok(text)
}

/// The first line of a schedule's text.
pub fn sizes_line(sizes: &Sizes) -> String {
    let values = [sizes.p, sizes.a, sizes.l, sizes.m, sizes.s];
    let mut line = "sizes".to_string();
    for (size, value) in SIZES.iter().zip(values) {
        write!(line, " {} {}", size.name, value).expect("a string takes every text");
    }
    line
}

/// The line of an event.
pub fn event_line(event: &Event) -> String {
    let Event { code, a, b } = *event;
    if code == CRASH {
        if let Some((role, _)) = ROLES.iter().find(|(_, number)| *number == a) {
            return format!("crash {role} {b}");
        }
    }
    match EVENTS.iter().find(|named| named.code == code) {
        Some(named) if named.numbers.len() == 2 => format!("{} {a} {b}", named.name),
        Some(named) if b == 0 => format!("{} {a}", named.name),
        _ => format!("event {code} {a} {b}"),
    }
}

/// The sizes and events of a text.
fn parse(text: &str) -> Result<(Sizes, Vec<Event>), TextError> {
    let mut lines = (1..).zip(text.lines().map(words));
    let mut filled = lines.by_ref().filter(|(_, words)| !words.is_empty());
    let sizes = match filled.next() {
        Some((line, words)) => parse_sizes(&words).map_err(|reason| TextError { line, reason })?,
        None => {
            return Err(TextError {
                line: 1,
                reason: format!("the sizes are missing, as in `{FIRST_LINE}`"),
            })
        }
    };
    let mut events = Vec::new();
    for (line, words) in filled {
        let event = parse_event(&words).map_err(|reason| TextError { line, reason })?;
        if events.len() as u64 == GREATEST_E {
            let reason = format!("a schedule has at most {GREATEST_E} events");
            return Err(TextError { line, reason });
        }
        events.push(event);
    }
    Ok((sizes, events))
}

/// The words of a line before its comment.
fn words(line: &str) -> Vec<&str> {
    let before_comment = line.split('#').next().unwrap_or("");
    before_comment.split_whitespace().collect()
}

/// The sizes: each name once, in any order, with a number of its range.
fn parse_sizes(words: &[&str]) -> Result<Sizes, String> {
    if words[0] != "sizes" {
        return Err(format!(
            "the sizes come first, as in `{FIRST_LINE}`, and not `{}`",
            words[0]
        ));
    }
    let mut values = [None; SIZES.len()];
    for pair in words[1..].chunks(2) {
        let place = SIZES
            .iter()
            .position(|size| size.name == pair[0])
            .ok_or_else(|| format!("`{}` is no size; sizes are {}", pair[0], size_names()))?;
        let size = &SIZES[place];
        let word = pair
            .get(1)
            .ok_or_else(|| format!("the number of {} is missing", size.name))?;
        let value = parse_number(word)?;
        if !(size.least..=size.greatest).contains(&value) {
            return Err(format!(
                "{} are {} to {}, and not {value}",
                size.name, size.least, size.greatest
            ));
        }
        if values[place].replace(value).is_some() {
            return Err(format!("{} are given twice", size.name));
        }
    }
    let given = |place: usize| {
        values[place].ok_or_else(|| format!("the number of {} is missing", SIZES[place].name))
    };
    Ok(Sizes {
        p: given(0)?,
        a: given(1)?,
        l: given(2)?,
        m: given(3)?,
        s: given(4)?,
    })
}

/// The names of the sizes, as an error lists them.
fn size_names() -> String {
    let names: Vec<&str> = SIZES.iter().map(|size| size.name).collect();
    names.join(", ")
}

/// The event of a line.
fn parse_event(words: &[&str]) -> Result<Event, String> {
    let (name, arguments) = (words[0], &words[1..]);
    if name == "crash" {
        return parse_crash(arguments);
    }
    if name == "event" {
        let numbers = parse_numbers(name, arguments, &["code", "a", "b"])?;
        return Ok(Event {
            code: numbers[0],
            a: numbers[1],
            b: numbers[2],
        });
    }
    let named = EVENTS
        .iter()
        .find(|named| named.name == name)
        .ok_or_else(|| format!("`{name}` is no event; events are {}", event_names()))?;
    let numbers = parse_numbers(name, arguments, named.numbers)?;
    Ok(Event {
        code: named.code,
        a: numbers[0],
        b: numbers.get(1).copied().unwrap_or(0),
    })
}

/// The names of the events, as an error lists them.
fn event_names() -> String {
    let names: Vec<&str> = EVENTS.iter().map(|named| named.name).collect();
    format!("{}, crash and event", names.join(", "))
}

/// A crash: a role and a number.
fn parse_crash(arguments: &[&str]) -> Result<Event, String> {
    let word = arguments
        .first()
        .ok_or("`crash` takes proposer, acceptor or learner, and a number")?;
    let (role, a) = ROLES
        .iter()
        .find(|(name, _)| name == word)
        .ok_or_else(|| format!("`crash` takes proposer, acceptor or learner, and not `{word}`"))?;
    let numbers = parse_numbers("crash", &arguments[1..], &[role])?;
    Ok(Event {
        code: CRASH,
        a: *a,
        b: numbers[0],
    })
}

/// As many numbers as are named.
fn parse_numbers(name: &str, words: &[&str], wanted: &[&str]) -> Result<Vec<u64>, String> {
    if words.len() != wanted.len() {
        return Err(format!(
            "`{name}` takes {} ({}), and not {}",
            count_of_numbers(wanted.len()),
            wanted.join(", "),
            words.len()
        ));
    }
    words.iter().map(|word| parse_number(word)).collect()
}

fn count_of_numbers(count: usize) -> String {
    match count {
        1 => "1 number".to_string(),
        _ => format!("{count} numbers"),
    }
}

/// A number of a schedule, in decimal digits.
fn parse_number(word: &str) -> Result<u64, String> {
    if !word.bytes().all(|byte| byte.is_ascii_digit()) {
        return Err(format!("`{word}` is no number"));
    }
    match word.parse() {
        Ok(value) if value <= SCHEDULE_LIMIT => Ok(value),
        _ => Err(format!(
            "{word} is above {SCHEDULE_LIMIT}, the greatest number of a schedule"
        )),
    }
}

#[cfg(test)]
mod tests;
