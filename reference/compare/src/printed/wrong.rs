//! Wrong printers in the archive's place: each is noticed by the test that
//! stands beside it. The second program in the archive's place passes.

use reference::numbers::{self, SCHEDULE_LIMIT};
use reference::printer;
use reference::rng::Rng;
use reference::schedule::{GREATEST_E, LONGEST};

use super::second::Second;
use super::{Printer, Suite};
use crate::suite::Tests;

/// The seed of every test's generator: a test that the second program passes
/// fails because of the printer.
const SEED: u64 = 51;

/// Whether the suite's test of that name fails.
fn is_noticed(suite: Tests, name: &str) -> bool {
    let (_, test) = suite
        .iter()
        .find(|(known, _)| *known == name)
        .unwrap_or_else(|| panic!("{name} is no test of the suite"));
    test(&mut Rng::new(SEED)).is_err()
}

#[test]
fn the_second_program_passes() {
    for (name, test) in Suite::<Second>::TESTS {
        let comparisons =
            test(&mut Rng::new(SEED)).unwrap_or_else(|error| panic!("{name}: {error}"));
        println!("{name}: {comparisons} comparisons");
        assert!(comparisons > 0);
    }
}

/// Puts a text as a printer does.
fn put(text: &[u8], output: &mut [u8], length: &mut usize) -> u8 {
    match output.get_mut(..text.len()) {
        None => 8,
        Some(start) => {
            start.copy_from_slice(text);
            *length = text.len();
            0
        }
    }
}

/// The second program's text of a schedule.
fn text_of(bytes: &[u8]) -> String {
    String::from_utf8(printer::print(bytes)).expect("text is printed")
}

/// The six numbers of a schedule's header, if they can be read.
fn header_of(bytes: &[u8]) -> Option<[u64; 6]> {
    let mut header = [0; 6];
    let mut place = 0;
    for number in &mut header {
        (*number, place) = numbers::read(bytes, place, SCHEDULE_LIMIT).ok()?;
    }
    Some(header)
}

/// The text with each line but the last changed in this way.
fn with_lines(text: &str, change: impl FnMut(&str) -> String) -> String {
    let lines: Vec<&str> = text.split_inclusive('\n').collect();
    let (last, events) = lines.split_last().expect("every text has a line");
    let mut changed: String = events.iter().copied().map(change).collect();
    changed.push_str(last);
    changed
}

/// The text with another last line, which is given the three counts. The text
/// of a refused schedule stays.
fn with_counts(text: &str, change: impl FnOnce([u64; 3]) -> [u64; 3]) -> String {
    let start = text.rfind("end ").unwrap_or(text.len());
    let (events, last) = text.split_at(start);
    let counts: Vec<u64> = last.split_whitespace().flat_map(str::parse).collect();
    match counts[..] {
        [all, ok, refused] => {
            let [all, ok, refused] = change([all, ok, refused]);
            format!("{events}end {all} {ok} {refused}\n")
        }
        _ => text.to_string(),
    }
}

/// Printers that print another text than the second program, each with the
/// test that notices it.
macro_rules! wrong_text {
    ($($(#[$meaning:meta])* $name:ident, $test:literal: |$bytes:ident| $text:expr;)*) => {
        $(
            $(#[$meaning])*
            struct $name;

            impl Printer for $name {
                fn print(output: &mut [u8], $bytes: &[u8], length: &mut usize) -> u8 {
                    let text: String = $text;
                    put(text.as_bytes(), output, length)
                }
            }
        )*

        #[test]
        fn wrong_texts_are_noticed() {
            $(
                assert!(is_noticed(Suite::<$name>::TESTS, $test), stringify!($name));
            )*
        }
    };
}

wrong_text! {
    /// Says ok of every event.
    AlwaysOk, "example": |bytes| with_lines(&text_of(bytes), |line| {
        match line.split_once(" refused ") {
            Some((place, _)) => format!("{place} ok\n"),
            None => line.to_string(),
        }
    });
    /// Refuses every event.
    AlwaysRefused, "edges": |bytes| text_of(bytes).replace(" ok\n", " refused 6\n");
    /// Does the first event truly and pretends after it.
    PretendsAfterTheFirst, "samples": |bytes| with_lines(&text_of(bytes), |line| {
        match line.split_once(' ') {
            Some(("1", _)) | None => line.to_string(),
            Some((place, _)) => format!("{place} ok\n"),
        }
    });
    /// Exchanges the counts.
    ExchangesCounts, "edges": |bytes| with_counts(&text_of(bytes), |[all, ok, refused]| [all, refused, ok]);
    /// Counts every event as ok.
    CountsAllAsOk, "example": |bytes| with_counts(&text_of(bytes), |[all, _, _]| [all, all, 0]);
    /// Counts learnt sets as events.
    CountsLines, "calm": |bytes| {
        let text = text_of(bytes);
        let lines = text.lines().count() as u64 - 1;
        with_counts(&text, |[_, ok, refused]| [lines, ok, refused])
    };
    /// Counts in eight bits.
    CountsInEightBits, "most_events": |bytes| {
        with_counts(&text_of(bytes), |counts| counts.map(|count| count % 256))
    };
    /// Writes three digits of a place.
    CutsPlaces, "most_events": |bytes| with_lines(&text_of(bytes), |line| {
        let digits = line.find(' ').unwrap_or(0);
        line[digits.saturating_sub(3)..].to_string()
    });
    /// Numbers the events from 0.
    PlacesFromZero, "example": |bytes| with_lines(&text_of(bytes), |line| {
        match line.split_once(' ') {
            Some((place, rest)) => format!("{} {rest}", place.parse::<u64>().unwrap_or(1) - 1),
            None => line.to_string(),
        }
    });
    /// Writes sets in upper case.
    UpperCase, "contention": |bytes| with_lines(&text_of(bytes), |line| {
        match line.rsplit_once(' ') {
            Some((start, set)) if set.len() == 17 => format!("{start} {}", set.to_uppercase()),
            _ => line.to_string(),
        }
    });
    /// Writes sets without zeros before them.
    ShortSets, "example": |bytes| with_lines(&text_of(bytes), |line| {
        match line.rsplit_once(' ') {
            Some((start, set)) if set.len() == 17 => {
                format!("{start} {}", set.trim_start_matches('0'))
            }
            _ => line.to_string(),
        }
    });
    /// Writes the low half of sets.
    HalfSets, "edges": |bytes| text_of(bytes).replace(" 80000000", " 00000000");
    /// Leaves out what is learnt.
    NoLearnt, "samples": |bytes| with_lines(&text_of(bytes), |line| {
        match line.contains(" learnt ") {
            true => String::new(),
            false => line.to_string(),
        }
    });
    /// Leaves out what the last of eight learners learns.
    NoLastLearner, "most_events": |bytes| with_lines(&text_of(bytes), |line| {
        match line.contains(" learnt 7 ") {
            true => String::new(),
            false => line.to_string(),
        }
    });
    /// Says that proposer 0 decided.
    DecidedByZero, "contention": |bytes| with_lines(&text_of(bytes), |line| {
        match line.split_once(" decided ") {
            Some((place, rest)) => format!("{place} decided 0{}", &rest[1..]),
            None => line.to_string(),
        }
    });
    /// Ends without a line feed.
    NoLastLineFeed, "edges": |bytes| text_of(bytes).trim_end().to_string();
    /// Has a space before each line feed.
    SpaceAtTheEnd, "edges": |bytes| text_of(bytes).replace('\n', " \n");
    /// Says ok of an event before it refuses the schedule.
    RunsRefusedSchedules, "cut": |bytes| match text_of(bytes) {
        text if text.starts_with("schedule") => format!("1 ok\n{text}"),
        text => text,
    };
    /// Prints nothing for a refused schedule.
    NothingForRefused, "refused_schedules": |bytes| match text_of(bytes) {
        text if text.starts_with("schedule") => String::new(),
        text => text,
    };
    /// Runs a schedule that bytes follow.
    TakesBytesThatFollow, "appended": |bytes| {
        let is_followed = |end: &usize| text_of(&bytes[..*end]) != text_of(bytes);
        match text_of(bytes).as_str() {
            "schedule refused 13\n" => {
                let end = (0..bytes.len()).rev().find(is_followed).unwrap_or(0);
                text_of(&bytes[..end])
            }
            text => text.to_string(),
        }
    };
    /// Takes a doubled schedule for one.
    TakesDoubled, "doubled": |bytes| match bytes.split_at(bytes.len() / 2) {
        (first, second) if first == second => text_of(first),
        _ => text_of(bytes),
    };
    /// Reads the bytes of the longest schedule and no more.
    ReadsTheLongestOnly, "longest_schedule": |bytes| text_of(&bytes[..bytes.len().min(LONGEST)]);
    /// Says that the input ends where a number is not in shortest form.
    MixesRefusals, "changed": |bytes| text_of(bytes).replace("schedule refused 12", "schedule refused 11");
    /// Tests E before the sizes.
    TestsEventsFirst, "headers": |bytes| match header_of(bytes) {
        Some([_, _, _, _, _, e]) if e > GREATEST_E => "schedule refused 3\n".to_string(),
        _ => text_of(bytes),
    };
    /// Takes no input for a schedule without events.
    TakesNothing, "rubbish": |bytes| match bytes {
        [] => "end 0 0 0\n".to_string(),
        _ => text_of(bytes),
    };
}

/// Printers that leave the second program's text wrongly, each with the test
/// that notices it.
macro_rules! wrong_call {
    ($($(#[$meaning:meta])* $name:ident, $test:literal:
        |$output:ident, $bytes:ident, $length:ident| $body:expr;)*) => {
        $(
            $(#[$meaning])*
            struct $name;

            impl Printer for $name {
                fn print($output: &mut [u8], $bytes: &[u8], $length: &mut usize) -> u8 {
                    $body
                }
            }
        )*

        #[test]
        fn wrong_calls_are_noticed() {
            $(
                assert!(is_noticed(Suite::<$name>::TESTS, $test), stringify!($name));
            )*
        }
    };
}

wrong_call! {
    /// Puts a zero byte after the text.
    EndsWithZero, "example": |output, bytes, length| {
        let answer = Second::print(output, bytes, length);
        if let (0, Some(after)) = (answer, output.get_mut(*length)) {
            *after = 0;
        }
        answer
    };
    /// Clears the output first.
    ClearsOutput, "refused_schedules": |output, bytes, length| {
        output.fill(0);
        Second::print(output, bytes, length)
    };
    /// Refuses an output that is exactly as long as the text.
    RefusesFullOutput, "example": |output, bytes, length| {
        match printer::print(bytes).len() == output.len() {
            true => 8,
            false => Second::print(output, bytes, length),
        }
    };
    /// Fills an output that is one byte shorter than the text.
    CutsText, "example": |output, bytes, length| {
        let text = printer::print(bytes);
        match text.len() == output.len() + 1 {
            true => put(&text[..output.len()], output, length),
            false => put(&text, output, length),
        }
    };
    /// Writes what there is room for before it refuses.
    WritesBeforeItRefuses, "calm": |output, bytes, length| {
        let text = printer::print(bytes);
        for (place, byte) in output.iter_mut().zip(&text) {
            *place = *byte;
        }
        Second::print(output, bytes, length)
    };
    /// Says how long the text is where it refuses.
    TellsLengthOfRefused, "calm": |output, bytes, length| {
        *length = printer::print(bytes).len();
        Second::print(output, bytes, length)
    };
    /// Gives the output's length.
    GivesOutputLength, "samples": |output, bytes, length| {
        let answer = Second::print(output, bytes, length);
        if answer == 0 {
            *length = output.len();
        }
        answer
    };
    /// Answers the number of a refused schedule.
    AnswersTheRefusal, "headers": |output, bytes, length| {
        let answer = Second::print(output, bytes, length);
        match printer::print(bytes) == b"schedule refused 3\n" {
            true if answer == 0 => 3,
            _ => answer,
        }
    };
    /// Prints a refused schedule to an output that is too short for it.
    IgnoresRoomForRefused, "rubbish": |output, bytes, length| {
        match Second::print(output, bytes, length) {
            8 if printer::print(bytes).starts_with(b"schedule") => 0,
            answer => answer,
        }
    };
}
