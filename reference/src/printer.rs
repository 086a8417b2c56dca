//! The run printer: a schedule's run as text.

use std::fmt::Write;

use crate::machine::{self, Message, Outcome};
use crate::refusal::Refusal;
use crate::schedule::{self, Event, GREATEST_E};

/// The text that a schedule prints.
pub fn print(bytes: &[u8]) -> Vec<u8> {
    let text = match run_text(bytes) {
        Ok(text) => text,
        Err(refusal) => format!("schedule refused {refusal}\n"),
    };
    text.into_bytes()
}

/// One line for each event, lines for what is learnt and decided, then the
/// counts; or the schedule's refusal.
fn run_text(bytes: &[u8]) -> Result<String, Refusal> {
    let mut room = vec![Event::default(); GREATEST_E as usize];
    let (sizes, e) = schedule::read(bytes, &mut room)?;
    let events = &room[..e];
    let mut slots = vec![Message::FREE; sizes.m as usize];
    let mut records = machine::fresh(&sizes, &mut slots)?;
    let mut text = String::new();
    let counts = machine::run(&mut records, &mut slots, events, |place, result| {
        write_event(&mut text, place, result)
    })?;
    write_line(
        &mut text,
        format_args!("end {} {} {}", e, counts.ok, counts.refused),
    );
    Ok(text)
}

/// The event's own line, then the line of what it learnt or decided.
fn write_event(text: &mut String, place: u64, result: Result<Outcome, Refusal>) {
    match result {
        Ok(_) => write_line(text, format_args!("{place} ok")),
        Err(refusal) => write_line(text, format_args!("{place} refused {refusal}")),
    }
    match result {
        Ok(Outcome::Learnt { learner, set }) => {
            write_line(text, format_args!("{place} learnt {learner} {set:016x}"));
        }
        Ok(Outcome::Decided { proposer, set }) => {
            write_line(text, format_args!("{place} decided {proposer} {set:016x}"));
        }
        Ok(Outcome::Done) | Err(_) => {}
    }
}

/// The line and its line feed.
fn write_line(text: &mut String, line: std::fmt::Arguments) {
    text.write_fmt(line).expect("a string takes every text");
    text.push('\n');
}

#[cfg(test)]
mod tests {
    use super::*;

    fn printed(bytes: &[u8]) -> String {
        String::from_utf8(print(bytes)).unwrap()
    }

    #[test]
    fn the_printed_example() {
        let input = [
            0x02, 0x01, 0x01, 0x10, 0x02, 0x07, 0x01, 0x00, 0x00, 0x05, 0x00, 0x00, 0x02, 0x01,
            0x00, 0x07, 0x00, 0x00, 0x02, 0x02, 0x00, 0x02, 0x01, 0x00, 0x07, 0x00, 0x00,
        ];
        let text = "1 ok\n\
                    2 ok\n\
                    3 ok\n\
                    4 refused 6\n\
                    5 ok\n\
                    5 learnt 0 0000000000000001\n\
                    6 ok\n\
                    7 ok\n\
                    7 decided 0 0000000000000001\n\
                    end 7 6 1\n";
        assert_eq!(printed(&input), text);
    }

    #[test]
    fn no_events() {
        assert_eq!(printed(&[1, 1, 1, 16, 1, 0]), "end 0 0 0\n");
    }

    #[test]
    fn refused_schedules() {
        assert_eq!(printed(&[]), "schedule refused 11\n");
        assert_eq!(printed(&[1, 1, 1, 15, 1, 0]), "schedule refused 1\n");
        assert_eq!(
            printed(&[1, 1, 1, 16, 1, 0x81, 0x20]),
            "schedule refused 3\n"
        );
        assert_eq!(printed(&[0x80, 0]), "schedule refused 12\n");
        assert_eq!(printed(&[1, 1, 1, 16, 1, 0, 0]), "schedule refused 13\n");
        let second_event_ends = [1, 1, 1, 16, 1, 2, 1, 0, 0, 1, 0];
        assert_eq!(printed(&second_event_ends), "schedule refused 11\n");
    }

    #[test]
    fn the_highest_scan() {
        let received = [1, 1, 1, 16, 64, 2, 1, 0, 63, 1, 0, 64];
        assert_eq!(printed(&received), "1 ok\n2 refused 3\nend 2 1 1\n");
        let learnt = [
            1, 1, 1, 16, 64, 5, 1, 0, 63, 5, 0, 0, 2, 0, 0, 2, 1, 0, 4, 0, 0,
        ];
        assert_eq!(
            printed(&learnt),
            "1 ok\n2 ok\n3 ok\n4 ok\n4 learnt 0 8000000000000000\n5 ok\nend 5 5 0\n"
        );
    }

    #[test]
    fn codes_are_refused_one_by_one() {
        let codes = [1, 1, 1, 16, 1, 3, 0, 0, 0, 9, 0, 0, 0xff, 0xff, 3, 0, 0];
        assert_eq!(
            printed(&codes),
            "1 refused 2\n2 refused 2\n3 refused 2\nend 3 0 3\n"
        );
    }

    #[test]
    fn the_longest_schedule() {
        let mut bytes = vec![8, 7, 8, 0x80, 4, 64, 0x80, 0x20];
        bytes.extend_from_slice(&[0xff, 0xff, 3].repeat(3 * 4_096));
        assert_eq!(bytes.len(), schedule::LONGEST);
        let text = printed(&bytes);
        assert_eq!(text.lines().count(), 4_097);
        assert!(text.ends_with("4096 refused 2\nend 4096 0 4096\n"));
        bytes.push(0);
        assert_eq!(printed(&bytes), "schedule refused 13\n");
    }
}
