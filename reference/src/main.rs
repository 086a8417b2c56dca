//! The second program's commands. Schedules and texts are read from standard
//! input and written to standard output.

#![forbid(unsafe_code)]

use std::env;
use std::io::{self, Read, Write};
use std::process::ExitCode;

use reference::generate::{self, Style, STYLES};
use reference::printer;
use reference::rng::Rng;
use reference::schedule::{self, Sizes, GREATEST_E, LONGEST};
use reference::text;

const USAGE: &str = "\
usage: reference run < schedule
       reference asm < text > schedule
       reference dis < schedule > text
       reference gen SEED STYLE EVENTS [P A L M S] > schedule
       reference rubbish SEED BYTES > file

run prints what the schedule does. asm makes a schedule of its text form, dis
a text of a schedule. gen draws a schedule of so many events, and its sizes
where they are not given; rubbish draws so many bytes. Both draw the same for
the same seed.";

/// Why a command ends without its output.
enum Failure {
    /// The arguments are no command.
    Usage(String),
    /// The input is not what the command reads.
    Input(String),
}

impl From<io::Error> for Failure {
    fn from(error: io::Error) -> Failure {
        Failure::Input(error.to_string())
    }
}

fn main() -> ExitCode {
    let arguments: Vec<String> = env::args_os()
        .skip(1)
        .map(|argument| argument.to_string_lossy().into_owned())
        .collect();
    let arguments: Vec<&str> = arguments.iter().map(String::as_str).collect();
    match command(&arguments) {
        Ok(()) => ExitCode::SUCCESS,
        Err(Failure::Usage(reason)) => {
            eprintln!("{reason}{USAGE}\nstyles: {}", style_names());
            ExitCode::from(2)
        }
        Err(Failure::Input(reason)) => {
            eprintln!("{reason}");
            ExitCode::FAILURE
        }
    }
}

fn command(arguments: &[&str]) -> Result<(), Failure> {
    match *arguments {
        ["run"] => write(&printer::print(&read_schedule()?)),
        ["asm"] => assemble(),
        ["dis"] => disassemble(),
        ["gen", seed, style, events] => generate(seed, style, events, None),
        ["gen", seed, style, events, p, a, l, m, s] => {
            let sizes = parse_sizes([p, a, l, m, s])?;
            generate(seed, style, events, Some(sizes))
        }
        ["rubbish", seed, bytes] => draw_bytes(seed, bytes),
        _ => Err(Failure::Usage(String::new())),
    }
}

/// Makes a schedule of the text.
fn assemble() -> Result<(), Failure> {
    let mut text = String::new();
    io::stdin().lock().read_to_string(&mut text)?;
    let bytes = text::assemble(&text).map_err(|error| Failure::Input(error.to_string()))?;
    write(&bytes)
}

/// Makes a text of the schedule.
fn disassemble() -> Result<(), Failure> {
    let text = text::disassemble(&read_schedule()?)
        .map_err(|refusal| Failure::Input(format!("schedule refused {refusal}")))?;
    write(text.as_bytes())
}

/// Draws a schedule. Sizes that are not given are the style's.
fn generate(seed: &str, style: &str, events: &str, sizes: Option<Sizes>) -> Result<(), Failure> {
    let mut rng = parse_seed(seed)?;
    let style =
        Style::named(style).ok_or_else(|| Failure::Usage(format!("`{style}` is no style\n")))?;
    let events = match events.parse() {
        Ok(count) if count <= GREATEST_E as usize => count,
        _ => {
            let reason = format!("`{events}` is no count of events: 0 to {GREATEST_E}\n");
            return Err(Failure::Usage(reason));
        }
    };
    let sizes = sizes.unwrap_or_else(|| style.sizes(&mut rng));
    let events = generate::events_on(&mut rng, style, &sizes, events);
    let mut bytes = vec![0; LONGEST];
    let length = schedule::write(&sizes, &events, &mut bytes)
        .expect("a drawn schedule is within its ranges");
    write(&bytes[..length])
}

/// Draws bytes.
fn draw_bytes(seed: &str, count: &str) -> Result<(), Failure> {
    let mut rng = parse_seed(seed)?;
    let count: usize = count
        .parse()
        .map_err(|_| Failure::Usage(format!("`{count}` is no count of bytes\n")))?;
    let bytes: Vec<u8> = (0..count).map(|_| rng.draw() as u8).collect();
    write(&bytes)
}

/// The generator of a seed.
fn parse_seed(seed: &str) -> Result<Rng, Failure> {
    let seed = seed
        .parse()
        .map_err(|_| Failure::Usage(format!("`{seed}` is no seed: 0 to 2^64-1\n")))?;
    Ok(Rng::new(seed))
}

/// Sizes within their ranges.
fn parse_sizes(words: [&str; 5]) -> Result<Sizes, Failure> {
    let [p, a, l, m, s] = words.map(|word| word.parse().unwrap_or(0));
    let sizes = Sizes { p, a, l, m, s };
    match schedule::test_sizes(&sizes) {
        Ok(()) => Ok(sizes),
        Err(_) => Err(Failure::Usage(format!(
            "`{}` are no sizes P A L M S\n",
            words.join(" ")
        ))),
    }
}

fn style_names() -> String {
    let names: Vec<&str> = STYLES.iter().map(|(name, _)| *name).collect();
    names.join(", ")
}

/// The schedule on standard input. One byte past the longest accepted schedule
/// decides the answer, so no more is read.
fn read_schedule() -> Result<Vec<u8>, Failure> {
    let mut bytes = Vec::new();
    io::stdin()
        .lock()
        .take(LONGEST as u64 + 1)
        .read_to_end(&mut bytes)?;
    Ok(bytes)
}

fn write(bytes: &[u8]) -> Result<(), Failure> {
    let mut output = io::stdout().lock();
    output.write_all(bytes)?;
    output.flush()?;
    Ok(())
}
