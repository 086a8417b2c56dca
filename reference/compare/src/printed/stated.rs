//! Texts that are stated: document 01's example, the samples, schedules at the
//! edges and refused ones.

use std::fs;
use std::path::{Path, PathBuf};

use reference::refusal::Refusal;
use reference::rng::Rng;
use reference::schedule::LONGEST;
use reference::text;

use super::output;
use super::Printer;
use crate::forms::written;
use crate::suite::{Comparisons, Outcome};

/// The example of document 01.
const EXAMPLE: &[u8] = &[
    0x02, 0x01, 0x01, 0x10, 0x02, 0x07, 0x01, 0x00, 0x00, 0x05, 0x00, 0x00, 0x02, 0x01, 0x00, 0x07,
    0x00, 0x00, 0x02, 0x02, 0x00, 0x02, 0x01, 0x00, 0x07, 0x00, 0x00,
];

/// What it prints.
const EXAMPLE_TEXT: &str = "1 ok\n\
                            2 ok\n\
                            3 ok\n\
                            4 refused 6\n\
                            5 ok\n\
                            5 learnt 0 0000000000000001\n\
                            6 ok\n\
                            7 ok\n\
                            7 decided 0 0000000000000001\n\
                            end 7 6 1\n";

/// How many samples there are at least.
const LEAST_SAMPLES: usize = 6;

/// Schedules at the edges, by their numbers: no event; scans 63 and 64 of 64;
/// codes that are no event's; scan 63 learnt and decided.
const EDGES: [(&[u64], &str); 4] = [
    (&[1, 1, 1, 16, 1, 0], "end 0 0 0\n"),
    (
        &[1, 1, 1, 16, 64, 2, 1, 0, 63, 1, 0, 64],
        "1 ok\n2 refused 3\nend 2 1 1\n",
    ),
    (
        &[8, 7, 8, 512, 64, 3, 0, 0, 0, 9, 0, 0, 65_535, 0, 0],
        "1 refused 2\n2 refused 2\n3 refused 2\nend 3 0 3\n",
    ),
    (
        &[
            1, 1, 1, 16, 64, 5, 1, 0, 63, 5, 0, 0, 2, 0, 0, 2, 1, 0, 2, 0, 0,
        ],
        "1 ok\n2 ok\n3 ok\n4 ok\n4 learnt 0 8000000000000000\n5 ok\nend 5 5 0\n",
    ),
];

/// Refused schedules, by their numbers: the six are read, then sizes are
/// tested, then E, then the events are read, then the end.
const REFUSED: [(&[u64], Refusal); 12] = [
    (&[], 11),
    (&[0, 0, 0, 0, 0], 11),
    (&[0, 0, 0, 0, 0, 65_536], 12),
    (&[0, 1, 1, 16, 1, 4_097], 1),
    (&[1, 1, 1, 15, 1, 0], 1),
    (&[1, 1, 1, 16, 65, 1], 1),
    (&[1, 1, 1, 16, 1, 4_097, 65_536], 3),
    (&[1, 1, 1, 16, 1, 4_096], 11),
    (&[1, 1, 1, 16, 1, 1, 0, 0], 11),
    (&[1, 1, 1, 16, 1, 1, 0, 0, 65_536], 12),
    (&[1, 1, 1, 16, 1, 0, 0], 13),
    (&[1, 1, 1, 16, 1, 1, 9, 9, 9, 65_536], 13),
];

/// The text of a refused schedule.
pub fn refused_text(refusal: Refusal) -> Vec<u8> {
    format!("schedule refused {refusal}\n").into_bytes()
}

/// The example of document 01.
pub fn example<P: Printer>(rng: &mut Rng) -> Outcome {
    let mut comparisons = Comparisons::new();
    output::compare_stated::<P>(&mut comparisons, rng, EXAMPLE, EXAMPLE_TEXT.as_bytes())?;
    comparisons.made()
}

/// Each text in `samples/` makes a schedule that prints what stands beside it.
pub fn samples<P: Printer>(rng: &mut Rng) -> Outcome {
    let mut comparisons = Comparisons::new();
    let samples = sample_files()?;
    if samples.len() < LEAST_SAMPLES {
        return Err(format!("there are {} samples", samples.len()));
    }
    for path in samples {
        let bytes = text::assemble(&read(&path)?)
            .map_err(|error| format!("{}: {error}", path.display()))?;
        let stands = read(&path.with_extension("out"))?;
        output::compare_stated::<P>(&mut comparisons, rng, &bytes, stands.as_bytes())
            .map_err(|error| format!("{}: {error}", path.display()))?;
    }
    comparisons.made()
}

/// The texts of the samples, in their order.
fn sample_files() -> Result<Vec<PathBuf>, String> {
    let folder = Path::new(env!("CARGO_MANIFEST_DIR")).join("../../samples");
    let entries =
        fs::read_dir(&folder).map_err(|error| format!("{}: {error}", folder.display()))?;
    let mut files: Vec<PathBuf> = entries
        .flatten()
        .map(|entry| entry.path())
        .filter(|path| path.extension().map_or(false, |found| found == "txt"))
        .collect();
    files.sort();
    Ok(files)
}

fn read(path: &Path) -> Result<String, String> {
    fs::read_to_string(path).map_err(|error| format!("{}: {error}", path.display()))
}

/// Schedules at the edges.
pub fn edges<P: Printer>(rng: &mut Rng) -> Outcome {
    let mut comparisons = Comparisons::new();
    for (numbers, text) in EDGES {
        output::compare_stated::<P>(&mut comparisons, rng, &written(numbers), text.as_bytes())?;
    }
    comparisons.made()
}

/// A refused schedule prints its number only.
pub fn refused_schedules<P: Printer>(rng: &mut Rng) -> Outcome {
    let mut comparisons = Comparisons::new();
    for (numbers, refusal) in REFUSED {
        let text = refused_text(refusal);
        output::compare_stated::<P>(&mut comparisons, rng, &written(numbers), &text)?;
    }
    comparisons.made()
}

/// The longest schedule prints a line for each event; one byte less is refused
/// 11, one more 13.
pub fn longest_schedule<P: Printer>(rng: &mut Rng) -> Outcome {
    let mut comparisons = Comparisons::new();
    let mut numbers = vec![8, 7, 8, 512, 64, 4_096];
    numbers.resize(6 + 3 * 4_096, 65_535);
    let mut bytes = written(&numbers);
    if bytes.len() != LONGEST {
        return Err(format!("the longest schedule has {} bytes", bytes.len()));
    }
    let mut text: String = (1..=4_096)
        .map(|place| format!("{place} refused 2\n"))
        .collect();
    text.push_str("end 4096 0 4096\n");
    output::compare_stated::<P>(&mut comparisons, rng, &bytes, text.as_bytes())?;
    let less = &bytes[..LONGEST - 1];
    output::compare_stated::<P>(&mut comparisons, rng, less, &refused_text(11))?;
    bytes.push(0);
    output::compare_stated::<P>(&mut comparisons, rng, &bytes, &refused_text(13))?;
    comparisons.made()
}
