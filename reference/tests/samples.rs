//! Each text in `samples/` makes a schedule that prints what stands beside it.

use std::fs;
use std::path::{Path, PathBuf};

use reference::{printer, text};

/// How many samples there are at least.
const LEAST: usize = 6;

fn folder() -> PathBuf {
    Path::new(env!("CARGO_MANIFEST_DIR")).join("../samples")
}

/// The files of the folder that have this ending, in their order.
fn files(ending: &str) -> Vec<PathBuf> {
    let entries = fs::read_dir(folder()).expect("the samples' folder is there");
    let paths = entries.map(|entry| entry.expect("the folder can be read").path());
    let mut files: Vec<PathBuf> = paths
        .filter(|path| path.extension().map_or(false, |found| found == ending))
        .collect();
    files.sort();
    files
}

fn read(path: &Path) -> String {
    fs::read_to_string(path).unwrap_or_else(|error| panic!("{}: {error}", path.display()))
}

/// The schedule that a sample's text makes.
fn schedule(path: &Path) -> Vec<u8> {
    text::assemble(&read(path)).unwrap_or_else(|error| panic!("{}: {error}", path.display()))
}

#[test]
fn every_sample_prints_what_stands_beside_it() {
    let samples = files("txt");
    assert!(samples.len() >= LEAST);
    for path in samples {
        let printed = String::from_utf8(printer::print(&schedule(&path))).expect("text is printed");
        let stands = read(&path.with_extension("out"));
        assert_eq!(printed, stands, "{}", path.display());
    }
}

#[test]
fn every_output_has_its_sample() {
    let mut samples = files("txt");
    for sample in &mut samples {
        sample.set_extension("out");
    }
    assert_eq!(files("out"), samples);
}

#[test]
fn the_text_of_a_sample_makes_the_same_schedule() {
    for path in files("txt") {
        let bytes = schedule(&path);
        let text = text::disassemble(&bytes).expect("the schedule is accepted");
        assert_eq!(text::assemble(&text), Ok(bytes), "{}", path.display());
    }
}
