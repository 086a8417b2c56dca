//! One schedule printed to outputs as long as its text, shorter and longer.

use reference::printer;
use reference::refusal::NO_ROOM;
use reference::rng::Rng;

use super::second::Second;
use super::Printer;
use crate::forms::left::{self, Left};
use crate::forms::lengths_about;
use crate::forms::lent::Lent;
use crate::forms::shown::Bytes;
use crate::suite::Comparisons;

/// The text's length before a call; none that a call may give.
const LENGTH_BEFORE: usize = 0xa5a5_a5a5;

/// What a printer leaves: its answer, the text's length and the output.
type Printing = Left<usize, u8>;

fn print<P: Printer>(bytes: &[u8], output: &Lent<u8>) -> Printing {
    let mut cell = LENGTH_BEFORE;
    let mut lent = output.clone();
    let answer = P::print(lent.lent_mut(), bytes, &mut cell);
    Left { answer, cell, lent }
}

/// The text at the output's start, and the bytes past it as they were; 8 and
/// nothing changed where the output is shorter.
fn printing_of(text: &[u8], output: &Lent<u8>) -> Printing {
    if output.length() < text.len() {
        return Left {
            answer: NO_ROOM,
            cell: LENGTH_BEFORE,
            lent: output.clone(),
        };
    }
    Left {
        answer: 0,
        cell: text.len(),
        lent: output.beginning_with(text),
    }
}

/// Outputs as long as the text, one byte shorter, longer, empty and shorter.
fn outputs_about(rng: &mut Rng, text: &[u8]) -> Vec<Lent<u8>> {
    let lengths = lengths_about(rng, text.len());
    let outputs = lengths.iter();
    outputs
        .map(|length| Lent::random(rng, *length, text.len()))
        .collect()
}

/// Compares what the printer leaves with the second program's text, and gives
/// the text.
pub fn compare<P: Printer>(
    comparisons: &mut Comparisons,
    rng: &mut Rng,
    bytes: &[u8],
) -> Result<Vec<u8>, String> {
    let text = printer::print(bytes);
    for output in outputs_about(rng, &text) {
        left::same(
            comparisons,
            format_args!("printing to {} bytes, {}", output.length(), Bytes(bytes)),
            &print::<P>(bytes, &output),
            &printing_of(&text, &output),
        )?;
    }
    Ok(text)
}

/// Compares what the printer and the second program leave with the stated text.
pub fn compare_stated<P: Printer>(
    comparisons: &mut Comparisons,
    rng: &mut Rng,
    bytes: &[u8],
    text: &[u8],
) -> Result<(), String> {
    for output in outputs_about(rng, text) {
        left::stated(
            comparisons,
            format_args!("printing to {} bytes, {}", output.length(), Bytes(bytes)),
            &print::<P>(bytes, &output),
            &print::<Second>(bytes, &output),
            &printing_of(text, &output),
        )?;
    }
    Ok(())
}
