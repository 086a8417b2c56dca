//! Prints every wrong machine with what tells it apart from the second
//! program, and how many are told apart by what.

#![forbid(unsafe_code)]

use compare::machine::wrong::told::{every, Share, Told, REST};
use compare::machine::wrong::SAME;

fn main() {
    let mut share = Share::default();
    println!("printed answers records");
    for (wrong, told) in every() {
        println!("{} {}:{}", marks(told), wrong.name, wrong.meaning);
        share.add(told);
    }
    println!("{} machines, {} told apart", share.machines, share.apart);
    println!("by printed lines: {}", share.printed);
    println!(
        "of those that print the same lines, by records and slots: {}",
        share.by_records
    );
    println!(
        "of those that leave the same records and slots too, for every input, by answers or logs: {}",
        share.by_answers
    );
    for (name, reason) in REST {
        println!("  {name}: {reason}");
    }
    println!(
        "not told apart, being the same for every input: {}",
        share.machines - share.apart
    );
    for wrong in SAME {
        println!("  {}:{}", wrong.name, wrong.meaning);
    }
}

/// A column for each that tells a machine apart.
fn marks(told: Told) -> String {
    let mark = |yes: bool| if yes { "yes" } else { "-" };
    format!(
        "{:<7} {:<7} {:<7}",
        mark(told.printed),
        mark(told.answers),
        mark(told.records)
    )
}
