//! The commands: what they write, and how they end.

use std::io::Write;
use std::process::{Command, Output, Stdio};

/// The example of document 01.
const EXAMPLE: &[u8] = b"\x02\x01\x01\x10\x02\x07\x01\x00\x00\x05\x00\x00\x02\x01\x00\x07\x00\x00\
                         \x02\x02\x00\x02\x01\x00\x07\x00\x00";

/// Runs the command on this input.
fn reference(arguments: &[&str], input: &[u8]) -> Output {
    let mut child = Command::new(env!("CARGO_BIN_EXE_reference"))
        .args(arguments)
        .stdin(Stdio::piped())
        .stdout(Stdio::piped())
        .stderr(Stdio::piped())
        .spawn()
        .expect("the command begins");
    let mut stdin = child.stdin.take().expect("the command has an input");
    // A command that does not read its input may have ended already.
    let _ = stdin.write_all(input);
    drop(stdin);
    child.wait_with_output().expect("the command ends")
}

/// What a command writes that succeeds and says nothing else.
fn written(arguments: &[&str], input: &[u8]) -> Vec<u8> {
    let output = reference(arguments, input);
    assert_eq!(output.status.code(), Some(0));
    assert_eq!(output.stderr, b"");
    output.stdout
}

/// What a command says that writes nothing, and its exit status.
fn said(arguments: &[&str], input: &[u8]) -> (String, Option<i32>) {
    let output = reference(arguments, input);
    assert_eq!(output.stdout, b"");
    let text = String::from_utf8(output.stderr).expect("text is said");
    (text, output.status.code())
}

#[test]
fn the_example_is_run_and_comes_back() {
    let printed = written(&["run"], EXAMPLE);
    assert!(printed.starts_with(b"1 ok\n") && printed.ends_with(b"end 7 6 1\n"));
    let text = written(&["dis"], EXAMPLE);
    assert!(text.starts_with(b"sizes proposers 2 acceptors 1 learners 1 slots 16 scans 2\n"));
    assert_eq!(written(&["asm"], &text), EXAMPLE);
}

#[test]
fn a_refused_schedule() {
    assert_eq!(written(&["run"], b"\x80\x00"), b"schedule refused 12\n");
    let refused = ("schedule refused 12\n".to_string(), Some(1));
    assert_eq!(said(&["dis"], b"\x80\x00"), refused);
}

#[test]
fn a_text_with_an_error() {
    let text = b"# a story\nsizes slots 15\n";
    let error = "line 2: slots are 16 to 512, and not 15\n".to_string();
    assert_eq!(said(&["asm"], text), (error, Some(1)));
}

#[test]
fn a_text_that_is_no_text() {
    let (_, status) = said(&["asm"], b"\xff\xfe");
    assert_eq!(status, Some(1));
}

#[test]
fn generated_schedules() {
    for style in [
        "calm",
        "contention",
        "lossy",
        "crashes",
        "full",
        "edges",
        "wild",
    ] {
        let bytes = written(&["gen", "7", style, "200"], b"");
        assert_eq!(written(&["gen", "7", style, "200"], b""), bytes);
        let text = written(&["dis"], &bytes);
        assert_eq!(written(&["asm"], &text), bytes);
        let printed = String::from_utf8(written(&["run"], &bytes)).expect("text is printed");
        assert!(printed.contains(" learnt "), "{style}");
        assert!(printed.contains("\nend 200 "), "{style}");
    }
    assert_eq!(
        written(&["run"], &written(&["gen", "1", "calm", "0"], b"")),
        b"end 0 0 0\n"
    );
}

#[test]
fn a_generated_schedule_of_given_sizes() {
    let sizes = ["8", "7", "8", "512", "64"];
    let bytes = written(&[&["gen", "7", "lossy", "200"][..], &sizes].concat(), b"");
    let text = written(&["dis"], &bytes);
    assert!(text.starts_with(b"sizes proposers 8 acceptors 7 learners 8 slots 512 scans 64\n"));
    assert!(written(&["run"], &bytes).starts_with(b"1 ok\n"));
}

#[test]
fn rubbish() {
    let bytes = written(&["rubbish", "1234567", "3"], b"");
    assert_eq!(bytes, [133, 165, 119]);
    assert_eq!(written(&["rubbish", "1234567", "2"], b""), bytes[..2]);
    assert_eq!(written(&["rubbish", "1234567", "0"], b""), b"");
}

#[test]
fn arguments_that_are_no_command() {
    let wrong: [&[&str]; 13] = [
        &[],
        &["walk"],
        &["run", "more"],
        &["asm", "file"],
        &["gen"],
        &["gen", "1", "calm"],
        &["gen", "one", "calm", "10"],
        &["gen", "1", "stormy", "10"],
        &["gen", "1", "calm", "4097"],
        &["gen", "1", "calm", "10", "8", "7", "8", "513", "64"],
        &["gen", "1", "calm", "10", "8", "7", "8", "many", "64"],
        &["rubbish", "1"],
        &["rubbish", "1", "some"],
    ];
    for arguments in wrong {
        let (text, status) = said(arguments, b"");
        assert_eq!(status, Some(2), "{arguments:?}");
        assert!(text.contains("usage: reference run < schedule\n"));
        assert!(text.ends_with("styles: calm, contention, lossy, crashes, full, edges, wild\n"));
    }
}
