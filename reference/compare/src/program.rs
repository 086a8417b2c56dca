//! The run printer as a program beside the second program's `run`: the best
//! times of whole processes, and their peak memory.

use std::ffi::OsStr;
use std::fs::{self, File};
use std::io::{self, Write};
use std::os::unix::io::OwnedFd;
use std::os::unix::net::UnixStream;
use std::path::Path;
use std::process::{Child, Command, Stdio};
use std::thread;
use std::time::{Duration, Instant};

/// How many processes of each program are timed.
const PROCESSES: usize = 200;

/// How long a program may take until its output is there, and how often that
/// is looked for.
const PATIENCE: Duration = Duration::from_secs(10);
const LOOK: Duration = Duration::from_millis(1);

/// The run printer's command.
pub fn proved(program: &OsStr) -> Command {
    Command::new(program)
}

/// The second program's command that prints.
pub fn second(program: &OsStr) -> Command {
    let mut command = Command::new(program);
    command.arg("run");
    command
}

/// The best time of a whole process of each command on the schedule. Both
/// print the same.
pub fn best_times(commands: &mut [Command; 2], schedule: &Path) -> io::Result<[Duration; 2]> {
    let mut best = [Duration::MAX; 2];
    for _ in 0..PROCESSES {
        let [proved, second] = commands;
        let (proved_time, proved_text) = timed(proved, schedule)?;
        let (second_time, second_text) = timed(second, schedule)?;
        assert!(proved_text == second_text, "the texts differ");
        best = [best[0].min(proved_time), best[1].min(second_time)];
    }
    Ok(best)
}

/// The time of a process, and what it prints.
fn timed(command: &mut Command, schedule: &Path) -> io::Result<(Duration, Vec<u8>)> {
    command.stdin(File::open(schedule)?).stdout(Stdio::piped());
    let begin = Instant::now();
    let output = command.output()?;
    let time = begin.elapsed();
    assert!(output.status.success(), "the program fails");
    Ok((time, output.stdout))
}

/// The most memory that a process of the command has had when it prints, in
/// kB. It is looked at while the process waits for an output that takes
/// nothing.
pub fn peak_memory(command: &mut Command, schedule: &Path) -> io::Result<u64> {
    let (_kept, output) = full_output()?;
    let mut child = command
        .stdin(File::open(schedule)?)
        .stdout(Stdio::from(OwnedFd::from(output)))
        .spawn()?;
    let peak = peak_when_waiting(&child);
    child.kill()?;
    child.wait()?;
    peak
}

/// A stream and its other end, which takes no more bytes.
fn full_output() -> io::Result<(UnixStream, UnixStream)> {
    let (kept, mut output) = UnixStream::pair()?;
    output.set_nonblocking(true)?;
    while output.write(&[0; 4_096]).is_ok() {}
    output.set_nonblocking(false)?;
    Ok((kept, output))
}

/// The peak memory of a process as soon as it waits.
fn peak_when_waiting(child: &Child) -> io::Result<u64> {
    let begin = Instant::now();
    while begin.elapsed() < PATIENCE {
        let status = fs::read_to_string(format!("/proc/{}/status", child.id()))?;
        if field(&status, "State:") == Some("S") {
            let peak = field(&status, "VmHWM:").and_then(|word| word.parse().ok());
            return peak.ok_or_else(|| io::Error::new(io::ErrorKind::Other, "no VmHWM"));
        }
        thread::sleep(LOOK);
    }
    Err(io::Error::new(
        io::ErrorKind::TimedOut,
        "the program prints nothing",
    ))
}

/// The first word of a field.
fn field<'a>(status: &'a str, name: &str) -> Option<&'a str> {
    let line = status.lines().find_map(|line| line.strip_prefix(name))?;
    line.split_whitespace().next()
}
