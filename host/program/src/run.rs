//! Runs of the program, each within a limit of time.

use std::ffi::OsString;
use std::io::{self, Read};
use std::path::{Path, PathBuf};
use std::process::{Child, Command, ExitStatus, Stdio};
use std::sync::mpsc::{self, Receiver};
use std::thread;
use std::time::{Duration, Instant};
use std::{fmt, fs};

/// How a run ended.
#[derive(Debug)]
pub enum End {
    NotStarted(io::Error),
    /// It can't be said what became of it.
    Lost(io::Error),
    TimedOut(Duration),
    Ended(ExitStatus),
    /// Too many runs timed out before it.
    LeftOut,
}

impl fmt::Display for End {
    fn fmt(&self, f: &mut fmt::Formatter) -> fmt::Result {
        match self {
            End::NotStarted(error) => write!(f, "not started: {error}"),
            End::Lost(error) => write!(f, "lost: {error}"),
            End::TimedOut(time) => write!(f, "stopped after {time:?}"),
            // The exit status or the signal.
            End::Ended(status) => write!(f, "{status}"),
            End::LeftOut => write!(f, "left out after {TIMEOUTS} runs that had to be stopped"),
        }
    }
}

/// What is done about the memory of a run.
#[derive(Clone, Copy, Debug, PartialEq, Eq)]
pub enum Memory {
    Free,
    /// More than `MEMORY` is refused to it.
    Limited,
    /// It is seen how much is used.
    Watched,
}

/// The memory that a run needs at most, in KiB.
pub const MEMORY: u64 = 1 << 16;

/// The time that a run has, unless it is given more.
pub const TIME: Duration = Duration::from_secs(10);

/// What a run is given.
#[derive(Clone, Copy, Debug, PartialEq, Eq)]
pub struct Bounds {
    pub time: Duration,
    pub memory: Memory,
}

impl Default for Bounds {
    fn default() -> Bounds {
        Bounds {
            time: TIME,
            memory: Memory::Free,
        }
    }
}

/// A run: how it ended, and the begin of what it printed.
#[derive(Debug)]
pub struct Run {
    pub end: End,
    pub output: Vec<u8>,
    pub errors: Vec<u8>,
    /// The most memory that it was seen to use, in KiB.
    pub memory: u64,
}

impl Run {
    fn without_output(end: End) -> Run {
        Run {
            end,
            output: Vec::new(),
            errors: Vec::new(),
            memory: 0,
        }
    }

    pub fn succeeded(&self) -> bool {
        matches!(&self.end, End::Ended(status) if status.success())
    }
}

/// The time that is given to its streams to end after it.
const PATIENCE: Duration = Duration::from_secs(2);

/// The runs that may time out before the others are left out.
const TIMEOUTS: u32 = 3;

/// As much as is kept of what a run prints.
const KEPT: u64 = 1 << 16;

/// Runs one program, given by its absolute path.
pub struct Runner {
    program: PathBuf,
    timeouts: u32,
}

impl Runner {
    pub fn new(program: PathBuf) -> Runner {
        Runner { program, timeouts: 0 }
    }

    pub fn run(&mut self, folder: &Path, arguments: &[OsString], bounds: Bounds) -> Run {
        if self.timeouts == TIMEOUTS {
            return Run::without_output(End::LeftOut);
        }
        let mut command = self.command(bounds.memory);
        command
            .args(arguments)
            .current_dir(folder)
            .stdin(Stdio::null())
            .stdout(Stdio::piped())
            .stderr(Stdio::piped());
        let run = match command.spawn() {
            Ok(child) => finish(child, bounds),
            Err(error) => Run::without_output(End::NotStarted(error)),
        };
        if let End::TimedOut(_) = run.end {
            self.timeouts += 1;
        }
        run
    }

    /// Starts the program, or a shell that turns into it.
    fn command(&self, memory: Memory) -> Command {
        if memory == Memory::Limited {
            let mut command = Command::new("/bin/sh");
            let script = format!(r#"ulimit -v {MEMORY} && exec "$0" "$@""#);
            command.arg("-c").arg(script).arg(&self.program);
            command
        } else {
            Command::new(&self.program)
        }
    }
}

fn finish(mut child: Child, bounds: Bounds) -> Run {
    let deadline = Instant::now() + bounds.time;
    let output = child.stdout.take().map(collect);
    let errors = child.stderr.take().map(collect);
    let mut most = 0;
    let end = loop {
        match child.try_wait() {
            Ok(Some(status)) => break End::Ended(status),
            Ok(None) if Instant::now() < deadline => {}
            Ok(None) => break stop(child, bounds.time),
            Err(error) => break End::Lost(error),
        }
        if bounds.memory == Memory::Watched {
            most = most.max(memory_of(child.id()));
        }
        thread::sleep(Duration::from_micros(100));
    };
    Run {
        end,
        output: output.map(received).unwrap_or_default(),
        errors: errors.map(received).unwrap_or_default(),
        memory: most,
    }
}

fn stop(mut child: Child, time: Duration) -> End {
    match child.kill().and_then(|()| child.wait()) {
        Ok(_) => End::TimedOut(time),
        Err(error) => End::Lost(error),
    }
}

/// Reads a stream in a thread of its own. After as much as is kept it is closed.
fn collect(stream: impl Read + Send + 'static) -> Receiver<Vec<u8>> {
    let (sender, receiver) = mpsc::channel();
    thread::spawn(move || {
        let mut stream = stream.take(KEPT);
        let mut bytes = [0; 4096];
        while let Ok(count @ 1..) = stream.read(&mut bytes) {
            // Nobody may wait for it any more.
            if sender.send(bytes[..count].to_vec()).is_err() {
                break;
            }
        }
    });
    receiver
}

/// What was read of a stream. Another process may hold it open, so this does not
/// wait for ever.
fn received(collected: Receiver<Vec<u8>>) -> Vec<u8> {
    let deadline = Instant::now() + PATIENCE;
    let mut bytes = Vec::new();
    while let Ok(more) = collected.recv_timeout(deadline.saturating_duration_since(Instant::now())) {
        bytes.extend(more);
    }
    bytes
}

/// The most memory that a process has used so far, in KiB; 0 if it is at its
/// end.
fn memory_of(process: u32) -> u64 {
    let status = fs::read_to_string(format!("/proc/{process}/status")).unwrap_or_default();
    let most = status.lines().find_map(|line| line.strip_prefix("VmHWM:"));
    most.and_then(|number| number.trim().strip_suffix(" kB")?.parse().ok())
        .unwrap_or(0)
}

#[cfg(test)]
mod tests;
