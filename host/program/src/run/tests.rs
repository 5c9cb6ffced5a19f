//! Runs of a shell in the place of the program.

use std::os::unix::process::ExitStatusExt;

use super::*;

fn shell() -> Runner {
    Runner::new(PathBuf::from("/bin/sh"))
}

fn run(runner: &mut Runner, script: &str, bounds: Bounds) -> Run {
    runner.run(Path::new("/"), &["-c".into(), script.into()], bounds)
}

fn with_memory(memory: Memory) -> Bounds {
    Bounds {
        memory,
        ..Bounds::default()
    }
}

fn with_time(milliseconds: u64) -> Bounds {
    Bounds {
        time: Duration::from_millis(milliseconds),
        ..Bounds::default()
    }
}

fn status(run: &Run) -> ExitStatus {
    match run.end {
        End::Ended(status) => status,
        _ => panic!("{}", run.end),
    }
}

#[test]
fn output_and_errors_are_kept_apart() {
    let run = run(
        &mut shell(),
        "printf '0 0 0 12\\n'; printf note >&2; pwd",
        Bounds::default(),
    );
    assert!(run.succeeded());
    assert_eq!(run.output, b"0 0 0 12\n/\n");
    assert_eq!(run.errors, b"note");
}

#[test]
fn the_input_is_empty() {
    let run = run(&mut shell(), "cat", Bounds::default());
    assert!(run.succeeded());
    assert_eq!(run.output, b"");
}

#[test]
fn an_exit_status() {
    let run = run(&mut shell(), "echo 1; exit 3", Bounds::default());
    assert_eq!(status(&run).code(), Some(3));
    assert!(!run.succeeded());
    assert_eq!(run.end.to_string(), "exit status: 3");
    assert_eq!(run.output, b"1\n");
}

#[test]
fn a_signal() {
    let run = run(&mut shell(), "kill -SEGV $$", Bounds::default());
    assert_eq!(status(&run).signal(), Some(11));
    assert!(!run.succeeded());
    assert!(run.end.to_string().starts_with("signal: 11"), "{}", run.end);
}

#[test]
fn no_such_program() {
    let run = Runner::new(PathBuf::from("/nowhere/program")).run(Path::new("/"), &[], Bounds::default());
    assert!(!run.succeeded());
    assert!(run.end.to_string().starts_with("not started: "), "{}", run.end);
}

#[test]
fn one_that_does_not_end() {
    let mut runner = shell();
    // The second has closed its output, and goes on.
    for script in ["exec sleep 100", "exec sleep 100 >&- 2>&-", "exec sleep 100"] {
        let run = run(&mut runner, script, with_time(50));
        assert!(!run.succeeded());
        assert_eq!(run.end.to_string(), "stopped after 50ms");
    }
    let run = run(&mut runner, "exit 0", Bounds::default());
    assert!(!run.succeeded());
    assert!(run.end.to_string().starts_with("left out"), "{}", run.end);
}

#[test]
fn what_is_printed_before_it_is_stopped() {
    let run = run(&mut shell(), "echo 0 0 0 12; exec sleep 100", with_time(500));
    assert_eq!(run.end.to_string(), "stopped after 500ms");
    assert_eq!(run.output, b"0 0 0 12\n");
}

#[test]
fn a_stream_held_open_by_another() {
    let run = run(&mut shell(), "sleep 3 & echo 0 0 0 12", Bounds::default());
    assert!(run.succeeded());
    assert_eq!(run.output, b"0 0 0 12\n");
}

#[test]
fn one_that_does_not_end_its_output() {
    let run = run(&mut shell(), "exec yes", Bounds::default());
    assert!(!run.succeeded());
    assert_eq!(run.output.len() as u64, KEPT);
}

#[test]
fn limited_memory() {
    let run = run(&mut shell(), "ulimit -v", with_memory(Memory::Limited));
    assert!(run.succeeded());
    assert_eq!(run.output, b"65536\n");
}

#[test]
fn watched_memory() {
    let little = run(&mut shell(), "exec sleep 0.05", with_memory(Memory::Watched));
    assert!(little.succeeded());
    assert!((1..MEMORY).contains(&little.memory), "{}", little.memory);
    // One block of 128 MiB is read at once.
    let script = "exec dd if=/dev/zero of=/dev/null bs=128M count=1 2>/dev/null";
    let much = run(&mut shell(), script, with_memory(Memory::Watched));
    assert!(much.succeeded());
    assert!(much.memory > MEMORY, "{}", much.memory);
}
