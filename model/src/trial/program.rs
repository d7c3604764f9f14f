//! The real programs `bench` and `viewer_bench`.
//!
//! `BENCH` names the first; without it, it is `../crates/bench/out/bench` beside this package, where
//! `rt ci`, and `rt run` in `crates/bench`, put it. `VIEWER_BENCH` and `../crates/viewer_bench` are
//! the same for the second. They are programs for x86-64 and Linux, which start by themselves there.
//! On another processor `BENCH_RUNNER` holds the words to put before them, such as
//! `qemu-x86_64 -L FOLDER`, where `FOLDER` has the loader and the C library of an x86-64 system.

use std::env;
use std::io::{self, Read, Write};
use std::path::{Path, PathBuf};
use std::process::{Child, Command, Stdio};
use std::sync::mpsc::{self, RecvTimeoutError};
use std::thread;
use std::time::Duration;

/// How long a script can take before the program counts as hung.
const PATIENCE: Duration = Duration::from_secs(60);

/// What came of a script.
#[derive(Clone, Debug, Default, PartialEq, Eq)]
pub struct Outcome {
    pub answers: Vec<u8>,
    /// What was wrong with the way the program ended.
    pub bad_end: Option<String>,
}

#[derive(Clone, Debug)]
pub struct Program {
    /// The program, behind the words that run it.
    words: Vec<String>,
}

impl Program {
    /// Finds `bench`, or says how to make it.
    pub fn find() -> Result<Program, String> {
        Program::find_named("bench", "BENCH")
    }

    /// Finds `viewer_bench`, or says how to make it.
    pub fn find_viewer() -> Result<Program, String> {
        Program::find_named("viewer_bench", "VIEWER_BENCH")
    }

    fn find_named(name: &str, variable: &str) -> Result<Program, String> {
        let made_at = Path::new(env!("CARGO_MANIFEST_DIR"))
            .join("../crates")
            .join(name)
            .join("out")
            .join(name);
        let path = env::var_os(variable).map_or(made_at, PathBuf::from);
        if !path.is_file() {
            return Err(format!(
                "there is no program at {}: run `./{name} </dev/null` at the top of the repository, \
                 which makes it, or set {variable} to the program",
                path.display()
            ));
        }
        let runner = env::var("BENCH_RUNNER").unwrap_or_default();
        let mut words: Vec<String> = runner.split_whitespace().map(String::from).collect();
        words.push(path.to_string_lossy().into_owned());
        Ok(Program { words })
    }

    /// Starts the program with pipes to its input and from its output.
    pub fn start(&self) -> io::Result<Child> {
        Command::new(&self.words[0])
            .args(&self.words[1..])
            .stdin(Stdio::piped())
            .stdout(Stdio::piped())
            .spawn()
    }

    /// Runs the program on these lines. Whatever goes wrong is part of the outcome.
    pub fn run(&self, lines: &[String]) -> Outcome {
        let mut outcome = Outcome::default();
        match self.start() {
            Ok(child) => {
                if let Err(error) = attend(child, lines, &mut outcome.answers) {
                    outcome.bad_end = Some(error);
                }
            }
            Err(error) => {
                outcome.bad_end = Some(format!(
                    "{} does not start: {error} (on a processor other than x86-64 set \
                     BENCH_RUNNER, see model/src/trial/program.rs)",
                    self.words.join(" ")
                ));
            }
        }
        outcome
    }
}

/// Feeds the program from one thread, so that neither side waits for the other's pipe, ends it from
/// another where it hangs, and reads its answers.
fn attend(mut child: Child, lines: &[String], answers: &mut Vec<u8>) -> Result<(), String> {
    let script: String = lines
        .iter()
        .flat_map(|line| [line.as_str(), "\n"])
        .collect();
    let (Some(mut input), Some(mut output)) = (child.stdin.take(), child.stdout.take()) else {
        return Err("the program has no pipes".to_string());
    };
    let (ended, watch) = mpsc::channel::<()>();
    thread::scope(|scope| {
        // A program that ends early closes the pipe; what it did not answer shows that.
        scope.spawn(move || input.write_all(script.as_bytes()));
        let watchdog = scope.spawn(move || {
            let hung = watch.recv_timeout(PATIENCE) == Err(RecvTimeoutError::Timeout);
            if hung {
                child.kill().ok();
            }
            (hung, child.wait())
        });
        let read = output.read_to_end(answers);
        drop(ended);
        let (hung, status) = watchdog
            .join()
            .map_err(|_| "the watchdog failed".to_string())?;
        read.map_err(|error| format!("its answers cannot be read: {error}"))?;
        if hung {
            return Err(format!("it did not end within {PATIENCE:?}"));
        }
        match status {
            Ok(status) if status.success() => Ok(()),
            Ok(status) => Err(format!("it ended with {status}")),
            Err(error) => Err(format!("its end cannot be awaited: {error}")),
        }
    })
}
