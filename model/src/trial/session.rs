//! A talk with a real program, in which each line can hang on the answers before it. What goes
//! wrong with the program ends the talk in a panic.

use std::io::{BufRead, BufReader, Write};
use std::process::{Child, ChildStdin};
use std::sync::mpsc::{self, Receiver};
use std::thread;
use std::time::Duration;

use super::program::Program;
use super::script::Script;
use crate::pipe::OnPipe;

/// How long an answer can take before the program counts as hung.
const PATIENCE: Duration = Duration::from_secs(20);

pub struct Session {
    child: Child,
    input: ChildStdin,
    answers: Receiver<String>,
}

impl Session {
    /// Starts the program. A thread of its own reads the answers, so that neither side waits for
    /// the other's pipe.
    pub fn start(program: &Program) -> Session {
        let mut child = program.start().expect("the program starts");
        let input = child.stdin.take().expect("a pipe to the program");
        let output = BufReader::new(child.stdout.take().expect("a pipe from the program"));
        let (answered, answers) = mpsc::channel();
        thread::spawn(move || {
            for line in output.lines().map_while(Result::ok) {
                if answered.send(line).is_err() {
                    break;
                }
            }
        });
        Session {
            child,
            input,
            answers,
        }
    }

    pub fn send(&mut self, line: &str) {
        self.input
            .write_all(format!("{line}\n").as_bytes())
            .expect("the program reads");
    }

    /// The next line of the program's answers.
    pub fn answer(&mut self) -> String {
        self.answers
            .recv_timeout(PATIENCE)
            .expect("the program answers")
    }

    /// Sends a line that has one line of answer.
    pub fn ask(&mut self, line: &str) -> String {
        self.send(line);
        self.answer()
    }

    /// Sends lines one by one, each only after the answer to the one before it has come, which must
    /// be the model's.
    pub fn agrees<Model: OnPipe>(mut self, lines: &[&str]) {
        let script = Script::answered::<Model>(lines.iter().copied().map(String::from).collect());
        for (line, expected) in lines.iter().zip(script.each()) {
            self.send(line);
            for expected in String::from_utf8_lossy(expected).lines() {
                assert_eq!(self.answer(), expected, "the answer to {line}");
            }
        }
        self.end();
    }

    /// Ends the input; there is no answer left, and the program ends well.
    pub fn end(mut self) {
        drop(self.input);
        assert!(self.child.wait().expect("the program ends").success());
        assert_eq!(self.answers.recv().ok(), None);
    }
}
