//! Lines whose answers are known beforehand, and not from the model.

use super::script::Script;
use crate::pipe::OnPipe;

/// Lines and the answers they have to get.
#[derive(Clone, Debug, Default)]
pub struct Cases {
    pub lines: Vec<String>,
    answers: Vec<String>,
}

impl Cases {
    /// Expects this answer to a line, without its end; none where it is empty.
    pub fn push(&mut self, line: String, answer: impl Into<String>) {
        self.lines.push(line);
        self.answers.push(answer.into());
    }

    /// The first line to which the model does not answer as expected, with both answers.
    pub fn wrong_answer<Model: OnPipe>(&self) -> Option<String> {
        let script = Script::answered::<Model>(self.lines.clone());
        for ((line, expected), answer) in self.lines.iter().zip(&self.answers).zip(script.each()) {
            let answer = String::from_utf8_lossy(answer);
            if answer != *expected {
                return Some(format!(
                    "to {line} the model answers {answer} and not {expected}"
                ));
            }
        }
        None
    }
}
