//! A script for a program on a pipe and the answers it has to get.

use crate::pipe::OnPipe;

/// Lines and what the model answers to each.
#[derive(Clone, Debug, Default)]
pub struct Script {
    pub lines: Vec<String>,
    pub answers: Vec<u8>,
    /// Where the answer to each line ends.
    ends: Vec<usize>,
}

impl Script {
    /// These lines, answered by a fresh model.
    pub fn answered<Model: OnPipe>(lines: Vec<String>) -> Script {
        let mut model = Model::default();
        let mut script = Script::default();
        for line in lines {
            script.push(&mut model, line);
        }
        script
    }

    /// The answer to each line, without its end.
    pub fn each(&self) -> impl Iterator<Item = &[u8]> {
        let starts = [0].into_iter().chain(self.ends.iter().copied());
        starts
            .zip(&self.ends)
            .map(|(start, &end)| self.answers[start..end].trim_ascii_end())
    }

    /// The line whose answer has the byte `at`; the last line where no answer has it.
    pub fn line_of(&self, at: usize) -> usize {
        let line = self.ends.partition_point(|&end| end <= at);
        line.min(self.lines.len().saturating_sub(1))
    }

    /// Adds a line and gives the model's answer to it.
    pub fn push(&mut self, model: &mut impl OnPipe, line: String) -> &[u8] {
        let start = self.answers.len();
        model.line(line.as_bytes(), &mut self.answers);
        self.ends.push(self.answers.len());
        self.lines.push(line);
        &self.answers[start..]
    }
}
