//! A program on a pipe: it reads lines and answers each as soon as it is read.

use std::io::{self, BufRead, Read, Write};

/// What such a program answers. A fresh one is the default.
pub trait OnPipe: Default {
    /// Bytes in the longest line. A longer one is none of the protocol's.
    const LONGEST_LINE: usize;

    /// Answers one line, which stands without its end.
    fn line(&mut self, line: &[u8], out: &mut Vec<u8>);

    /// The line that brings a fresh program into this one's state, where the protocol has one.
    fn state_line(&self) -> Option<String>;

    /// Answers the lines of `input` until it ends, each as soon as it is read.
    fn serve(&mut self, mut input: impl BufRead, mut output: impl Write) -> io::Result<()> {
        let mut line = Vec::new();
        let mut answer = Vec::new();
        while read_line(&mut input, Self::LONGEST_LINE, &mut line)? {
            self.line(&line, &mut answer);
            output.write_all(&answer)?;
            output.flush()?;
            answer.clear();
        }
        Ok(())
    }
}

/// Reads the next line without its end; false at the end of input. Of a line that is too long it
/// keeps enough to tell, and passes over the rest.
fn read_line(input: &mut impl BufRead, longest: usize, line: &mut Vec<u8>) -> io::Result<bool> {
    line.clear();
    let most = longest as u64 + 1;
    if input.by_ref().take(most).read_until(b'\n', line)? == 0 {
        return Ok(false);
    }
    if line.last() == Some(&b'\n') {
        line.pop();
    } else if line.len() > longest {
        input.skip_until(b'\n')?;
    }
    Ok(true)
}

/// The answer to a line that is none of the protocol's.
pub(crate) fn no_line(number: u64, out: &mut Vec<u8>) {
    out.extend_from_slice(format!("? line {number}\n").as_bytes());
}
