//! What the times were taken on.

use std::env::consts::{ARCH, OS};
use std::fs;

/// The machine's kind, with its processor's name where the system tells it.
pub fn name() -> String {
    let told = fs::read_to_string("/proc/cpuinfo").unwrap_or_default();
    match processor(&told) {
        Some(processor) => format!("{ARCH}, {OS}, {processor}"),
        None => format!("{ARCH}, {OS}"),
    }
}

fn processor(told: &str) -> Option<&str> {
    let line = told.lines().find(|line| line.starts_with("model name"))?;
    line.split_once(": ").map(|(_, name)| name.trim())
}

#[cfg(test)]
mod tests {
    use super::*;

    #[test]
    fn a_processor_with_a_name_or_without() {
        let told = "processor\t: 0\nmodel name\t: Some Processor @ 2GHz\nstepping\t: 2\n";
        assert_eq!(processor(told), Some("Some Processor @ 2GHz"));
        assert_eq!(processor("CPU part\t: 0xd0c\n"), None);
    }
}
