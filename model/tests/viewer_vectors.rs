//! The scripts of `vectors/04` with their answers, which come from an independent reading of
//! request 2026-04, and the one of `examples/viewer`. Those of `vectors/04` show neither an error packet that ends a gathering, nor its ends with 0x01
//! and 0x03, nor a stray continuation, nor a written command that is too long.

use std::fs;
use std::path::{Path, PathBuf};

use model::pipe::OnPipe;
use model::trial::program::Program;
use model::viewer::bench::ViewerBench;

/// Every script with its answers.
fn vectors() -> Vec<(PathBuf, String, Vec<u8>)> {
    let top = Path::new(env!("CARGO_MANIFEST_DIR")).join("..");
    [
        "vectors/04/viewer-1.in",
        "vectors/04/viewer-2.in",
        "examples/viewer/get-assertion.txt",
    ]
    .map(|name| {
        let path = top.join(name);
        let script = fs::read_to_string(&path);
        let answers = fs::read(path.with_extension("out"));
        let (Ok(script), Ok(answers)) = (script, answers) else {
            panic!("{} or its answers cannot be read", path.display());
        };
        (path, script, answers)
    })
    .to_vec()
}

#[test]
fn the_model_answers_the_vectors() {
    for (path, script, expected) in vectors() {
        let mut answers = Vec::new();
        ViewerBench::default()
            .serve(script.as_bytes(), &mut answers)
            .expect("memory can be read and written");
        assert!(answers == expected, "{}", path.display());
    }
}

#[test]
fn the_program_answers_the_vectors() {
    let program = Program::find_viewer().unwrap_or_else(|missing| panic!("{missing}"));
    for (path, script, expected) in vectors() {
        let lines: Vec<String> = script.lines().map(String::from).collect();
        let outcome = program.run(&lines);
        assert_eq!(outcome.bad_end, None, "{}", path.display());
        assert!(outcome.answers == expected, "{}", path.display());
    }
}
