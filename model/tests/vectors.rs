//! Scripts with their answers: those of `vectors`, which come from an independent reading of the
//! documents, and those of `examples`. `vectors/01` has the rules as requests 2026-03 (the order of
//! keys), 2026-07 (text is UTF-8), 2026-09 (where a message is wrong), 2026-10 (4,294,967,294
//! channels) and 2026-01 (MSG) amend them; what happens at the last channel, and to a MSG that waits,
//! is in `vectors/examples.in`.

use std::fs;
use std::path::{Path, PathBuf};

use model::bench::Bench;
use model::pipe::OnPipe;
use model::trial::program::Program;

/// The scripts of a folder, by the ending of their names.
fn scripts(folder: &str, ending: &str) -> Vec<PathBuf> {
    let folder = Path::new(env!("CARGO_MANIFEST_DIR"))
        .join("..")
        .join(folder);
    let mut scripts: Vec<PathBuf> = fs::read_dir(&folder)
        .unwrap_or_else(|error| panic!("{}: {error}", folder.display()))
        .map(|entry| entry.expect("an entry of the folder").path())
        .filter(|path| {
            path.extension()
                .is_some_and(|extension| extension == ending)
        })
        .collect();
    scripts.sort();
    assert!(!scripts.is_empty(), "no scripts in {}", folder.display());
    scripts
}

/// Every script with its answers.
fn vectors() -> Vec<(PathBuf, Vec<u8>, Vec<u8>)> {
    let read =
        |path: &Path| fs::read(path).unwrap_or_else(|error| panic!("{}: {error}", path.display()));
    let mut paths = scripts("vectors", "in");
    paths.extend(scripts("vectors/01", "in"));
    paths.extend(scripts("examples", "txt"));
    paths
        .into_iter()
        .map(|path| (path.clone(), read(&path), read(&path.with_extension("out"))))
        .collect()
}

#[test]
fn the_model_answers_the_vectors() {
    for (path, script, expected) in vectors() {
        let mut answers = Vec::new();
        Bench::default()
            .serve(&script[..], &mut answers)
            .expect("memory can be read and written");
        assert!(answers == expected, "{}", path.display());
    }
}

#[test]
fn the_program_answers_the_vectors() {
    let program = Program::find().unwrap_or_else(|missing| panic!("{missing}"));
    for (path, script, expected) in vectors() {
        let script = String::from_utf8(script).expect("scripts are text");
        let lines: Vec<String> = script.lines().map(String::from).collect();
        let outcome = program.run(&lines);
        assert_eq!(outcome.bad_end, None, "{}", path.display());
        assert!(outcome.answers == expected, "{}", path.display());
    }
}
