//! What the table tests share.

use model::bench::Bench;
pub use model::line::hex;
use model::trial::program::Program;
use model::trial::run::compare_lines;

pub fn program() -> Program {
    Program::find().unwrap_or_else(|missing| panic!("{missing}"))
}

/// Runs a script through the real program and the model.
pub fn agree(lines: Vec<String>) {
    let program = program();
    if let Err(difference) = compare_lines::<Bench>(&|lines| program.run(lines), lines) {
        panic!("{difference}");
    }
}
