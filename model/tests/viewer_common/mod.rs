//! What the table tests of the viewer's end share.

pub use model::line::hex;
use model::trial::cases::Cases;
use model::trial::program::Program;
use model::trial::run::compare_lines;
use model::viewer::bench::ViewerBench;

/// The model answers as expected, and the real program as the model.
pub fn hold(cases: Cases) {
    assert_eq!(cases.wrong_answer::<ViewerBench>(), None);
    let program = Program::find_viewer().unwrap_or_else(|missing| panic!("{missing}"));
    if let Err(difference) = compare_lines::<ViewerBench>(&|lines| program.run(lines), cases.lines)
    {
        panic!("{difference}");
    }
}
