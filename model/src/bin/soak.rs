//! `soak`: compares the program `bench` with the model for as long as it is told to.

use std::env;
use std::process::ExitCode;

use model::trial::program::Program;
use model::trial::progress::Progress;
use model::trial::run::{compare, seed_or_any, Done, Enough};

const USAGE: &str = "usage: soak EVENTS | soak SECONDSs, as `soak 5000000` or `soak 600s`";

fn main() -> ExitCode {
    let Some(enough) = env::args().nth(1).as_deref().and_then(Enough::read) else {
        eprintln!("{USAGE}");
        return ExitCode::from(2);
    };
    let program = match Program::find() {
        Ok(program) => program,
        Err(missing) => {
            eprintln!("soak: {missing}");
            return ExitCode::from(2);
        }
    };
    let seed = seed_or_any();
    println!("SEED={seed}");
    let progress = Progress::begin();
    let show = |done: &Done| progress.show_at_times(done.events, done.scripts);
    match compare(&|lines| program.run(lines), seed, enough, &show) {
        Ok(done) => {
            progress.show(done.events, done.scripts);
            println!("no difference");
            ExitCode::SUCCESS
        }
        Err(difference) => {
            println!("{difference}");
            ExitCode::FAILURE
        }
    }
}
