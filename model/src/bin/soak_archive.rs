//! `soak-archive`: compares the firmware's archive with the model for as long as it is told to.

use std::env;
use std::process::ExitCode;

use model::archive::ARCHIVE;
use model::trial::calls::run::compare;
use model::trial::progress::Progress;
use model::trial::run::{seed_or_any, Enough};

const USAGE: &str =
    "usage: soak-archive EVENTS | soak-archive SECONDSs, as `soak-archive 20000000` or `soak-archive 600s`";

fn main() -> ExitCode {
    let Some(enough) = env::args().nth(1).as_deref().and_then(Enough::read) else {
        eprintln!("{USAGE}");
        return ExitCode::from(2);
    };
    let seed = seed_or_any();
    println!("SEED={seed}");
    let progress = Progress::begin();
    let compared = compare(&ARCHIVE, seed, enough, |done| {
        progress.show_at_times(done.events, done.scripts);
    });
    match compared {
        Ok(done) => {
            println!("{:#}", done.ways);
            progress.show(done.events, done.scripts);
            println!("no difference");
            ExitCode::SUCCESS
        }
        Err(difference) => {
            println!("{difference}");
            ExitCode::FAILURE
        }
    }
}
