//! The real program of the viewer's end against the model, on random scripts.

use std::time::Instant;

use model::trial::program::Program;
use model::trial::run::{compare_scripts, seed_or, Enough};
use model::trial::session::Session;
use model::trial::viewer::writer::{events_of, write_script};
use model::viewer::bench::ViewerBench;

const EVENTS: u64 = 100_000;

fn program() -> Program {
    Program::find_viewer().unwrap_or_else(|missing| panic!("{missing}"))
}

#[test]
fn the_program_agrees_with_the_model() {
    let program = program();
    let seed = seed_or(1);
    println!("SEED={seed}");
    let begin = Instant::now();
    match compare_scripts::<ViewerBench>(
        &|lines| program.run(lines),
        &|seed| write_script(seed, events_of(seed)),
        seed,
        Enough::Events(EVENTS),
        &|_| {},
    ) {
        Ok(done) => println!("{} viewer's events in {:?}", done.events, begin.elapsed()),
        Err(difference) => panic!("{difference}"),
    }
}

#[test]
fn the_program_answers_a_line_before_the_next_is_sent() {
    let lines = [
        "get",
        "nonsense",
        "cut 1 16 04",
        "room 0",
        "make 1=",
        "await 1 16",
        "packet 00",
        "apart 00a0",
        "walk 00a10000",
    ];
    Session::start(&program()).agrees::<ViewerBench>(&lines);
}
