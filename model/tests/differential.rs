//! The real program against the model, on random scripts.

use std::time::Instant;

use model::bench::Bench;
use model::trial::program::Program;
use model::trial::run::{compare, seed_or, Enough};
use model::trial::session::Session;

const EVENTS: u64 = 250_000;

fn program() -> Program {
    Program::find().unwrap_or_else(|missing| panic!("{missing}"))
}

#[test]
fn the_program_agrees_with_the_model() {
    let program = program();
    let seed = seed_or(1);
    println!("SEED={seed}");
    let begin = Instant::now();
    match compare(
        &|lines| program.run(lines),
        seed,
        Enough::Events(EVENTS),
        &|_| {},
    ) {
        Ok(done) => println!("{} events in {:?}", done.events, begin.elapsed()),
        Err(difference) => panic!("{difference}"),
    }
}

#[test]
fn the_program_answers_a_line_before_the_next_is_sent() {
    let lines = [
        "fetch",
        "nonsense",
        "check 04",
        "item 4 80",
        "apdu 00030000000000",
        "time 0",
        "show",
    ];
    Session::start(&program()).agrees::<Bench>(&lines);
}
