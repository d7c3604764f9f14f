//! `model-bench`: the model behind the line protocol of the program `bench`.

use std::io;

use model::bench::Bench;
use model::pipe::OnPipe;

fn main() -> io::Result<()> {
    Bench::default().serve(io::stdin().lock(), io::stdout().lock())
}
