//! `model-viewer-bench`: the model behind the line protocol of the program `viewer_bench`.

use std::io;

use model::pipe::OnPipe;
use model::viewer::bench::ViewerBench;

fn main() -> io::Result<()> {
    ViewerBench::default().serve(io::stdin().lock(), io::stdout().lock())
}
