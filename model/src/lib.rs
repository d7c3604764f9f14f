//! The touch key's protocol in ordinary Rust, written from the documents alone, and the tests that
//! hold the proved program to it.
//!
//! The model is a second reading of the same rules: [`packet`] (framing), [`cbor`] (canonical
//! items), [`command`] (the checking call), [`apdu`] (what MSG carries), [`key`] (the state and the
//! four calls), [`block`] (the state in 32 bytes), [`firmware`] (the calls for a firmware in C) and
//! [`bench`] (the line protocol, also as the program `model-bench`). [`viewer`] is the viewer's own
//! end, with a line protocol of its own (also as the program `model-viewer-bench`). Nothing is
//! proved of it; it is there to be compared. It is also the ordinary Rust version against which
//! speed is measured.
//!
//! `cargo test --release` in this folder runs the unit tests, the scripts of `../vectors` and
//! `../examples`, and the programs `bench` and `viewer_bench` against the model: table by table, with
//! faults at places that are known beforehand, and on random scripts of 250,000 and 100,000 events.
//! Both programs together take thousands of requests on their whole way, from the viewer to the key
//! and back. It wants the programs that `./bench` and `./viewer_bench` make at the top of the
//! repository when they are first run; `BENCH`, `VIEWER_BENCH` and `BENCH_RUNNER` name others or say
//! how to run them (see [`trial::program`]). What is random has a fixed seed, which `SEED` replaces.
//! A difference is reported with the shortest script that shows it.
//!
//! `cargo run --release --bin soak -- 600s` (or a number of events) compares for longer, from a seed
//! of its own unless `SEED` gives one.
//!
//! The firmware's calls are compared in one process, without the bench, by
//! `cargo test --release --features archive --test archive` on 2,000,000 events and by
//! `cargo run --release --features archive --bin soak-archive -- 600s` for longer (see
//! [`trial::calls`]). The feature links the archive that `tools/hostlib firmware` makes at the top
//! of the repository; `FIRMWARE_ARCHIVE` names another. Without the feature no archive is needed. A
//! difference is reported with the one call that shows it and what was lent to it.

pub mod apdu;
#[cfg(feature = "archive")]
pub mod archive;
pub mod bench;
pub mod block;
pub mod cbor;
pub mod command;
pub mod firmware;
pub mod key;
pub mod line;
pub mod packet;
pub mod pipe;
pub mod trial;
pub mod viewer;
