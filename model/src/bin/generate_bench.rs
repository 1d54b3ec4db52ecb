//! `generate_bench SEED RECORDS` writes a stream for `benchline` to standard output.

use std::process::ExitCode;

fn main() -> ExitCode {
    model::written_stream::main("generate_bench", model::bench_stream::bench_stream)
}
