//! `generate_blocks SEED RECORDS` writes a stream for `blockline` to standard output.

use std::process::ExitCode;

fn main() -> ExitCode {
    model::written_stream::main("generate_blocks", model::block_stream::block_stream)
}
