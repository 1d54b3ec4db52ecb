//! `generate SEED RECORDS` writes a stream of records to standard output.

use std::process::ExitCode;

fn main() -> ExitCode {
    model::written_stream::main("generate", model::generator::stream)
}
