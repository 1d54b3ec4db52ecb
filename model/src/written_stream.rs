//! What the programs that write a generated stream have in common: `NAME SEED RECORDS`, and the bytes on standard output.

use std::io::Write;
use std::process::ExitCode;

/// Reads seed and number of records off the command line and writes the stream that they make.
pub fn main(name: &str, stream: fn(u64, u64) -> Vec<u8>) -> ExitCode {
    let arguments: Vec<String> = std::env::args().skip(1).collect();
    let numbers: Vec<u64> = arguments
        .iter()
        .filter_map(|argument| argument.parse().ok())
        .collect();
    let (&[seed, records], 2) = (numbers.as_slice(), arguments.len()) else {
        eprintln!("usage: {name} SEED RECORDS");
        return ExitCode::FAILURE;
    };
    match std::io::stdout().lock().write_all(&stream(seed, records)) {
        Ok(()) => ExitCode::SUCCESS,
        Err(error) => {
            eprintln!("{name}: {error}");
            ExitCode::FAILURE
        }
    }
}
