//! The model of the program `blockline`: records in, lines out.

use std::io::{Read, Write};

fn main() -> std::io::Result<()> {
    let mut input = Vec::new();
    std::io::stdin().lock().read_to_end(&mut input)?;
    std::io::stdout()
        .lock()
        .write_all(&model::blockline::run(&input))
}
