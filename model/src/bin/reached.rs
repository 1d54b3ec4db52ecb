//! `reached [FILE ...]` runs the model over streams and prints counts of what
//! they reach; without a file name it reads one stream from standard input.

use model::reached::Reached;
use std::io::{Read, Write};

fn main() -> std::io::Result<()> {
    let names: Vec<String> = std::env::args().skip(1).collect();
    let mut reached = Reached::new();
    if names.is_empty() {
        let mut stream = Vec::new();
        std::io::stdin().lock().read_to_end(&mut stream)?;
        reached.add_stream(&stream);
    }
    for name in names {
        reached.add_stream(&std::fs::read(name)?);
    }
    let mut output = std::io::stdout().lock();
    for line in reached.lines() {
        writeln!(output, "{line}")?;
    }
    Ok(())
}
