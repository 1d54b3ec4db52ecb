//! `reached_blocks FILE ...` runs the model of `blockline` over streams and
//! prints counts of what they reach.

use model::block_reached::BlockReached;
use std::io::Write;

fn main() -> std::io::Result<()> {
    let mut reached = BlockReached::default();
    for name in std::env::args().skip(1) {
        reached.add_stream(&std::fs::read(name)?);
    }
    let mut output = std::io::stdout().lock();
    for line in reached.lines() {
        writeln!(output, "{line}")?;
    }
    Ok(())
}
