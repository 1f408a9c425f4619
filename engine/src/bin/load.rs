//! Prints the dispatches of the load on standard input: seed, number of ticks,
//! plan.

use std::io::{self, Read};

fn main() -> io::Result<()> {
    let mut input = Vec::new();
    io::stdin().read_to_end(&mut input)?;
    hds_engine::load::write(&input, &mut io::stdout().lock())
}
