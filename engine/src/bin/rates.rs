//! Prints the rates of the plan on standard input.

use std::io::{self, Read, Write};

fn main() -> io::Result<()> {
    let mut plan = Vec::new();
    io::stdin().read_to_end(&mut plan)?;
    io::stdout().write_all(hds_engine::print::rates_of_plan(&plan).as_bytes())
}
