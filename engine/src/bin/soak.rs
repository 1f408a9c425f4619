//! Runs the engine against itself on wild runs, and under the judge on all others: `soak [first seed] [runs] [steps in a run]`.

use std::process::ExitCode;

use hds_engine::differential::differential;
use hds_engine::judge;
use hds_engine::random::{self, Profile};
use hds_engine::Engine;

fn main() -> ExitCode {
    let numbers: Vec<u64> = std::env::args().skip(1).filter_map(|text| text.parse().ok()).collect();
    let argument = |index: usize, usual: u64| numbers.get(index).copied().unwrap_or(usual);
    let (first, runs, length) = (argument(0, 1), argument(1, 200), argument(2, 500) as usize);
    for seed in first..first.saturating_add(runs) {
        let wild = random::run(seed, length, Profile::Wild);
        if let Err(difference) = differential(&mut Engine, &mut Engine, seed, &wild) {
            println!("{difference}");
            return ExitCode::FAILURE;
        }
        for profile in [Profile::Clean, Profile::Family, Profile::Tree] {
            let steps = random::run(seed, length, profile);
            if let Some(violation) = judge::watch(&mut Engine, &steps).first() {
                println!("seed {seed}, {profile:?}: {violation}");
                return ExitCode::FAILURE;
            }
        }
    }
    println!("{runs} runs of {length} steps: no difference, no violation");
    ExitCode::SUCCESS
}
