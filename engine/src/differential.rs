//! Two controllers side by side on the same steps.
//!
//! Each has a world of its own. After every step the reply, both tables, both
//! lists, the plan buffer, the windows and the guards around each are compared.

use std::fmt;
use std::ops::Range;

use crate::controller::Controller;
use crate::random::{self, Profile};
use crate::steps::{Guarded, Reply, Step, World};

/// A difference between two controllers, with a short list of steps that
/// shows it.
#[derive(Clone, Debug)]
pub struct Difference {
    /// The seed that the steps came from.
    pub seed: u64,
    /// The shortened steps; the last of them shows the difference.
    pub steps: Vec<Step>,
    /// What differs after the last step.
    pub what: String,
}

impl fmt::Display for Difference {
    fn fmt(&self, out: &mut fmt::Formatter) -> fmt::Result {
        writeln!(out, "seed {}: {}", self.seed, self.what)?;
        writeln!(out, "after these {} steps from two zeroed tables:", self.steps.len())?;
        for step in &self.steps {
            writeln!(out, "  {step:?}")?;
        }
        Ok(())
    }
}

/// Runs both controllers on the steps. A difference is shortened; printed, it
/// shows the seed and the steps.
pub fn differential(
    first: &mut dyn Controller,
    second: &mut dyn Controller,
    seed: u64,
    steps: &[Step],
) -> Result<(), Box<Difference>> {
    if first_difference(first, second, steps).is_none() {
        return Ok(());
    }
    let mut short = shorten(steps, |some| first_difference(first, second, some).is_some());
    let what = match first_difference(first, second, &short) {
        Some((position, what)) => {
            short.truncate(position + 1);
            what
        }
        None => "differs only now and then: a controller keeps something between runs".into(),
    };
    Err(Box::new(Difference { seed, steps: short, what }))
}

/// A random run for each seed, of `length` steps each. Gives back how many
/// steps were run.
pub fn differential_runs(
    first: &mut dyn Controller,
    second: &mut dyn Controller,
    seeds: Range<u64>,
    length: usize,
    profile: Profile,
) -> Result<usize, Box<Difference>> {
    let mut count = 0;
    for seed in seeds {
        let steps = random::run(seed, length, profile);
        differential(first, second, seed, &steps)?;
        count += steps.len();
    }
    Ok(count)
}

/// The position of the first step after which something differs, and what.
pub fn first_difference(
    first: &mut dyn Controller,
    second: &mut dyn Controller,
    steps: &[Step],
) -> Option<(usize, String)> {
    first.start();
    second.start();
    let mut worlds = [World::default(), World::default()];
    for (position, step) in steps.iter().enumerate() {
        let replies = [worlds[0].run(first, step), worlds[1].run(second, step)];
        if let Some(what) = compare(&replies, &worlds) {
            return Some((position, what));
        }
    }
    None
}

fn compare(replies: &[Option<Reply>; 2], worlds: &[World; 2]) -> Option<String> {
    let [first, second] = worlds;
    if replies[0] != replies[1] {
        Some(format!("answers {:?} and {:?}", replies[0], replies[1]))
    } else if replies[0] == Some(Reply::Panicked) {
        Some("both panicked".into())
    } else if !first.is_intact() || !second.is_intact() {
        Some("a guard value was written".into())
    } else {
        unequal("table", &first.table, &second.table)
            .or_else(|| unequal("kept table", &first.kept, &second.kept))
            .or_else(|| unequal("first list", &first.lists[0], &second.lists[0]))
            .or_else(|| unequal("second list", &first.lists[1], &second.lists[1]))
            .or_else(|| unequal("plan buffer", &first.plan, &second.plan))
            .or_else(|| unequal("windows", &first.windows, &second.windows))
    }
}

/// Says where two buffers differ, if they do.
fn unequal<T>(name: &str, first: &Guarded<T>, second: &Guarded<T>) -> Option<String>
where
    T: Copy + PartialEq + fmt::Display,
{
    if first == second {
        return None;
    }
    let pairs = first.inner().iter().zip(second.inner());
    let place = pairs.clone().position(|(a, b)| a != b);
    match place {
        Some(place) => {
            let (a, b) = (first.inner()[place], second.inner()[place]);
            Some(format!("{name} place {place} holds {a} and {b}"))
        }
        None => Some(format!("{name} lengths differ")),
    }
}

/// Delta debugging: leaves out ever smaller pieces as long as the rest still
/// fails, until no single step can be left out.
pub fn shorten(steps: &[Step], mut fails: impl FnMut(&[Step]) -> bool) -> Vec<Step> {
    let mut kept = steps.to_vec();
    let mut piece = kept.len().div_ceil(2);
    loop {
        let before = kept.len();
        leave_out_pieces(&mut kept, piece, &mut fails);
        if piece > 1 {
            piece = piece.div_ceil(2);
        } else if kept.len() == before {
            return kept;
        }
    }
}

/// Leaves out each piece of that length that the failure does not need.
fn leave_out_pieces(kept: &mut Vec<Step>, piece: usize, fails: &mut impl FnMut(&[Step]) -> bool) {
    let mut start = 0;
    while start < kept.len() {
        let end = (start + piece).min(kept.len());
        let rest = [&kept[..start], &kept[end..]].concat();
        if fails(&rest) {
            *kept = rest;
        } else {
            start = end;
        }
    }
}
