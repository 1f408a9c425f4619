//! The second engine and the archive, call by call: after each call the answers, all lent buffers and the guards around
//! them are compared. `differential [random calls] [first seed]`. All runs of the archive but the wild ones stand before
//! demand 3's judge too, and each faulty engine must be told from the archive, wrong renewals of rates by the scenes of
//! changes too, and misread stated rates, editions of plans, ports and timetables by the scenes of these. As many scenes,
//! seeds and faulty engines are worked on at a time as there are processors. The last line counts scenes, runs, judged runs
//! and faulty engines.

use std::num::NonZero;
use std::panic::resume_unwind;
use std::process::ExitCode;
use std::sync::OnceLock;
use std::thread;
use std::time::Instant;

use harness::scenes::{self, Scene};
use harness::Cabinet;
use hds_engine::differential::{differential, first_difference, Difference};
use hds_engine::faulty::{Fault, Faulty, FAULTS};
use hds_engine::judge;
use hds_engine::random::{run, Profile};
use hds_engine::steps::Step;
use hds_engine::Engine;

/// Calls in a random run.
const LENGTH: usize = 1000;

#[derive(Default)]
struct Counts {
    scenes: usize,
    runs: usize,
    calls: usize,
    judged: usize,
    faults: usize,
}

fn main() -> ExitCode {
    let numbers: Vec<u64> = std::env::args().skip(1).filter_map(|text| text.parse().ok()).collect();
    let most = numbers.first().copied().unwrap_or(2_000_000) as usize;
    let first = numbers.get(1).copied().unwrap_or(1);
    let began = Instant::now();
    match compare(most, first) {
        Ok(Counts { scenes, runs, calls, judged, faults }) => {
            println!("{calls} calls in {:.0} s", began.elapsed().as_secs_f64());
            println!("{scenes} scenes and {runs} random runs without a difference");
            println!("{judged} runs without a broken promise, {faults} faulty engines told apart");
            println!("{} passed, 0 failed", scenes + runs + judged + faults);
            ExitCode::SUCCESS
        }
        Err(what) => {
            println!("{what}");
            ExitCode::FAILURE
        }
    }
}

fn compare(most: usize, first: u64) -> Result<Counts, String> {
    let mut counts = Counts::default();
    in_order(scenes::all().into_iter(), compare_scene, |calls| {
        counts.scenes += 1;
        counts.calls += calls;
        true
    })?;
    let mut random = 0;
    if random < most {
        in_order(first.., compare_runs, |made| {
            counts.runs += made.runs;
            counts.judged += made.judged;
            random += made.calls;
            random < most
        })?;
    }
    counts.calls += random;
    let (changes, stated) = (scenes::changes(), scenes::stated());
    let (editions, ports, hours) = (scenes::editions(), scenes::ports(), scenes::hours());
    let runs = Runs::default();
    let tell = |fault| {
        let told_by_scenes = match fault {
            Fault::WrongRenewal(_) => told_by(fault, &changes),
            Fault::WrongStated(_) => told_by(fault, &stated),
            Fault::WrongEditions(_) => told_by(fault, &editions),
            Fault::WrongPorts(_) => told_by(fault, &ports),
            Fault::WrongHours(_) => told_by(fault, &hours),
            _ => true,
        };
        if told_apart(fault, &runs) && told_by_scenes {
            Ok(())
        } else {
            Err(format!("{fault:?} was not told from the archive"))
        }
    };
    in_order(FAULTS.into_iter().filter(|&fault| fault != Fault::None), tell, |()| {
        counts.faults += 1;
        true
    })?;
    Ok(counts)
}

/// Works on the items, as many at a time as there are processors, and takes what comes of them in their order, as
/// long as more is wanted and none has failed. So what is taken is the same on any number of processors.
fn in_order<I: Send, T: Send>(
    mut items: impl Iterator<Item = I>,
    work: impl Fn(I) -> Result<T, String> + Sync,
    mut take: impl FnMut(T) -> bool,
) -> Result<(), String> {
    let at_a_time = thread::available_parallelism().map_or(1, NonZero::get);
    loop {
        let some: Vec<I> = items.by_ref().take(at_a_time).collect();
        if some.is_empty() {
            return Ok(());
        }
        let done: Vec<Result<T, String>> = thread::scope(|scope| {
            let work = &work;
            let threads: Vec<_> =
                some.into_iter().map(|item| scope.spawn(move || work(item))).collect();
            let joined = threads.into_iter().map(|thread| thread.join());
            joined.map(|result| result.unwrap_or_else(|panic| resume_unwind(panic))).collect()
        });
        for result in done {
            if !take(result?) {
                return Ok(());
            }
        }
    }
}

/// Compares a scene, and counts its calls.
fn compare_scene((name, steps): Scene) -> Result<usize, String> {
    compared(0, &steps).map_err(|difference| format!("scene {name}: {difference}"))?;
    Ok(calls(&steps))
}

/// Compares and judges the random runs of a seed.
fn compare_runs(seed: u64) -> Result<Counts, String> {
    let mut counts = Counts::default();
    for profile in [Profile::Wild, Profile::Clean, Profile::Family, Profile::Tree] {
        let steps = run(seed, LENGTH, profile);
        compared(seed, &steps).map_err(|difference| format!("{profile:?}, {difference}"))?;
        if profile != Profile::Wild {
            if let Some(violation) = judge::watch(&mut Cabinet, &steps).first() {
                return Err(format!("{profile:?}, seed {seed}: {violation}"));
            }
            counts.judged += 1;
        }
        counts.runs += 1;
        counts.calls += calls(&steps);
    }
    Ok(counts)
}

/// Whether some scene shows a difference between a faulty engine and the archive.
fn told_by(fault: Fault, scenes: &[Scene]) -> bool {
    let mut faulty = Faulty::new(fault);
    scenes.iter().any(|(_, steps)| first_difference(&mut faulty, &mut Cabinet, steps).is_some())
}

/// So many runs tell faulty engines apart.
const TELLING: usize = 398;

/// These runs, each made when it is first asked for.
struct Runs([OnceLock<Vec<Step>>; TELLING]);

impl Default for Runs {
    fn default() -> Self {
        Runs([const { OnceLock::new() }; TELLING])
    }
}

impl Runs {
    fn get(&self, index: usize) -> &[Step] {
        let profile = [Profile::Wild, Profile::Family][index % 2];
        self.0[index].get_or_init(|| run(1 + index as u64 / 2, LENGTH, profile))
    }
}

/// Whether some run shows a difference between a faulty engine and the archive.
fn told_apart(fault: Fault, runs: &Runs) -> bool {
    (0..TELLING).any(|index| {
        let mut faulty = Faulty::new(fault);
        first_difference(&mut faulty, &mut Cabinet, runs.get(index)).is_some()
    })
}

fn compared(seed: u64, steps: &[Step]) -> Result<(), Box<Difference>> {
    differential(&mut Engine, &mut Cabinet, seed, steps)
}

/// How many steps of a list are calls.
fn calls(steps: &[Step]) -> usize {
    steps.iter().filter(|step| matches!(step, Step::Call(_))).count()
}
