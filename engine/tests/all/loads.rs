//! Inputs of the load, loads with faults, and the program that compares them.

use std::collections::BTreeSet;
use std::fs;
use std::path::{Path, PathBuf};
use std::process::{Command, Output};

use hds_engine::faulty_load::{self, LoadFault, LOAD_FAULTS};
use hds_engine::load::{self, Load};
use hds_engine::loads::{accepted_plan, any, input, inputs, special};
use hds_engine::plan::{check, Edition};
use hds_engine::random::Rng;
use hds_engine::refusal::*;
use hds_engine::table::*;
use hds_engine::{Controller, Engine};

/// Random inputs alone.
fn random(seed: u64, count: usize) -> Vec<Vec<u8>> {
    let mut rng = Rng::new(seed);
    (0..count).map(|_| any(&mut rng)).collect()
}

/// The first of the inputs whose text the fault changes.
fn first_told(fault: LoadFault, inputs: &[Vec<u8>]) -> Option<usize> {
    inputs.iter().position(|input| faulty_load::text(fault, input) != load::text(input))
}

#[test]
fn without_a_fault_there_is_no_difference() {
    assert_eq!(first_told(LoadFault::None, &inputs(5, 400)), None);
}

#[test]
fn the_special_inputs_tell_every_fault() {
    for fault in LOAD_FAULTS {
        assert!(first_told(fault, &special()).is_some(), "{fault:?}");
    }
}

#[test]
fn random_inputs_tell_every_fault_but_one() {
    // None of them has more ticks than 16 bits hold.
    for seed in 0..3 {
        let inputs = random(seed, 250);
        for fault in LOAD_FAULTS {
            let told = first_told(fault, &inputs).is_some();
            assert_eq!(told, fault != LoadFault::ShortTicks, "{fault:?} with seed {seed}");
        }
    }
}

#[test]
fn faults_are_listed_once() {
    let names: BTreeSet<String> = LOAD_FAULTS.iter().map(|fault| format!("{fault:?}")).collect();
    assert_eq!(names.len(), LOAD_FAULTS.len());
    assert!(!names.contains("None"));
}

#[test]
fn the_special_inputs_come_first() {
    let count = special().len();
    assert_eq!(inputs(1, count), special());
    assert_eq!(inputs(7, count + 20)[count..], random(7, 20));
    assert_eq!(inputs(7, 2), special()[..2]);
    assert!(inputs(7, 0).is_empty() && count < 100);
    let lengths: Vec<usize> = special().iter().take(3).map(Vec::len).collect();
    assert_eq!(lengths, [0, 7, 8]);
}

#[test]
fn every_random_plan_is_accepted() {
    let mut rng = Rng::new(3);
    let mut clients_of_plans = BTreeSet::new();
    let mut stated = 0;
    for _ in 0..8000 {
        let plan = accepted_plan(&mut rng);
        assert_eq!(check(&plan.encode(Edition::Second)), 0, "{plan:?}");
        let in_first = if plan.has_stated() { 14 } else { 0 };
        assert_eq!(check(&plan.encode(Edition::First)), in_first, "{plan:?}");
        stated += usize::from(plan.has_stated());
        clients_of_plans.insert(plan.nodes.iter().filter(|new| new.sort == CLIENT).count());
    }
    assert!((0..=63).all(|count| clients_of_plans.contains(&count)));
    assert!((1000..5000).contains(&stated), "{stated}");
}

/// What happens in the runs of some inputs.
#[derive(Default)]
struct Seen {
    /// The answers to requests, 0 for an accepted one.
    answers: BTreeSet<i64>,
    /// The range of cost of a dispatched size, and the supplier's steps above the
    /// client.
    ranges: BTreeSet<i64>,
    steps: BTreeSet<usize>,
    /// How many dispatches a tick has, up to 3.
    in_a_tick: BTreeSet<usize>,
    /// A queue that was full became empty.
    drained: bool,
}

impl Seen {
    fn run(&mut self, input: &[u8]) {
        let Ok(mut load) = Load::read(input) else { return };
        let ticks = u32::from_le_bytes(input[4..8].try_into().unwrap());
        let mut full = [false; NODES];
        for _ in 0..ticks {
            self.answers.extend(answer_of_next(&load));
            let mut text = Vec::new();
            load.tick(&mut text);
            let text = String::from_utf8(text).unwrap();
            text.lines().for_each(|line| self.line(load.table(), line));
            self.in_a_tick.insert(text.lines().count().min(3));
            for client in clients(load.table()) {
                let count = waiting_count(load.table(), client);
                full[client] |= count == QUEUE_LEN;
                self.drained |= full[client] && count == 0;
            }
        }
    }

    fn line(&mut self, table: &[i64], line: &str) {
        let numbers: Vec<i64> = line.split(' ').map(|word| word.parse().unwrap()).collect();
        let [_, node, _, size, supplier] = numbers[..] else { panic!("{line}") };
        self.ranges.insert(hds_engine::cost::cost(size) - size.max(8));
        let level = |node: i64| get(table, node as usize, LEVEL) as usize;
        self.steps.insert(level(node) - level(supplier));
    }
}

/// What the next request of a load is answered.
fn answer_of_next(load: &Load) -> Option<i64> {
    let mut load = load.clone();
    let request = load.request()?;
    let mut table = load.table().to_vec();
    let answer = Engine.request(&mut table, request.client as i64, request.tag, request.size);
    Some(answer.map_or_else(|number| number, |_| 0))
}

#[test]
fn random_inputs_have_everything_in_them() {
    let mut seen = Seen::default();
    let inputs = random(11, 60);
    inputs.iter().for_each(|input| seen.run(input));
    assert_eq!(seen.answers, BTreeSet::from([0, DEPTH_ABOVE, QUEUE_FULL]));
    assert_eq!(seen.ranges, BTreeSet::from([0, 4, 8, 16]));
    assert_eq!(seen.steps, BTreeSet::from([0, 1, 2, 3, 4]));
    assert_eq!(seen.in_a_tick, BTreeSet::from([0, 1, 2, 3]));
    assert!(seen.drained);
    let texts: BTreeSet<Vec<u8>> = random(12, 1500).iter().map(|input| load::text(input)).collect();
    for number in [2, 3, 4, 8, 14, 15, 16] {
        assert!(texts.contains(format!("refused {number}\n").as_bytes()), "{number}");
    }
}

#[test]
fn the_table_is_in_order_after_every_tick() {
    for input in random(21, 40) {
        let Ok(mut load) = Load::read(&input) else { continue };
        for _ in 0..u32::from_le_bytes(input[4..8].try_into().unwrap()).min(100) {
            load.tick(&mut Vec::new());
            assert!(hds_engine::order::in_order(load.table()));
        }
    }
}

/// An empty folder of that name.
fn folder(name: &str) -> PathBuf {
    let folder = Path::new(env!("CARGO_TARGET_TMPDIR")).join(name);
    let _ = fs::remove_dir_all(&folder);
    fs::create_dir(&folder).unwrap();
    folder
}

fn program(words: &[&str]) -> Output {
    Command::new(env!("CARGO_BIN_EXE_loads")).args(words).output().unwrap()
}

/// The lines of a comparison, and whether it was a success.
fn compared(folder: &Path) -> (Vec<String>, bool) {
    let output = program(&["compare", folder.to_str().unwrap()]);
    let text = String::from_utf8(output.stdout).unwrap();
    (text.lines().map(String::from).collect(), output.status.success())
}

/// A folder of inputs, each with the engine's text.
fn filled(name: &str, count: usize) -> PathBuf {
    let folder = folder(name);
    let words = ["make", folder.to_str().unwrap(), "9", &count.to_string()];
    assert!(program(&words).status.success());
    for index in 1..=count {
        let file = folder.join(format!("{index:04}.in"));
        fs::write(file.with_extension("out"), load::text(&fs::read(file).unwrap())).unwrap();
    }
    assert_eq!(fs::read_dir(&folder).unwrap().count(), 2 * count);
    folder
}

#[test]
fn the_program_compares() {
    let folder = filled("right", 120);
    let all = 120 + LOAD_FAULTS.len();
    assert_eq!(compared(&folder), (vec![format!("{all} passed, 0 failed")], true));
    assert_eq!(fs::read(folder.join("0120.in")).unwrap(), inputs(9, 120)[119]);
}

#[test]
fn the_program_finds_a_wrong_line_and_a_missing_output() {
    let folder = filled("wrong", 120);
    fs::write(folder.join("0001.out"), "refused 14").unwrap();
    fs::write(folder.join("0004.out"), "1 2 3 4 5\n").unwrap();
    fs::remove_file(folder.join("0120.out")).unwrap();
    let (lines, success) = compared(&folder);
    assert!(!success);
    assert_eq!(lines.len(), 4);
    assert_eq!(lines[0], r#"0001.out, line 1: "refused 14", the engine has "refused 14\n""#);
    assert_eq!(lines[1], r#"0004.out, line 1: "1 2 3 4 5\n", the engine has nothing"#);
    assert!(lines[2].starts_with("0120.out: "));
    assert_eq!(lines[3], format!("{} passed, 3 failed", 117 + LOAD_FAULTS.len()));
}

#[test]
fn the_program_finds_every_faulty_load() {
    for fault in [LoadFault::TickFirst, LoadFault::DropsOldest, LoadFault::ShortTicks] {
        let folder = filled("faulty", 110);
        for index in 1..=110 {
            let file = folder.join(format!("{index:04}.in"));
            let text = faulty_load::text(fault, &fs::read(&file).unwrap());
            fs::write(file.with_extension("out"), text).unwrap();
        }
        let (lines, success) = compared(&folder);
        assert!(!success && lines.iter().any(|line| line.starts_with(&format!("{fault:?}: "))));
        assert!(lines[0].contains(".out, line "));
    }
}

#[test]
fn the_program_wants_inputs_that_tell_the_faults() {
    let (lines, success) = compared(&folder("empty"));
    assert!(!success && lines.len() == 1 && lines[0].starts_with("no inputs in "));
    let (lines, success) = compared(&filled("few", 3));
    assert!(!success && lines.contains(&"TickFirst: this fault differs from no output".into()));
    assert!(!compared(Path::new("no such folder")).1);
    for words in [&[][..], &["make"], &["make", ".", "x", "1"], &["compare"]] {
        assert!(!program(words).status.success());
    }
}

#[test]
fn a_head_of_its_own() {
    assert_eq!(input(1, 0x0203, &[7]), [1, 0, 0, 0, 3, 2, 0, 0, 7]);
}
