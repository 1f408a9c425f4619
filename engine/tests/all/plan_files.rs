//! Plan files of the first edition, and the rates print.

use std::io::Write;
use std::process::{Command, Stdio};

use crate::support::*;
use hds_engine::plan::{check, Edition, Plan};
use hds_engine::print::rates_of_plan;
use hds_engine::steps::Call;
use hds_engine::table::*;
use hds_engine::{Controller, Engine, NewNode};

/// The plan of document 01.
const PAPER: [u8; 20] = [
    0xE8, 0x03, 0x00, 0x00, 0x28, 0x00, 0x00, 0x00, 0x01, 0x05, 0x00, 0x0D, 0x00, 0x03, 0x04, 0x00,
    0x10, 0x00, 0x00, 0x00,
];

fn plan(rate: i64, depth: i64, nodes: &[NewNode]) -> Vec<u8> {
    first(&Plan { rate, depth, nodes: nodes.to_vec() })
}

fn first(plan: &Plan) -> Vec<u8> {
    plan.encode(Edition::First)
}

/// PAPER with one byte changed.
fn with_byte(place: usize, byte: u8) -> Vec<u8> {
    let mut bytes = PAPER.to_vec();
    bytes[place] = byte;
    bytes
}

#[test]
fn the_papers_plan() {
    let mut disk = Disk::open(1, 1);
    assert_eq!(disk.plan_read(&PAPER), Ok(1));
    let mut expected = Disk::open(1000, 40);
    expected.join(client(5, 0, WEIGHTED, 4, 16)).unwrap();
    assert_eq!(disk.table, expected.table);
    let mut buffer = [0xEE; 25];
    assert_eq!(disk.plan_write(1, &mut buffer), Ok(20));
    assert_eq!(buffer[..20], PAPER);
    assert_eq!(buffer[20..], [0xEE; 5]);
    assert_eq!(disk.plan_write(1, &mut buffer[..20]), Ok(20));
    assert_eq!(disk.plan_write(1, &mut buffer[..19]), Err(13));
    assert_eq!(disk.plan_write(1, &mut []), Err(13));
}

#[test]
fn the_rates_print() {
    assert_eq!(rates_of_plan(&PAPER), "0 class 1000\n5 client 1000\n");
    assert_eq!(rates_of_plan(&[]), "refused 14\n");
    let nodes =
        [class(9, 0, FIXED, 5000, 30), client(3, 9, FIXED, 4000, 5), client(4, 9, WEIGHTED, 1, 5)];
    let text = "0 class 1000\n3 client 200\n4 client 300\n9 class 500\n";
    assert_eq!(rates_of_plan(&plan(1000, 40, &nodes)), text);
    assert_eq!(rates_of_plan(&plan(0, 40, &nodes)), "refused 2\n");
}

#[test]
fn the_program_prints_the_rates() {
    let mut buffer = PAPER.to_vec();
    assert_eq!(output_of_program(&buffer), "0 class 1000\n5 client 1000\n");
    buffer.pop();
    assert_eq!(output_of_program(&buffer), "refused 14\n");
    assert_eq!(output_of_program(&[]), "refused 14\n");
}

fn output_of_program(input: &[u8]) -> String {
    let mut program = Command::new(env!("CARGO_BIN_EXE_rates"))
        .stdin(Stdio::piped())
        .stdout(Stdio::piped())
        .spawn()
        .unwrap();
    program.stdin.take().unwrap().write_all(input).unwrap();
    String::from_utf8(program.wait_with_output().unwrap().stdout).unwrap()
}

#[test]
fn a_table_of_any_contents_is_read_into() {
    let mut table = vec![-1; TABLE_LEN];
    assert_eq!(Engine.plan_read(&with_byte(8, 2), &mut table), Err(14));
    assert_eq!(table, vec![-1; TABLE_LEN]);
    assert_eq!(Engine.plan_read(&PAPER, &mut table), Ok(1));
    assert_eq!(Engine.look(&table, 5), Ok([1000, 0, 0, 0]));
    let mut short = vec![-1; TABLE_LEN - 1];
    assert_eq!(Engine.plan_read(&[], &mut short), Err(1));
}

#[test]
fn wrong_forms() {
    for length in (0..PAPER.len()).chain([21, 31, 42]) {
        let mut bytes = PAPER.to_vec();
        bytes.resize(length, 0);
        assert_eq!(check(&bytes), 14, "length {length}");
    }
    for count in [0, 2, 63, 64, 255] {
        assert_eq!(check(&with_byte(8, count)), 14);
    }
    // A count of 64 is wrong also where the length would fit it.
    let mut long = vec![0; 9 + 11 * 64];
    long[8] = 64;
    assert_eq!(check(&long), 14);
    for (place, byte) in [(11, 0x0C), (11, 0x0E), (12, 1), (12, 0xFF)] {
        assert_eq!(check(&with_byte(place, byte)), 14);
    }
    for kind in [4, 5, 255] {
        assert_eq!(check(&with_byte(13, kind)), 14);
    }
    // The form is judged whole before anything else.
    let mut bytes = with_byte(13, 4);
    bytes[0..8].fill(0);
    assert_eq!(check(&bytes), 14);
}

#[test]
fn the_root_alone() {
    assert_eq!(check(&[1, 0, 0, 0, 1, 0, 0, 0, 0]), 0);
    assert_eq!(rates_of_plan(&[1, 0, 0, 0, 1, 0, 0, 0, 0]), "0 class 1\n");
    assert_eq!(check(&[0, 0, 0, 0, 1, 0, 0, 0, 0]), 2);
    assert_eq!(check(&[1, 0, 0, 0, 0, 0, 0, 0, 0]), 2);
    let top = Plan { rate: MAX_RATE, depth: MAX_DEPTH, nodes: Vec::new() };
    assert_eq!(check(&first(&top)), 0);
    assert_eq!(check(&first(&Plan { rate: MAX_RATE + 1, ..top.clone() })), 2);
    assert_eq!(check(&first(&Plan { depth: MAX_DEPTH + 1, ..top })), 2);
}

#[test]
fn joins_are_refused_entry_by_entry() {
    let one = |new: NewNode| check(&plan(1000, 40, &[new]));
    assert_eq!(one(client(0, 0, FIXED, 1, 1)), 2);
    assert_eq!(one(client(64, 0, FIXED, 1, 1)), 2);
    assert_eq!(one(client(255, 0, FIXED, 1, 1)), 2);
    assert_eq!(one(client(1, 64, FIXED, 1, 1)), 2);
    assert_eq!(one(client(1, 0, FIXED, 0, 1)), 2);
    assert_eq!(one(client(1, 0, FIXED, 10_001, 1)), 2);
    assert_eq!(one(client(1, 0, FIXED, 1, 0)), 2);
    assert_eq!(one(client(1, 0, FIXED, 1, 1_000_001)), 2);
    assert_eq!(one(client(1, 2, FIXED, 1, 1)), 3);
    assert_eq!(one(client(1, 0, FIXED, 10_000, 41)), 8);
    let two = |first, second| check(&plan(1000, 40, &[first, second]));
    assert_eq!(two(client(1, 0, FIXED, 1, 1), client(1, 0, FIXED, 1, 1)), 4);
    assert_eq!(two(client(1, 0, FIXED, 1, 1), client(2, 1, FIXED, 1, 1)), 5);
    assert_eq!(two(client(1, 0, FIXED, 9999, 1), client(2, 0, FIXED, 2, 1)), 7);
    // The first entry that is refused counts, not the lowest number.
    assert_eq!(two(client(1, 0, FIXED, 1, 41), client(2, 0, FIXED, 0, 1)), 8);
    let chain: Vec<NewNode> = (1..=4).map(|node| class(node, node - 1, WEIGHTED, 1, 40)).collect();
    assert_eq!(check(&plan(1000, 40, &chain)), 6);
    assert_eq!(check(&plan(1000, 40, &chain[..3])), 0);
}

#[test]
fn entries_out_of_order_come_last() {
    let two = |first, second| check(&plan(1000, 40, &[first, second]));
    assert_eq!(two(client(2, 0, FIXED, 1, 1), client(1, 0, FIXED, 1, 1)), 15);
    assert_eq!(two(client(2, 0, FIXED, 1, 1), client(1, 0, FIXED, 1, 40)), 8);
    // By level first: 9 above 1 is right, and 2 after its nephew 1 is not.
    let nodes = [class(9, 0, FIXED, 1, 9), client(1, 9, FIXED, 1, 1), client(2, 0, FIXED, 1, 1)];
    assert_eq!(check(&plan(1000, 40, &nodes[..2])), 0);
    assert_eq!(check(&plan(1000, 40, &nodes)), 15);
    assert_eq!(check(&plan(1000, 40, &[nodes[2], nodes[0], nodes[1]])), 0);
    // On one level by number alone, whatever the parents are.
    let nodes = [
        class(1, 0, FIXED, 1, 9),
        class(2, 0, FIXED, 1, 9),
        client(3, 2, FIXED, 1, 1),
        client(4, 1, FIXED, 1, 1),
    ];
    assert_eq!(check(&plan(1000, 40, &nodes)), 0);
    assert_eq!(check(&plan(1000, 40, &[nodes[0], nodes[1], nodes[3], nodes[2]])), 15);
}

#[test]
fn causes_of_plan_reading_in_turn() {
    let child = |node, parent| client(node, parent, WEIGHTED, 1, 1);
    let upper = |node, parent| class(node, parent, WEIGHTED, 1, 9);
    let fixed = |node, share| client(node, 0, FIXED, share, 1);
    let deep = |node, depth| client(node, 0, WEIGHTED, 1, depth);
    let cases: &[(&[i64], Vec<u8>)] = &[
        (&[], plan(1000, 40, &[child(1, 0), deep(2, 39)])),
        // Open, then the joins, then the order.
        (&[2], plan(0, 40, &[child(1, 0)])),
        (&[2, 3], plan(0, 40, &[child(1, 9)])),
        (&[2, 8, 15], plan(1000, 0, &[deep(2, 41), child(1, 0)])),
        (&[2, 15], plan(1000, 40, &[child(2, 0), fixed(1, 0)])),
        (&[3, 15], plan(1000, 40, &[child(2, 9), upper(9, 0)])),
        (&[4, 15], plan(1000, 40, &[child(1, 0), child(1, 0)])),
        (&[5, 15], plan(1000, 40, &[child(3, 0), child(2, 0), child(4, 3)])),
        (
            &[6, 15],
            plan(1000, 40, &[upper(2, 0), upper(1, 0), upper(3, 2), upper(4, 3), upper(5, 4)]),
        ),
        (&[7, 15], plan(1000, 40, &[fixed(2, 9999), fixed(1, 2)])),
        (&[8, 15], plan(1000, 40, &[child(2, 0), deep(1, 40)])),
        (&[15], plan(1000, 40, &[child(2, 0), deep(1, 39)])),
        // Of two joins the earlier one, whatever its number is.
        (&[3, 2], plan(1000, 40, &[child(1, 9), fixed(2, 0)])),
        (&[8, 2], plan(1000, 40, &[deep(1, 41), fixed(2, 0)])),
        (&[8, 7], plan(1000, 40, &[fixed(1, 9999), deep(2, 40), fixed(3, 2)])),
        (&[7, 4, 15], plan(1000, 40, &[fixed(1, 6000), fixed(2, 6000), child(1, 0)])),
    ];
    for (causes, bytes) in cases {
        let (read, check) =
            (Call::PlanRead { plan: bytes.clone() }, Call::PlanCheck { plan: bytes.clone() });
        first_cause_counts(&[-1; TABLE_LEN], &[(causes, read.clone()), (causes, check)]);
        // The table's length comes first, then the plan's form.
        first_cause_counts(&[-1; TABLE_LEN - 1], &[(&[&[1], *causes].concat(), read)]);
        for bytes in wrong_in_form(bytes) {
            let (read, check) =
                (Call::PlanRead { plan: bytes.clone() }, Call::PlanCheck { plan: bytes });
            let causes = [&[14], *causes].concat();
            first_cause_counts(&[-1; TABLE_LEN], &[(&causes, read.clone()), (&causes, check)]);
            first_cause_counts(&[-1; TABLE_LEN + 1], &[(&[&[1], &causes[..]].concat(), read)]);
        }
    }
}

/// A plan of at least one node with its length, its count, an offset or a kind
/// made wrong.
fn wrong_in_form(plan: &[u8]) -> [Vec<u8>; 4] {
    let first_body = 9 + 4 * usize::from(plan[8]);
    let with = |place: usize, byte: u8| {
        let mut bytes = plan.to_vec();
        bytes[place] = byte;
        bytes
    };
    [[plan, &[0]].concat(), with(8, plan[8] + 1), with(12, 1), with(first_body, 4)]
}

#[test]
fn sixty_three_nodes() {
    let nodes: Vec<NewNode> = (1..64).map(|node| client(node, 0, WEIGHTED, node, 1)).collect();
    let bytes = plan(MAX_RATE, 63, &nodes);
    assert_eq!(bytes.len(), 702);
    let mut disk = Disk::open(1, 1);
    assert_eq!(disk.plan_read(&bytes), Ok(1));
    let mut buffer = vec![0; 702];
    assert_eq!(disk.plan_write(1, &mut buffer), Ok(702));
    assert_eq!(buffer, bytes);
}
