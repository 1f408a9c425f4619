//! The two editions of plans, by hand: plans of each written out in bytes, marks, offsets
//! and kinds, the causes of reading and writing in turn, the programs, round trips, and
//! the misreadings.

use std::collections::{BTreeMap, BTreeSet};
use std::io::Write;
use std::process::{Command, Stdio};

use crate::support::*;
use hds_engine::faulty::{Editions, Fault, Faulty, FAULTS};
use hds_engine::load;
use hds_engine::loads::input;
use hds_engine::plan::{check, Edition, Plan};
use hds_engine::plans;
use hds_engine::print::rates_of_plan;
use hds_engine::random::{run, Profile, Rng};
use hds_engine::steps::{Call, Reply, Step, World};
use hds_engine::table::*;
use hds_engine::{Controller, Engine, NewNode};

/// Document 01's plan: disk 1000, root depth 40, client 5 with weight 4 and depth 16.
const ONE_CLIENT: [u8; 20] = [
    0xE8, 0x03, 0x00, 0x00, 0x28, 0x00, 0x00, 0x00, 0x01, 0x05, 0x00, 0x0D, 0x00, 0x03, 0x04, 0x00,
    0x10, 0x00, 0x00, 0x00,
];

/// The same in the second edition: the mark, the head, an entry whose body is at 17, and
/// the body with four bytes of share.
const ONE_CLIENT_SECOND: [u8; 26] = [
    0xFF, 0xFF, 0xFF, 0xFF, 0xE8, 0x03, 0x00, 0x00, 0x28, 0x00, 0x00, 0x00, 0x01, 0x05, 0x00, 0x11,
    0x00, 0x03, 0x04, 0x00, 0x00, 0x00, 0x10, 0x00, 0x00, 0x00,
];

/// Disk 1000, root depth 100, a node of every kind with depth 8. Six entries behind 13
/// bytes: the bodies begin at 37, 46, 55, 64, 73 and 82.
const EVERY_KIND: [u8; 91] = [
    0xFF, 0xFF, 0xFF, 0xFF, 0xE8, 0x03, 0x00, 0x00, 0x64, 0x00, 0x00, 0x00, 0x06, //
    0x01, 0x00, 0x25, 0x00, 0x02, 0x00, 0x2E, 0x00, 0x03, 0x00, 0x37, 0x00, //
    0x04, 0x00, 0x40, 0x00, 0x05, 0x00, 0x49, 0x00, 0x06, 0x00, 0x52, 0x00, //
    0x00, 0xE8, 0x03, 0x00, 0x00, 0x08, 0x00, 0x00, 0x00, // class 1, fixed 1000
    0x01, 0x01, 0x00, 0x00, 0x00, 0x08, 0x00, 0x00, 0x00, // class 2, weight 1
    0x02, 0xD0, 0x07, 0x00, 0x00, 0x08, 0x00, 0x00, 0x00, // client 3, fixed 2000
    0x03, 0x03, 0x00, 0x00, 0x00, 0x08, 0x00, 0x00, 0x00, // client 4, weight 3
    0x04, 0x64, 0x00, 0x00, 0x00, 0x08, 0x00, 0x00, 0x00, // class 5, 100 stated
    0x05, 0xC8, 0x00, 0x00, 0x00, 0x08, 0x00, 0x00, 0x00, // client 6, 200 stated
];

/// Disk 200,000, root depth 100. Four entries behind 13 bytes: the bodies begin at 29, 38,
/// 47 and 56.
const DESKS: [u8; 65] = [
    0xFF, 0xFF, 0xFF, 0xFF, 0x40, 0x0D, 0x03, 0x00, 0x64, 0x00, 0x00, 0x00, 0x04, //
    0x05, 0x00, 0x1D, 0x00, 0x09, 0x00, 0x26, 0x00, //
    0x0C, 0x00, 0x2F, 0x00, 0x03, 0x09, 0x38, 0x00, //
    0x05, 0x70, 0x11, 0x01, 0x00, 0x08, 0x00, 0x00, 0x00, // client 5, 70,000 stated
    0x04, 0x2C, 0x01, 0x00, 0x00, 0x08, 0x00, 0x00, 0x00, // class 9, 300 stated
    0x03, 0x01, 0x00, 0x00, 0x00, 0x08, 0x00, 0x00, 0x00, // client 12, weight 1
    0x02, 0x88, 0x13, 0x00, 0x00, 0x08, 0x00, 0x00, 0x00, // client 3 of class 9, fixed 5000
];

fn first(rate: i64, depth: i64, nodes: &[NewNode]) -> Vec<u8> {
    Plan { rate, depth, nodes: nodes.to_vec() }.encode(Edition::First)
}

fn second(rate: i64, depth: i64, nodes: &[NewNode]) -> Vec<u8> {
    Plan { rate, depth, nodes: nodes.to_vec() }.encode(Edition::Second)
}

fn plan_read(plan: &[u8]) -> Call {
    Call::PlanRead { plan: plan.to_vec() }
}

fn plan_check(plan: &[u8]) -> Call {
    Call::PlanCheck { plan: plan.to_vec() }
}

fn plan_write(edition: i64, buffer_len: usize) -> Call {
    Call::PlanWrite { edition, buffer_len }
}

/// The bytes with one of them changed.
fn with_byte(plan: &[u8], place: usize, byte: u8) -> Vec<u8> {
    let mut bytes = plan.to_vec();
    bytes[place] = byte;
    bytes
}

/// A disk that some bytes, which must be accepted, make.
fn made(plan: &[u8]) -> Disk {
    let mut disk = Disk::open(1, 1);
    disk.plan_read(plan).unwrap();
    disk
}

#[test]
fn one_client_in_both_editions() {
    let mut expected = Disk::open(1000, 40);
    expected.join(client(5, 0, WEIGHTED, 4, 16)).unwrap();
    for (edition, plan) in [(1, &ONE_CLIENT[..]), (2, &ONE_CLIENT_SECOND)] {
        assert_eq!(check(plan), 0);
        let mut disk = Disk::open(1, 1);
        assert_eq!(disk.plan_read(plan), Ok(edition));
        assert_eq!(disk.table, expected.table);
        // Each is written back, and the other one too.
        let mut buffer = [0xEE; 30];
        assert_eq!(disk.plan_write(1, &mut buffer), Ok(20));
        assert_eq!((&buffer[..20], &buffer[20..]), (&ONE_CLIENT[..], &[0xEE; 10][..]));
        assert_eq!(disk.plan_write(2, &mut buffer), Ok(26));
        assert_eq!((&buffer[..26], &buffer[26..]), (&ONE_CLIENT_SECOND[..], &[0xEE; 4][..]));
    }
}

#[test]
fn a_node_of_every_kind() {
    // 700 are divided: a tenth and a fifth, and 490 are left, 122.5 and 367.5.
    let mut disk = Disk::open(1, 1);
    assert_eq!(disk.plan_read(&EVERY_KIND), Ok(2));
    let mut expected = Disk::open(1000, 100);
    for new in [
        class(1, 0, FIXED, 1000, 8),
        class(2, 0, WEIGHTED, 1, 8),
        client(3, 0, FIXED, 2000, 8),
        client(4, 0, WEIGHTED, 3, 8),
        class(5, 0, STATED, 100, 8),
        client(6, 0, STATED, 200, 8),
    ] {
        expected.join(new).unwrap();
    }
    assert_eq!(disk.table, expected.table);
    assert_eq!([1, 2, 3, 4, 5, 6].map(|node| disk.rate(node)), [70, 122, 140, 367, 100, 200]);
    let mut buffer = [0; 91];
    assert_eq!(disk.plan_write(2, &mut buffer), Ok(91));
    assert_eq!(buffer, EVERY_KIND);
    assert_eq!(disk.plan_write(1, &mut buffer), Err(16));
}

#[test]
fn stated_nodes_with_children() {
    // 129,700 are divided. Client 3 has half of 300.
    let mut disk = Disk::open(1, 1);
    assert_eq!(disk.plan_read(&DESKS), Ok(2));
    assert_eq!([5, 9, 12, 3].map(|node| disk.rate(node)), [70_000, 300, 129_700, 150]);
    let text = "0 class 200000\n3 client 150\n5 client 70000\n9 class 300\n12 client 129700\n";
    assert_eq!(rates_of_plan(&DESKS), text);
    let mut buffer = [0; 65];
    assert_eq!(disk.plan_write(2, &mut buffer), Ok(65));
    assert_eq!(buffer, DESKS);
}

#[test]
fn the_root_alone() {
    let alone = [0xFF, 0xFF, 0xFF, 0xFF, 1, 0, 0, 0, 1, 0, 0, 0, 0];
    let mut disk = Disk::open(7, 7);
    assert_eq!(disk.plan_read(&alone), Ok(2));
    assert_eq!(disk.table, Disk::open(1, 1).table);
    let mut buffer = [0xEE; 14];
    assert_eq!(disk.plan_write(2, &mut buffer), Ok(13));
    assert_eq!((&buffer[..13], buffer[13]), (&alone[..], 0xEE));
    for (place, number) in [(4, 2), (8, 2), (12, 14)] {
        let byte = if place == 12 { 1 } else { 0 };
        assert_eq!(check(&with_byte(&alone, place, byte)), number);
    }
}

#[test]
fn sixty_three_nodes() {
    // The offset of the first body is 13 + 4 × 63 = 265, that of the last 265 + 9 × 62 = 823.
    let nodes: Vec<NewNode> = (1..64).map(|node| client(node, 0, STATED, 70_000, 1)).collect();
    let bytes = second(MAX_RATE, 63, &nodes);
    assert_eq!(bytes.len(), 832);
    assert_eq!((&bytes[13..17], &bytes[261..265]), (&[1, 0, 9, 1][..], &[63, 0, 55, 3][..]));
    let mut disk = made(&bytes);
    let mut buffer = vec![0; 832];
    assert_eq!(disk.plan_write(2, &mut buffer[..831]), Err(13));
    assert_eq!(disk.plan_write(2, &mut buffer), Ok(832));
    assert_eq!(buffer, bytes);
    assert_eq!(disk.lost(0), MAX_RATE - 63 * 70_000);
}

#[test]
fn bytes_that_begin_with_four_ff_are_of_the_second_edition() {
    for count in 0..10 {
        let marked = |plan: &[u8]| [&vec![0xFF; count], plan].concat();
        // The rest of ONE_CLIENT_SECOND behind its mark stands behind four alone. ONE_CLIENT
        // behind three is a first edition of the wrong length.
        assert_eq!(check(&marked(&ONE_CLIENT_SECOND[4..])), if count == 4 { 0 } else { 14 });
        assert_eq!(check(&marked(&ONE_CLIENT)), if count == 0 { 0 } else { 14 });
        assert_eq!(check(&marked(&[])), 14);
    }
    for place in 0..4 {
        for byte in [0, 0x7F, 0xFE] {
            assert_eq!(check(&with_byte(&ONE_CLIENT_SECOND, place, byte)), 14);
        }
    }
}

#[test]
fn disk_rates_whose_low_bytes_are_ff() {
    // Up to three such bytes they are rates of a first edition, four are the mark.
    for rate in [0xFF, 0xFFFF, 0xFF_FFFF, 0x1FF_FFFF, 0x3AFF_FFFF] {
        let bytes = first(rate, 40, &[]);
        let mut disk = Disk::open(1, 1);
        assert_eq!(disk.plan_read(&bytes), Ok(1));
        assert_eq!(disk.rate(0), rate);
        assert_eq!(disk.plan_read(&second(rate, 40, &[])), Ok(2));
        assert_eq!(disk.rate(0), rate);
    }
    assert_eq!(check(&first(0x3BFF_FFFF, 40, &[])), 2);
    assert_eq!(check(&first(0xFFFF_FFFE, 40, &[])), 2);
    assert_eq!(check(&first(0xFFFF_FFFF, 40, &[])), 14);
    assert_eq!(check(&second(0xFFFF_FFFF, 40, &[])), 2);
    // Eleven nodes of the first edition have the length of nine of the second.
    let nodes: Vec<NewNode> = (1..12).map(|node| client(node, 0, WEIGHTED, 1, 1)).collect();
    assert_eq!(first(0xFFFF_FFFF, 40, &nodes).len(), second(1, 40, &nodes[..9]).len());
    assert_eq!(check(&first(0xFFFF_FFFF, 40, &nodes)), 14);
}

#[test]
fn wrong_forms() {
    for length in (0..26).chain([27, 37, 39, 52]) {
        let mut bytes = ONE_CLIENT_SECOND.to_vec();
        bytes.resize(length, 0);
        assert_eq!(check(&bytes), 14, "length {length}");
    }
    for count in [0, 2, 63, 64, 255] {
        assert_eq!(check(&with_byte(&ONE_CLIENT_SECOND, 12, count)), 14);
    }
    let mut long = vec![0; 13 + 13 * 64];
    long[..4].fill(0xFF);
    long[12] = 64;
    assert_eq!(check(&long), 14);
    // From the head the body is at 13, in a first edition too.
    for (place, byte) in [(15, 0x0D), (15, 0x10), (15, 0x12), (16, 1), (16, 0xFF)] {
        assert_eq!(check(&with_byte(&ONE_CLIENT_SECOND, place, byte)), 14);
    }
    for (kind, number) in [(3, 0), (4, 0), (5, 0), (6, 14), (7, 14), (255, 14)] {
        assert_eq!(check(&with_byte(&ONE_CLIENT_SECOND, 17, kind)), number, "kind {kind}");
        let number = if kind == 3 { 0 } else { 14 };
        assert_eq!(check(&with_byte(&ONE_CLIENT, 13, kind)), number, "kind {kind}");
    }
    // The form is judged whole before anything else.
    let mut bytes = with_byte(&ONE_CLIENT_SECOND, 17, 6);
    bytes[4..12].fill(0);
    assert_eq!(check(&bytes), 14);
}

#[test]
fn bodies_of_one_edition_in_the_frame_of_the_other() {
    // Bodies of 7 bytes behind the mark, with offsets of any sort; and of 9 without it.
    for offset in [0x0D, 0x11] {
        let short = [&[0xFF; 4], &with_byte(&ONE_CLIENT, 11, offset)[..]].concat();
        assert_eq!(check(&short), 14);
        let long = with_byte(&ONE_CLIENT_SECOND[4..], 11, offset);
        assert_eq!(check(&long), 14);
    }
    assert_eq!(check(&first(1000, 40, &[client(5, 0, STATED, 4, 16)])), 14);
    assert_eq!(check(&first(1000, 40, &[class(5, 0, STATED, 4, 16)])), 14);
}

#[test]
fn shares_of_four_bytes() {
    for (kind, share, number) in [
        (FIXED, 10_000, 0),
        (FIXED, 10_001, 2),
        // 1 in its low two bytes.
        (FIXED, 65_537, 2),
        (WEIGHTED, 65_537, 2),
        (WEIGHTED, 0xFFFF_FFFF, 2),
        (STATED, 65_537, 0),
        (STATED, 100_000, 0),
        (STATED, 100_001, 16),
        (STATED, 1_000_000_000, 16),
        (STATED, 1_000_000_001, 2),
        (STATED, 0xFFFF_FFFF, 2),
        (STATED, 65_536, 0),
        (STATED, 0, 2),
    ] {
        let bytes = second(100_000, 40, &[client(5, 0, kind, share, 8)]);
        assert_eq!(check(&bytes), number, "kind {kind}, {share}");
    }
    let mut disk = made(&second(100_000, 40, &[client(5, 0, STATED, 65_537, 8)]));
    assert_eq!(disk.rate(5), 65_537);
}

#[test]
fn causes_of_plan_reading_in_turn() {
    let weight = |node, depth| client(node, 0, WEIGHTED, 1, depth);
    let fixed = |node, share| client(node, 0, FIXED, share, 1);
    let upper = |node, parent| class(node, parent, WEIGHTED, 1, 9);
    let stated = |node, share| client(node, 0, STATED, share, 1);
    let lower = |node, parent| client(node, parent, STATED, 1, 1);
    let plan = |nodes: &[NewNode]| second(1000, 40, nodes);
    let cases: &[(&[i64], Vec<u8>)] = &[
        (&[], plan(&[stated(1, 600), stated(2, 400), weight(3, 38)])),
        // Open first.
        (&[2, 16], second(0, 40, &[stated(1, 600)])),
        (&[2, 16, 15], second(1000, 0, &[stated(2, 600), stated(1, 600)])),
        // Of one join 16 is the last.
        (&[2, 16], plan(&[stated(1, 1_000_000_001)])),
        (&[2, 16], plan(&[client(0, 0, STATED, 1001, 1)])),
        (&[3, 16], plan(&[lower(1, 9)])),
        (&[4, 16], plan(&[stated(1, 600), stated(1, 401)])),
        (&[5, 16], plan(&[weight(1, 1), lower(2, 1)])),
        (&[6, 16], plan(&[upper(1, 0), upper(2, 1), upper(3, 2), class(4, 3, STATED, 1, 1)])),
        (&[8, 16], plan(&[client(1, 0, STATED, 1001, 41)])),
        (&[16], plan(&[stated(1, 1001)])),
        (&[16], plan(&[stated(1, 600), stated(2, 401)])),
        (&[16], plan(&[upper(1, 0), lower(2, 1)])),
        (&[16], plan(&[upper(1, 0), upper(2, 1), upper(3, 2), lower(4, 3)])),
        // Of two joins the earlier one, whatever its number is.
        (&[16, 2], plan(&[stated(1, 1001), fixed(2, 0)])),
        (&[16, 8], plan(&[stated(1, 1001), weight(2, 40)])),
        (&[16, 3], plan(&[upper(1, 0), lower(2, 1), weight(3, 1), lower(4, 60)])),
        (&[8, 16], plan(&[weight(1, 41), stated(2, 1001)])),
        (&[7, 16], plan(&[fixed(1, 9999), fixed(2, 2), stated(3, 1001)])),
        (&[16, 7], plan(&[fixed(1, 9999), stated(2, 1001), fixed(3, 2)])),
        // Before the order of the entries.
        (&[16, 15], plan(&[stated(2, 600), stated(1, 401)])),
        (&[16, 15], plan(&[weight(2, 1), stated(1, 1001)])),
        (&[16, 15], plan(&[upper(2, 0), upper(1, 0), lower(3, 2)])),
        (&[16, 15], plan(&[stated(1, 1001), weight(3, 1), weight(2, 1)])),
        (&[15], plan(&[stated(2, 600), stated(1, 400)])),
        (&[15], plan(&[class(9, 0, STATED, 1, 9), client(1, 9, FIXED, 1, 1), stated(2, 1)])),
    ];
    for (causes, bytes) in cases {
        let both = [(*causes, plan_read(bytes)), (*causes, plan_check(bytes))];
        first_cause_counts(&[-1; TABLE_LEN], &both);
        // The table's length comes first, then the plan's form.
        first_cause_counts(&[-1; TABLE_LEN - 1], &[(&[&[1], *causes].concat(), plan_read(bytes))]);
        for bytes in wrong_in_form(bytes) {
            let causes = [&[14], *causes].concat();
            let both = [(&causes[..], plan_read(&bytes)), (&causes[..], plan_check(&bytes))];
            first_cause_counts(&[-1; TABLE_LEN], &both);
            let causes = [&[1], &causes[..]].concat();
            first_cause_counts(&[-1; TABLE_LEN + 1], &[(&causes[..], plan_read(&bytes))]);
        }
    }
}

/// A second edition of at least one node with its mark, its length, its count, an offset
/// or a kind made wrong.
fn wrong_in_form(plan: &[u8]) -> [Vec<u8>; 6] {
    let first_body = 13 + 4 * usize::from(plan[12]);
    [
        plan[1..].to_vec(),
        plan[4..].to_vec(),
        [plan, &[0]].concat(),
        with_byte(plan, 12, plan[12] + 1),
        with_byte(plan, 16, 1),
        with_byte(plan, first_body, 6),
    ]
}

#[test]
fn causes_of_writing_in_turn() {
    // Four nodes: 53 bytes, and 65 in the second edition.
    let disk = made(&DESKS);
    let others = [0, 3, -1, 4, 255, 256, 257, 258, i64::MIN, i64::MIN + 1, i64::MAX];
    for edition in others {
        let lengths = [0, 52, 53, 64, 65, 1000];
        let cases = lengths.map(|length| match length {
            0 | 52 => (&[2, 13][..], plan_write(edition, length)),
            _ => (&[2][..], plan_write(edition, length)),
        });
        first_cause_counts(&disk.table, &cases);
    }
    first_cause_counts(
        &disk.table,
        &[
            (&[13, 16], plan_write(1, 0)),
            (&[13, 16], plan_write(1, 52)),
            (&[16], plan_write(1, 53)),
            (&[16], plan_write(1, 65)),
            (&[13], plan_write(2, 0)),
            (&[13], plan_write(2, 53)),
            (&[13], plan_write(2, 64)),
            (&[], plan_write(2, 65)),
            (&[], plan_write(2, 66)),
        ],
    );
    // Without a stated node the first edition is written too.
    let plain = made(&ONE_CLIENT);
    first_cause_counts(
        &plain.table,
        &[
            (&[13], plan_write(1, 19)),
            (&[], plan_write(1, 20)),
            (&[13], plan_write(2, 20)),
            (&[13], plan_write(2, 25)),
            (&[], plan_write(2, 26)),
            (&[2, 13], plan_write(3, 19)),
            (&[2], plan_write(3, 26)),
        ],
    );
    // The table comes first.
    let mut damaged = disk.table.clone();
    damaged[7] = 1;
    for table in [damaged, disk.table[1..].to_vec(), vec![0; TABLE_LEN]] {
        let cases = [(1, 53), (2, 65), (1, 0), (2, 0), (3, 65), (3, 0), (0, 0)]
            .map(|(edition, length)| (&[1][..], plan_write(edition, length)));
        first_cause_counts(&table, &cases);
    }
}

#[test]
fn a_table_of_any_contents_is_read_into() {
    let mut table = vec![-1; TABLE_LEN];
    assert_eq!(Engine.plan_read(&with_byte(&DESKS, 12, 3), &mut table), Err(14));
    assert_eq!(Engine.plan_read(&with_byte(&DESKS, 6, 1), &mut table), Err(16));
    assert_eq!(table, vec![-1; TABLE_LEN]);
    assert_eq!(Engine.plan_read(&DESKS, &mut table), Ok(2));
    assert_eq!(Engine.look(&table, 9), Ok([300, 0, 0, 150]));
    assert_eq!(Engine.plan_read(&DESKS, &mut [-1; TABLE_LEN - 1]), Err(1));
    assert_eq!(Engine.plan_read(&[0xFF; 4], &mut [-1; TABLE_LEN + 1]), Err(1));
}

/// What a program prints of an input.
fn output_of(program: &str, input: &[u8]) -> String {
    let mut program =
        Command::new(program).stdin(Stdio::piped()).stdout(Stdio::piped()).spawn().unwrap();
    program.stdin.take().unwrap().write_all(input).unwrap();
    let output = program.wait_with_output().unwrap();
    assert!(output.status.success());
    String::from_utf8(output.stdout).unwrap()
}

#[test]
fn the_program_prints_the_rates_of_both_editions() {
    let rates = |plan: &[u8]| output_of(env!("CARGO_BIN_EXE_rates"), plan);
    assert_eq!(rates(&ONE_CLIENT), "0 class 1000\n5 client 1000\n");
    assert_eq!(rates(&ONE_CLIENT_SECOND), "0 class 1000\n5 client 1000\n");
    let kinds = "0 class 1000\n1 class 70\n2 class 122\n3 client 140\n4 client 367\n";
    assert_eq!(rates(&EVERY_KIND), [kinds, "5 class 100\n6 client 200\n"].concat());
    for (number, plan) in [
        (14, with_byte(&ONE_CLIENT_SECOND, 15, 0x0D)),
        (14, vec![0xFF; 4]),
        (14, first(1000, 40, &[client(5, 0, STATED, 4, 16)])),
        (16, second(1000, 40, &[client(5, 0, STATED, 1001, 16)])),
        (2, second(1000, 40, &[client(5, 0, FIXED, 10_001, 16)])),
    ] {
        assert_eq!(rates(&plan), format!("refused {number}\n"));
    }
}

#[test]
fn the_load_of_a_stated_client() {
    // Client 5 has 1 token a tick and the disk 5. From seed 1 it asks for 9, 1 and 3, which
    // cost 13, 8 and 8; 14 costs 18 and is refused; then for 2 and 4. The root has 15 at
    // tick 3 and keeps 2; 12 at tick 5 and keeps 4; 9 at tick 6 and keeps 1. At tick 8 the
    // client has 8 of its own, and the root keeps 11 − 8; at tick 9 it has 8.
    let plan = second(5000, 40, &[client(5, 0, STATED, 1000, 16)]);
    let lines = [
        "3 5 33046 9 0\n",
        "5 5 24216 1 0\n",
        "6 5 1080 3 0\n",
        "8 5 15405 2 5\n",
        "9 5 21422 4 0\n",
    ];
    let input_of = |plan: &[u8]| input(1, 9, plan);
    let text = |plan: &[u8]| String::from_utf8(load::text(&input_of(plan))).unwrap();
    assert_eq!(text(&plan), lines.concat());
    assert_eq!(output_of(env!("CARGO_BIN_EXE_load"), &input_of(&plan)), lines.concat());
    // Where the disk has no more than that, the client pays all: 13 at tick 13, then 8 at
    // every eighth, as with a weight in either edition.
    let alone = second(1000, 40, &[client(5, 0, STATED, 1000, 16)]);
    let lines = "13 5 33046 9 5\n21 5 24216 1 5\n29 5 1080 3 5\n";
    for plan in [&alone[..], &ONE_CLIENT, &ONE_CLIENT_SECOND] {
        assert_eq!(output_of(env!("CARGO_BIN_EXE_load"), &input(1, 29, plan)), lines);
    }
    for (number, plan) in [
        (14, with_byte(&DESKS, 15, 0)),
        (16, second(999, 40, &[client(5, 0, STATED, 1000, 16)])),
        (15, second(1000, 40, &[client(5, 0, STATED, 1, 16), client(4, 0, STATED, 1, 16)])),
    ] {
        for ticks in [0, 9] {
            let text = load::text(&input(1, ticks, &plan));
            assert_eq!(text, format!("refused {number}\n").as_bytes());
        }
    }
}

#[test]
fn the_length_of_a_plan() {
    for (count, first, second) in [(0, 9, 13), (1, 20, 26), (4, 53, 65), (63, 702, 832)] {
        assert_eq!(Edition::First.plan_len(count), first);
        assert_eq!(Edition::Second.plan_len(count), second);
    }
    assert_eq!(Edition::ALL.map(Edition::number), [1, 2]);
}

#[test]
fn written_plans_read_back_as_the_same_tree() {
    let mut counts = [0; 2];
    for seed in 100..160 {
        let mut world = World::default();
        for step in run(seed, 150, Profile::Clean) {
            world.run(&mut Engine, &step);
        }
        let table = world.table.inner();
        let is_stated = used_nodes(table).any(|node| get(table, node, KIND) == STATED);
        counts[usize::from(is_stated)] += 1;
        for (edition, body) in [(1, 11), (2, 13)] {
            let mut buffer = vec![0; 832];
            let written = Engine.plan_write(table, edition, &mut buffer);
            if is_stated && edition == 1 {
                assert_eq!(written, Err(16));
                continue;
            }
            let nodes = used_nodes(table).count() - 1;
            let length = 4 * (edition as usize - 1) + 9 + body * nodes;
            assert_eq!(written, Ok(length as i64));
            let mut copy = vec![5; TABLE_LEN];
            assert_eq!(Engine.plan_read(&buffer[..length], &mut copy), Ok(edition));
            assert_eq!(Engine.same(table, &copy), Ok(true));
        }
    }
    assert!(counts.iter().all(|&count| count > 10), "{counts:?}");
}

#[test]
fn read_plans_are_written_back_byte_by_byte() {
    let mut rng = Rng::new(9);
    // Accepted ones by edition and by whether a node is stated.
    let mut counts: BTreeMap<(i64, bool), usize> = BTreeMap::new();
    for seed in 0..40 {
        let mut world = World::default();
        for step in run(seed, 100, Profile::Tree) {
            world.run(&mut Engine, &step);
        }
        let right = Plan::of_table(world.table.inner());
        for _ in 0..200 {
            let bytes = plans::any(&mut rng, &right);
            let mut table = vec![7; TABLE_LEN];
            let Ok(edition) = Engine.plan_read(&bytes, &mut table) else { continue };
            let mut buffer = vec![0xEE; bytes.len() + 1];
            assert_eq!(Engine.plan_write(&table, edition, &mut buffer), Ok(bytes.len() as i64));
            assert_eq!((&buffer[..bytes.len()], buffer[bytes.len()]), (&bytes[..], 0xEE));
            let is_stated = used_nodes(&table).any(|node| get(&table, node, KIND) == STATED);
            *counts.entry((edition, is_stated)).or_default() += 1;
        }
    }
    let kinds: Vec<(i64, bool)> = counts.keys().copied().collect();
    assert_eq!(kinds, [(1, false), (2, false), (2, true)]);
    assert!(counts.values().all(|&count| count > 200), "{counts:?}");
}

#[test]
fn wild_runs_meet_both_editions_in_every_way() {
    let mut reads = BTreeSet::new();
    let mut writes = BTreeSet::new();
    for seed in 0..100 {
        let mut world = World::default();
        for step in run(seed, 700, Profile::Wild) {
            let before = world.table.inner().to_vec();
            let Some(reply) = world.run(&mut Engine, &step) else { continue };
            match &step {
                Step::Call(call @ (Call::PlanRead { plan } | Call::PlanCheck { plan })) => {
                    let is_second = plan.starts_with(&[0xFF; 4]);
                    reads.insert((is_second, refusal(call, reply)));
                }
                Step::Call(call @ Call::PlanWrite { edition, .. }) if before.len() == TABLE_LEN => {
                    let is_stated = (0..64).any(|node| get(&before, node, KIND) == STATED);
                    let edition = (*edition).clamp(0, 3);
                    writes.insert((edition, is_stated, refusal(call, reply)));
                }
                _ => {}
            }
        }
    }
    let numbers = [0, 1, 2, 3, 4, 5, 6, 7, 8, 14, 15];
    let expected = numbers.iter().flat_map(|&number| [(false, number), (true, number)]);
    let expected: BTreeSet<(bool, i64)> = expected.chain([(true, 16)]).collect();
    assert_eq!(reads, expected);
    for (edition, is_stated, numbers) in [
        (0, false, &[1, 2][..]),
        (0, true, &[1, 2]),
        (1, false, &[0, 1, 13]),
        (1, true, &[1, 13, 16]),
        (2, false, &[0, 1, 13]),
        (2, true, &[0, 1, 13]),
        (3, false, &[1, 2]),
        (3, true, &[1, 2]),
    ] {
        let met: Vec<i64> = writes
            .iter()
            .filter(|met| (met.0, met.1) == (edition, is_stated))
            .map(|met| met.2)
            .collect();
        assert_eq!(met, numbers, "edition {edition}, {is_stated}");
    }
}

/// What a right and a wrong engine answer.
type Replies = [Reply; 2];

const fn numbers(right: i64, wrong: i64) -> Replies {
    [Reply::Number(right), Reply::Number(wrong)]
}

const fn refused(right: i64, number: i64) -> Replies {
    [Reply::Number(right), Reply::Refused(number)]
}

const fn accepted(number: i64, wrong: i64) -> Replies {
    [Reply::Refused(number), Reply::Number(wrong)]
}

const fn others(right: i64, wrong: i64) -> Replies {
    [Reply::Refused(right), Reply::Refused(wrong)]
}

/// Every misreading, with bytes that make the table, a call, and the replies.
fn misreadings() -> Vec<(Editions, Vec<u8>, Call, Replies)> {
    let read = |plan: &[u8]| (ONE_CLIENT.to_vec(), plan_read(plan));
    let one = |edition, length| (ONE_CLIENT.to_vec(), plan_write(edition, length));
    let desks = |edition, length| (DESKS.to_vec(), plan_write(edition, length));
    let from_head = with_byte(&ONE_CLIENT_SECOND, 15, 0x0D);
    let short = [&[0xFF; 4], &with_byte(&ONE_CLIENT, 11, 0x11)[..]].concat();
    let wide = second(1000, 40, &[client(5, 0, FIXED, 65_537, 8)]);
    let first_stated = with_byte(&ONE_CLIENT, 13, 5);
    let stated = |node, share| client(node, 0, STATED, share, 1);
    let swapped = second(100, 40, &[stated(2, 60), stated(1, 41)]);
    let too_deep = second(100, 40, &[stated(1, 101), client(2, 0, WEIGHTED, 1, 41)]);
    let list = [
        (Editions::OffsetsFromHead, read(&from_head), accepted(14, 2)),
        (Editions::ShortShares, read(&short), accepted(14, 2)),
        (Editions::LowShares, read(&wide), accepted(2, 2)),
        // Class 9 is a client, and has a child.
        (Editions::KindsExchanged, read(&DESKS), refused(2, 5)),
        (Editions::OldKinds, read(&DESKS), refused(2, 14)),
        (Editions::FirstHasStated, read(&first_stated), accepted(14, 1)),
        (Editions::ThreeMarks, read(&first(0xFF_FFFF, 40, &[])), refused(1, 14)),
        (Editions::OneMark, read(&first(0xFF, 40, &[])), refused(1, 14)),
        (Editions::ByLength, read(&with_byte(&ONE_CLIENT_SECOND, 0, 0xFE)), accepted(14, 2)),
        (Editions::NoMark, one(2, 26), numbers(26, 22)),
        (Editions::OrderBeforeSixteen, read(&swapped), others(16, 15)),
        (Editions::SixteenBehindJoins, read(&too_deep), others(16, 8)),
        (Editions::SaysOne, read(&DESKS), numbers(2, 1)),
        (Editions::SaysNothing, read(&ONE_CLIENT), numbers(1, 0)),
        (Editions::SaysByKind, read(&ONE_CLIENT_SECOND), numbers(2, 1)),
        (Editions::CheckSays, (Vec::new(), plan_check(&ONE_CLIENT)), numbers(0, 1)),
        (Editions::OthersAsFirst, one(3, 26), accepted(2, 20)),
        (Editions::OthersAsSecond, one(3, 26), accepted(2, 26)),
        (Editions::AlwaysFirst, one(2, 26), numbers(26, 20)),
        (Editions::AlwaysSecond, one(1, 26), numbers(20, 26)),
        (Editions::SecondInstead, desks(1, 65), accepted(16, 65)),
        (Editions::SecondRefused, desks(2, 65), refused(65, 16)),
        (Editions::LengthOfFirst, one(2, 20), accepted(13, 26)),
        (Editions::LengthOfSecond, one(1, 20), refused(20, 13)),
        (Editions::NumberBehindLength, one(3, 19), others(2, 13)),
        // There is no table at all.
        (Editions::NumberBeforeOrder, (Vec::new(), plan_write(3, 26)), others(1, 2)),
    ];
    list.into_iter().map(|(wrong, (plan, call), replies)| (wrong, plan, call, replies)).collect()
}

#[test]
fn misreadings_give_their_wrong_answers() {
    for (misreading, plan, call, [right, wrong]) in misreadings() {
        let reply = |controller: &mut dyn Controller| {
            let mut world = World::default();
            if !plan.is_empty() {
                world.call(&mut Engine, &plan_read(&plan));
            }
            world.call(controller, &call)
        };
        assert_eq!(reply(&mut Engine), right, "{misreading:?}");
        assert_eq!(reply(&mut Faulty::new(Fault::None)), right, "{misreading:?}");
        let mut faulty = Faulty::new(Fault::WrongEditions(misreading));
        assert_eq!(reply(&mut faulty), wrong, "{misreading:?}");
    }
}

#[test]
fn misreadings_write_other_bytes() {
    let table = made(&DESKS).table;
    let written = |wrong: Editions| {
        let mut buffer = [0xEE; 65];
        let mut faulty = Faulty::new(Fault::WrongEditions(wrong));
        let length = faulty.plan_write(&table, 2, &mut buffer).unwrap() as usize;
        buffer[..length].to_vec()
    };
    // Right ones, of a misreading that is not about this.
    assert_eq!(written(Editions::OthersAsFirst), DESKS);
    // Offsets 4 less, kinds 4 and 5 exchanged, 70,000 less 65,536.
    let mut from_head = DESKS;
    for place in [15, 19, 23, 27] {
        from_head[place] -= 4;
    }
    assert_eq!(written(Editions::OffsetsFromHead), from_head);
    let mut exchanged = DESKS;
    (exchanged[29], exchanged[38]) = (4, 5);
    assert_eq!(written(Editions::KindsExchanged), exchanged);
    let low = with_byte(&DESKS, 32, 0);
    assert_eq!(written(Editions::LowShares), low);
    // Without the mark all offsets are 4 less.
    assert_eq!(written(Editions::NoMark), from_head[4..]);
    // Four bodies of two bytes less.
    assert_eq!(written(Editions::ShortShares).len(), 57);
}

#[test]
fn every_misreading_is_worked_by_hand() {
    let by_hand =
        misreadings().into_iter().map(|(misreading, ..)| Fault::WrongEditions(misreading));
    let is_listed = |fault: &Fault| matches!(fault, Fault::WrongEditions(_));
    assert!(by_hand.eq(FAULTS.into_iter().filter(is_listed)));
}

#[test]
fn few_runs_tell_every_misreading_by_a_plan() {
    let mut runs = Runs::new(Profile::Wild);
    for fault in FAULTS.into_iter().filter(|fault| matches!(fault, Fault::WrongEditions(_))) {
        let found = runs.shows(fault, 60);
        let is_plan = matches!(
            found,
            Some(Step::Call(
                Call::PlanRead { .. } | Call::PlanCheck { .. } | Call::PlanWrite { .. }
            ))
        );
        assert!(is_plan, "{fault:?}: {found:?}");
    }
}
