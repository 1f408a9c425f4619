//! The load, by hand: draws, requests, whole small runs and the program. All states
//! were worked out with whole numbers, as the remainder by 2^32 = 4,294,967,296.

use std::io::{self, Read, Write};
use std::process::{Child, Command, Stdio};

use crate::support::*;
use hds_engine::load::{self, Draws, Load, Request};
use hds_engine::loads::input;
use hds_engine::plan::{Edition, Plan};
use hds_engine::table::*;
use hds_engine::NewNode;

fn plan(rate: i64, depth: i64, nodes: &[NewNode]) -> Vec<u8> {
    Plan { rate, depth, nodes: nodes.to_vec() }.encode(Edition::First)
}

/// Client 5 alone, with the disk's whole rate.
fn alone(rate: i64, depth: i64) -> Vec<u8> {
    plan(rate, 40, &[client(5, 0, WEIGHTED, 4, depth)])
}

/// The text of an input.
fn text(seed: u32, ticks: u32, plan: &[u8]) -> String {
    text_of(&input(seed, ticks, plan))
}

fn text_of(input: &[u8]) -> String {
    String::from_utf8(load::text(input)).unwrap()
}

/// The load after so many ticks.
fn after(seed: u32, ticks: u32, plan: &[u8]) -> Load {
    let mut load = Load::read(&input(seed, ticks, plan)).unwrap();
    for _ in 0..ticks {
        load.tick(&mut Vec::new());
    }
    load
}

/// The balances of some nodes, in tokens.
fn balances<const N: usize>(load: &Load, nodes: [usize; N]) -> [i64; N] {
    nodes.map(|node| get(load.table(), node, BALANCE) / GRAINS)
}

#[test]
fn draws_from_seed_0() {
    // 0 × 1664525 + 1013904223 = 1013904223 = 15470 × 65536 + 62303.
    // 1013904223 × 1664525 + 1013904223 leaves 1196435762 = 18256 × 65536 + 10546.
    // 1196435762 × 1664525 + 1013904223 leaves 3519870697 = 53708 × 65536 + 63209.
    // Then 2868466484, 1649599747 and 2670642822.
    let mut draws = Draws::new(0);
    assert_eq!([(); 6].map(|()| draws.draw()), [15470, 18256, 53708, 43769, 25170, 40750]);
}

#[test]
fn draws_from_seed_1() {
    // 1 × 1664525 + 1013904223 = 1015568748 = 15496 × 65536 + 22892.
    // 1015568748 × 1664525 + 1013904223 leaves 1586005467 = 24200 × 65536 + 34267.
    // 1586005467 × 1664525 + 1013904223 leaves 2165703038 = 33046 × 65536 + 382.
    // Then 3027450565, 217083232 and 1587069247.
    let mut draws = Draws::new(1);
    assert_eq!([(); 6].map(|()| draws.draw()), [15496, 24200, 33046, 46195, 3312, 24216]);
}

#[test]
fn draws_from_the_largest_seed() {
    // 4294967295 is one below the remainder's 2^32, so the first state is
    // 1013904223 − 1664525 = 1012239698 = 15445 × 65536 + 36178.
    // 1012239698 × 1664525 + 1013904223 leaves 806866057 = 12311 × 65536 + 52361.
    // 806866057 × 1664525 + 1013904223 leaves 579071060 = 8835 × 65536 + 60500.
    // Then 2709482403, 3082116262 and 3754216397.
    let mut draws = Draws::new(u32::MAX);
    assert_eq!([(); 6].map(|()| draws.draw()), [15445, 12311, 8835, 41343, 47029, 57284]);
}

/// Requests as client, tag, size.
fn requests<const N: usize>(seed: u32, plan: &[u8]) -> [(usize, i64, i64); N] {
    let mut load = Load::read(&input(seed, 0, plan)).unwrap();
    [(); N].map(|()| {
        let Request { client, tag, size } = load.request().unwrap();
        (client, tag, size)
    })
}

#[test]
fn requests_of_clients_with_gaps_between_their_numbers() {
    // Clients 2, 31 and 63 of depths 100, 7 and 900,000. In the plan 63 stands
    // before the others, on a level above them.
    let nodes = [
        class(40, 0, FIXED, 1, 200),
        client(63, 0, FIXED, 1, 900_000),
        client(2, 40, FIXED, 1, 100),
        client(31, 40, FIXED, 1, 7),
    ];
    let plan = plan(1, MAX_DEPTH, &nodes);
    // 15470 = 3 × 5156 + 2, 43769 = 3 × 14589 + 2, 22526 = 3 × 7508 + 2,
    // 38128 = 3 × 12709 + 1 with 52214 = 7 × 7459 + 1,
    // 40227 = 3 × 13409 with 58006 = 100 × 580 + 6.
    let from_0 =
        [(63, 53708, 18257), (63, 40750, 25171), (63, 33277, 41946), (31, 48337, 2), (2, 442, 7)];
    assert_eq!(requests(0, &plan), from_0);
    // 15496 = 3 × 5165 + 1 with 24200 = 7 × 3457 + 1,
    // 46195 = 3 × 15398 + 1 with 3312 = 7 × 473 + 1,
    // 50774 = 3 × 16924 + 2,
    // 41893 = 3 × 13964 + 1 with 16413 = 7 × 2344 + 5.
    let from_1 = [(31, 33046, 2), (31, 24216, 2), (63, 1080, 36451), (31, 27680, 6)];
    assert_eq!(requests(1, &plan), from_1);
    // 15445 = 3 × 5148 + 1 with 12311 = 7 × 1758 + 5,
    // 41343 = 3 × 13781 with 47029 = 100 × 470 + 29,
    // 59813 = 3 × 19937 + 2,
    // 34363 = 3 × 11454 + 1 with 22478 = 7 × 3211 + 1.
    let from_largest = [(31, 8835, 6), (2, 57284, 30), (63, 65474, 47441), (31, 3457, 2)];
    assert_eq!(requests(u32::MAX, &plan), from_largest);
}

#[test]
fn requests_of_one_client() {
    // Modulo 1 every draw is 0. 24200 = 16 × 1512 + 8 = 8 × 3025, 3312 = 16 × 207,
    // 36450 = 16 × 2278 + 2 = 8 × 4556 + 2.
    assert_eq!(requests(1, &alone(1, 1)), [(5, 33046, 1), (5, 24216, 1), (5, 1080, 1)]);
    assert_eq!(requests(1, &alone(1, 7)), [(5, 33046, 2), (5, 24216, 2), (5, 1080, 2)]);
    assert_eq!(requests(1, &alone(1, 8)), [(5, 33046, 1), (5, 24216, 1), (5, 1080, 3)]);
    assert_eq!(requests(1, &alone(1, 16)), [(5, 33046, 9), (5, 24216, 1), (5, 1080, 3)]);
}

#[test]
fn sixty_three_clients() {
    // 15496 = 63 × 245 + 61, which is client 62, with 24200 = 10 × 2420.
    // 46195 = 63 × 733 + 16, client 17, with 3312 = 10 × 331 + 2.
    // 50774 = 63 × 805 + 59, client 60, with 36450 = 10 × 3645.
    let nodes: Vec<NewNode> = (1..64).map(|node| client(node, 0, WEIGHTED, 1, 10)).collect();
    let expected = [(62, 33046, 1), (17, 24216, 3), (60, 1080, 1)];
    assert_eq!(requests(1, &plan(1, 630, &nodes)), expected);
}

#[test]
fn depth_sixteen() {
    // Document 01's plan: client 5 has the disk's 1000. From seed 1 it asks for 9,
    // 1 and 3 (costs 13, 8 and 8); 14 costs 18 and is refused; then for 2 and 4.
    // A balance of 13 is there at tick 13, one of 8 every eight ticks from then on.
    // The root always has as much, but the client comes first.
    let plan = alone(1000, 16);
    let lines =
        ["13 5 33046 9 5\n", "21 5 24216 1 5\n", "29 5 1080 3 5\n", "37 5 15405 2 5\n"].concat();
    assert_eq!(text(1, 37, &plan), lines);
    assert_eq!(text(1, 44, &plan), lines);
    assert_eq!(text(1, 12, &plan), "");
    assert_eq!(text(1, 13, &plan), "13 5 33046 9 5\n");
    assert_eq!(balances(&after(1, 12, &plan), [0, 5]), [12, 12]);
    assert_eq!(balances(&after(1, 13, &plan), [0, 5]), [0, 0]);
    // Sizes 9, 1, 3, 14, 2, 4, 14, 16, 15: of nine requests five were accepted.
    let load = after(1, 9, &plan);
    let sizes: Vec<i64> = waiting(load.table(), 5).map(|request| request.size).collect();
    assert_eq!((load.table()[ACCEPTED], sizes), (5, vec![9, 1, 3, 2, 4]));
}

#[test]
fn depth_eight_and_a_full_queue() {
    // Every size from 1 to 7 costs the depth, 8 costs more. At 800 grains a tick one
    // goes at every tenth tick. From seed 1 the second draws modulo 8 give the sizes
    // 1, 1, 3, 6, 2, 4, 6, then 8 which is refused, and 7: eight wait before tick 9.
    let plan = alone(800, 8);
    let load = after(1, 9, &plan);
    let sizes: Vec<i64> = waiting(load.table(), 5).map(|request| request.size).collect();
    assert_eq!((load.table()[ACCEPTED], sizes), (8, vec![1, 1, 3, 6, 2, 4, 6, 7]));
    // The tenth request finds the queue full, and its tick makes room. The eleventh,
    // 11617 = 8 × 1452 + 1 with tag 21898, is the ninth that waits. All others are
    // dropped up to the twenty-first, 26730 = 8 × 3341 + 2 with tag 9654.
    let load = after(1, 11, &plan);
    assert_eq!(load.table()[ACCEPTED], 9);
    let last = Waiting { tag: 21898, size: 2, arrival: 9 };
    assert_eq!(waiting(load.table(), 5).last(), Some(last));
    assert_eq!(after(1, 20, &plan).table()[ACCEPTED], 9);
    let lines = [
        "10 5 33046 1 5\n",
        "20 5 24216 1 5\n",
        "30 5 1080 3 5\n",
        "40 5 27680 6 5\n",
        "50 5 15405 2 5\n",
        "60 5 21422 4 5\n",
        "70 5 14151 6 5\n",
        "80 5 38200 7 5\n",
        "90 5 21898 2 5\n",
        "100 5 9654 3 5\n",
    ];
    assert_eq!(text(1, 109, &plan), lines.concat());
}

#[test]
fn refused_requests_leave_the_table_as_it_was() {
    // Depths 1 and 7 fit no cost: the ticks go on, and nothing else happens.
    for depth in [1, 7] {
        let plan = alone(100, depth);
        assert_eq!(text(1, 500, &plan), "");
        let load = after(1, 9, &plan);
        let mut disk = Disk::open(100, 40);
        disk.join(client(5, 0, WEIGHTED, 4, depth)).unwrap();
        (0..9).for_each(|_| assert!(disk.tick().is_empty()));
        assert_eq!(load.table(), disk.table);
        assert_eq!(disk.balance(0), 900);
    }
    // With a full queue too: eight of depth 8 wait at a rate of 1.
    let (before, behind) = (after(1, 9, &alone(1, 8)), after(1, 10, &alone(1, 8)));
    let mut expected = before.table().to_vec();
    expected[at(0, BALANCE)] += 1;
    expected[at(5, BALANCE)] += 1;
    assert_eq!(behind.table(), expected);
    assert_eq!(text(1, 500, &alone(1, 8)), "");
}

/// Class 9 has half of the disk's 12 tokens a tick, and its clients 3 and 60 have 3
/// each; client 12 under the root has 0.6.
fn borrowers() -> Vec<u8> {
    let nodes = [
        class(9, 0, FIXED, 5000, 60),
        client(12, 0, FIXED, 500, 24),
        client(3, 9, WEIGHTED, 1, 24),
        client(60, 9, WEIGHTED, 1, 24),
    ];
    plan(12_000, 200, &nodes)
}

/// Its lines from seed 1. The clients are 3, 12 and 60; costs and balances are in
/// tokens.
const BORROWED: [&str; 8] = [
    // 15496 = 3 × 5165 + 1: client 12; 24200 = 24 × 1008 + 8: size 9, cost 13. The
    // root has 12. Then 46195 = 3 × 15398 + 1: client 12; 3312 = 24 × 138: size 1,
    // cost 8. The root has 24 and keeps 3.
    "2 12 33046 9 0\n",
    "2 12 24216 1 0\n",
    // 50774 = 3 × 16924 + 2: client 60; 36450 = 24 × 1518 + 18: size 19, cost 23,
    // which nobody has. Then 41893 = 3 × 13964 + 1: client 12; 16413 = 24 × 683 + 21:
    // size 22, cost 26, refused. Class 9 has 24 and keeps 1, the root keeps 27 − 23.
    "4 60 1080 19 9\n",
    // 38711 = 3 × 12903 + 2: client 60; 54849 = 24 × 2285 + 9: size 10, cost 14. It
    // has 15 itself. Class 9 goes to 7 − 14, the root to 16 − 14.
    "5 60 15405 10 60\n",
    // 64280 = 3 × 21426 + 2: client 60; 56419 = 24 × 2350 + 19: size 20, cost 24.
    // It has 4, class 9 has −1, the root 14. Then 44735 = 3 × 14911 + 2: client 60;
    // 34829 = 24 × 1451 + 5: size 6, cost 8. The root has 26, enough for the first.
    "7 60 21422 20 0\n",
    // 6850 = 3 × 2283 + 1: client 12; 4623 = 24 × 192 + 15: size 16, cost 20, which
    // waits. Client 60 has 10, enough for its 8.
    "8 60 14151 6 60\n",
    // 8507 = 3 × 2835 + 2: client 60; 46350 = 24 × 1931 + 6: size 7, cost 8. It has
    // 5, class 9 has 9. The root's 18 are too few for client 12.
    "9 60 38200 7 9\n",
    // 24858 = 3 × 8286: client 3; 17232 = 24 × 718: size 1, cost 8. It was full, at
    // 24, and has 27.
    "10 3 49211 1 3\n",
];

#[test]
fn clients_classes_and_the_root_supply() {
    assert_eq!(text(1, 10, &borrowers()), BORROWED.concat());
    assert_eq!(text(1, 1, &borrowers()), "");
    assert_eq!(text(1, 3, &borrowers()), BORROWED[..2].concat());
}

#[test]
fn the_supplier_and_every_node_above_it_pay() {
    let nodes = [0, 9, 60, 3];
    for (ticks, expected) in [
        (1, [12, 6, 3, 3]),
        (2, [3, 12, 6, 6]),
        (4, [4, 1, 12, 12]),
        (5, [2, -7, 1, 15]),
        (7, [2, 5, 7, 21]),
        (8, [6, 3, 2, 24]),
        (9, [10, 1, 5, 24]),
        (10, [14, -1, 8, 19]),
    ] {
        assert_eq!(balances(&after(1, ticks, &borrowers()), nodes), expected, "{ticks}");
    }
}

#[test]
fn lines_of_a_tick_stand_as_they_were_dispatched() {
    // Client 3 has 1 grain a tick and client 60 has 7200 of 12,000. From seed 1: 3
    // asks for 9 (15496 is even), cost 13, which the root has not at tick 1. Then 60
    // asks for 1 (46195 is odd), cost 8, and has 14.4 in step 2. The root keeps
    // 24 − 8 = 16, of which 13 go to client 3 in step 4.
    let nodes = [client(3, 0, FIXED, 1, 24), client(60, 0, FIXED, 6000, 24)];
    let plan = plan(12_000, 200, &nodes);
    assert_eq!(text(1, 2, &plan), "2 60 24216 1 60\n2 3 33046 9 0\n");
    let load = after(1, 2, &plan);
    assert_eq!([0, 3, 60].map(|node| get(load.table(), node, BALANCE)), [3000, 2, 6400]);
}

#[test]
fn a_tree_without_clients() {
    let classes = [class(9, 0, FIXED, 5000, 30), class(3, 9, WEIGHTED, 1, 30)];
    for nodes in [&classes[..0], &classes[..]] {
        let plan = plan(1000, 40, nodes);
        for ticks in [0, 1, 2, 5000] {
            assert_eq!(text(1, ticks, &plan), "");
        }
        assert_eq!(Load::read(&input(1, 3, &plan)).unwrap().request(), None);
        // The ticks are made all the same.
        let load = after(1, 3, &plan);
        assert_eq!((load.table()[ACCEPTED], balances(&load, [0])), (0, [3]));
    }
}

#[test]
fn zero_ticks_print_nothing() {
    assert_eq!(text(1, 0, &alone(1000, 16)), "");
    assert_eq!(text(1, 0, &plan(1000, 40, &[])), "");
}

#[test]
fn refused_inputs() {
    let right = alone(1000, 16);
    // Below 8 bytes, and then no plan.
    for length in 0..8 {
        assert_eq!(text_of(&input(1, 5, &right)[..length]), "refused 14\n", "{length}");
    }
    assert_eq!(text(1, 5, &[]), "refused 14\n");
    assert_eq!(text(0, 0, &[]), "refused 14\n");
    // The plan's own numbers, also where there are no ticks.
    let swapped = [client(7, 0, WEIGHTED, 1, 8), client(5, 0, WEIGHTED, 1, 8)];
    for (number, plan) in [
        (14, right[..19].to_vec()),
        (14, [&right[..], &[0]].concat()),
        (14, [&right[..], &[0; 70_000]].concat()),
        (2, alone(0, 16)),
        (8, alone(1000, 41)),
        (3, plan(1000, 40, &[client(5, 9, WEIGHTED, 4, 16)])),
        (15, plan(1000, 40, &swapped)),
    ] {
        for ticks in [0, 1, 100, u32::MAX] {
            assert_eq!(text(1, ticks, &plan), format!("refused {number}\n"));
        }
    }
}

#[test]
fn the_head_has_its_low_bytes_first() {
    // Seed 1 and 13 ticks, the first with a line.
    let head = [1, 0, 0, 0, 13, 0, 0, 0];
    let right = alone(1000, 16);
    assert_eq!(text_of(&[&head[..], &right].concat()), "13 5 33046 9 5\n");
    // Seed 2^24 and 8 ticks. 1664525 = 256 × 6502 + 13, so the first state is
    // 13 × 2^24 + 1013904223 = 1232008031. The second is 4031785266, of which
    // 61520 = 16 × 3845 is drawn: size 1. The third, 1724708585, gives the tag.
    let head = [0, 0, 0, 1, 8, 0, 0, 0];
    assert_eq!(text_of(&[&head[..], &right].concat()), "8 5 26316 1 5\n");
    // 260 ticks: at depth 8 and a rate of 800 one goes at every tenth of them.
    let head = [1, 0, 0, 0, 4, 1, 0, 0];
    let text = text_of(&[&head[..], &alone(800, 8)].concat());
    let last = text.lines().last().unwrap();
    assert_eq!((text.lines().count(), &last[..6]), (26, "260 5 "));
}

/// Takes what is written piece by piece.
#[derive(Default)]
struct Pieces(Vec<Vec<u8>>);

impl Write for Pieces {
    fn write(&mut self, bytes: &[u8]) -> io::Result<usize> {
        self.0.push(bytes.to_vec());
        Ok(bytes.len())
    }

    fn flush(&mut self) -> io::Result<()> {
        Ok(())
    }
}

#[test]
fn pieces_end_with_whole_ticks() {
    let mut pieces = Pieces::default();
    let input = input(1, 20_000, &borrowers());
    load::write(&input, &mut pieces).unwrap();
    assert!(pieces.0.len() > 2);
    let tick = |line: &str| line.split(' ').next().unwrap().parse::<u32>().unwrap();
    let mut last = 0;
    for piece in &pieces.0 {
        assert!(piece.len() < 200_000 && piece.ends_with(b"\n"));
        let text = std::str::from_utf8(piece).unwrap();
        assert!(tick(text.lines().next().unwrap()) > last);
        last = tick(text.lines().last().unwrap());
    }
    let mut expected = Vec::new();
    let mut load = Load::read(&input).unwrap();
    (0..20_000).for_each(|_| load.tick(&mut expected));
    assert_eq!(pieces.0.concat(), expected);
}

/// The program, with its input written.
fn started(input: &[u8]) -> Child {
    let mut program = Command::new(env!("CARGO_BIN_EXE_load"))
        .stdin(Stdio::piped())
        .stdout(Stdio::piped())
        .spawn()
        .unwrap();
    program.stdin.take().unwrap().write_all(input).unwrap();
    program
}

#[test]
fn the_program_prints_the_dispatches() {
    let right = alone(1000, 16);
    for (input, text) in [
        (input(1, 21, &right), "13 5 33046 9 5\n21 5 24216 1 5\n"),
        (input(1, 0, &right), ""),
        (input(1, 9, &right[..19]), "refused 14\n"),
        (input(1, 9, &alone(0, 16)), "refused 2\n"),
        (input(1, 9, &[]), "refused 14\n"),
        (vec![0; 7], "refused 14\n"),
        (Vec::new(), "refused 14\n"),
    ] {
        let output = started(&input).wait_with_output().unwrap();
        assert!(output.status.success());
        assert_eq!(output.stdout, text.as_bytes());
    }
}

#[test]
fn a_stopped_program_has_printed_what_went_before() {
    let mut program = started(&input(1, u32::MAX, &borrowers()));
    let mut begin = vec![0; 100_000];
    program.stdout.take().unwrap().read_exact(&mut begin).unwrap();
    program.kill().unwrap();
    program.wait().unwrap();
    assert!(load::text(&input(1, 20_000, &borrowers())).starts_with(&begin));
}
