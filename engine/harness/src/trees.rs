//! Tables of a known shape, made by any controller.

use hds_engine::table::{
    at, get, waiting_count, ACCEPTED, CLASS, CLIENT, FIXED, LEVEL, MAX_CLASS_LEVEL, PARENT, PORT,
    QUEUE, QUEUE_STEP, STATED, TABLE_LEN, WEIGHTED,
};
use hds_engine::{Controller, Engine, NewNode};

/// A freshly opened table.
pub fn opened(rate: i64, depth: i64) -> Vec<i64> {
    let mut table = vec![0; TABLE_LEN];
    assert_eq!(Engine.open(&mut table, rate, depth), Ok(0));
    table
}

/// Joins a node on port 0, which must be accepted.
pub fn join(
    table: &mut [i64],
    node: i64,
    parent: i64,
    sort: i64,
    kind: i64,
    share: i64,
    depth: i64,
) {
    let new = NewNode { node, parent, sort, kind, share, depth, port: 0 };
    assert_eq!(Engine.join(table, &new), Ok(0), "{new:?}");
}

/// Three nodes: the root and clients 1 and 2, by weight.
pub fn small(rate: i64) -> Vec<i64> {
    let mut table = opened(rate, 1000);
    for node in [1, 2] {
        join(&mut table, node, 0, CLIENT, WEIGHTED, node, 400);
    }
    table
}

/// 63 nodes on all levels, 0 to 4: classes 1 to 3 below each other with 4 beside them, clients under each of them and
/// under the root, kinds mixed. Node 63 is left free.
pub fn large(rate: i64) -> Vec<i64> {
    let mut table = opened(rate, 1_000_000);
    join(&mut table, 1, 0, CLASS, FIXED, 5000, 500_000);
    join(&mut table, 2, 1, CLASS, WEIGHTED, 7, 200_000);
    join(&mut table, 3, 2, CLASS, FIXED, 4000, 100_000);
    join(&mut table, 4, 0, CLASS, WEIGHTED, 3, 200_000);
    for node in 5..63 {
        let kind = if node % 3 == 0 { FIXED } else { WEIGHTED };
        join(&mut table, node, node % 5, CLIENT, kind, 100 + node, 1000);
    }
    table
}

/// Nodes on all levels with children of both kinds, several classes on each of the levels 1 to 3, and numbers that do not
/// rise with the level. Weights beside fixed shares of 10,000 are under class 14 and under class 21. Nodes 61 to 63 are
/// free.
pub fn deep(rate: i64) -> Vec<i64> {
    let mut table = opened(rate, 1_000_000);
    for (node, parent, kind, share, depth) in [
        (60, 0, FIXED, 3000, 400_000),
        (2, 0, WEIGHTED, 3, 300_000),
        (10, 60, WEIGHTED, 5, 150_000),
        (11, 60, FIXED, 2500, 150_000),
        (14, 2, FIXED, 6000, 100_000),
        (5, 2, WEIGHTED, 1, 100_000),
        (20, 10, FIXED, 3333, 40_000),
        (21, 10, WEIGHTED, 10_000, 40_000),
        (50, 11, WEIGHTED, 2, 40_000),
        (25, 14, FIXED, 10_000, 40_000),
    ] {
        join(&mut table, node, parent, CLASS, kind, share, depth);
    }
    for (node, parent, kind, share) in [
        (3, 0, FIXED, 1500),
        (4, 0, WEIGHTED, 2),
        (12, 60, WEIGHTED, 7),
        (13, 60, FIXED, 333),
        (15, 2, WEIGHTED, 1),
        (16, 2, WEIGHTED, 1),
        (22, 10, WEIGHTED, 1),
        (23, 11, FIXED, 7777),
        (24, 11, WEIGHTED, 3),
        (26, 14, WEIGHTED, 1),
        (27, 5, FIXED, 1),
        (30, 20, FIXED, 5000),
        (31, 20, WEIGHTED, 1),
        (32, 20, WEIGHTED, 2),
        (33, 21, FIXED, 3333),
        (34, 21, FIXED, 3333),
        (35, 21, FIXED, 3334),
        (36, 21, WEIGHTED, 9),
        (6, 50, WEIGHTED, 1),
        (7, 50, WEIGHTED, 1),
        (8, 50, WEIGHTED, 1),
        (37, 25, FIXED, 1),
        (38, 25, WEIGHTED, 10_000),
        (39, 25, WEIGHTED, 1),
    ] {
        join(&mut table, node, parent, CLIENT, kind, share, 100);
    }
    table
}

/// So many clients, each of weight 10,000, under the root where they are 63, else under class 63, which has all of the
/// root's rate.
pub fn heavy(rate: i64, clients: i64) -> Vec<i64> {
    let mut table = opened(rate, 1_000_000);
    let parent = if clients == 63 { 0 } else { 63 };
    if parent == 63 {
        join(&mut table, 63, 0, CLASS, FIXED, 10_000, 1_000_000);
    }
    for node in 1..=clients {
        join(&mut table, node, parent, CLIENT, WEIGHTED, 10_000, 100);
    }
    table
}

/// Fixed shares of 10,000 in all, on every level beside weights, which get nothing.
pub fn whole(rate: i64) -> Vec<i64> {
    let mut table = opened(rate, 1_000_000);
    for (node, parent, sort, kind, share, depth) in [
        (1, 0, CLIENT, FIXED, 3333, 100),
        (2, 0, CLASS, FIXED, 3333, 100_000),
        (3, 0, CLIENT, FIXED, 3334, 100),
        (4, 0, CLIENT, WEIGHTED, 1, 100),
        (5, 0, CLASS, WEIGHTED, 9, 1000),
        (6, 2, CLASS, FIXED, 10_000, 10_000),
        (7, 2, CLIENT, WEIGHTED, 10_000, 100),
        (8, 6, CLIENT, FIXED, 9999, 100),
        (9, 6, CLIENT, FIXED, 1, 100),
        (10, 6, CLASS, WEIGHTED, 5, 1000),
        (11, 5, CLIENT, FIXED, 5000, 100),
        (12, 5, CLIENT, WEIGHTED, 1, 100),
        (13, 10, CLIENT, FIXED, 10_000, 100),
        (14, 10, CLIENT, WEIGHTED, 1, 100),
    ] {
        join(&mut table, node, parent, sort, kind, share, depth);
    }
    table
}

/// A stated class and two stated clients beside children of both other kinds under the root, and children of both kinds on
/// all levels below the class. About a third of the disk's rate, which is 7 or more, is stated. Nodes 61 to 63 are free.
pub fn desks(rate: i64) -> Vec<i64> {
    let mut table = opened(rate, 1_000_000);
    for (node, parent, sort, kind, share, depth) in [
        (60, 0, CLASS, STATED, (rate / 5).max(1), 400_000),
        (2, 0, CLASS, FIXED, 3000, 200_000),
        (3, 0, CLIENT, STATED, (rate / 10).max(1), 100),
        (4, 0, CLIENT, STATED, 1, 100),
        (5, 0, CLIENT, WEIGHTED, 2, 100),
        (6, 0, CLIENT, FIXED, 1234, 100),
        (7, 0, CLASS, WEIGHTED, 5, 100_000),
        (10, 60, CLASS, FIXED, 5000, 100_000),
        (11, 60, CLASS, WEIGHTED, 3, 100_000),
        (12, 60, CLIENT, WEIGHTED, 1, 100),
        (20, 10, CLASS, WEIGHTED, 1, 10_000),
        (21, 10, CLIENT, FIXED, 3333, 100),
        (30, 20, CLIENT, FIXED, 5000, 100),
        (31, 20, CLIENT, WEIGHTED, 1, 100),
        (22, 11, CLIENT, WEIGHTED, 1, 100),
        (23, 2, CLIENT, WEIGHTED, 1, 100),
        (24, 2, CLIENT, FIXED, 2500, 100),
        (25, 7, CLIENT, WEIGHTED, 7, 100),
    ] {
        join(&mut table, node, parent, sort, kind, share, depth);
    }
    table
}

/// Stated rates of just the disk's, which is 3 or more, in a class with children and in a client, beside both other kinds,
/// which get nothing.
pub fn all_stated(rate: i64) -> Vec<i64> {
    let mut table = opened(rate, 1_000_000);
    for (node, parent, sort, kind, share, depth) in [
        (1, 0, CLASS, STATED, rate / 3, 100_000),
        (2, 0, CLIENT, STATED, rate - rate / 3, 100),
        (3, 0, CLIENT, FIXED, 10_000, 100),
        (4, 0, CLASS, WEIGHTED, 1, 1000),
        (5, 1, CLIENT, FIXED, 2500, 100),
        (6, 1, CLIENT, WEIGHTED, 1, 100),
        (7, 4, CLIENT, WEIGHTED, 1, 100),
    ] {
        join(&mut table, node, parent, sort, kind, share, depth);
    }
    table
}

/// The table with each client on the port that the function gives its number.
pub fn with_ports(table: &[i64], port: impl Fn(i64) -> i64) -> Vec<i64> {
    let mut table = table.to_vec();
    for client in clients(&table) {
        table[at(client as usize, PORT)] = port(client);
    }
    table
}

/// The clients of a table, in rising number.
pub fn clients(table: &[i64]) -> Vec<i64> {
    hds_engine::table::clients(table).map(|node| node as i64).collect()
}

/// Lets requests of that size wait, in turn at each client, `each` for every one of them, at most `most` in all.
pub fn fill(table: &mut [i64], each: usize, most: usize, size: i64) {
    let clients = clients(table);
    let turns = (0..each).flat_map(|_| clients.iter());
    for (tag, &client) in turns.take(most).enumerate() {
        assert!(Engine.request(table, client, tag as i64, size).is_ok());
    }
}

/// Gives each waiting request a new arrival number for its old one, and the header a new count. The new numbers must rise
/// with the old.
pub fn renumber(table: &mut [i64], number: fn(i64) -> i64) {
    for client in clients(table) {
        for index in 0..waiting_count(table, client as usize) {
            let place = at(client as usize, QUEUE + QUEUE_STEP * index + 2);
            table[place] = number(table[place]);
        }
    }
    table[ACCEPTED] = number(table[ACCEPTED]);
}

/// The class of the highest number, the root where it is the only one.
pub fn last_class(table: &[i64]) -> i64 {
    hds_engine::table::classes(table).last().unwrap_or(0) as i64
}

/// The client of the highest number under a class.
pub fn last_client_of(table: &[i64], class: i64) -> i64 {
    let of_class = |node: &i64| get(table, *node as usize, PARENT) == class;
    clients(table).into_iter().rfind(of_class).expect("a client under the class")
}

/// A class on the lowest level that classes have, if the table has one.
pub fn lowest_class(table: &[i64]) -> Option<i64> {
    let lowest = |class: &usize| get(table, *class, LEVEL) == MAX_CLASS_LEVEL;
    hds_engine::table::classes(table).find(lowest).map(|class| class as i64)
}

/// The client of the highest number.
pub fn last_client(table: &[i64]) -> i64 {
    hds_engine::table::clients(table).last().unwrap_or(0) as i64
}
