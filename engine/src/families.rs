//! Arguments for random runs in which classes supply their clients: trees on all
//! levels, clients of which half get next to no rate, and costs that a class has
//! enough for once or a few times.

use crate::arguments;
use crate::controller::NewNode;
use crate::cost::largest_size;
use crate::rng::Rng;
use crate::table::*;

/// The root's depth.
pub(crate) const ROOT_DEPTH: i64 = 4000;

/// A disk rate: the root's depth is some ticks of it.
pub(crate) fn rate(rng: &mut Rng) -> i64 {
    in_grains(ROOT_DEPTH) / rng.pick(&[400, 200, 100, 50, 25])
}

/// A class or a client that mostly fits into the tree, on port 0. Under the root so many of
/// a hundred are stated.
pub(crate) fn new_node(rng: &mut Rng, table: &[i64], stated: usize) -> NewNode {
    let parent = arguments::class(rng, table);
    let level = get(table, parent, LEVEL);
    let is_class = level < MAX_CLASS_LEVEL && rng.chance(40);
    let (sort, most) = if is_class { (CLASS, 1200 >> (2 * level)) } else { (CLIENT, 30) };
    let (kind, share) = if parent == ROOT && rng.chance(stated) {
        (STATED, rng.between(1, get(table, ROOT, RATE) / 8))
    } else if is_class || rng.chance(50) {
        (WEIGHTED, rng.between(1, 5))
    } else {
        (FIXED, rng.between(1, 5))
    };
    NewNode {
        node: arguments::unused_node(rng, table),
        parent: parent as i64,
        sort,
        kind,
        share,
        depth: rng.between(most / 3, most),
        port: 0,
    }
}

/// A few clients, most of them of one class.
pub(crate) fn crowd(rng: &mut Rng, table: &[i64]) -> Vec<usize> {
    let all: Vec<usize> = clients(table).collect();
    if all.is_empty() {
        return all;
    }
    let class = parent(table, rng.pick(&all));
    let family: Vec<usize> =
        all.iter().copied().filter(|&client| parent(table, client) == class).collect();
    let of_family: Vec<usize> = (0..rng.below(6)).map(|_| rng.pick(&family)).collect();
    let of_all: Vec<usize> = (0..1 + rng.below(6)).map(|_| rng.pick(&all)).collect();
    [of_family, of_all].concat()
}

/// A size for a client: mostly small behind another request, and any before.
pub(crate) fn size(rng: &mut Rng, table: &[i64], client: usize) -> i64 {
    let largest = largest_size(get(table, client, DEPTH)).unwrap_or(1);
    let any = rng.between(1, largest);
    match waiting_count(table, client) {
        0 => rng.pick(&[1, any, largest]),
        _ => rng.pick(&[1, 1, any]),
    }
}
