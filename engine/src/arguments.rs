//! Arguments that mostly make sense for a table in order, for random runs.

use crate::cost::{largest_size, RANGE_ENDS};
use crate::rng::Rng;
use crate::table::*;
use crate::tick::ENTRY_LEN;

/// Depths that the cost of a size at the end of a range just fits, or that are
/// one below it.
const TIGHT_DEPTHS: [i64; 10] = [7, 8, 11, 12, 67, 71, 72, 519, 527, 528];

/// A kind and a share for a child of the class. So many of a hundred are stated under
/// the root, and few elsewhere. The share of `except` does not count.
pub(crate) fn kind_and_share(
    rng: &mut Rng,
    table: &[i64],
    class: usize,
    except: Option<usize>,
    stated: usize,
) -> (i64, i64) {
    let percent = if class == ROOT { stated } else { stated / 10 };
    let kind = if rng.chance(percent) { STATED } else { rng.pick(&[FIXED, WEIGHTED]) };
    let others = children(table, class).filter(|&child| Some(child) != except);
    let taken: i64 = others.map(|child| share_of_kind(table, child, kind)).sum();
    let share = match kind {
        STATED => stated_rate(rng, get(table, class, RATE), taken),
        FIXED => share(rng, MAX_SHARE - taken),
        _ => share(rng, MAX_SHARE),
    };
    (kind, share)
}

/// A share: often a part of what is left for it, all of that, or one above.
fn share(rng: &mut Rng, left: i64) -> i64 {
    let some = rng.between(1, left / 2);
    let any = rng.between(1, MAX_SHARE);
    let small = rng.between(1, 10);
    let share = rng.pick(&[1, small, some, some, some, any, left, left + 1]);
    share.clamp(1, MAX_SHARE)
}

/// A stated rate under a class of that rate, of which so much is taken: mostly a small
/// part of what is left, at times all of it, one above, about 10,000, or any.
fn stated_rate(rng: &mut Rng, rate: i64, taken: i64) -> i64 {
    let left = rate - taken;
    let part = rng.between(1, left / 6);
    let share = if rng.chance(75) {
        part
    } else {
        let any = rng.between(1, MAX_RATE);
        rng.pick(&[1, left, left, left + 1, left + 1, rate, rate + 1, MAX_SHARE + 1, any])
    };
    share.clamp(1, MAX_RATE)
}

/// A rate for the disk: any of some, or one at or about the stated rates together.
pub(crate) fn disk_rate(rng: &mut Rng, table: &[i64]) -> i64 {
    let rate = get(table, ROOT, RATE);
    let stated = shares_under(table, ROOT, STATED) as i64;
    let about = rng.pick(&[stated - 1, stated, stated + 1, 3 * stated, 10 * stated]);
    let any = rng.pick(&[1, 80, 8000, rate / 3, rate * 2, MAX_RATE]);
    let rate = if stated > 0 && rng.chance(50) { about } else { any };
    rate.clamp(1, MAX_RATE)
}

/// What the children of a class leave of its depth.
pub(crate) fn depth_left(table: &[i64], class: usize) -> i64 {
    let taken: i64 = children(table, class).map(|child| get(table, child, DEPTH)).sum();
    get(table, class, DEPTH) - taken
}

/// A depth that mostly fits under the class and is at least 8, the least cost: at
/// most one of so many parts of what is left, where that is enough.
pub(crate) fn depth(rng: &mut Rng, table: &[i64], class: usize, parts: i64) -> i64 {
    let left = depth_left(table, class);
    let mut depth = rng.between(8, (left / parts).max(24)).min(left);
    if rng.chance(15) {
        depth = rng.pick(&TIGHT_DEPTHS).min(left);
    }
    if rng.chance(8) {
        depth = rng.pick(&[1, left / 2, left, left + 1]);
    }
    depth.clamp(1, MAX_DEPTH)
}

/// A port for a joining node: so many of a hundred clients are on port 1, and few nodes
/// of either sort ask for another.
pub(crate) fn port(rng: &mut Rng, sort: i64, on_second: usize) -> i64 {
    if rng.chance(2) {
        let any = rng.number();
        return rng.pick(&[1, 1, 1, 2, 2, -1, -1, 3, 256, 1 << 32, (1 << 32) + 1, any]);
    }
    i64::from(sort == CLIENT && rng.chance(on_second))
}

/// Lengths of the two lists of a tick, by how many requests wait on each port: mostly just
/// enough or a little more, or one long enough for all. At times one lacks up to an entry,
/// one has room for all and the other for none, or both are in each other's place.
pub(crate) fn list_lens(rng: &mut Rng, waiting: [usize; PORTS]) -> [usize; PORTS] {
    let needed = waiting.map(|count| ENTRY_LEN * count);
    let all: usize = needed.iter().sum();
    let enough = needed.map(|needed| {
        let more = rng.below(9);
        rng.pick(&[needed, needed, needed, needed + more, needed + more, all])
    });
    let one = rng.below(PORTS);
    let mut lens = enough;
    match rng.below(90) {
        0..=3 => lens[one] = needed[one].saturating_sub(1 + rng.below(ENTRY_LEN)),
        4 | 5 => lens = [needed[1], needed[0]],
        6 => {
            lens[one] = all + 4;
            lens[1 - one] = needed[1 - one].saturating_sub(rng.pick(&[1, ENTRY_LEN, all]));
        }
        7 => lens = needed.map(|needed| needed / 2),
        8 => lens = needed.map(|needed| needed.saturating_sub(1)),
        _ => {}
    }
    lens
}

/// A class, often one of the lowest.
pub(crate) fn class(rng: &mut Rng, table: &[i64]) -> usize {
    let mut all: Vec<usize> = classes(table).collect();
    if all.is_empty() {
        return ROOT;
    }
    if rng.chance(40) {
        all.sort_by_key(|&class| get(table, class, LEVEL));
        return all[all.len() - 1];
    }
    rng.pick(&all)
}

/// The class with the most children, the root where there is none.
pub(crate) fn largest_class(table: &[i64]) -> usize {
    classes(table).max_by_key(|&class| children(table, class).count()).unwrap_or(ROOT)
}

/// A number for a joining node, unused if there is one.
pub(crate) fn unused_node(rng: &mut Rng, table: &[i64]) -> i64 {
    let unused: Vec<usize> = (1..NODES).filter(|&node| !is_used(table, node)).collect();
    if unused.is_empty() {
        return rng.between(1, 63);
    }
    rng.pick(&unused) as i64
}

/// Mostly a node that is there, else any node number.
pub(crate) fn any_node(rng: &mut Rng, table: &[i64]) -> i64 {
    let used: Vec<usize> = used_nodes(table).collect();
    if used.is_empty() || rng.chance(15) {
        rng.between(0, 63)
    } else {
        rng.pick(&used) as i64
    }
}

/// A child of the root, if there is one.
pub(crate) fn child_of_root(rng: &mut Rng, table: &[i64]) -> Option<usize> {
    let all: Vec<usize> = children(table, ROOT).collect();
    (!all.is_empty()).then(|| rng.pick(&all))
}

/// Mostly a node that may leave.
pub(crate) fn leaving_node(rng: &mut Rng, table: &[i64]) -> i64 {
    let may_leave =
        |&node: &usize| waiting_count(table, node) == 0 && children(table, node).next().is_none();
    let free: Vec<usize> = used_nodes(table).filter(may_leave).collect();
    if free.is_empty() || rng.chance(20) {
        any_node(rng, table)
    } else {
        rng.pick(&free) as i64
    }
}

/// Mostly a client that can ask, its depth being one that some cost fits.
pub(crate) fn client(rng: &mut Rng, table: &[i64]) -> i64 {
    let can_ask = |&client: &usize| largest_size(get(table, client, DEPTH)).is_some();
    let all: Vec<usize> = clients(table).collect();
    let asking: Vec<usize> = all.iter().copied().filter(can_ask).collect();
    if all.is_empty() || rng.chance(3) {
        any_node(rng, table)
    } else if asking.is_empty() || rng.chance(3) {
        rng.pick(&all) as i64
    } else {
        rng.pick(&asking) as i64
    }
}

/// A size for a client of that depth: mostly small, often at the end of a range,
/// at times one whose cost is too large.
pub(crate) fn size(rng: &mut Rng, depth: i64) -> i64 {
    let largest = largest_size(depth).unwrap_or(0);
    if rng.chance(4) {
        return rng.pick(&[largest + 1, largest + 1, depth, depth + 1, i64::MAX - 15, i64::MAX]);
    }
    let small = rng.between(1, largest.min(8));
    let any = rng.between(1, largest);
    let end = rng.pick(&RANGE_ENDS).min(largest).max(1);
    rng.pick(&[1, small, small, any, end, end, largest.max(1)])
}

/// A class and all nodes below it, by level.
pub(crate) fn family(table: &[i64], class: usize) -> Vec<usize> {
    let mut nodes = vec![class];
    let mut next = 0;
    while next < nodes.len() {
        nodes.extend(children(table, nodes[next]));
        next += 1;
    }
    nodes
}

/// A class below the root that is in debt, with nothing waiting below it.
pub(crate) fn quiet_debtor(rng: &mut Rng, table: &[i64]) -> Option<usize> {
    let in_debt = |&class: &usize| class != ROOT && get(table, class, BALANCE) < 0;
    let is_quiet = |&class: &usize| {
        family(table, class).into_iter().all(|node| waiting_count(table, node) == 0)
    };
    let debtors: Vec<usize> = classes(table).filter(in_debt).filter(is_quiet).collect();
    (!debtors.is_empty()).then(|| rng.pick(&debtors))
}
