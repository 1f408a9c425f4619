//! The calls on the tree and on requests, save for tick.
//!
//! The functions here are the bodies of the calls: refusal 1 was judged
//! before, by [`crate::Engine`]. Each judges its refusals in rising order and
//! writes nothing before the last of them. A join, a leave and a change of share
//! renew what stands below the node's class; all other rates stay.

use crate::controller::{NewNode, Seen};
use crate::cost::cost;
use crate::rates;
use crate::refusal::*;
use crate::table::*;

/// Open: zeroes the table and makes the root. Any contents will do.
pub(crate) fn open(table: &mut [i64], rate: i64, depth: i64) -> Answer<i64> {
    require((1..=MAX_RATE).contains(&rate), OUTSIDE_LIMITS)?;
    require((1..=MAX_DEPTH).contains(&depth), OUTSIDE_LIMITS)?;
    table.fill(0);
    set(table, ROOT, SORT, CLASS);
    set(table, ROOT, KIND, FIXED);
    set(table, ROOT, SHARE, MAX_SHARE);
    set(table, ROOT, DEPTH, depth);
    set(table, ROOT, RATE, rate);
    Ok(0)
}

/// Join: a new node, with balance 0.
pub(crate) fn join(table: &mut [i64], new: &NewNode) -> Answer<i64> {
    let (node, parent) = joining_numbers(new)?;
    require(is_used(table, parent), NOT_THERE)?;
    require(!is_used(table, node), IN_USE)?;
    require(is_class(table, parent), WRONG_NODE)?;
    let level = get(table, parent, LEVEL) + 1;
    require(new.sort == CLIENT || level <= MAX_CLASS_LEVEL, LEVEL_TOO_LOW)?;
    require(fixed_shares_fit(table, parent, node, new.kind, new.share), SHARES_ABOVE)?;
    require(depth_fits(table, parent, new.depth), DEPTH_ABOVE)?;
    require(stated_fits(table, parent, node, new.kind, new.share), STATED_WRONG)?;
    set(table, node, SORT, new.sort);
    set(table, node, PARENT, parent as i64);
    set(table, node, LEVEL, level);
    set(table, node, KIND, new.kind);
    set(table, node, SHARE, new.share);
    set(table, node, DEPTH, new.depth);
    set(table, node, PORT, new.port);
    rates::renew_below(table, parent);
    Ok(0)
}

/// Judges cause 2 of a join; gives the node's and the parent's number.
fn joining_numbers(new: &NewNode) -> Answer<(usize, usize)> {
    let node = existing_number(new.node)?;
    let parent = existing_number(new.parent)?;
    require(node != ROOT, OUTSIDE_LIMITS)?;
    require([CLASS, CLIENT].contains(&new.sort), OUTSIDE_LIMITS)?;
    share_within_limits(new.kind, new.share)?;
    require((1..=MAX_DEPTH).contains(&new.depth), OUTSIDE_LIMITS)?;
    require(port_is_lawful(new.sort, new.port), OUTSIDE_LIMITS)?;
    Ok((node, parent))
}

/// Leave: removes a node and zeroes its record.
pub(crate) fn leave(table: &mut [i64], node: i64) -> Answer<i64> {
    let node = existing_number(node)?;
    require(is_used(table, node), NOT_THERE)?;
    let parent = parent(table, node).ok_or(WRONG_NODE)?;
    let childless = children(table, node).next().is_none();
    require(childless && waiting_count(table, node) == 0, NOT_EMPTY)?;
    let in_debt = is_class(table, node) && get(table, node, BALANCE) < 0;
    require(!in_debt, IN_DEBT)?;
    table[at(node, 0)..at(node + 1, 0)].fill(0);
    rates::renew_below(table, parent);
    Ok(0)
}

/// Change share: gives a node a kind and a share.
pub(crate) fn change_share(table: &mut [i64], node: i64, kind: i64, share: i64) -> Answer<i64> {
    let node = existing_number(node)?;
    share_within_limits(kind, share)?;
    require(is_used(table, node), NOT_THERE)?;
    let parent = parent(table, node).ok_or(WRONG_NODE)?;
    require(fixed_shares_fit(table, parent, node, kind, share), SHARES_ABOVE)?;
    require(stated_fits(table, parent, node, kind, share), STATED_WRONG)?;
    set(table, node, KIND, kind);
    set(table, node, SHARE, share);
    rates::renew_below(table, parent);
    Ok(0)
}

/// Change rate: gives the disk another rate, and renews all others.
pub(crate) fn change_rate(table: &mut [i64], rate: i64) -> Answer<i64> {
    require((1..=MAX_RATE).contains(&rate), OUTSIDE_LIMITS)?;
    require(shares_under(table, ROOT, STATED) <= i128::from(rate), STATED_WRONG)?;
    set(table, ROOT, RATE, rate);
    rates::renew_below(table, ROOT);
    Ok(0)
}

/// Request: returns its arrival number.
pub(crate) fn request(table: &mut [i64], client: i64, tag: i64, size: i64) -> Answer<i64> {
    let client = existing_number(client)?;
    require(size >= 1, OUTSIDE_LIMITS)?;
    require(is_used(table, client), NOT_THERE)?;
    require(is_client(table, client), WRONG_NODE)?;
    require(cost(size) <= get(table, client, DEPTH), DEPTH_ABOVE)?;
    require(waiting_count(table, client) < QUEUE_LEN, QUEUE_FULL)?;
    require(table[ACCEPTED] < MAX_ACCEPTED, COUNT_AT_END)?;
    table[ACCEPTED] += 1;
    let arrival = table[ACCEPTED];
    append_waiting(table, client, Waiting { tag, size, arrival });
    Ok(arrival)
}

/// Look.
pub(crate) fn look(table: &[i64], node: i64) -> Answer<Seen> {
    let node = existing_number(node)?;
    require(is_used(table, node), NOT_THERE)?;
    let [rate, balance, waiting] = [RATE, BALANCE, WAITING].map(|place| get(table, node, place));
    Ok([rate, balance, waiting, rates::lost_grains(table, node)])
}

/// Same: both tables have the same nodes with equal sorts and places 1 to 5,
/// and equal disk rates. Ports do not count.
pub(crate) fn same(first: &[i64], second: &[i64]) -> bool {
    let equal_rates = get(first, ROOT, RATE) == get(second, ROOT, RATE);
    equal_rates
        && (0..NODES)
            .all(|node| record(first, node)[SORT..=DEPTH] == record(second, node)[SORT..=DEPTH])
}

/// A node number from 0 to 63, else cause 2.
fn existing_number(number: i64) -> Answer<usize> {
    node_number(number).ok_or(OUTSIDE_LIMITS)
}

fn share_within_limits(kind: i64, share: i64) -> Answer<()> {
    require(share_is_lawful(kind, share), OUTSIDE_LIMITS)
}

/// Whether the fixed shares under `class` stay within 10,000 once `node` has
/// this kind and share, whatever it had before.
fn fixed_shares_fit(table: &[i64], class: usize, node: usize, kind: i64, share: i64) -> bool {
    let others: i64 = children(table, class)
        .filter(|&child| child != node)
        .map(|child| share_of_kind(table, child, FIXED))
        .sum();
    let own = if kind == FIXED { share } else { 0 };
    others + own <= MAX_SHARE
}

/// Whether stated nodes stand under the root only, and their rates are at most the
/// disk's, once `node` under `class` has this kind and share, whatever it had before.
/// In a table in order no other node stands in the way.
fn stated_fits(table: &[i64], class: usize, node: usize, kind: i64, share: i64) -> bool {
    if kind != STATED {
        return true;
    }
    let others: i64 = children(table, ROOT)
        .filter(|&child| child != node)
        .map(|child| share_of_kind(table, child, STATED))
        .sum();
    class == ROOT && others + share <= get(table, ROOT, RATE)
}

/// Whether a child of that depth fits under the class beside the others.
fn depth_fits(table: &[i64], class: usize, depth: i64) -> bool {
    let others: i64 = children(table, class).map(|child| get(table, child, DEPTH)).sum();
    others + depth <= get(table, class, DEPTH)
}

/// The bodies of the calls on tables whose rates are wrong, which no call takes: what
/// stands above and beside the class stays wrong.
#[cfg(test)]
mod tests {
    use super::*;

    /// Classes 1 (fixed 5000) and 2 (weight 1) under the root, clients 3 and 4 under
    /// them, by weight. The rates are wrong: class 1 has 100.
    fn wrong() -> [i64; TABLE_LEN] {
        let mut table = [0; TABLE_LEN];
        open(&mut table, 1000, 100).unwrap();
        for (node, parent, sort, kind, share, depth) in [
            (1, 0, CLASS, FIXED, 5000, 50),
            (2, 0, CLASS, WEIGHTED, 1, 50),
            (3, 1, CLIENT, WEIGHTED, 1, 40),
            (4, 2, CLIENT, WEIGHTED, 1, 40),
        ] {
            let new = NewNode { node, parent, sort, kind, share, depth, port: 0 };
            join(&mut table, &new).unwrap();
        }
        for (node, rate) in [(0, -7), (1, 100), (2, i64::MAX), (3, -1), (4, i64::MIN)] {
            set(&mut table, node, RATE, rate);
        }
        table
    }

    /// The rates of nodes 0 to 5.
    fn rates(table: &[i64]) -> [i64; 6] {
        [0, 1, 2, 3, 4, 5].map(|node| get(table, node, RATE))
    }

    #[test]
    fn only_what_stands_below_the_class_is_renewed() {
        let mut table = wrong();
        let (node, parent, sort, kind) = (5, 1, CLIENT, WEIGHTED);
        let new = NewNode { node, parent, sort, kind, share: 1, depth: 1, port: 1 };
        // Halves of 100, then all of it, then a quarter.
        assert_eq!(join(&mut table, &new), Ok(0));
        assert_eq!(rates(&table), [-7, 100, i64::MAX, 50, i64::MIN, 50]);
        assert_eq!(leave(&mut table, 5), Ok(0));
        assert_eq!(rates(&table), [-7, 100, i64::MAX, 100, i64::MIN, 0]);
        assert_eq!(change_share(&mut table, 3, FIXED, 2500), Ok(0));
        assert_eq!(rates(&table), [-7, 100, i64::MAX, 25, i64::MIN, 0]);
    }

    #[test]
    fn a_change_of_rate_renews_all() {
        // Halves of 600, and all of them.
        let mut table = wrong();
        assert_eq!(change_rate(&mut table, 600), Ok(0));
        assert_eq!(rates(&table), [600, 300, 300, 300, 300, 0]);
    }
}
