//! Opening hours for shares: document 02's request (h).
//!
//! A timetable has windows of four numbers each. A node has the share of the window
//! that covers the minute, and the plan's where none does. Its kind is that of the plan.

use crate::plan::Plan;
use crate::rates;
use crate::refusal::*;
use crate::table::*;

/// Minutes of the week, numbered from 0.
pub const WEEK: i64 = 10_080;
/// Numbers in one window.
pub const WINDOW_LEN: usize = 4;

/// A window of a timetable, any numbers.
#[derive(Clone, Copy, Debug, PartialEq, Eq)]
pub struct Window {
    /// The node.
    pub node: i64,
    /// The first minute that it covers.
    pub start: i64,
    /// The minute behind the last one that it covers.
    pub end: i64,
    /// What the node has for its share inside.
    pub share: i64,
}

impl Window {
    /// The whole windows of a list. What is behind the last of them is left out.
    pub fn whole_ones(list: &[i64]) -> Vec<Window> {
        list.chunks_exact(WINDOW_LEN)
            .map(|numbers| Window {
                node: numbers[0],
                start: numbers[1],
                end: numbers[2],
                share: numbers[3],
            })
            .collect()
    }

    /// As it stands in a list.
    pub fn numbers(&self) -> [i64; WINDOW_LEN] {
        [self.node, self.start, self.end, self.share]
    }

    /// From its start on, and before its end.
    pub fn covers(&self, minute: i64) -> bool {
        self.start <= minute && minute < self.end
    }

    /// Whether it lies in the week and is not empty.
    pub fn has_good_minutes(&self) -> bool {
        0 <= self.start && self.start < self.end && self.end <= WEEK
    }
}

/// Set minute. The table is in order, and nothing is written before the last cause is
/// judged: "2 for the minute, the plan's own, 17, 2 for a window's share, 7, 16".
pub(crate) fn set_minute(table: &mut [i64], plan: &[u8], list: &[i64], minute: i64) -> Answer<i64> {
    require((0..WEEK).contains(&minute), OUTSIDE_LIMITS)?;
    let planned = Plan::decode(plan)?.joined()?;
    let windows = by_node_and_start(Window::whole_ones(list));
    require(is_of_plan(table, &planned), TIMETABLE_WRONG)?;
    require(list.len() == WINDOW_LEN * windows.len(), TIMETABLE_WRONG)?;
    require(windows.iter().all(Window::has_good_minutes), TIMETABLE_WRONG)?;
    require(windows.iter().all(|window| has_node(&planned, window)), TIMETABLE_WRONG)?;
    require(!any_overlap(&windows), TIMETABLE_WRONG)?;
    require(windows.iter().all(|window| has_lawful_share(&planned, window)), OUTSIDE_LIMITS)?;
    let weekly: Vec<Shares> =
        changes(&windows).iter().map(|&minute| shares_at(&planned, &windows, minute)).collect();
    require(weekly.iter().all(|shares| fixed_shares_fit(&planned, shares)), SHARES_ABOVE)?;
    require(weekly.iter().all(|shares| stated_rates_fit(&planned, shares)), STATED_WRONG)?;
    let shares = shares_at(&planned, &windows, minute);
    for node in used_nodes(&planned).filter(|&node| node != ROOT) {
        set(table, node, KIND, get(&planned, node, KIND));
        set(table, node, SHARE, shares[node]);
    }
    rates::renew_below(table, ROOT);
    Ok(0)
}

/// Whether a table and the one that its plan makes have the same nodes, with their sorts,
/// parents and depths, and the same disk rate.
fn is_of_plan(table: &[i64], planned: &[i64]) -> bool {
    let are_equal =
        |node: usize, place: usize| get(table, node, place) == get(planned, node, place);
    are_equal(ROOT, RATE)
        && (0..NODES).all(|node| [SORT, PARENT, DEPTH].iter().all(|&place| are_equal(node, place)))
}

/// Whether a window is of a node that is there and is not the root.
fn has_node(planned: &[i64], window: &Window) -> bool {
    node_number(window.node).is_some_and(|node| node != ROOT && is_used(planned, node))
}

fn by_node_and_start(mut windows: Vec<Window>) -> Vec<Window> {
    windows.sort_by_key(|window| (window.node, window.start));
    windows
}

/// Whether two windows of one node overlap. They stand by node and start, and their minutes
/// are good, so one that overlaps a later one of its node overlaps the next one.
fn any_overlap(windows: &[Window]) -> bool {
    windows.windows(2).any(|pair| pair[0].node == pair[1].node && pair[1].start < pair[0].end)
}

/// Whether the share of a window is within the limits of its node's kind in the plan.
fn has_lawful_share(planned: &[i64], window: &Window) -> bool {
    share_is_lawful(get(planned, window.node as usize, KIND), window.share)
}

/// The minutes that stand for all of the week. The shares change only where a window begins
/// or ends, so at every other minute they are those of the last of these before it.
fn changes(windows: &[Window]) -> Vec<i64> {
    let mut minutes = vec![0];
    minutes.extend(windows.iter().flat_map(|window| [window.start, window.end]));
    minutes.retain(|&minute| minute < WEEK);
    minutes.sort_unstable();
    minutes.dedup();
    minutes
}

/// The shares of all node numbers at a minute.
type Shares = [i64; NODES];

/// The window's share where a window of the node covers the minute, else the plan's.
fn shares_at(planned: &[i64], windows: &[Window], minute: i64) -> Shares {
    std::array::from_fn(|node| match window_at(windows, node as i64, minute) {
        Some(window) => window.share,
        None => get(planned, node, SHARE),
    })
}

/// The window of a node that covers a minute, if there is one. They stand by node and start,
/// and none overlap, so it can only be the last one of the node that has begun.
fn window_at(windows: &[Window], node: i64, minute: i64) -> Option<&Window> {
    let begun = windows.partition_point(|window| (window.node, window.start) <= (node, minute));
    windows[..begun].last().filter(|window| window.node == node && window.covers(minute))
}

/// Whether the fixed shares under every class are at most 10,000.
fn fixed_shares_fit(planned: &[i64], shares: &Shares) -> bool {
    sums_of_kind(planned, shares, FIXED).iter().all(|&sum| sum <= i128::from(MAX_SHARE))
}

/// Whether the stated rates are at most the disk's. The plan has them under the root only.
fn stated_rates_fit(planned: &[i64], shares: &Shares) -> bool {
    sums_of_kind(planned, shares, STATED)[ROOT] <= i128::from(get(planned, ROOT, RATE))
}

/// For every class the shares of its children of a kind together.
fn sums_of_kind(planned: &[i64], shares: &Shares, kind: i64) -> [i128; NODES] {
    sums_over_children(planned, |node| match get(planned, node, KIND) == kind {
        true => shares[node],
        false => 0,
    })
}
