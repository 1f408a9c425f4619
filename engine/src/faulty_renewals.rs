//! The renewal of rates with a fault: which nodes get a rate, from what class, from
//! what sums, and what is written beside it.

use crate::arguments::family;
use crate::faulty::Renewal;
use crate::rates::Division;
use crate::table::*;

/// The calls that renew rates.
#[derive(Clone, Copy, Debug, PartialEq, Eq)]
pub(crate) enum Cause {
    Join,
    Leave,
    Share,
    Rate,
    Minute,
}

/// An accepted change of the tree.
pub(crate) struct Change<'a> {
    pub(crate) cause: Cause,
    /// The table before it.
    pub(crate) before: &'a [i64],
    /// The node that joined, left or changed its share; the root for its rate and for a
    /// minute.
    pub(crate) node: usize,
}

impl Change<'_> {
    /// The class that got, lost or changed a child; the root for its rate.
    fn class(&self, table: &[i64]) -> usize {
        let table = if self.cause == Cause::Leave { self.before } else { table };
        parent(table, self.node).unwrap_or(ROOT)
    }
}

/// Whether the misreading is one of such calls.
fn is_about(wrong: Renewal, cause: Cause) -> bool {
    match wrong {
        Renewal::RateChildrenOnly | Renewal::RateNothing => cause == Cause::Rate,
        Renewal::NewNodeOnly => cause == Cause::Join,
        Renewal::ChangedNodeOnly => cause == Cause::Share,
        Renewal::ClassFromZeroed => cause == Cause::Leave,
        _ => ![Cause::Rate, Cause::Minute].contains(&cause),
    }
}

/// Renews the rates of a table after a change in the wrong way. The table comes with
/// the right rates.
pub(crate) fn renew(wrong: Renewal, change: &Change, table: &mut [i64]) {
    if !is_about(wrong, change.cause) {
        return;
    }
    put_back(change, table);
    let class = change.class(table);
    if let Some(rate) = own_rate(wrong, table, class) {
        set(table, class, RATE, rate);
    }
    for node in renewed(wrong, change, table) {
        let rate = rate(wrong, change, table, node);
        let stays = rate == get(table, node, RATE);
        set(table, node, RATE, rate);
        match wrong {
            Renewal::StopsAtSame if stays => break,
            Renewal::EmptiesBuckets => set(table, node, BALANCE, 0),
            _ => {}
        }
    }
    if wrong == Renewal::OwnRateIsSum {
        let sum = children(table, class).map(|child| get(table, child, RATE)).sum();
        set(table, class, RATE, sum);
    }
}

/// Gives every node below the root that is there the rate from before the change.
fn put_back(change: &Change, table: &mut [i64]) {
    for node in (0..NODES).filter(|&node| node != ROOT) {
        if is_used(table, node) {
            set(table, node, RATE, get(change.before, node, RATE));
        }
    }
}

/// The class's own rate, where it is worked out before the others.
fn own_rate(wrong: Renewal, table: &[i64], class: usize) -> Option<i64> {
    let above = parent(table, class)?;
    let [fixed_sum, weight_sum] = match wrong {
        Renewal::OwnRateAsFixed => [0, 0],
        Renewal::OwnRateByOwnSums => [FIXED, WEIGHTED]
            .map(|kind| sum(table, kind, |node| parent(table, node) == Some(class))),
        _ => return None,
    };
    let kind = if wrong == Renewal::OwnRateAsFixed { FIXED } else { get(table, class, KIND) };
    let class_rate = i128::from(get(table, above, RATE));
    let stated_sum = sum(table, STATED, |node| parent(table, node) == Some(above));
    let division = Division { class_rate, stated_sum, fixed_sum, weight_sum };
    Some(division.child_rate(kind, get(table, class, SHARE)) as i64)
}

/// The nodes that get a rate, one after the other.
fn renewed(wrong: Renewal, change: &Change, table: &[i64]) -> Vec<usize> {
    let class = change.class(table);
    let level = get(table, class, LEVEL);
    let mut nodes = match wrong {
        Renewal::ClassFromZeroed => children(table, ROOT).collect(),
        Renewal::SameLevel | Renewal::NeighboursToo => classes(table)
            .filter(|&other| get(table, other, LEVEL) == level)
            .flat_map(|other| family(table, other).split_off(1))
            .collect(),
        _ => family(table, class).split_off(1),
    };
    if wrong == Renewal::ByNumber {
        nodes.sort_unstable();
    }
    nodes.retain(|&node| !keeps(wrong, change, table, node));
    nodes
}

/// Whether a node below the class keeps the rate that it had.
fn keeps(wrong: Renewal, change: &Change, table: &[i64], node: usize) -> bool {
    let class = change.class(table);
    let steps = get(table, node, LEVEL) - get(table, class, LEVEL);
    let kind = get(table, node, KIND);
    match wrong {
        Renewal::ChildrenOnly | Renewal::RateChildrenOnly => steps > 1,
        Renewal::TwoLevels => steps > 2,
        Renewal::ThreeLevels => steps > 3,
        Renewal::NotTheLowest => get(table, node, LEVEL) > MAX_CLASS_LEVEL,
        Renewal::LevelsFromRoot => {
            get(table, node, LEVEL) + get(table, class, LEVEL) > MAX_CLASS_LEVEL + 1
        }
        Renewal::RateNothing => true,
        Renewal::NewNodeOnly | Renewal::ChangedNodeOnly => node != change.node,
        Renewal::BelowNode => !is_below(table, node, change.node),
        Renewal::WithoutNode => node == change.node,
        Renewal::NotBelowNode => is_below(table, node, change.node),
        Renewal::NotBelowOthers => steps > 1 && !is_below(table, node, change.node),
        Renewal::FixedKept => kind == FIXED,
        Renewal::WeightsKept => {
            let is_other_weight = kind == WEIGHTED && node != change.node;
            steps == 1 && is_other_weight && touches_fixed(change, table)
        }
        Renewal::ClassesKept => is_class(table, node),
        _ => false,
    }
}

/// Whether a node stands below the other.
fn is_below(table: &[i64], node: usize, other: usize) -> bool {
    family(table, other).split_off(1).contains(&node)
}

/// Whether two nodes stand on one level.
fn are_level(table: &[i64], one: usize, other: usize) -> bool {
    get(table, one, LEVEL) == get(table, other, LEVEL)
}

/// Whether the changed node has or had a fixed share.
fn touches_fixed(change: &Change, table: &[i64]) -> bool {
    [change.before, table].iter().any(|table| share_of_kind(table, change.node, FIXED) > 0)
}

/// The rate that a node gets.
fn rate(wrong: Renewal, change: &Change, table: &[i64], node: usize) -> i64 {
    let class = parent(table, node).unwrap_or(ROOT);
    let changed = change.class(table);
    let from = match wrong {
        Renewal::FromDiskRate if class == changed => ROOT,
        Renewal::AllFromClass => changed,
        Renewal::SameLevel | Renewal::NeighboursToo if are_level(table, class, changed) => changed,
        _ => class,
    };
    let [fixed_sum, weight_sum, stated_sum] =
        KINDS.map(|kind| sum_for(wrong, change, table, node, kind));
    let class_rate = i128::from(get(table, from, RATE));
    let division = Division { class_rate, stated_sum, fixed_sum, weight_sum };
    let (kind, share) = (get(table, node, KIND), get(table, node, SHARE));
    let rate = match wrong {
        Renewal::Scaled if class != changed => scaled(change, table, node, class),
        Renewal::RoundsOnce if kind == WEIGHTED => {
            let whole = i128::from(MAX_SHARE);
            division.divided() * (whole - fixed_sum) * i128::from(share) / (whole * weight_sum)
        }
        Renewal::LessFixedRates if kind == WEIGHTED => {
            let left = division.divided() - fixed_rates(table, class, &division);
            left * i128::from(share) / weight_sum
        }
        _ => division.child_rate(kind, share),
    };
    rate as i64
}

/// What the fixed children of a class get together.
fn fixed_rates(table: &[i64], class: usize, division: &Division) -> i128 {
    let fixed = children(table, class).filter(|&child| get(table, child, KIND) == FIXED);
    fixed.map(|child| division.child_rate(FIXED, get(table, child, SHARE))).sum()
}

/// A node's rate from before, in proportion to its class's.
fn scaled(change: &Change, table: &[i64], node: usize, class: usize) -> i128 {
    let [old, old_of_class] = [node, class].map(|node| i128::from(get(change.before, node, RATE)));
    let rate = i128::from(get(table, class, RATE));
    (old * rate).checked_div(old_of_class).unwrap_or(0)
}

/// The sum of the shares of a kind that a node's rate is worked out with.
fn sum_for(wrong: Renewal, change: &Change, table: &[i64], node: usize, kind: i64) -> i128 {
    let class = parent(table, node).unwrap_or(ROOT);
    let changed = change.class(table);
    let is_child = |table: &[i64], other: usize| parent(table, other) == Some(class);
    match wrong {
        Renewal::OldSums if class == changed => {
            sum(change.before, kind, |other| is_child(change.before, other))
        }
        Renewal::SumsOfLevel => {
            let level = get(table, node, LEVEL);
            sum(table, kind, |other| get(table, other, LEVEL) == level)
        }
        Renewal::SumsOfAllBelow => sum(table, kind, |other| is_below(table, other, class)),
        Renewal::RootAmongChildren => {
            sum(table, kind, |other| is_child(table, other) || other == ROOT && class == ROOT)
        }
        Renewal::SameLevel if are_level(table, class, changed) => {
            sum(table, kind, |other| parent(table, other) == Some(changed))
        }
        _ => sum(table, kind, |other| is_child(table, other)),
    }
}

/// The sum of the shares of a kind over the nodes that count.
fn sum(table: &[i64], kind: i64, counts: impl Fn(usize) -> bool) -> i128 {
    let shares = used_nodes(table).filter(|&node| counts(node));
    shares.map(|node| i128::from(share_of_kind(table, node, kind))).sum()
}
