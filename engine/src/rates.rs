//! Rates: how a class's rate is divided among its children, which rates a change of
//! the tree renews, and what no child gets.

use crate::table::*;

/// What a class has to divide, and among how much.
///
/// In a table in order all of these are small. On other contents nothing
/// panics, and the rate that comes out means nothing.
#[derive(Clone, Copy, Debug)]
pub struct Division {
    /// The class's own rate.
    pub class_rate: i128,
    /// Sum of the stated rates of its children. Only the root has such children.
    pub stated_sum: i128,
    /// Sum of the fixed shares of its children.
    pub fixed_sum: i128,
    /// Sum of the weights of its children.
    pub weight_sum: i128,
}

impl Division {
    /// What a class has by its stored rate and its children's shares.
    pub(crate) fn of(table: &[i64], class: usize) -> Division {
        Division {
            class_rate: i128::from(get(table, class, RATE)),
            stated_sum: shares_under(table, class, STATED),
            fixed_sum: shares_under(table, class, FIXED),
            weight_sum: shares_under(table, class, WEIGHTED),
        }
    }

    /// The rate of a child with that kind and share.
    pub fn child_rate(&self, kind: i64, share: i64) -> i128 {
        let (share, whole) = (i128::from(share), i128::from(MAX_SHARE));
        match kind {
            STATED => share,
            FIXED => part(self.divided(), share, whole),
            _ => {
                let left = part(self.divided(), whole - self.fixed_sum, whole);
                part(left, share, self.weight_sum)
            }
        }
    }

    /// What fixed shares and weights divide: "the disk's rate less all stated rates",
    /// and the whole rate of any other class.
    pub fn divided(&self) -> i128 {
        self.class_rate - self.stated_sum
    }
}

/// `rate` × `share` / `whole`, rounded down.
fn part(rate: i128, share: i128, whole: i128) -> i128 {
    rate.saturating_mul(share).checked_div(whole).unwrap_or(0)
}

/// The share sums of every class, from which divisions are made.
struct Sums {
    stated: [i128; NODES],
    fixed: [i128; NODES],
    weights: [i128; NODES],
}

impl Sums {
    fn of(table: &[i64]) -> Sums {
        let sums = |kind| sums_over_children(table, |node| share_of_kind(table, node, kind));
        Sums { stated: sums(STATED), fixed: sums(FIXED), weights: sums(WEIGHTED) }
    }

    /// The rate of a node that the stored rate of its parent gives it.
    fn rate(&self, table: &[i64], node: usize, parent: usize) -> i128 {
        let division = Division {
            class_rate: i128::from(get(table, parent, RATE)),
            stated_sum: self.stated[parent],
            fixed_sum: self.fixed[parent],
            weight_sum: self.weights[parent],
        };
        division.child_rate(get(table, node, KIND), get(table, node, SHARE))
    }
}

/// Renews the rates below a class: of its children, of their children, and so on.
///
/// The table is in order save for its rates, each of which may be right or wrong,
/// and the class's own rate is 0 to 1,000,000,000, the root's no less than the stated
/// rates together. From the class's own the others
/// follow by the section on rates; the class's own stays, as does all else in the
/// table.
pub fn renew_below(table: &mut [i64], class: usize) {
    let sums = Sums::of(table);
    // The class and those below it that have their rates.
    let mut is_done = [false; NODES];
    is_done[class] = true;
    let own_level = get(table, class, LEVEL).clamp(0, MAX_CLASS_LEVEL);
    for level in own_level + 1..=MAX_CLASS_LEVEL + 1 {
        for node in 0..NODES {
            if !stands_on(table, node, level) {
                continue;
            }
            if let Some(parent) = parent(table, node).filter(|&parent| is_done[parent]) {
                let rate = sums.rate(table, node, parent);
                set(table, node, RATE, rate as i64);
                is_done[node] = true;
            }
        }
    }
}

/// Renews every rate below the root, whatever the class that changed. No call needs
/// it: it is the measure for [`renew_below`], and serves to write tables from
/// outside. On any contents it ends.
pub fn renew_all(table: &mut [i64]) {
    let sums = Sums::of(table);
    for level in 1..=MAX_CLASS_LEVEL + 1 {
        for node in 0..NODES {
            if !stands_on(table, node, level) {
                continue;
            }
            if let Some(parent) = parent(table, node) {
                let rate = sums.rate(table, node, parent);
                set(table, node, RATE, rate as i64);
            }
        }
    }
}

/// Whether a node is there and stands on that level.
fn stands_on(table: &[i64], node: usize, level: i64) -> bool {
    is_used(table, node) && get(table, node, LEVEL) == level
}

/// Whether every rate below the root is the one that its parent's rate gives.
/// Nodes without a parent in 0 to 63 are left to the clause on parents.
pub(crate) fn are_obeyed(table: &[i64]) -> bool {
    let sums = Sums::of(table);
    used_nodes(table).all(|node| match parent(table, node) {
        Some(parent) => i128::from(get(table, node, RATE)) == sums.rate(table, node, parent),
        None => true,
    })
}

/// "The grains nobody gets": of a class, "its rate less the sum of its
/// children's rates, exactly. For a client it is 0."
pub(crate) fn lost_grains(table: &[i64], node: usize) -> i64 {
    if is_client(table, node) {
        return 0;
    }
    let given: i64 = children(table, node).map(|child| get(table, child, RATE)).sum();
    get(table, node, RATE) - given
}
