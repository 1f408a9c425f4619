//! Stated rates misread: when a kind and a share are refused, what a stated node and
//! those beside it get, and which tables are in order.

use crate::arguments::family;
use crate::calls;
use crate::controller::NewNode;
use crate::faulty::Stated;
use crate::faulty_renewals::{Cause, Change};
use crate::order::{self, *};
use crate::rates::{self, Division};
use crate::refusal::*;
use crate::table::*;

/// The kind behind the last known one.
const KIND_THREE: i64 = STATED + 1;

/// A kind and a share that a node is to have.
struct Wish<'a> {
    cause: Cause,
    /// The table before the call.
    table: &'a [i64],
    /// The class that the node is to stand or stands under, if there is one.
    class: Option<usize>,
    /// The node itself, if its number is one.
    node: Option<usize>,
    kind: i64,
    share: i64,
}

impl Wish<'_> {
    fn is_stated(&self) -> bool {
        self.kind == STATED
    }

    fn is_under_root(&self) -> bool {
        self.class == Some(ROOT)
    }

    /// The shares of a kind under a class, without the node's own.
    fn others(&self, class: usize, kind: i64) -> i128 {
        let own = self.node.filter(|&node| parent(self.table, node) == Some(class));
        let own = own.filter(|&node| is_used(self.table, node));
        let own = own.map_or(0, |node| i128::from(share_of_kind(self.table, node, kind)));
        shares_under(self.table, class, kind) - own
    }

    /// The stated rates as they would be, if the node stood under the root.
    fn stated_after(&self) -> i128 {
        self.others(ROOT, STATED) + i128::from(self.share)
    }

    fn disk_rate(&self) -> i128 {
        i128::from(get(self.table, ROOT, RATE))
    }

    /// Whether 16 holds, whatever else does. A class that is not there is no root.
    fn is_sixteen(&self) -> bool {
        self.is_stated() && (!self.is_under_root() || self.stated_after() > self.disk_rate())
    }

    /// Whether the stated rates of its class would be no more than that class's own.
    fn fits_its_class(&self) -> bool {
        self.class.is_some_and(|class| {
            let rate = i128::from(get(self.table, class, RATE));
            self.others(class, STATED) + i128::from(self.share) <= rate
        })
    }

    /// Whether fixed shares and stated rates together would be above 10,000.
    fn is_above_as_fixed(&self) -> bool {
        let counts = [FIXED, STATED].contains(&self.kind);
        let others = self.class.map_or(0, |class| {
            self.others(class, FIXED) + self.others(class, STATED) + i128::from(self.share)
        });
        counts && others > i128::from(MAX_SHARE)
    }

    /// What the fixed shares under the root have of the disk's whole rate.
    fn fixed_of_disk(&self) -> i128 {
        self.disk_rate() * shares_under(self.table, ROOT, FIXED) / i128::from(MAX_SHARE)
    }
}

/// A join with that misreading. The rates come out right, by the section on rates.
pub(crate) fn join(wrong: Stated, table: &mut [i64], new: &NewNode) -> Answer<i64> {
    let before = table.to_vec();
    let again =
        |kind: i64, share: i64| calls::join(&mut before.to_vec(), &NewNode { kind, share, ..*new });
    let wish = Wish {
        cause: Cause::Join,
        table: &before,
        class: node_number(new.parent).filter(|&class| is_class(&before, class)),
        node: node_number(new.node),
        kind: new.kind,
        share: new.share,
    };
    judged(wrong, &wish, again)?;
    // A kind and a share that are always accepted, and then those that are asked for.
    calls::join(table, &NewNode { kind: WEIGHTED, share: 1, ..*new })?;
    put(table, new.node as usize, new.kind, new.share)
}

/// A change of share with that misreading. The rates come out right.
pub(crate) fn change_share(
    wrong: Stated,
    table: &mut [i64],
    node: i64,
    kind: i64,
    share: i64,
) -> Answer<i64> {
    let before = table.to_vec();
    let again =
        |kind: i64, share: i64| calls::change_share(&mut before.to_vec(), node, kind, share);
    let number = node_number(node);
    let wish = Wish {
        cause: Cause::Share,
        table: &before,
        class: number.filter(|&node| is_used(&before, node)).and_then(|node| parent(&before, node)),
        node: number,
        kind,
        share,
    };
    judged(wrong, &wish, again)?;
    put(table, node as usize, kind, share)
}

fn put(table: &mut [i64], node: usize, kind: i64, share: i64) -> Answer<i64> {
    set(table, node, KIND, kind);
    set(table, node, SHARE, share);
    rates::renew_all(table);
    Ok(0)
}

/// A change of rate with that misreading. The rates come out right.
pub(crate) fn change_rate(wrong: Stated, table: &mut [i64], rate: i64) -> Answer<i64> {
    let stated = shares_under(table, ROOT, STATED);
    let answer = calls::change_rate(&mut table.to_vec(), rate);
    let answer = match (wrong, answer) {
        (Stated::OldTree | Stated::NotAtRate, Err(STATED_WRONG)) => Ok(0),
        (Stated::RateBeforeLimits, Err(_)) if i128::from(rate) < stated => Err(STATED_WRONG),
        (Stated::AtLeast, Ok(_)) if i128::from(rate) == stated => Err(STATED_WRONG),
        _ => answer,
    };
    answer?;
    set(table, ROOT, RATE, rate);
    rates::renew_all(table);
    answer
}

/// What the call is answered. The function gives the right answer to the same call with
/// another kind and share.
fn judged(wrong: Stated, wish: &Wish, again: impl Fn(i64, i64) -> Answer<i64>) -> Answer<i64> {
    let right = again(wish.kind, wish.share);
    limits_judged(wrong, wish, &again)
        .or_else(|| placing_judged(wrong, wish, right))
        .or_else(|| sum_judged(wrong, wish, right))
        .unwrap_or(right)
}

/// The answer of misreadings that are about kinds and shares by themselves.
fn limits_judged(
    wrong: Stated,
    wish: &Wish,
    again: &impl Fn(i64, i64) -> Answer<i64>,
) -> Option<Answer<i64>> {
    let (kind, share) = (wish.kind, wish.share);
    let refused = match wrong {
        Stated::Unknown => wish.is_stated(),
        Stated::Narrow => wish.is_stated() && share > MAX_SHARE,
        Stated::AboveIsTwo => wish.is_stated() && i128::from(share) > wish.disk_rate(),
        Stated::KindThree if kind == KIND_THREE => return Some(again(STATED, share)),
        Stated::Wide if (MAX_SHARE + 1..=MAX_RATE).contains(&share) => {
            return match (kind, again(kind, MAX_SHARE)) {
                (FIXED, Ok(_) | Err(DEPTH_ABOVE)) => Some(Err(SHARES_ABOVE)),
                (FIXED | WEIGHTED, answer) => Some(answer),
                _ => None,
            };
        }
        _ => false,
    };
    refused.then_some(Err(OUTSIDE_LIMITS))
}

/// The answer of misreadings that are about where 16 stands among the causes, and where
/// a stated node may stand.
fn placing_judged(wrong: Stated, wish: &Wish, right: Answer<i64>) -> Option<Answer<i64>> {
    let is_elsewhere = right == Err(STATED_WRONG) && !wish.is_under_root();
    let is_root = right == Err(WRONG_NODE) && wish.cause == Cause::Share;
    let is_behind_limits = right.is_err_and(|number| number > OUTSIDE_LIMITS);
    let before = |number: i64| right == Err(number) && wish.is_sixteen();
    let number = match wrong {
        Stated::FirstOfAll if is_behind_limits && wish.is_sixteen() => STATED_WRONG,
        Stated::BeforeLevels if before(LEVEL_TOO_LOW) => STATED_WRONG,
        Stated::BeforeDepths if before(DEPTH_ABOVE) => STATED_WRONG,
        Stated::RootIsSixteen if is_root && wish.is_stated() => STATED_WRONG,
        Stated::ElsewhereIsTwo if is_elsewhere => OUTSIDE_LIMITS,
        Stated::ElsewhereIsFive if is_elsewhere => WRONG_NODE,
        Stated::InClass if is_elsewhere && wish.fits_its_class() => return Some(Ok(0)),
        _ => return None,
    };
    Some(Err(number))
}

/// The answer of misreadings that are about what is summed and compared.
fn sum_judged(wrong: Stated, wish: &Wish, right: Answer<i64>) -> Option<Answer<i64>> {
    let is_join = wish.cause == Cause::Join;
    let accepted = right.is_ok() && wish.is_stated();
    let sixteen = right == Err(STATED_WRONG);
    let above = sixteen && wish.is_under_root();
    let (after, disk) = (wish.stated_after(), wish.disk_rate());
    let counted = shares_under(wish.table, ROOT, STATED) + i128::from(wish.share);
    let number = match wrong {
        Stated::OldTree if sixteen => return Some(Ok(0)),
        Stated::NotAtJoin if sixteen && is_join => return Some(Ok(0)),
        Stated::NotAtShare if sixteen && !is_join => return Some(Ok(0)),
        Stated::JoinedNotCounted if above && is_join => return Some(Ok(0)),
        Stated::ChangedNotCounted if above && !is_join => return Some(Ok(0)),
        Stated::OldCounted if accepted && counted > disk => STATED_WRONG,
        Stated::AtLeast if accepted && after == disk => STATED_WRONG,
        Stated::BesideFixed if accepted && after + wish.fixed_of_disk() > disk => STATED_WRONG,
        Stated::AboveIsSeven if above => SHARES_ABOVE,
        Stated::CountsInSeven if wish.is_above_as_fixed() => match right {
            Ok(_) | Err(DEPTH_ABOVE | STATED_WRONG) => SHARES_ABOVE,
            Err(number) => number,
        },
        _ => return None,
    };
    Some(Err(number))
}

/// Renews the rates of a table after a change in the wrong way. The table comes with
/// the right rates.
pub(crate) fn renew(wrong: Stated, change: &Change, table: &mut [i64]) {
    for node in family(table, ROOT).split_off(1) {
        let rate = match kept(wrong, change, table, node) {
            true => get(change.before, node, RATE),
            false => rate(wrong, change, table, node),
        };
        set(table, node, RATE, rate);
    }
}

/// Whether a node keeps the rate from before the change, 0 where it was not there.
fn kept(wrong: Stated, change: &Change, table: &[i64], node: usize) -> bool {
    let is_stated = |table: &[i64], node: usize| share_of_kind(table, node, STATED) > 0;
    match wrong {
        Stated::Kept => is_stated(table, node),
        Stated::OthersKept => {
            let touched = [change.before, table].iter().any(|table| is_stated(table, change.node));
            touched && node != change.node
        }
        Stated::BelowKept => parent(table, node).is_some_and(|class| {
            class != ROOT && family_head(table, class).is_some_and(|head| is_stated(table, head))
        }),
        _ => false,
    }
}

/// The child of the root that a node is or stands below.
fn family_head(table: &[i64], node: usize) -> Option<usize> {
    children(table, ROOT).find(|&head| family(table, head).contains(&node))
}

/// The rate that a node gets.
fn rate(wrong: Stated, change: &Change, table: &[i64], node: usize) -> i64 {
    let class = parent(table, node).unwrap_or(ROOT);
    let (kind, share) = (get(table, node, KIND), get(table, node, SHARE));
    let right = Division::of(table, class);
    let whole = Division { stated_sum: 0, ..right };
    let stated = i128::from(share);
    let rate = match (wrong, kind) {
        (Stated::AsFixed, STATED) => whole.child_rate(FIXED, share),
        (Stated::InTokens, STATED) => stated * i128::from(GRAINS),
        (Stated::Scaled, STATED) if change.cause == Cause::Rate => {
            stated * right.class_rate / i128::from(get(change.before, ROOT, RATE)).max(1)
        }
        (Stated::AsWeight, STATED | WEIGHTED) => {
            let weight_sum = right.weight_sum + right.stated_sum;
            Division { weight_sum, ..whole }.child_rate(WEIGHTED, share)
        }
        (Stated::AsWeight | Stated::NotTakenOff | Stated::FixedOfWhole, FIXED) => {
            whole.child_rate(FIXED, share)
        }
        (Stated::NotTakenOff | Stated::WeightsOfWhole, WEIGHTED) => {
            whole.child_rate(WEIGHTED, share)
        }
        (Stated::AfterFixed, FIXED) => whole.child_rate(FIXED, share),
        (Stated::AfterFixed, WEIGHTED) => {
            // All that a lone weight gets is what the fixed shares leave.
            let left = Division { weight_sum: 1, ..whole }.child_rate(WEIGHTED, 1);
            (left - right.stated_sum).max(0) * stated / right.weight_sum
        }
        _ => {
            let stated_sum = taken_off(wrong, change, table, class).unwrap_or(right.stated_sum);
            Division { stated_sum, ..right }.child_rate(kind, share)
        }
    };
    rate as i64
}

/// What is taken off a class's rate, where it is not the stated rates of its children.
fn taken_off(wrong: Stated, change: &Change, table: &[i64], class: usize) -> Option<i128> {
    let share = |node: usize| i128::from(get(table, node, SHARE));
    let is_stated = |node: usize| get(table, node, KIND) == STATED;
    match wrong {
        Stated::LowestOnly => children(table, class).find(|&child| is_stated(child)).map(share),
        Stated::OldSum if class == ROOT => Some(shares_under(change.before, ROOT, STATED)),
        Stated::OffBelow if class != ROOT && is_stated(class) => Some(share(class)),
        Stated::OffEverywhere if class != ROOT => {
            let rate = i128::from(get(table, class, RATE));
            Some(shares_under(table, ROOT, STATED).min(rate))
        }
        _ => None,
    }
}

/// Whether a clause of the in-order test holds by that misreading.
pub(crate) fn holds(wrong: Stated, clause: usize, table: &[i64]) -> bool {
    let stated = shares_under(table, ROOT, STATED);
    let disk_rate = i128::from(get(table, ROOT, RATE));
    match (wrong, clause) {
        (Stated::Unknown, LIMITS_CLAUSE) => {
            order::limits_hold(table, |kind, share| kind != STATED && share_is_lawful(kind, share))
        }
        (Stated::KindThree, LIMITS_CLAUSE) => order::limits_hold(table, |kind, share| {
            share_is_lawful(if kind == KIND_THREE { STATED } else { kind }, share)
        }),
        (Stated::Narrow | Stated::OrderNarrow, LIMITS_CLAUSE) => {
            order::limits_hold(table, |kind, share| {
                share_is_lawful(kind, share) && share <= MAX_SHARE
            })
        }
        (Stated::Wide | Stated::OrderWide, LIMITS_CLAUSE) => {
            order::limits_hold(table, |kind, share| {
                KINDS.contains(&kind) && (1..=MAX_RATE).contains(&share)
            })
        }
        (Stated::InClass, STATED_PLACES_CLAUSE) => classes(table)
            .all(|class| shares_under(table, class, STATED) <= i128::from(get(table, class, RATE))),
        (Stated::OrderAnyPlace, STATED_PLACES_CLAUSE) => true,
        (Stated::OrderAnySum, STATED_RATES_CLAUSE) => true,
        (Stated::OrderAtLeast, STATED_RATES_CLAUSE) => stated < disk_rate || stated == 0,
        (Stated::OrderStatedRoot, ROOT_CLAUSE) => {
            let mut table = table.to_vec();
            if get(&table, ROOT, KIND) == STATED {
                set(&mut table, ROOT, KIND, FIXED);
            }
            CLAUSES[clause].1(&table)
        }
        _ => CLAUSES[clause].1(table),
    }
}
