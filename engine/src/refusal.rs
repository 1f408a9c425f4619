//! The refusal numbers of "What is turned back". The names are those of
//! `include/hds.h`.

/// What a call answers: its values, or the number of the refusal.
pub type Answer<T> = Result<T, i64>;

/// Table not 2,568 long, or (save for open and plan reading) not in order.
pub const NOT_IN_ORDER: i64 = 1;
/// A number outside its limits, an unknown sort or kind, a port other than 0 and 1, or 1
/// for a class.
pub const OUTSIDE_LIMITS: i64 = 2;
/// Node or parent not there.
pub const NOT_THERE: i64 = 3;
/// Joining number in use.
pub const IN_USE: i64 = 4;
/// Parent is a client; request at a class; leave or change share of the root.
pub const WRONG_NODE: i64 = 5;
/// Joining class under level 3.
pub const LEVEL_TOO_LOW: i64 = 6;
/// Fixed shares above 10,000.
pub const SHARES_ABOVE: i64 = 7;
/// Children's depths above the class's; cost above the client's depth.
pub const DEPTH_ABOVE: i64 = 8;
/// Leaving node has children or waiting requests.
pub const NOT_EMPTY: i64 = 9;
/// Leaving class has a balance below 0.
pub const IN_DEBT: i64 = 10;
/// Client has 8 waiting.
pub const QUEUE_FULL: i64 = 11;
/// Header count at its end.
pub const COUNT_AT_END: i64 = 12;
/// A list shorter than 4 × all waiting at its port's clients, or plan buffer shorter than
/// the plan.
pub const BUFFER_SHORT: i64 = 13;
/// Plan length, count, offset or kind wrong.
pub const PLAN_WRONG: i64 = 14;
/// Plan entries out of order.
pub const PLAN_OUT_OF_ORDER: i64 = 15;
/// Stated rates above the disk's rate, stated elsewhere than under the root, or
/// first-edition writing of a tree with a stated node.
pub const STATED_WRONG: i64 = 16;
/// A table whose nodes, parents, sorts, depths or disk rate differ from the plan's; a list
/// that is not whole windows; a window with bad minutes, of the root or of a node not there;
/// two windows of one node that overlap.
pub const TIMETABLE_WRONG: i64 = 17;

/// Goes on if `holds`, else turns the call back.
pub(crate) fn require(holds: bool, refusal: i64) -> Answer<()> {
    if holds {
        Ok(())
    } else {
        Err(refusal)
    }
}
