//! Controllers with one known fault each: the paper's slips, the fakes that
//! document 01 names, misreadings of what a request costs, of the grains nobody
//! gets, of what step 4 picks, of which rates are renewed, of stated rates, of the
//! editions of plans, of ports and of timetables, and some more. The judge or the
//! differential must object to every one of them.

use crate::controller::{Controller, Counts, Engine, Lists, NewNode, Seen};
use crate::damage::failing;
use crate::faulty_parts::Dispatched;
use crate::faulty_renewals::{self, Cause, Change};
use crate::hours::WEEK;
use crate::refusal::*;
use crate::steps::with_lent_counts;
use crate::table::*;
use crate::{
    calls, faulty_hours, faulty_parts, faulty_plans, faulty_ports, faulty_stated, order, rates,
};

/// A fault.
#[derive(Clone, Copy, Debug, PartialEq, Eq)]
pub enum Fault {
    /// No fault at all: the measure for the others.
    None,
    /// Balances are cut before step 2, which robs a waiting client.
    CutsFirst,
    /// The client is charged for what a class supplied.
    ChargesClient,
    /// The charge stops below the root.
    SparesRoot,
    /// The larger of balance and depth is taken.
    TakesLarger,
    /// Weights are applied to the whole class rate.
    WeighsWholeRate,
    /// A full bucket at joining.
    FullBucket,
    /// A class in debt may leave.
    ForgivesDebt,
    /// A tick that lists nothing.
    ListsNothing,
    /// Dispatches everything in the first tick that has any, and idles later.
    AllAtOnce,
    /// Dispatches everything in every tick, names a supplier that is not there,
    /// and charges nobody.
    NamesNobody,
    /// A tick that invents its count.
    InventsCount,
    /// "Waiting full" with seven waiting.
    FullTooEarly,
    /// "List short" at just enough.
    ShortTooEarly,
    /// Requests are always refused.
    RefusesRequests,
    /// Requests are always answered 1.
    AnswersAlike,
    /// Requests leave the table untouched.
    ForgetsRequests,
    /// Step 2 dispatches one request at most for each client.
    OwnOnce,
    /// Step 4 ends when the oldest request of all has no supplier.
    StopsAtOldest,
    /// Step 4 goes by client number alone.
    ByNumber,
    /// The supplier is sought from the root down.
    FromRootDown,
    /// Balances are cut after step 4.
    CutsLast,
    /// Leave zeroes the sort only.
    KeepsRecord,
    /// Leave does not renew the rates.
    KeepsRates,
    /// Grains lost by rounding go to the lowest child of the root.
    GivesRemainder,
    /// Children's depths are judged before fixed shares.
    DepthsBeforeShares,
    /// Change share counts the node's old fixed share too.
    CountsOldShare,
    /// Plan entries' order is judged before the joins.
    PlanOrderFirst,
    /// Offsets in a plan are not looked at.
    IgnoresOffsets,
    /// Plans are written by number only.
    WritesByNumber,
    /// Same does not compare depths.
    SameForgetsDepths,
    /// The first size has the second number for its cost, wherever a cost counts.
    WrongCost(i64, i64),
    /// Sizes 8 to 63 cost their size, wherever a cost counts.
    WithoutFour,
    /// A dispatch charges the size.
    ChargesSize,
    /// Step 2 compares the size with the balance.
    ComparesSizeInStepTwo,
    /// Step 4 compares the size with the balances.
    ComparesSizeInStepFour,
    /// The list gives the cost.
    ListsCost,
    /// Cause 8 compares the size with the depth.
    RefusesBySize,
    /// The in-order test compares the sizes with the depth.
    OrdersBySize,
    /// Cause 8 and the in-order test let the cost of the largest sizes wrap.
    CostWraps,
    /// A look answers a wrong number for the grains nobody gets.
    WrongLost(Lost),
    /// Step 4 picks by another rule.
    WrongPick(Pick),
    /// The rates after a change of the tree are renewed in another way.
    WrongRenewal(Renewal),
    /// Stated rates are misread.
    WrongStated(Stated),
    /// The editions of plans are misread.
    WrongEditions(Editions),
    /// Ports are misread.
    WrongPorts(Ports),
    /// Timetables are misread.
    WrongHours(Hours),
    /// The in-order test lacks the clause of that number.
    LacksClause(usize),
}

/// Misreadings of the grains nobody gets.
#[derive(Clone, Copy, Debug, PartialEq, Eq)]
pub enum Lost {
    /// The sum is over all nodes below the class.
    AllBelow,
    /// The weighted children are not in the sum.
    WithoutWeighted,
    /// The fixed children are not in the sum.
    WithoutFixed,
    /// The stated children are not in the sum.
    WithoutStated,
    /// The stated children are in the sum twice.
    StatedTwice,
    /// The children that are classes are not in the sum.
    WithoutClasses,
    /// The sum is of the children's shares.
    OfShares,
    /// The sum is of the children's balances.
    OfBalances,
    /// A class has 0.
    ZeroForClass,
    /// A class without children has 0.
    ZeroForChildless,
    /// A client, which has no children, has its rate.
    RateForClient,
    /// The root, its own parent, is among its children.
    RootAmongChildren,
    /// Where no child is weighted, what the fixed shares leave does not count.
    WithoutUnclaimed,
    /// What rounding took off the fixed children does not count.
    WithoutFixedRounding,
    /// It is the number from before the last change of the tree.
    FromBefore,
}

/// Misreadings of what step 4 picks. Where nothing else is said, the request with
/// the fewest steps goes first, and among those the one with the lowest arrival
/// number.
#[derive(Clone, Copy, Debug, PartialEq, Eq)]
pub enum Pick {
    /// The lowest arrival number goes first, whatever the steps.
    ArrivalAlone,
    /// The most steps go first.
    MostSteps,
    /// Among equal steps the lowest client number goes first.
    TiesByNumber,
    /// Among equal steps the highest client number goes first.
    TiesByHighestNumber,
    /// Among equal steps the lowest supplier number goes first.
    TiesBySupplier,
    /// Among equal steps the highest arrival number goes first.
    TiesByLatest,
    /// Steps are counted from the root down to the supplier: the fewest go first.
    SupplierNearRoot,
    /// The same, but the most go first: right where all clients stand on one level.
    SupplierFarFromRoot,
    /// Steps are counted from the client to the root: the fewest go first.
    ClientNearRoot,
    /// Two groups: a client that pays itself, and everyone else.
    OwnOrOther,
    /// Two groups: a client that pays itself or is paid by its class, and everyone
    /// else.
    ClassOrOther,
    /// Two groups: what the root pays comes behind everything else.
    RootOrOther,
    /// A client that pays itself comes behind everyone else.
    OwnLast,
    /// A client that pays itself is passed over.
    OwnSkipped,
    /// The search for a supplier starts at the client's class.
    OwnNever,
    /// The search for a supplier goes from the client's class to the root at once.
    SkipsMiddle,
    /// The search for a supplier climbs three levels at most.
    ThreeLevels,
    /// A node supplies only what its children do not hold.
    SpareOnly,
    /// By number, a client takes the place of the best so far if it has fewer steps
    /// or a lower arrival number.
    EitherLess,
    /// By number, a client takes the place of the best so far if it has no more
    /// steps and a lower arrival number.
    BothLess,
    /// Steps are counted once for each client.
    StepsOfClient,
    /// Steps are counted once for each request, when it has become the oldest.
    StepsOfRequest,
    /// All candidates go in the order of one count before the next count.
    InRounds,
    /// A client that was served goes on while it has a supplier.
    WholeClient,
    /// A supplier that supplied goes on while a request has it for its supplier.
    WholeFamily,
    /// Once a request of so many steps went, fewer steps are no better.
    StepsSoFar,
    /// Once a request of so many steps went, fewer steps are passed over.
    NeverBack,
    /// More steps than those of the first dispatch are passed over.
    FewestOnly,
    /// Of the clients of a class only the one with the oldest request may go.
    OldestOfFamily,
    /// All requests of a client may go, not only the oldest.
    AnyOfQueue,
    /// Step 2 goes by arrival number, as step 4 does among equal steps.
    StepTwoByArrival,
    /// Step 2 is left to step 4, where a client that pays itself goes first.
    WithoutStepTwo,
}

/// Misreadings of the renewal of rates. The node is the one that joined, left or
/// changed its share, and the class is its parent. Where nothing else is said, what
/// stands below the class is renewed from the class's own rate, and a change of rate
/// renews all.
#[derive(Clone, Copy, Debug, PartialEq, Eq)]
pub enum Renewal {
    /// The class's children are renewed, and nothing below them.
    ChildrenOnly,
    /// Two levels below the class are renewed.
    TwoLevels,
    /// Three levels below the class are renewed.
    ThreeLevels,
    /// What stands on the lowest level, 4, is not renewed.
    NotTheLowest,
    /// As many levels are renewed as there are below the class, counted from the root:
    /// what stands lower is not.
    LevelsFromRoot,
    /// Only what stands below the node is renewed.
    BelowNode,
    /// A join renews the node and no other.
    NewNodeOnly,
    /// A change of share renews the node and no other.
    ChangedNodeOnly,
    /// The node itself keeps its rate, which is 0 after a join.
    WithoutNode,
    /// What stands below the node keeps its rates.
    NotBelowNode,
    /// What stands below the other children of the class keeps its rates.
    NotBelowOthers,
    /// Fixed nodes keep their rates.
    FixedKept,
    /// Where the node has or had a fixed share, the weighted children of its class
    /// keep their rates.
    WeightsKept,
    /// Classes keep their rates.
    ClassesKept,
    /// A leave takes the class's number from the zeroed record, which gives the root,
    /// and renews that one's children.
    ClassFromZeroed,
    /// A change of rate renews the root's children, and nothing below them.
    RateChildrenOnly,
    /// A change of rate renews nothing.
    RateNothing,
    /// The class's children get their parts of the disk's rate.
    FromDiskRate,
    /// All that stands below the class gets its parts of the class's own rate.
    AllFromClass,
    /// The class's own rate becomes the sum of its children's.
    OwnRateIsSum,
    /// The class's own rate is worked out first, as that of a fixed share.
    OwnRateAsFixed,
    /// The class's own rate is worked out first, with the sums of its children's
    /// shares instead of those beside it.
    OwnRateByOwnSums,
    /// All nodes on the level of the class's children are renewed as if they were its
    /// children, and what stands below them.
    SameLevel,
    /// What stands below all classes on the class's level is renewed, as if all had
    /// its rate.
    NeighboursToo,
    /// The sums of shares are those of the class from before the change.
    OldSums,
    /// The sums of shares are over the node's whole level.
    SumsOfLevel,
    /// The sums of shares are over all that stands below a class.
    SumsOfAllBelow,
    /// The root's own share counts among those of its children.
    RootAmongChildren,
    /// The nodes are renewed in rising number, at times before their classes.
    ByNumber,
    /// The renewal ends at the first node, by level and number, whose rate is the one
    /// that it has.
    StopsAtSame,
    /// Below the class's children each rate changes in proportion to its class's.
    Scaled,
    /// What the fixed shares leave is not rounded.
    RoundsOnce,
    /// What is left is the class's rate less the rates of its fixed children.
    LessFixedRates,
    /// The balance of a renewed node becomes 0.
    EmptiesBuckets,
}

/// Misreadings of stated rates. Where nothing else is said, a stated node stands under
/// the root, its rate is its share, and fixed shares and weights work on the disk's rate
/// less all stated rates.
#[derive(Clone, Copy, Debug, PartialEq, Eq)]
pub enum Stated {
    /// Fixed shares and weights are parts of the disk's whole rate.
    NotTakenOff,
    /// Fixed shares are parts of the disk's whole rate.
    FixedOfWhole,
    /// Weights are on what the fixed shares leave of the disk's whole rate.
    WeightsOfWhole,
    /// Fixed shares are parts of the disk's whole rate, and the stated rates are taken off
    /// what they leave.
    AfterFixed,
    /// Only the stated rate of the lowest number is taken off.
    LowestOnly,
    /// Below a stated class its rate is taken off once more.
    OffBelow,
    /// The stated rates are taken off the rate of every class, as far as it goes.
    OffEverywhere,
    /// A stated node gets its ten thousandths of the disk's rate.
    AsFixed,
    /// A stated rate is a weight like any other.
    AsWeight,
    /// A stated rate is in tokens.
    InTokens,
    /// A stated node keeps its rate, which is 0 after a join.
    Kept,
    /// Where the changed node is or was stated, all others keep their rates.
    OthersKept,
    /// What stands below a stated class keeps its rates.
    BelowKept,
    /// What is taken off are the stated rates from before the change.
    OldSum,
    /// A change of rate changes stated rates in proportion.
    Scaled,
    /// Kind 2 is unknown.
    Unknown,
    /// Kind 3 is known, with the limits of stated rates.
    KindThree,
    /// A stated rate is 1 to 10,000, as any share.
    Narrow,
    /// A share of any kind is 1 to 1,000,000,000.
    Wide,
    /// A stated rate above the disk's is outside its limits, 2.
    AboveIsTwo,
    /// 16 is judged on the tree before the call.
    OldTree,
    /// A join is never refused with 16.
    NotAtJoin,
    /// A change of share is never refused with 16.
    NotAtShare,
    /// A change of rate is never refused with 16.
    NotAtRate,
    /// A stated node may stand under any class, within that class's rate.
    InClass,
    /// A joining node's own stated rate does not count.
    JoinedNotCounted,
    /// The stated rate that a node changes to does not count.
    ChangedNotCounted,
    /// A change of share counts the node's old stated rate too.
    OldCounted,
    /// Stated rates of just the disk's rate are refused with 16.
    AtLeast,
    /// Stated rates must leave the fixed shares their parts of the disk's whole rate.
    BesideFixed,
    /// 16 is judged right behind 2.
    FirstOfAll,
    /// 16 is judged before 6.
    BeforeLevels,
    /// 16 is judged before 8.
    BeforeDepths,
    /// At a change of rate 16 is judged before 2.
    RateBeforeLimits,
    /// The root, which is not under the root, is refused a stated rate with 16.
    RootIsSixteen,
    /// Stated elsewhere than under the root gets 2.
    ElsewhereIsTwo,
    /// Stated elsewhere than under the root gets 5.
    ElsewhereIsFive,
    /// Stated rates above the disk's rate get 7.
    AboveIsSeven,
    /// Stated rates count among the fixed shares of 10,000.
    CountsInSeven,
    /// The in-order test lets stated nodes stand anywhere.
    OrderAnyPlace,
    /// The in-order test lets stated rates be above the disk's.
    OrderAnySum,
    /// By the in-order test stated rates are less than the disk's.
    OrderAtLeast,
    /// By the in-order test a stated rate is 1 to 10,000.
    OrderNarrow,
    /// By the in-order test a share of any kind is 1 to 1,000,000,000.
    OrderWide,
    /// The in-order test lets the root be stated.
    OrderStatedRoot,
    /// A tree with a stated node is written as a plan of the first edition.
    Written,
    /// At writing 16 is judged before 13.
    WriteBeforeLength,
}

impl Stated {
    /// Whether the misreading is of the in-order test or of plans alone.
    fn needs_wild_runs(self) -> bool {
        matches!(
            self,
            Stated::OrderAnyPlace
                | Stated::OrderAnySum
                | Stated::OrderAtLeast
                | Stated::OrderNarrow
                | Stated::OrderWide
                | Stated::OrderStatedRoot
                | Stated::Written
                | Stated::WriteBeforeLength
        )
    }
}

/// Misreadings of the editions of plans. Where nothing else is said, they are about
/// reading where a plan is read, and about writing where one is written.
#[derive(Clone, Copy, Debug, PartialEq, Eq)]
pub enum Editions {
    /// Offsets of the second edition count from its head, in reading and writing.
    OffsetsFromHead,
    /// Bodies of the second edition have 7 bytes, with 2 of share.
    ShortShares,
    /// Of a share's 4 bytes only the low two count, in reading and writing.
    LowShares,
    /// Kind 4 is a stated client and 5 a stated class.
    KindsExchanged,
    /// The second edition has no kinds for stated nodes: 14.
    OldKinds,
    /// The first edition has the kinds of stated nodes in reading.
    FirstHasStated,
    /// Bytes that begin with three FF are of the second edition.
    ThreeMarks,
    /// Bytes that begin with FF are of the second edition.
    OneMark,
    /// Bytes whose length no plan of the first edition has are of the second.
    ByLength,
    /// The second edition has no bytes before its head, in writing.
    NoMark,
    /// 15 comes before 16 in reading.
    OrderBeforeSixteen,
    /// 16 comes behind the refusals of all joins in reading.
    SixteenBehindJoins,
    /// The reader says 1 for both.
    SaysOne,
    /// The reader says 0 for both.
    SaysNothing,
    /// The reader says 2 where a node is stated.
    SaysByKind,
    /// The check of an accepted plan says the edition.
    CheckSays,
    /// Editions other than 1 and 2 are written as the first.
    OthersAsFirst,
    /// Editions other than 1 and 2 are written as the second.
    OthersAsSecond,
    /// The first edition is written, whatever the writer is told.
    AlwaysFirst,
    /// The second edition is written, whatever the writer is told.
    AlwaysSecond,
    /// A tree with a stated node is written in the second edition where the writer is told
    /// the first.
    SecondInstead,
    /// A tree with a stated node is refused with 16 in both editions.
    SecondRefused,
    /// 13 goes by the length of the first edition, and what the buffer has no room for is
    /// left out.
    LengthOfFirst,
    /// 13 goes by the length of the second edition.
    LengthOfSecond,
    /// The edition's number is judged behind 13, which goes by the first edition then.
    NumberBehindLength,
    /// The edition's number is judged before the table.
    NumberBeforeOrder,
}

/// Misreadings of ports. Where nothing else is said, a client joins with port 0 or 1 and a
/// class with 0, a port is the list on which a client's dispatches stand, and each list is
/// long enough for all that waits at its own port's clients.
#[derive(Clone, Copy, Debug, PartialEq, Eq)]
pub enum Ports {
    /// A join puts every client on port 0.
    NotStored,
    /// A client may join with port 2.
    TwoAccepted,
    /// A client may join with port −1.
    MinusOneAccepted,
    /// Of the port at a join only the low 32 bits count.
    LowBitsAccepted,
    /// A class may join with port 1, and has it.
    ClassOnOne,
    /// A class may join with any port, and has 0.
    ClassIgnored,
    /// A class that joins with port 1 gets 5.
    ClassIsFive,
    /// At a join the port is judged behind 5.
    BehindFive,
    /// At a join the port is judged behind 8, and before 16.
    BehindEight,
    /// At a join the port is judged behind all others.
    BehindAll,
    /// A leave zeroes the record save for its port.
    KeptAtLeave,
    /// A client that joins at the number of one that left has the port of that one.
    KeptForNext,
    /// A change of share puts a client on port 0.
    ShareResets,
    /// A change of share of a client on port 1 gets 2.
    ShareRefuses,
    /// The in-order test lets a class or a client have any port.
    OrderAny,
    /// The in-order test lets a class have port 1.
    OrderClassOne,
    /// The in-order test lets a client have port 2.
    OrderUpToTwo,
    /// By the in-order test place 9 is zero.
    OrderStillZero,
    /// The in-order test looks at the low 32 bits of a port.
    OrderLowBits,
    /// The in-order test does not look at places 10 to 15 of a node.
    OrderSpareFree,
    /// The in-order test does not look at the port of an unused record.
    OrderUnusedFree,
    /// Each list must be long enough for all that waits.
    ShortByAll,
    /// Only the first list must be long enough.
    ShortFirstOnly,
    /// Only the second list must be long enough.
    ShortSecondOnly,
    /// Both lists together must be long enough for all that waits.
    ShortBySum,
    /// Each list must be long enough for what waits at the other port's clients.
    ShortByOther,
    /// 13 is for two lists that are both too short.
    ShortIfBoth,
    /// Each list must be long enough for what the tick dispatches on it.
    ShortByGone,
    /// An empty list is too short also where nothing waits.
    ShortIfEmpty,
    /// A tick whose second list is too short writes the first one before it is refused.
    FirstWritten,
    /// All dispatches stand on the first list.
    AllOnFirst,
    /// The first list is that of port 1, and the second that of port 0.
    Exchanged,
    /// A dispatch stands on the list of its supplier's port, which of a class is 0.
    BySupplier,
    /// A dispatch stands at its place in the sequence of both lists' dispatches.
    Gaps,
    /// The dispatches of a list stand by client number.
    ByClient,
    /// The dispatches of a list stand by arrival number.
    ByArrival,
    /// A list is zeroed beyond its dispatches.
    ClearsRest,
    /// The counts are in each other's place.
    CountsExchanged,
    /// The first count is that of both lists.
    FirstTotal,
    /// The second count is that of both lists.
    SecondTotal,
    /// A refused tick writes its counts.
    RefusedCounts,
    /// The second count is 0.
    SecondZero,
    /// The dispatches of the second list stand there once more, as far as it has room, and
    /// are counted.
    SecondTwice,
    /// Steps 2 to 4 are gone through for the clients of port 0, then for those of port 1.
    PortByPort,
    /// Step 4 picks the requests of port 0's clients first.
    FirstPicks,
    /// Among equal steps step 4 picks the requests of port 0's clients first.
    FirstAmongEqual,
    /// Step 4 picks from the ports in turn.
    TakesTurns,
    /// Each port has balances of its own, which its dispatches charge. Those of the first
    /// are the classes'.
    OwnBalances,
    /// Plan reading leaves a client the port that stood in its place.
    ReadKeeps,
    /// Plan reading puts every client on port 1.
    ReadPutsOne,
    /// A tree with a client on port 1 is refused with 16 at plan writing.
    WriteRefuses,
    /// A plan has kinds of its own for clients on port 1.
    WriteMarks,
    /// A plan has no clients of port 1.
    WriteLeavesOut,
    /// Same compares the ports too.
    SameCompares,
}

impl Ports {
    /// Whether the misreading is of the in-order test, of plans or of same alone.
    fn needs_wild_runs(self) -> bool {
        matches!(
            self,
            Ports::OrderAny
                | Ports::OrderClassOne
                | Ports::OrderUpToTwo
                | Ports::OrderStillZero
                | Ports::OrderLowBits
                | Ports::OrderSpareFree
                | Ports::OrderUnusedFree
                | Ports::ReadKeeps
                | Ports::ReadPutsOne
                | Ports::WriteRefuses
                | Ports::WriteMarks
                | Ports::WriteLeavesOut
                | Ports::SameCompares
        )
    }
}

/// Misreadings of timetables. Where nothing else is said, a window covers its start up to but
/// not its end, its node has its share inside and the plan's outside, 17 is for tables that
/// differ from the plan in the tree alone and for bad windows, and every cause is judged over
/// the whole list and the whole week before the next one.
#[derive(Clone, Copy, Debug, PartialEq, Eq)]
pub enum Hours {
    /// A window covers its end too.
    EndIncluded,
    /// A window does not cover its start.
    StartExcluded,
    /// Minute 10,080 is accepted.
    LastMinuteAccepted,
    /// A window that ends at 10,080 has bad minutes.
    EndOfWeekRefused,
    /// A window may end where it starts.
    EmptyAccepted,
    /// A window may end before it starts, and goes over the end of the week then.
    WrapsAround,
    /// A window with bad minutes gets 2.
    MinutesAreTwo,
    /// What is behind the last whole window of a list is passed over.
    NotWholeAccepted,
    /// A window of the root is passed over.
    RootAccepted,
    /// A window of the root gets 5.
    RootIsFive,
    /// A window of a node that is not there is passed over.
    AbsentAccepted,
    /// A window of a node that is not there gets 3.
    AbsentIsThree,
    /// A window of a number outside 0 to 63 gets 2.
    OutsideIsTwo,
    /// Two windows of one node that touch overlap.
    TouchingOverlap,
    /// Windows of one node may overlap, and the first of them counts.
    OverlapAllowed,
    /// Windows of different nodes may not overlap.
    OverlapAcross,
    /// Only windows next to each other in the list are looked at for overlaps.
    NeighboursOnly,
    /// The depths of the nodes below the root may differ from the plan's.
    DepthsIgnored,
    /// The root's depth may differ from the plan's.
    RootDepthIgnored,
    /// Sorts may differ from the plan's.
    SortsIgnored,
    /// Parents may differ from the plan's.
    ParentsIgnored,
    /// The disk's rate may differ from the plan's, and stays.
    DiskRateIgnored,
    /// The table may have nodes that the plan has not, which stay.
    MoreInTable,
    /// The plan may have nodes that the table has not, which are passed over.
    MoreInPlan,
    /// A client on port 1 differs from the plan's.
    PortsCompared,
    /// Kinds may not differ from the plan's.
    KindsCompared,
    /// Shares may not differ from the plan's.
    SharesCompared,
    /// A node below the root that has a balance differs from the plan's.
    BalancesCompared,
    /// A client with waiting requests differs from the plan's.
    WaitingCompared,
    /// The limits of a window's share go by the node's kind in the table.
    LimitsByTable,
    /// A window's share is 1 to 10,000 for every kind.
    NarrowShares,
    /// A window's share is 1 to 1,000,000,000 for every kind.
    WideShares,
    /// A window's share may be 0.
    ZeroShare,
    /// A window's share outside its limits gets 17.
    ShareIsSeventeen,
    /// 7 is judged at the given minute alone.
    FixedHereOnly,
    /// 16 is judged at the given minute alone.
    StatedHereOnly,
    /// 7 and 16 are judged at the starts of windows alone.
    StartsOnly,
    /// 7 and 16 are judged for each window beside the plan's shares alone.
    OneAtATime,
    /// Where a window is, the plan's share counts for 7 and 16 beside the window's.
    PlanCounted,
    /// 7 is judged for the root's children alone.
    FixedUnderRoot,
    /// Weights count among the fixed shares of 7.
    WeightsCounted,
    /// Fixed shares of just 10,000 get 7.
    FixedAtLeast,
    /// Stated rates of just the disk's rate get 16.
    StatedAtLeast,
    /// Of 7 and 16 the one at the earlier minute counts.
    EarlierMinute,
    /// The minute is judged before the table.
    MinuteBeforeTable,
    /// The plan is judged before the minute.
    PlanBeforeMinute,
    /// Of 17 what is about windows is judged before the plan.
    WindowsBeforePlan,
    /// 17 is judged right behind 14, before the plan's other causes.
    TimetableBeforePlan,
    /// The shares of the windows are judged before 17.
    ShareBeforeTimetable,
    /// Of 17 and 2 for a window's share the one of the first window counts.
    FirstWindow,
    /// 7 is judged before the shares of the windows.
    FixedBeforeShare,
    /// 16 is judged before 7.
    StatedBeforeFixed,
    /// A refused plan gets 17.
    PlanIsSeventeen,
    /// The entries of the plan may stand in any order in which they can join.
    AnyOrder,
    /// A plan of the second edition gets 14.
    FirstEditionOnly,
    /// A node keeps its kind.
    KindKept,
    /// Outside of its windows a node keeps its share.
    ShareKept,
    /// Outside of its windows a node keeps its kind and share.
    OutsideKept,
    /// Rates are not renewed.
    RatesKept,
    /// Only the rates of the root's children are renewed.
    ChildrenOnly,
    /// Every balance becomes 0.
    BalancesEmptied,
    /// Every client is put on port 0.
    PortsReset,
    /// Waiting requests are dropped.
    RequestsDropped,
    /// Kinds and shares are written before 7 and 16 are judged, and stay.
    WrittenFirst,
    /// An accepted call answers the minute.
    AnswersMinute,
}

/// All faults that are no lacking clause.
pub const FAULTS: [Fault; 318] = [
    Fault::CutsFirst,
    Fault::ChargesClient,
    Fault::SparesRoot,
    Fault::TakesLarger,
    Fault::WeighsWholeRate,
    Fault::FullBucket,
    Fault::ForgivesDebt,
    Fault::ListsNothing,
    Fault::AllAtOnce,
    Fault::NamesNobody,
    Fault::InventsCount,
    Fault::FullTooEarly,
    Fault::ShortTooEarly,
    Fault::RefusesRequests,
    Fault::AnswersAlike,
    Fault::ForgetsRequests,
    Fault::OwnOnce,
    Fault::StopsAtOldest,
    Fault::ByNumber,
    Fault::FromRootDown,
    Fault::CutsLast,
    Fault::KeepsRecord,
    Fault::KeepsRates,
    Fault::GivesRemainder,
    Fault::DepthsBeforeShares,
    Fault::CountsOldShare,
    Fault::PlanOrderFirst,
    Fault::IgnoresOffsets,
    Fault::WritesByNumber,
    Fault::SameForgetsDepths,
    // 7 and 63 and 511 in the range above theirs, 8 and 64 and 512 in the one
    // below, and 7 with the cost of 8.
    Fault::WrongCost(7, 11),
    Fault::WrongCost(7, 12),
    Fault::WrongCost(8, 8),
    Fault::WrongCost(63, 71),
    Fault::WrongCost(64, 68),
    Fault::WrongCost(511, 527),
    Fault::WrongCost(512, 520),
    Fault::WithoutFour,
    Fault::ChargesSize,
    Fault::ComparesSizeInStepTwo,
    Fault::ComparesSizeInStepFour,
    Fault::ListsCost,
    Fault::RefusesBySize,
    Fault::OrdersBySize,
    Fault::CostWraps,
    Fault::WrongLost(Lost::AllBelow),
    Fault::WrongLost(Lost::WithoutWeighted),
    Fault::WrongLost(Lost::WithoutFixed),
    Fault::WrongLost(Lost::WithoutStated),
    Fault::WrongLost(Lost::StatedTwice),
    Fault::WrongLost(Lost::WithoutClasses),
    Fault::WrongLost(Lost::OfShares),
    Fault::WrongLost(Lost::OfBalances),
    Fault::WrongLost(Lost::ZeroForClass),
    Fault::WrongLost(Lost::ZeroForChildless),
    Fault::WrongLost(Lost::RateForClient),
    Fault::WrongLost(Lost::RootAmongChildren),
    Fault::WrongLost(Lost::WithoutUnclaimed),
    Fault::WrongLost(Lost::WithoutFixedRounding),
    Fault::WrongLost(Lost::FromBefore),
    Fault::WrongPick(Pick::ArrivalAlone),
    Fault::WrongPick(Pick::MostSteps),
    Fault::WrongPick(Pick::TiesByNumber),
    Fault::WrongPick(Pick::TiesByHighestNumber),
    Fault::WrongPick(Pick::TiesBySupplier),
    Fault::WrongPick(Pick::TiesByLatest),
    Fault::WrongPick(Pick::SupplierNearRoot),
    Fault::WrongPick(Pick::SupplierFarFromRoot),
    Fault::WrongPick(Pick::ClientNearRoot),
    Fault::WrongPick(Pick::OwnOrOther),
    Fault::WrongPick(Pick::ClassOrOther),
    Fault::WrongPick(Pick::RootOrOther),
    Fault::WrongPick(Pick::OwnLast),
    Fault::WrongPick(Pick::OwnSkipped),
    Fault::WrongPick(Pick::OwnNever),
    Fault::WrongPick(Pick::SkipsMiddle),
    Fault::WrongPick(Pick::ThreeLevels),
    Fault::WrongPick(Pick::SpareOnly),
    Fault::WrongPick(Pick::EitherLess),
    Fault::WrongPick(Pick::BothLess),
    Fault::WrongPick(Pick::StepsOfClient),
    Fault::WrongPick(Pick::StepsOfRequest),
    Fault::WrongPick(Pick::InRounds),
    Fault::WrongPick(Pick::WholeClient),
    Fault::WrongPick(Pick::WholeFamily),
    Fault::WrongPick(Pick::StepsSoFar),
    Fault::WrongPick(Pick::NeverBack),
    Fault::WrongPick(Pick::FewestOnly),
    Fault::WrongPick(Pick::OldestOfFamily),
    Fault::WrongPick(Pick::AnyOfQueue),
    Fault::WrongPick(Pick::StepTwoByArrival),
    Fault::WrongPick(Pick::WithoutStepTwo),
    Fault::WrongRenewal(Renewal::ChildrenOnly),
    Fault::WrongRenewal(Renewal::TwoLevels),
    Fault::WrongRenewal(Renewal::ThreeLevels),
    Fault::WrongRenewal(Renewal::NotTheLowest),
    Fault::WrongRenewal(Renewal::LevelsFromRoot),
    Fault::WrongRenewal(Renewal::BelowNode),
    Fault::WrongRenewal(Renewal::NewNodeOnly),
    Fault::WrongRenewal(Renewal::ChangedNodeOnly),
    Fault::WrongRenewal(Renewal::WithoutNode),
    Fault::WrongRenewal(Renewal::NotBelowNode),
    Fault::WrongRenewal(Renewal::NotBelowOthers),
    Fault::WrongRenewal(Renewal::FixedKept),
    Fault::WrongRenewal(Renewal::WeightsKept),
    Fault::WrongRenewal(Renewal::ClassesKept),
    Fault::WrongRenewal(Renewal::ClassFromZeroed),
    Fault::WrongRenewal(Renewal::RateChildrenOnly),
    Fault::WrongRenewal(Renewal::RateNothing),
    Fault::WrongRenewal(Renewal::FromDiskRate),
    Fault::WrongRenewal(Renewal::AllFromClass),
    Fault::WrongRenewal(Renewal::OwnRateIsSum),
    Fault::WrongRenewal(Renewal::OwnRateAsFixed),
    Fault::WrongRenewal(Renewal::OwnRateByOwnSums),
    Fault::WrongRenewal(Renewal::SameLevel),
    Fault::WrongRenewal(Renewal::NeighboursToo),
    Fault::WrongRenewal(Renewal::OldSums),
    Fault::WrongRenewal(Renewal::SumsOfLevel),
    Fault::WrongRenewal(Renewal::SumsOfAllBelow),
    Fault::WrongRenewal(Renewal::RootAmongChildren),
    Fault::WrongRenewal(Renewal::ByNumber),
    Fault::WrongRenewal(Renewal::StopsAtSame),
    Fault::WrongRenewal(Renewal::Scaled),
    Fault::WrongRenewal(Renewal::RoundsOnce),
    Fault::WrongRenewal(Renewal::LessFixedRates),
    Fault::WrongRenewal(Renewal::EmptiesBuckets),
    Fault::WrongStated(Stated::NotTakenOff),
    Fault::WrongStated(Stated::FixedOfWhole),
    Fault::WrongStated(Stated::WeightsOfWhole),
    Fault::WrongStated(Stated::AfterFixed),
    Fault::WrongStated(Stated::LowestOnly),
    Fault::WrongStated(Stated::OffBelow),
    Fault::WrongStated(Stated::OffEverywhere),
    Fault::WrongStated(Stated::AsFixed),
    Fault::WrongStated(Stated::AsWeight),
    Fault::WrongStated(Stated::InTokens),
    Fault::WrongStated(Stated::Kept),
    Fault::WrongStated(Stated::OthersKept),
    Fault::WrongStated(Stated::BelowKept),
    Fault::WrongStated(Stated::OldSum),
    Fault::WrongStated(Stated::Scaled),
    Fault::WrongStated(Stated::Unknown),
    Fault::WrongStated(Stated::KindThree),
    Fault::WrongStated(Stated::Narrow),
    Fault::WrongStated(Stated::Wide),
    Fault::WrongStated(Stated::AboveIsTwo),
    Fault::WrongStated(Stated::OldTree),
    Fault::WrongStated(Stated::NotAtJoin),
    Fault::WrongStated(Stated::NotAtShare),
    Fault::WrongStated(Stated::NotAtRate),
    Fault::WrongStated(Stated::InClass),
    Fault::WrongStated(Stated::JoinedNotCounted),
    Fault::WrongStated(Stated::ChangedNotCounted),
    Fault::WrongStated(Stated::OldCounted),
    Fault::WrongStated(Stated::AtLeast),
    Fault::WrongStated(Stated::BesideFixed),
    Fault::WrongStated(Stated::FirstOfAll),
    Fault::WrongStated(Stated::BeforeLevels),
    Fault::WrongStated(Stated::BeforeDepths),
    Fault::WrongStated(Stated::RateBeforeLimits),
    Fault::WrongStated(Stated::RootIsSixteen),
    Fault::WrongStated(Stated::ElsewhereIsTwo),
    Fault::WrongStated(Stated::ElsewhereIsFive),
    Fault::WrongStated(Stated::AboveIsSeven),
    Fault::WrongStated(Stated::CountsInSeven),
    Fault::WrongStated(Stated::OrderAnyPlace),
    Fault::WrongStated(Stated::OrderAnySum),
    Fault::WrongStated(Stated::OrderAtLeast),
    Fault::WrongStated(Stated::OrderNarrow),
    Fault::WrongStated(Stated::OrderWide),
    Fault::WrongStated(Stated::OrderStatedRoot),
    Fault::WrongStated(Stated::Written),
    Fault::WrongStated(Stated::WriteBeforeLength),
    Fault::WrongEditions(Editions::OffsetsFromHead),
    Fault::WrongEditions(Editions::ShortShares),
    Fault::WrongEditions(Editions::LowShares),
    Fault::WrongEditions(Editions::KindsExchanged),
    Fault::WrongEditions(Editions::OldKinds),
    Fault::WrongEditions(Editions::FirstHasStated),
    Fault::WrongEditions(Editions::ThreeMarks),
    Fault::WrongEditions(Editions::OneMark),
    Fault::WrongEditions(Editions::ByLength),
    Fault::WrongEditions(Editions::NoMark),
    Fault::WrongEditions(Editions::OrderBeforeSixteen),
    Fault::WrongEditions(Editions::SixteenBehindJoins),
    Fault::WrongEditions(Editions::SaysOne),
    Fault::WrongEditions(Editions::SaysNothing),
    Fault::WrongEditions(Editions::SaysByKind),
    Fault::WrongEditions(Editions::CheckSays),
    Fault::WrongEditions(Editions::OthersAsFirst),
    Fault::WrongEditions(Editions::OthersAsSecond),
    Fault::WrongEditions(Editions::AlwaysFirst),
    Fault::WrongEditions(Editions::AlwaysSecond),
    Fault::WrongEditions(Editions::SecondInstead),
    Fault::WrongEditions(Editions::SecondRefused),
    Fault::WrongEditions(Editions::LengthOfFirst),
    Fault::WrongEditions(Editions::LengthOfSecond),
    Fault::WrongEditions(Editions::NumberBehindLength),
    Fault::WrongEditions(Editions::NumberBeforeOrder),
    Fault::WrongPorts(Ports::NotStored),
    Fault::WrongPorts(Ports::TwoAccepted),
    Fault::WrongPorts(Ports::MinusOneAccepted),
    Fault::WrongPorts(Ports::LowBitsAccepted),
    Fault::WrongPorts(Ports::ClassOnOne),
    Fault::WrongPorts(Ports::ClassIgnored),
    Fault::WrongPorts(Ports::ClassIsFive),
    Fault::WrongPorts(Ports::BehindFive),
    Fault::WrongPorts(Ports::BehindEight),
    Fault::WrongPorts(Ports::BehindAll),
    Fault::WrongPorts(Ports::KeptAtLeave),
    Fault::WrongPorts(Ports::KeptForNext),
    Fault::WrongPorts(Ports::ShareResets),
    Fault::WrongPorts(Ports::ShareRefuses),
    Fault::WrongPorts(Ports::OrderAny),
    Fault::WrongPorts(Ports::OrderClassOne),
    Fault::WrongPorts(Ports::OrderUpToTwo),
    Fault::WrongPorts(Ports::OrderStillZero),
    Fault::WrongPorts(Ports::OrderLowBits),
    Fault::WrongPorts(Ports::OrderSpareFree),
    Fault::WrongPorts(Ports::OrderUnusedFree),
    Fault::WrongPorts(Ports::ShortByAll),
    Fault::WrongPorts(Ports::ShortFirstOnly),
    Fault::WrongPorts(Ports::ShortSecondOnly),
    Fault::WrongPorts(Ports::ShortBySum),
    Fault::WrongPorts(Ports::ShortByOther),
    Fault::WrongPorts(Ports::ShortIfBoth),
    Fault::WrongPorts(Ports::ShortByGone),
    Fault::WrongPorts(Ports::ShortIfEmpty),
    Fault::WrongPorts(Ports::FirstWritten),
    Fault::WrongPorts(Ports::AllOnFirst),
    Fault::WrongPorts(Ports::Exchanged),
    Fault::WrongPorts(Ports::BySupplier),
    Fault::WrongPorts(Ports::Gaps),
    Fault::WrongPorts(Ports::ByClient),
    Fault::WrongPorts(Ports::ByArrival),
    Fault::WrongPorts(Ports::ClearsRest),
    Fault::WrongPorts(Ports::CountsExchanged),
    Fault::WrongPorts(Ports::FirstTotal),
    Fault::WrongPorts(Ports::SecondTotal),
    Fault::WrongPorts(Ports::RefusedCounts),
    Fault::WrongPorts(Ports::SecondZero),
    Fault::WrongPorts(Ports::SecondTwice),
    Fault::WrongPorts(Ports::PortByPort),
    Fault::WrongPorts(Ports::FirstPicks),
    Fault::WrongPorts(Ports::FirstAmongEqual),
    Fault::WrongPorts(Ports::TakesTurns),
    Fault::WrongPorts(Ports::OwnBalances),
    Fault::WrongPorts(Ports::ReadKeeps),
    Fault::WrongPorts(Ports::ReadPutsOne),
    Fault::WrongPorts(Ports::WriteRefuses),
    Fault::WrongPorts(Ports::WriteMarks),
    Fault::WrongPorts(Ports::WriteLeavesOut),
    Fault::WrongPorts(Ports::SameCompares),
    Fault::WrongHours(Hours::EndIncluded),
    Fault::WrongHours(Hours::StartExcluded),
    Fault::WrongHours(Hours::LastMinuteAccepted),
    Fault::WrongHours(Hours::EndOfWeekRefused),
    Fault::WrongHours(Hours::EmptyAccepted),
    Fault::WrongHours(Hours::WrapsAround),
    Fault::WrongHours(Hours::MinutesAreTwo),
    Fault::WrongHours(Hours::NotWholeAccepted),
    Fault::WrongHours(Hours::RootAccepted),
    Fault::WrongHours(Hours::RootIsFive),
    Fault::WrongHours(Hours::AbsentAccepted),
    Fault::WrongHours(Hours::AbsentIsThree),
    Fault::WrongHours(Hours::OutsideIsTwo),
    Fault::WrongHours(Hours::TouchingOverlap),
    Fault::WrongHours(Hours::OverlapAllowed),
    Fault::WrongHours(Hours::OverlapAcross),
    Fault::WrongHours(Hours::NeighboursOnly),
    Fault::WrongHours(Hours::DepthsIgnored),
    Fault::WrongHours(Hours::RootDepthIgnored),
    Fault::WrongHours(Hours::SortsIgnored),
    Fault::WrongHours(Hours::ParentsIgnored),
    Fault::WrongHours(Hours::DiskRateIgnored),
    Fault::WrongHours(Hours::MoreInTable),
    Fault::WrongHours(Hours::MoreInPlan),
    Fault::WrongHours(Hours::PortsCompared),
    Fault::WrongHours(Hours::KindsCompared),
    Fault::WrongHours(Hours::SharesCompared),
    Fault::WrongHours(Hours::BalancesCompared),
    Fault::WrongHours(Hours::WaitingCompared),
    Fault::WrongHours(Hours::LimitsByTable),
    Fault::WrongHours(Hours::NarrowShares),
    Fault::WrongHours(Hours::WideShares),
    Fault::WrongHours(Hours::ZeroShare),
    Fault::WrongHours(Hours::ShareIsSeventeen),
    Fault::WrongHours(Hours::FixedHereOnly),
    Fault::WrongHours(Hours::StatedHereOnly),
    Fault::WrongHours(Hours::StartsOnly),
    Fault::WrongHours(Hours::OneAtATime),
    Fault::WrongHours(Hours::PlanCounted),
    Fault::WrongHours(Hours::FixedUnderRoot),
    Fault::WrongHours(Hours::WeightsCounted),
    Fault::WrongHours(Hours::FixedAtLeast),
    Fault::WrongHours(Hours::StatedAtLeast),
    Fault::WrongHours(Hours::EarlierMinute),
    Fault::WrongHours(Hours::MinuteBeforeTable),
    Fault::WrongHours(Hours::PlanBeforeMinute),
    Fault::WrongHours(Hours::WindowsBeforePlan),
    Fault::WrongHours(Hours::TimetableBeforePlan),
    Fault::WrongHours(Hours::ShareBeforeTimetable),
    Fault::WrongHours(Hours::FirstWindow),
    Fault::WrongHours(Hours::FixedBeforeShare),
    Fault::WrongHours(Hours::StatedBeforeFixed),
    Fault::WrongHours(Hours::PlanIsSeventeen),
    Fault::WrongHours(Hours::AnyOrder),
    Fault::WrongHours(Hours::FirstEditionOnly),
    Fault::WrongHours(Hours::KindKept),
    Fault::WrongHours(Hours::ShareKept),
    Fault::WrongHours(Hours::OutsideKept),
    Fault::WrongHours(Hours::RatesKept),
    Fault::WrongHours(Hours::ChildrenOnly),
    Fault::WrongHours(Hours::BalancesEmptied),
    Fault::WrongHours(Hours::PortsReset),
    Fault::WrongHours(Hours::RequestsDropped),
    Fault::WrongHours(Hours::WrittenFirst),
    Fault::WrongHours(Hours::AnswersMinute),
];

impl Fault {
    /// Whether only wild runs can show the fault. The others show in clean
    /// runs too.
    pub fn needs_wild_runs(self) -> bool {
        match self {
            Fault::PlanOrderFirst
            | Fault::IgnoresOffsets
            | Fault::WritesByNumber
            | Fault::SameForgetsDepths
            | Fault::OrdersBySize
            | Fault::WrongLost(_)
            | Fault::WrongEditions(_)
            | Fault::LacksClause(_) => true,
            Fault::WrongStated(wrong) => wrong.needs_wild_runs(),
            Fault::WrongPorts(wrong) => wrong.needs_wild_runs(),
            // Only there a table may be out of order.
            Fault::WrongHours(wrong) => wrong == Hours::MinuteBeforeTable,
            _ => false,
        }
    }
}

/// A controller with a fault.
#[derive(Clone, Debug)]
pub struct Faulty {
    fault: Fault,
    /// For [`Fault::AllAtOnce`]: it has dispatched.
    fired: bool,
    /// The table as this controller last left it.
    own: Vec<i64>,
    /// The table before this controller last changed its tree, at first a zeroed
    /// one.
    before: Vec<i64>,
    /// For [`Ports::KeptForNext`]: the ports of the clients that left, by number.
    left: [Option<i64>; NODES],
}

impl Faulty {
    /// A controller with that fault.
    pub fn new(fault: Fault) -> Faulty {
        let (own, before) = (Vec::new(), vec![0; TABLE_LEN]);
        Faulty { fault, fired: false, own, before, left: [None; NODES] }
    }

    fn has(&self, fault: Fault) -> bool {
        self.fault == fault
    }

    /// Refusal 1. A table that this controller left itself is taken as it is:
    /// many faults put it out of order, and must not stop there. A lacking
    /// clause shows by a refusal that no call has.
    fn check(&self, table: &[i64]) -> Answer<()> {
        order::check_length(table)?;
        match self.fault {
            Fault::LacksClause(clause) if failing(table) == [clause] => Err(0),
            _ if table == self.own => Ok(()),
            _ => require(faulty_parts::in_order(self.fault, table), NOT_IN_ORDER),
        }
    }

    /// A call that may change the table.
    fn change<T>(
        &mut self,
        table: &mut [i64],
        body: impl FnOnce(&mut Faulty, &mut [i64]) -> Answer<T>,
    ) -> Answer<T> {
        self.check(table)?;
        let before = table.to_vec();
        let answer = body(self, table);
        if !calls::same(&before, table) {
            self.before = before;
        }
        self.own = table.to_vec();
        answer
    }

    /// Renews the rates after a change in the fault's way. The table comes with the
    /// right rates.
    fn renew(&self, change: &Change, table: &mut [i64]) {
        match self.fault {
            Fault::WeighsWholeRate => faulty_parts::renew_on_whole_rate(table),
            Fault::GivesRemainder => faulty_parts::give_remainder(table),
            Fault::WrongRenewal(wrong) => faulty_renewals::renew(wrong, change, table),
            Fault::WrongStated(wrong) => faulty_stated::renew(wrong, change, table),
            _ => {}
        }
    }
}

/// The bodies of the calls that change the table.
impl Faulty {
    fn join_body(&mut self, table: &mut [i64], new: &NewNode) -> Answer<i64> {
        let before = table.to_vec();
        let answer = match self.fault {
            Fault::WrongStated(wrong) => faulty_stated::join(wrong, table, new),
            Fault::WrongPorts(wrong) => {
                let left = node_number(new.node).and_then(|node| self.left[node]);
                faulty_ports::join(wrong, table, new, left)
            }
            _ => calls::join(table, new),
        };
        if self.has(Fault::DepthsBeforeShares) && answer == Err(SHARES_ABOVE) {
            let weighted = NewNode { kind: WEIGHTED, ..*new };
            return calls::join(&mut table.to_vec(), &weighted).and(answer);
        }
        answer?;
        if self.has(Fault::FullBucket) {
            set(table, new.node as usize, BALANCE, new.depth * GRAINS);
        }
        let node = new.node as usize;
        self.renew(&Change { cause: Cause::Join, before: &before, node }, table);
        answer
    }

    fn leave_body(&mut self, table: &mut [i64], node: i64) -> Answer<i64> {
        let before = table.to_vec();
        let mut answer = calls::leave(table, node);
        if self.has(Fault::ForgivesDebt) && answer == Err(IN_DEBT) {
            set(table, node as usize, BALANCE, 0);
            answer = calls::leave(table, node);
        }
        answer?;
        if self.has(Fault::KeepsRecord) {
            table.copy_from_slice(&before);
            set(table, node as usize, SORT, UNUSED);
        }
        if self.has(Fault::WrongPorts(Ports::KeptAtLeave)) {
            table[at(node as usize, PORT)] = before[at(node as usize, PORT)];
        }
        if is_client(&before, node as usize) {
            self.left[node as usize] = Some(before[at(node as usize, PORT)]);
        }
        if self.has(Fault::KeepsRates) {
            for other in (0..NODES).filter(|&other| other != node as usize) {
                table[at(other, RATE)] = before[at(other, RATE)];
            }
        }
        let node = node as usize;
        self.renew(&Change { cause: Cause::Leave, before: &before, node }, table);
        answer
    }

    fn change_share_body(
        &mut self,
        table: &mut [i64],
        node: i64,
        kind: i64,
        share: i64,
    ) -> Answer<i64> {
        let before = table.to_vec();
        let answer = match self.fault {
            Fault::WrongStated(wrong) => {
                faulty_stated::change_share(wrong, table, node, kind, share)
            }
            Fault::WrongPorts(wrong) => faulty_ports::change_share(wrong, table, node, kind, share),
            _ => calls::change_share(table, node, kind, share),
        };
        if self.has(Fault::CountsOldShare) && answer.is_ok() && kind == FIXED {
            let class = parent(&before, node as usize).unwrap_or(ROOT);
            let shares = children(&before, class).map(|child| share_of_kind(&before, child, FIXED));
            if shares.sum::<i64>() + share > MAX_SHARE {
                table.copy_from_slice(&before);
                return Err(SHARES_ABOVE);
            }
        }
        answer?;
        let node = node as usize;
        self.renew(&Change { cause: Cause::Share, before: &before, node }, table);
        answer
    }

    fn change_rate_body(&mut self, table: &mut [i64], rate: i64) -> Answer<i64> {
        let before = table.to_vec();
        let answer = match self.fault {
            Fault::WrongStated(wrong) => faulty_stated::change_rate(wrong, table, rate),
            _ => calls::change_rate(table, rate),
        }?;
        self.renew(&Change { cause: Cause::Rate, before: &before, node: ROOT }, table);
        Ok(answer)
    }

    fn set_minute_body(
        &mut self,
        table: &mut [i64],
        plan: &[u8],
        windows: &[i64],
        minute: i64,
    ) -> Answer<i64> {
        let before = table.to_vec();
        let wrong = match self.fault {
            Fault::WrongHours(wrong) => Some(wrong),
            _ => None,
        };
        let answer = faulty_hours::set_minute(wrong, table, plan, windows, minute)?;
        self.renew(&Change { cause: Cause::Minute, before: &before, node: ROOT }, table);
        Ok(answer)
    }

    fn request_body(&mut self, table: &mut [i64], client: i64, tag: i64, size: i64) -> Answer<i64> {
        let before = table.to_vec();
        let arrival = faulty_parts::request(self.fault, table, client, tag, size)?;
        let full = get(table, client as usize, WAITING) == QUEUE_LEN as i64;
        let answer = match self.fault {
            Fault::FullTooEarly if full => Err(QUEUE_FULL),
            Fault::RefusesRequests => Err(OUTSIDE_LIMITS),
            Fault::AnswersAlike => Ok(1),
            _ => Ok(arrival),
        };
        if answer.is_err() || self.has(Fault::ForgetsRequests) {
            table.copy_from_slice(&before);
        }
        answer
    }

    fn tick_body(&mut self, table: &mut [i64], lists: Lists) -> Answer<Counts> {
        let waits = waiting_in_all(table) > 0;
        let judged = faulty_ports::room_judged(self.fault, table, &lists);
        if let (Fault::WrongPorts(Ports::FirstWritten), Err(number)) = (self.fault, judged) {
            faulty_ports::write_first(table, lists);
            return Err(number);
        }
        judged?;
        let gone: Vec<Dispatched> = match self.fault {
            Fault::AllAtOnce if self.fired => Vec::new(),
            Fault::AllAtOnce => {
                self.fired = waits;
                faulty_parts::dispatch_all(table)
            }
            Fault::NamesNobody => faulty_parts::dispatch_all_from_nobody(table),
            Fault::WrongPorts(Ports::OwnBalances) => faulty_ports::tick_of_each(table),
            fault => faulty_parts::tick(fault, table),
        };
        let [first, second] = faulty_ports::listed(self.fault, table, gone, lists);
        Ok([first + i64::from(self.has(Fault::InventsCount)), second])
    }
}

impl Controller for Faulty {
    fn start(&mut self) {
        *self = Faulty::new(self.fault);
    }

    fn open(&mut self, table: &mut [i64], rate: i64, depth: i64) -> Answer<i64> {
        Engine.open(table, rate, depth)
    }

    fn join(&mut self, table: &mut [i64], new: &NewNode) -> Answer<i64> {
        self.change(table, |this, table| this.join_body(table, new))
    }

    fn leave(&mut self, table: &mut [i64], node: i64) -> Answer<i64> {
        self.change(table, |this, table| this.leave_body(table, node))
    }

    fn change_share(&mut self, table: &mut [i64], node: i64, kind: i64, share: i64) -> Answer<i64> {
        self.change(table, |this, table| this.change_share_body(table, node, kind, share))
    }

    fn change_rate(&mut self, table: &mut [i64], rate: i64) -> Answer<i64> {
        self.change(table, |this, table| this.change_rate_body(table, rate))
    }

    fn request(&mut self, table: &mut [i64], client: i64, tag: i64, size: i64) -> Answer<i64> {
        self.change(table, |this, table| this.request_body(table, client, tag, size))
    }

    fn tick(&mut self, table: &mut [i64], lists: Lists) -> Answer<Counts> {
        if !self.has(Fault::WrongPorts(Ports::RefusedCounts)) {
            return self.change(table, |this, table| this.tick_body(table, lists));
        }
        // Counts that are written show by a refusal that no call has.
        let told = with_lent_counts(|counts| {
            let answer = self.change(table, |this, table| this.tick_body(table, lists));
            *counts = answer.unwrap_or_default();
            answer.map_or_else(|number| -number, |_| 0)
        });
        told.unwrap_or(Err(0))
    }

    fn look(&mut self, table: &[i64], node: i64) -> Answer<Seen> {
        self.check(table)?;
        let [rate, balance, waiting, right] = calls::look(table, node)?;
        let lost = match self.fault {
            Fault::WrongLost(Lost::FromBefore) if table == self.own => {
                rates::lost_grains(&self.before, node as usize)
            }
            Fault::WrongLost(misread) => faulty_parts::lost_grains(misread, table, node as usize),
            _ => right,
        };
        Ok([rate, balance, waiting, lost])
    }

    fn same(&mut self, first: &[i64], second: &[i64]) -> Answer<bool> {
        self.check(first)?;
        self.check(second)?;
        if self.has(Fault::WrongPorts(Ports::SameCompares)) {
            let are_equal = |node: usize| get(first, node, PORT) == get(second, node, PORT);
            return Ok(calls::same(first, second) && (0..NODES).all(are_equal));
        }
        if !self.has(Fault::SameForgetsDepths) {
            return Ok(calls::same(first, second));
        }
        let mut first = first.to_vec();
        for node in 0..NODES {
            set(&mut first, node, DEPTH, get(second, node, DEPTH));
        }
        Ok(calls::same(&first, second))
    }

    fn plan_read(&mut self, bytes: &[u8], table: &mut [i64]) -> Answer<i64> {
        order::check_length(table)?;
        faulty_plans::read(self.fault, bytes, table)
    }

    fn plan_write(&mut self, table: &[i64], edition: i64, buffer: &mut [u8]) -> Answer<i64> {
        if self.has(Fault::WrongEditions(Editions::NumberBeforeOrder)) {
            faulty_plans::edition_told(self.fault, edition)?;
        }
        self.check(table)?;
        faulty_plans::write(self.fault, table, edition, buffer)
    }

    fn plan_check(&mut self, bytes: &[u8]) -> i64 {
        let mut table = [0; TABLE_LEN];
        match self.plan_read(bytes, &mut table) {
            Ok(edition) if self.has(Fault::WrongEditions(Editions::CheckSays)) => edition,
            Ok(_) => 0,
            Err(number) => number,
        }
    }

    fn set_minute(
        &mut self,
        table: &mut [i64],
        plan: &[u8],
        windows: &[i64],
        minute: i64,
    ) -> Answer<i64> {
        if self.has(Fault::WrongHours(Hours::MinuteBeforeTable)) {
            require((0..WEEK).contains(&minute), OUTSIDE_LIMITS)?;
        }
        self.change(table, |this, table| this.set_minute_body(table, plan, windows, minute))
    }
}
