/*
 * Hierarchical disk sharing: the calls on an account table, for C and C++.
 *
 * docs/MANUAL.md explains what the calls do, with examples; docs/PLAN.md has the bytes of a plan; examples/firmware.c
 * is a whole program.
 *
 * ANSWERS. Each call answers 0 or more where it is accepted, else the negated number of the first cause that turns it
 * back: -HDS_NOT_THERE is "node or parent not there".
 *
 *     !! hds_plan_check alone answers the number itself: 0 for a good plan, HDS_PLAN_WRONG and not -HDS_PLAN_WRONG
 *     !! for a wrong one, as a uint32_t. Testing it for "below 0", or negating it without a cast, accepts every plan.
 *     !! hds_plan_judge, below, answers 0 or the negated number.
 *
 * A refused call leaves every buffer as it came. Tables, lists and plans of any length and contents and arguments of
 * any size are safe. These are the caller's to see to: a pointer is not null, also where the length is 0; it is
 * aligned and points to as many numbers (or bytes) as the length says, look's to HDS_SEEN_LENGTH and tick's counts to
 * HDS_PORTS; the buffers of one call do not overlap; one call at a time writes a buffer; the stack is deep enough.
 *
 * UNITS. A token is 1 KiB, 1000 grains a token. Tokens: depths, sizes, costs. Grains: balances. Grains per tick: rates,
 * lost grains.
 *
 * COST. A request is charged more than its size, since the head moves for it: hds_cost gives the tokens. The dispatch
 * lists give sizes.
 *
 * PORTS. A cabinet can have two hosts. A client is on the port that it joined with, and its dispatches stand on that
 * port's list. Disk, table, balances and who goes when are one for both ports.
 *
 * HOURS. Shares can follow a timetable of the week. The calls have no clock: the firmware tells hds_set_minute which
 * minute it is, counted from a minute 0 of its own choice.
 *
 * THE TABLE is HDS_TABLE_LENGTH numbers of 64 bits that the caller hands to each call and keeps between the calls. It
 * holds no pointers, and the calls keep nothing outside it: a copy of it is a table like the first.
 *   In memory    an array of int64_t, aligned to 8 bytes.
 *   On disk      its HDS_TABLE_BYTES bytes as they are, each number low byte first. There is no checksum: the calls
 *                test that a table is in order, not that it is the one that was stored, nor by which version. Keep a
 *                checksum and HDS_VERSION_MAJOR beside it; HDS_OLDEST_TABLE_VERSION says which versions fit. A copied
 *                or stored table keeps its ports.
 *   One writer   While a call that may write a table runs, no other call on that table may. Calls that only read it
 *                (look, same, plan write) may run side by side, and so may calls on different buffers. An interrupt
 *                or signal handler counts as another thread.
 *   A stop       A call judges before it writes, so a refused one has written nothing. A program that is stopped in
 *                an accepted call leaves the table with a part of what the call writes: a stop in a tick leaves some
 *                balances raised and others not, requests gone that stand only in a list, and the counts written or
 *                not. Every call is safe on such a table, and most such tables pass as in order. Where a table must
 *                outlive a stop, make the call on a copy and then point to the copy; the manual has the steps.
 *
 * LINKING. libcabinet.a has all calls but hds_plan_check, which is in libplan.a; `tools/build cabinet plan` writes
 * them to target/staticlib/. They need memcpy and memset, libplan.a memset alone, and nothing else, have no data that is
 * written, use no heap, no recursion, no floating point, no red zone and no registers beyond SSE2, and can stand at any
 * address.
 */
#ifndef HDS_H
#define HDS_H

#if !defined(__x86_64__) || defined(__ILP32__) || defined(_WIN32)
#error "hds.h: the archives are for x86-64 with 64-bit pointers and the System V calling convention"
#endif
#if defined(__BYTE_ORDER__) && __BYTE_ORDER__ != __ORDER_LITTLE_ENDIAN__
#error "hds.h: the archives are for low byte first"
#endif

#include <stddef.h>
#include <stdint.h>

#ifdef __cplusplus
extern "C" {
#endif

/*
 * The version of this header and of the archives that come with it. The first number rises when what a call takes,
 * answers or writes, or what a table holds, changes; the second when something is added. Nothing compares them at run
 * time. CHANGES.md says for each version what changed, what a caller does about it, and which stored tables and plans
 * can be used.
 *
 * A stored table is one of this version where it was stored by version HDS_OLDEST_TABLE_VERSION to HDS_VERSION_MAJOR.
 */
#define HDS_VERSION_MAJOR 6
#define HDS_VERSION_MINOR 2
#define HDS_VERSION "6.2"
#define HDS_OLDEST_TABLE_VERSION 2

/* The table: a header, then a record for each node. */
#define HDS_TABLE_LENGTH 2568
#define HDS_TABLE_BYTES 20544
#define HDS_HEADER_LENGTH 8
#define HDS_RECORD_LENGTH 40
#define HDS_NODES 64

/* Node numbers: 0 is the root, the others are the caller's choice. */
#define HDS_ROOT 0
#define HDS_LAST_NODE 63

/* The lowest level of a class, and of any node. The root's level is 0. */
#define HDS_LAST_CLASS_LEVEL 3
#define HDS_LAST_LEVEL 4

/*
 * The greatest of each: HDS_WHOLE_SHARE of a fixed or weighted share, HDS_GREATEST_RATE of a stated one. The least
 * share, depth, size and disk rate is 1; another node's rate can be 0.
 */
#define HDS_WHOLE_SHARE 10000
#define HDS_GREATEST_DEPTH 1000000
#define HDS_GREATEST_RATE 1000000000
#define HDS_GREATEST_COUNT 9000000000000000000
#define HDS_MOST_WAITING 8

/* Grains in a token. */
#define HDS_GRAIN_SCALE 1000

/* The cost of the smallest request, and the size of the largest, which costs HDS_GREATEST_DEPTH; in tokens. */
#define HDS_LEAST_COST 8
#define HDS_GREATEST_SIZE (HDS_GREATEST_DEPTH - 16)

/*
 * What a request of a size of 1 to HDS_GREATEST_SIZE costs, in tokens: a constant where the size is one. Sizes up to 7
 * cost 8, up to 63 size + 4, up to 511 size + 8, larger ones size + 16. hds_cost, below, takes any size.
 */
#define HDS_COST(size) ((size) <= 7 ? 8 : (size) <= 63 ? (size) + 4 : (size) <= 511 ? (size) + 8 : (size) + 16)

/*
 * Where things stand, for one who reads a table: table[HDS_PLACE(node, HDS_RATE_AT)] is a node's rate, and
 * table[HDS_PLACE(node, HDS_WAITING_PLACE(i) + HDS_TAG_AT)] the tag of its waiting request i, 0 being the oldest.
 * table[HDS_COUNT_AT] counts the accepted requests. To write a table in any other way than by the calls is to risk
 * HDS_NOT_IN_ORDER, or a balance that nobody granted.
 */
#define HDS_PLACE(node, place) (HDS_HEADER_LENGTH + HDS_RECORD_LENGTH * (node) + (place))
#define HDS_WAITING_PLACE(i) (HDS_QUEUE_AT + HDS_REQUEST_LENGTH * (i))
#define HDS_COUNT_AT 0
#define HDS_SORT_AT 0
#define HDS_PARENT_AT 1
#define HDS_LEVEL_AT 2
#define HDS_KIND_AT 3
#define HDS_SHARE_AT 4
#define HDS_DEPTH_AT 5
#define HDS_RATE_AT 6
#define HDS_BALANCE_AT 7
#define HDS_WAITING_AT 8
#define HDS_PORT_AT 9
#define HDS_SPARE_AT 10
#define HDS_SPARE_LENGTH 6
#define HDS_QUEUE_AT 16
#define HDS_QUEUE_LENGTH 24
#define HDS_REQUEST_LENGTH 3
#define HDS_TAG_AT 0
#define HDS_SIZE_AT 1
#define HDS_ARRIVAL_AT 2

/*
 * A dispatch list: HDS_ENTRY_LENGTH numbers for each request that goes. One of HDS_LONGEST_LIST numbers is long enough
 * for either port at every tick: 63 clients, each with 8 requests waiting.
 */
#define HDS_ENTRY_LENGTH 4
#define HDS_LONGEST_LIST 2016
#define HDS_ENTRY_CLIENT 0
#define HDS_ENTRY_TAG 1
#define HDS_ENTRY_SIZE 2
#define HDS_ENTRY_SUPPLIER 3 /* who paid: the client itself or a class above it */

/*
 * A timetable: HDS_WINDOW_LENGTH numbers for each window. A window covers the minutes from its start up to, but not
 * including, its end: 0 <= start < end <= HDS_WEEK_MINUTES. Minutes are 0 to HDS_LAST_MINUTE; which one is 0,
 * such as Monday 0:00, is for the room to choose.
 */
#define HDS_WEEK_MINUTES 10080
#define HDS_LAST_MINUTE 10079
#define HDS_WINDOW_LENGTH 4
#define HDS_WINDOW_NODE 0
#define HDS_WINDOW_START 1
#define HDS_WINDOW_END 2
#define HDS_WINDOW_SHARE 3 /* by the kind that the node has in the plan */

/*
 * What look shows. Lost grains are those of a class's rate that none of its children gets, in grains per tick; they can
 * be lent.
 */
#define HDS_SEEN_LENGTH 4
#define HDS_SEEN_RATE 0
#define HDS_SEEN_BALANCE 1
#define HDS_SEEN_WAITING 2
#define HDS_SEEN_LOST 3

/*
 * Editions of a plan: hds_plan_read answers the one that it met, hds_plan_write is told one. A plan of the second begins
 * with HDS_PLAN_MARK bytes FF (hexadecimal), and can have stated shares.
 */
enum hds_edition { HDS_FIRST_EDITION = 1, HDS_SECOND_EDITION = 2 };

/*
 * Lengths in bytes. In both editions: HDS_PLAN_HEAD, HDS_PLAN_ENTRY. In the first: HDS_PLAN_BODY, and
 * HDS_PLAN_LENGTH(n) of a plan of n nodes below the root. In the second: HDS_PLAN_MARK, which stands before the head,
 * HDS_SECOND_PLAN_BODY and HDS_SECOND_PLAN_LENGTH(n). HDS_LONGEST_PLAN is enough for every plan of either.
 */
#define HDS_PLAN_HEAD 9
#define HDS_PLAN_ENTRY 4
#define HDS_PLAN_BODY 7
#define HDS_PLAN_LENGTH(n) ((size_t)(HDS_PLAN_HEAD + (HDS_PLAN_ENTRY + HDS_PLAN_BODY) * (n)))
#define HDS_PLAN_MARK 4
#define HDS_SECOND_PLAN_BODY 9
#define HDS_SECOND_PLAN_LENGTH(n) \
    ((size_t)(HDS_PLAN_MARK + HDS_PLAN_HEAD + (HDS_PLAN_ENTRY + HDS_SECOND_PLAN_BODY) * (n)))
#define HDS_LONGEST_PLAN 832

/*
 * The stack that a call needs at most, in bytes, return address included, whatever the arguments. The tests hold
 * these to the archives, by the frames in the machine code and by measuring. Plan read, plan check and set minute have a
 * table of their own on the stack. To be added are what memcpy and memset take, a dynamic linker that looks for them at
 * the first call (none with `-z now`), and signal handlers on the same stack.
 */
#define HDS_STACK_OPEN 1024
#define HDS_STACK_JOIN 10240
#define HDS_STACK_LEAVE 10240
#define HDS_STACK_CHANGE_SHARE 10240
#define HDS_STACK_CHANGE_RATE 10240
#define HDS_STACK_REQUEST 10240
#define HDS_STACK_TICK 10240
#define HDS_STACK_LOOK 10240
#define HDS_STACK_SAME 10240
#define HDS_STACK_PLAN_READ 32768
#define HDS_STACK_PLAN_WRITE 10240
#define HDS_STACK_PLAN_CHECK 32768
#define HDS_STACK_SET_MINUTE 40960
#define HDS_STACK_MOST 40960

/*
 * Sorts of node; 0 in a table is a record that is not used. Kinds of share, and how many there are. Ports, and how many
 * there are: each is also the place of its count in what hds_tick writes.
 */
enum hds_sort { HDS_UNUSED = 0, HDS_CLASS = 1, HDS_CLIENT = 2 };
enum hds_kind { HDS_FIXED = 0, HDS_WEIGHTED = 1, HDS_STATED = 2 };
#define HDS_KINDS 3
enum hds_port { HDS_FIRST_PORT = 0, HDS_SECOND_PORT = 1 };
#define HDS_PORTS 2

/* The causes of refusal: name, number, what it means. */
#define HDS_REFUSALS(X)                                                                                                  \
    X(HDS_NOT_IN_ORDER, 1, "the table is not 2568 numbers long, or it is not in order")                                  \
    X(HDS_OUTSIDE_LIMITS, 2, "a number is outside its limits, or the sort or kind is unknown")                           \
    X(HDS_NOT_THERE, 3, "the node or the parent is not there")                                                           \
    X(HDS_IN_USE, 4, "the joining number is in use")                                                                     \
    X(HDS_WRONG_NODE, 5, "the parent is a client, the request is at a class, or the node is the root")                   \
    X(HDS_LEVEL_TOO_LOW, 6, "a class cannot join under a class of level 3")                                              \
    X(HDS_SHARES_ABOVE, 7, "the fixed shares of the class would be above 10000")                                         \
    X(HDS_DEPTH_ABOVE, 8, "the children's depths would be above the class's, or the cost is above the client's depth")   \
    X(HDS_NOT_EMPTY, 9, "the leaving node has children or waiting requests")                                             \
    X(HDS_IN_DEBT, 10, "the leaving class has a balance below 0")                                                        \
    X(HDS_QUEUE_FULL, 11, "the client has 8 requests waiting")                                                           \
    X(HDS_COUNT_AT_END, 12, "the count of accepted requests is at its end")                                              \
    X(HDS_BUFFER_SHORT, 13, "a list is too short for what waits at its port, 4 numbers each, or the buffer for the plan")\
    X(HDS_PLAN_WRONG, 14, "the plan's length, count, an offset or a kind is wrong")                                      \
    X(HDS_PLAN_OUT_OF_ORDER, 15, "the plan's entries do not stand by level, then by number")                             \
    X(HDS_STATED_WRONG, 16, "stated rates above the disk's rate, or a stated node not under the root or in edition 1")   \
    X(HDS_TIMETABLE_WRONG, 17, "nodes, depths or disk rate are not the plan's, or the windows are wrong or overlap")

#define HDS_REFUSAL_CASE(name, number, text) name = number,
enum hds_refusal { HDS_REFUSALS(HDS_REFUSAL_CASE) };
#undef HDS_REFUSAL_CASE

#define HDS_LAST_REFUSAL 17

/*
 * The name and the meaning of a refusal, for logs. Both take its number, 1 to HDS_LAST_REFUSAL, which hds_plan_check
 * answers, or the negative answer of another call, which is that number negated. Give an answer only where it is below
 * 0: a positive answer of hds_request is an arrival number. For every other number they say "no refusal".
 */
static inline const char *hds_refusal_name(int64_t number)
{
#define HDS_REFUSAL_CASE(name, value, text) \
    case value:                             \
    case -(value):                          \
        return #name;
    switch (number) {
        HDS_REFUSALS(HDS_REFUSAL_CASE)
    default:
        return "no refusal";
    }
#undef HDS_REFUSAL_CASE
}

static inline const char *hds_refusal_text(int64_t number)
{
#define HDS_REFUSAL_CASE(name, value, text) \
    case value:                             \
    case -(value):                          \
        return text;
    switch (number) {
        HDS_REFUSALS(HDS_REFUSAL_CASE)
    default:
        return "no refusal";
    }
#undef HDS_REFUSAL_CASE
}

/*
 * The calls. "Refused" lists the causes in the order in which they are judged; the first that holds is answered.
 */

/*
 * Clears the table, whatever it holds, and puts in the root with an empty bucket: rate 1 to 1,000,000,000, depth 1 to
 * 1,000,000. Answers 0. Refused:
 *   HDS_NOT_IN_ORDER      the table's length (its contents are not judged)
 *   HDS_OUTSIDE_LIMITS    rate or depth
 */
int64_t hds_open(int64_t *table, size_t table_length, int64_t rate, int64_t depth);

/*
 * Joins a node, 1 to 63, under a class, with balance 0: an hds_sort, an hds_kind, a share by its kind, depth 1 to
 * 1,000,000. Fixed: ten-thousandths of what the class divides, 1 to 10,000. Weighted: a weight, 1 to 10,000. Stated: the
 * rate itself in grains per tick, 1 to 1,000,000,000, for a child of the root only; the root divides the disk's rate
 * less all stated rates, any other class its whole rate. Renews the rates of all nodes below that class, at every level;
 * all others stay, the class's own too. Answers 0. A client's depth is at least the cost of its largest request: with
 * less than HDS_LEAST_COST it joins and can never ask. The port, an hds_port, says which list of a tick has the client's
 * dispatches, until it leaves; for a class it is 0. With hds_join_class and hds_join_client, below, a compiler tells
 * sort, kind and share apart. Refused:
 *   HDS_NOT_IN_ORDER      the table
 *   HDS_OUTSIDE_LIMITS    node, parent, sort, kind, share (by its kind), depth, or port (not 0 or 1, or 1 for a class)
 *   HDS_NOT_THERE         no node has the parent's number
 *   HDS_IN_USE            a node has the joining number
 *   HDS_WRONG_NODE        the parent is a client
 *   HDS_LEVEL_TOO_LOW     a class under a class of level 3
 *   HDS_SHARES_ABOVE      the fixed shares under the parent would be above 10,000
 *   HDS_DEPTH_ABOVE       the depths of the parent's children would be above its own
 *   HDS_STATED_WRONG      a stated share under another class than the root, or stated rates would be above the disk's
 */
int64_t hds_join(int64_t *table, size_t table_length, int64_t node, int64_t parent, int64_t sort, int64_t kind,
                 int64_t share, int64_t depth, int64_t port);

/*
 * Takes a node out and renews the rates of all nodes below the parent that it had; all others stay. Answers 0. Refused:
 *   HDS_NOT_IN_ORDER      the table
 *   HDS_OUTSIDE_LIMITS    node not 0 to 63
 *   HDS_NOT_THERE         no node has this number
 *   HDS_WRONG_NODE        the node is the root
 *   HDS_NOT_EMPTY         the node has children or waiting requests
 *   HDS_IN_DEBT           the node is a class with a balance below 0
 */
int64_t hds_leave(int64_t *table, size_t table_length, int64_t node);

/*
 * Gives a node a kind and a share and renews the rates of all nodes below its parent, its own among them; all others
 * stay. Answers 0. Better take hds_set_share, below: kind and share exchanged are not always refused, weight 2 becomes
 * a stated rate of 1. Refused:
 *   HDS_NOT_IN_ORDER      the table
 *   HDS_OUTSIDE_LIMITS    node not 0 to 63, kind, or share (by its kind)
 *   HDS_NOT_THERE         no node has this number
 *   HDS_WRONG_NODE        the node is the root
 *   HDS_SHARES_ABOVE      the fixed shares under its parent would be above 10,000
 *   HDS_STATED_WRONG      a stated share under another class than the root, or stated rates would be above the disk's
 */
int64_t hds_change_share(int64_t *table, size_t table_length, int64_t node, int64_t kind, int64_t share);

/*
 * Gives the disk a rate, 1 to 1,000,000,000, and renews all rates; stated ones stay what they are. Answers 0. Refused:
 *   HDS_NOT_IN_ORDER      the table
 *   HDS_OUTSIDE_LIMITS    rate
 *   HDS_STATED_WRONG      the stated rates are above this rate
 */
int64_t hds_change_rate(int64_t *table, size_t table_length, int64_t rate);

/*
 * A request of a client, with any tag and a size of 1 or more whose cost is at most the client's depth. Answers its
 * arrival number, 1 or more. Refused:
 *   HDS_NOT_IN_ORDER      the table
 *   HDS_OUTSIDE_LIMITS    client not 0 to 63, or size below 1
 *   HDS_NOT_THERE         no node has this number
 *   HDS_WRONG_NODE        the node is a class
 *   HDS_DEPTH_ABOVE       the cost is above the client's depth
 *   HDS_QUEUE_FULL        the client has 8 requests waiting
 *   HDS_COUNT_AT_END      HDS_GREATEST_COUNT requests were accepted since the table was opened
 */
int64_t hds_request(int64_t *table, size_t table_length, int64_t client, int64_t tag, int64_t size);

/*
 * One tick. Balances grow. Each client, by rising number, sends its oldest requests as far as its own balance pays.
 * Balances are cut to the depths. Then the oldest requests borrow, one at a time: the supplier of a request is the
 * first node with enough from the client upwards; the request whose supplier is the fewest levels up goes, of several
 * the one that arrived first; then all are looked at again. So the requests go in one order, whatever their ports.
 * The first list gets those of clients on HDS_FIRST_PORT, the second those of clients on HDS_SECOND_PORT. Each gets
 * HDS_ENTRY_LENGTH numbers for each of its requests, in the order in which they go, and stays untouched beyond them.
 * counts[HDS_FIRST_PORT] and counts[HDS_SECOND_PORT] say how many there are on each. Answers 0. A list may be of length
 * 0 where nothing waits at its port; its pointer is not null all the same. A refused tick writes neither lists nor
 * counts: test the answer first, or the requests of the tick before are sent again. Refused:
 *   HDS_NOT_IN_ORDER      the table
 *   HDS_BUFFER_SHORT      a list is shorter than HDS_ENTRY_LENGTH numbers for each waiting request of the clients on its
 *                         port, however long the other is
 */
int64_t hds_tick(int64_t *table, size_t table_length, int64_t *first, size_t first_length, int64_t *second,
                 size_t second_length, int64_t counts[HDS_PORTS]);

/*
 * Shows a node: its rate, its balance, how many of its requests wait and its lost grains, at seen[HDS_SEEN_RATE] and so
 * on. It writes HDS_SEEN_LENGTH numbers. The rates of a class's children and its lost grains add up to its rate; a
 * client shows 0. Answers 0. Refused:
 *   HDS_NOT_IN_ORDER      the table
 *   HDS_OUTSIDE_LIMITS    node not 0 to 63
 *   HDS_NOT_THERE         no node has this number
 */
int64_t hds_look(const int64_t *table, size_t table_length, int64_t node, int64_t seen[HDS_SEEN_LENGTH]);

/*
 * Whether two tables have the same tree and disk rate, whatever their balances, requests and ports. Answers 1 for yes,
 * 0 for no. Refused:
 *   HDS_NOT_IN_ORDER      either table
 */
int64_t hds_same(const int64_t *first, size_t first_length, const int64_t *second, size_t second_length);

/*
 * Reads a plan of either edition: opens the table and joins the plan's entries in turn. The table may hold anything
 * before. Answers the edition that it met, an hds_edition, so never 0: test for below 0. It is HDS_SECOND_EDITION for
 * bytes that begin with HDS_PLAN_MARK bytes FF, HDS_FIRST_EDITION for all others. A plan has no ports: every client is
 * on HDS_FIRST_PORT then. As in join, a client of a depth below HDS_LEAST_COST is accepted and can never ask. Refused:
 *   HDS_NOT_IN_ORDER      the table's length (its contents are not judged)
 *   HDS_PLAN_WRONG        the plan's length, count, an offset or a kind, by its edition
 *   HDS_OUTSIDE_LIMITS to HDS_DEPTH_ABOVE    as open refuses the disk's rate and depth, then as join refuses the
 *                         first entry that it refuses
 *   HDS_STATED_WRONG      as join, for that entry
 *   HDS_PLAN_OUT_OF_ORDER all entries can be joined, but do not stand by level, then by number
 */
int64_t hds_plan_read(int64_t *table, size_t table_length, const uint8_t *plan, size_t plan_length);

/*
 * Writes the plan of a table in the edition given, an hds_edition, into a buffer, and nothing beyond it. The second
 * edition can hold every tree. Ports are not written. In the edition that hds_plan_read answered, a plan that was read
 * is written to the same bytes. Answers the plan's length in bytes. Refused:
 *   HDS_NOT_IN_ORDER      the table
 *   HDS_OUTSIDE_LIMITS    edition not 1 or 2
 *   HDS_BUFFER_SHORT      the buffer is shorter than the plan of this edition
 *   HDS_STATED_WRONG      the first edition, and a node is stated
 */
int64_t hds_plan_write(const int64_t *table, size_t table_length, int64_t edition, uint8_t *buffer,
                       size_t buffer_length);

/*
 * Checks a plan of either edition without a table. !! Answers 0 or the refusal's number itself, NOT negated: the one
 * that reading the plan into a table of HDS_TABLE_LENGTH numbers gives. It does not say the edition. Refused:
 *   HDS_PLAN_WRONG        the plan's length, count, an offset or a kind, by its edition
 *   HDS_OUTSIDE_LIMITS to HDS_DEPTH_ABOVE    as open and join refuse
 *   HDS_STATED_WRONG      as join refuses
 *   HDS_PLAN_OUT_OF_ORDER the entries do not stand by level, then by number
 */
uint32_t hds_plan_check(const uint8_t *plan, size_t plan_length);

/*
 * Sets the shares of a minute of the week, 0 to HDS_LAST_MINUTE, by a plan of either edition and a timetable. Every node
 * but the root gets the plan's kind, and inside a window of its own the window's share, else the plan's; then all rates
 * but the disk's are renewed. Balances, waiting requests, ports and the count stay. Answers 0. The windows,
 * HDS_WINDOW_LENGTH numbers each, may stand in any order, and there may be none. windows_length counts numbers: four
 * windows given as 4 are one window. It does not count bytes: the call would read beyond the list. Kinds and shares that
 * the table had make no difference: a share that was changed since is gone, and any minute can follow any other, also
 * after a restart. The whole week is judged, whichever minute is given, so what is accepted at one minute is accepted at
 * all. Plan and windows are the firmware's to keep. Do not write that plan from the table: inside a window
 * hds_plan_write takes the window's share for the plan's. Refused:
 *   HDS_NOT_IN_ORDER      the table
 *   HDS_OUTSIDE_LIMITS    minute
 *   HDS_PLAN_WRONG        the plan's own, as hds_plan_check: its length, count, an offset or a kind, by its edition
 *   HDS_OUTSIDE_LIMITS to HDS_DEPTH_ABOVE    the plan's own: as open and join refuse
 *   HDS_STATED_WRONG      the plan's own: as join refuses
 *   HDS_PLAN_OUT_OF_ORDER the plan's own: the entries do not stand by level, then by number
 *   HDS_TIMETABLE_WRONG   the table's nodes, parents, sorts, depths (the root's too) or disk rate are not the plan's; or
 *                         windows_length is no multiple of HDS_WINDOW_LENGTH, a window's minutes are wrong, its node is
 *                         the root or not there, or two windows of one node overlap (to touch is not to overlap)
 *   HDS_OUTSIDE_LIMITS    a window's share, by the kind of its node in the plan
 *   HDS_SHARES_ABOVE      at one minute or more the fixed shares under a class would be above 10,000
 *   HDS_STATED_WRONG      at one minute or more the stated rates would be above the disk's
 */
int64_t hds_set_minute(int64_t *table, size_t table_length, const uint8_t *plan, size_t plan_length,
                       const int64_t *windows, size_t windows_length, int64_t minute);

/*
 * What a request of this size costs, in tokens; it is charged HDS_GRAIN_SCALE grains for each. For a size that no
 * request can have, below 1 or above HDS_GREATEST_SIZE, INT64_MAX, which no depth reaches: compare a cost with a depth
 * before you multiply it.
 */
static inline int64_t hds_cost(int64_t size)
{
    return size < 1 || size > HDS_GREATEST_SIZE ? INT64_MAX : HDS_COST(size);
}

/* Checks a plan as hds_plan_check does, and answers 0 or the negated number. */
static inline int64_t hds_plan_judge(const uint8_t *plan, size_t plan_length)
{
    return -(int64_t)hds_plan_check(plan, plan_length);
}

/*
 * Join and change share with types that a compiler tells apart: a share is made by hds_fixed, hds_weighted or
 * hds_stated, and the sort is in the call's name. They answer as the calls above.
 */
struct hds_share {
    enum hds_kind kind;
    int64_t share;
};

/* The same for a constant table of shares: struct hds_share share = HDS_FIXED_SHARE(2500). */
#define HDS_FIXED_SHARE(ten_thousandths) {HDS_FIXED, (ten_thousandths)}
#define HDS_WEIGHTED_SHARE(weight) {HDS_WEIGHTED, (weight)}
#define HDS_STATED_SHARE(rate) {HDS_STATED, (rate)}

/* A fixed part of what the class divides, in ten-thousandths: hds_fixed(2500) is a quarter. */
static inline struct hds_share hds_fixed(int64_t ten_thousandths)
{
    struct hds_share share = HDS_FIXED_SHARE(ten_thousandths);
    return share;
}

/* A part, by weight, of what the stated and fixed shares leave. */
static inline struct hds_share hds_weighted(int64_t weight)
{
    struct hds_share share = HDS_WEIGHTED_SHARE(weight);
    return share;
}

/* A rate, in grains per tick, for a child of the root: hds_stated(300) is 300 whatever the disk's rate becomes. */
static inline struct hds_share hds_stated(int64_t rate)
{
    struct hds_share share = HDS_STATED_SHARE(rate);
    return share;
}

static inline int64_t hds_join_class(int64_t *table, size_t table_length, int64_t node, int64_t parent,
                                     struct hds_share share, int64_t depth)
{
    return hds_join(table, table_length, node, parent, HDS_CLASS, share.kind, share.share, depth, HDS_FIRST_PORT);
}

/*
 * A client on a port, HDS_FIRST_PORT or HDS_SECOND_PORT; any other number is refused. hds_join_client, below, joins it
 * on the first.
 */
static inline int64_t hds_join_client_on(int64_t *table, size_t table_length, int64_t node, int64_t parent,
                                         struct hds_share share, int64_t depth, int64_t port)
{
    return hds_join(table, table_length, node, parent, HDS_CLIENT, share.kind, share.share, depth, port);
}

static inline int64_t hds_join_client(int64_t *table, size_t table_length, int64_t node, int64_t parent,
                                      struct hds_share share, int64_t depth)
{
    return hds_join_client_on(table, table_length, node, parent, share, depth, HDS_FIRST_PORT);
}

static inline int64_t hds_set_share(int64_t *table, size_t table_length, int64_t node, struct hds_share share)
{
    return hds_change_share(table, table_length, node, share.kind, share.share);
}

/*
 * A tick of a cabinet with one host, on the first port. Answers how many were dispatched to the list. Refused as
 * hds_tick with a second list of length 0: HDS_BUFFER_SHORT also as soon as a request waits at a client on the second
 * port.
 */
static inline int64_t hds_tick_first(int64_t *table, size_t table_length, int64_t *list, size_t list_length)
{
    int64_t none[1], counts[HDS_PORTS];
    int64_t answer = hds_tick(table, table_length, list, list_length, none, 0, counts);

    return answer < 0 ? answer : counts[HDS_FIRST_PORT];
}

#ifdef __cplusplus
}
#endif

#endif
