/*
 * How much stack each call uses. Each is made on a stack of its own that was filled with a pattern, on tables of
 * several shapes, accepted on one of them at least; the lowest place that no longer has the pattern tells how much.
 * It must be within the call's HDS_STACK_ bound, and the bound not far above it. Prints a line for each call, then
 * 'N passed, 0 failed'.
 */
#define _XOPEN_SOURCE 700
#include <inttypes.h>
#include <stdio.h>
#include <string.h>
#include <ucontext.h>

#include "hds.h"

#define STACK_BYTES (1 << 20)
#define PATTERN 0xA5
#define SLACK 1024
#define TABLE table, HDS_TABLE_LENGTH
#define FIRST first, HDS_LONGEST_LIST
#define SECOND second, HDS_LONGEST_LIST
#define HIGHEST_TAG INT64_MAX
#define CLIENT_DEPTH 1000
#define LARGEST_SIZE 984 /* costs a client's whole depth */
#define DAYS 7
#define DAY (HDS_WEEK_MINUTES / DAYS)

static int64_t table[HDS_TABLE_LENGTH], other[HDS_TABLE_LENGTH], seen[HDS_SEEN_LENGTH];
static int64_t first[HDS_LONGEST_LIST], second[HDS_LONGEST_LIST], counts[HDS_PORTS];
static uint8_t plan[HDS_LONGEST_PLAN], longest[HDS_LONGEST_PLAN];
static int64_t windows[HDS_WINDOW_LENGTH * HDS_LAST_NODE * DAYS];
static _Alignas(16) unsigned char stack[STACK_BYTES];
static ucontext_t here, there;
static const unsigned char *top;
static int64_t (*measured_call)(void);
static int64_t answer;

static void run(void)
{
    top = __builtin_frame_address(0);
    answer = measured_call();
}

/* The bytes of stack that a call uses. */
static int64_t used(int64_t (*call)(void))
{
    const unsigned char *lowest = stack;

    memset(stack, PATTERN, sizeof stack);
    getcontext(&there);
    there.uc_stack.ss_sp = stack;
    there.uc_stack.ss_size = sizeof stack;
    there.uc_link = &here;
    measured_call = call;
    makecontext(&there, run, 0);
    swapcontext(&here, &there);
    while (*lowest == PATTERN)
        lowest++;
    return top - lowest;
}

/*
 * A tree on all levels: classes 1, 2 and 3 below one another, clients of both ports below each class up to this number, queues
 * filled.
 */
static void grow(int64_t last, int waiting)
{
    hds_open(TABLE, HDS_GREATEST_RATE, HDS_GREATEST_DEPTH);
    for (int64_t node = 1; node <= 3; node++)
        hds_join_class(TABLE, node, node - 1, hds_fixed(5000), HDS_GREATEST_DEPTH - 100000 * node);
    for (int64_t node = 4; node <= last; node++)
        hds_join_client_on(TABLE, node, node % 4, hds_weighted(node), CLIENT_DEPTH,
                           node % 8 < 4 ? HDS_FIRST_PORT : HDS_SECOND_PORT);
    for (int i = 0; i < waiting; i++)
        for (int64_t node = 4; node <= last; node++)
            hds_request(TABLE, node, HIGHEST_TAG, LARGEST_SIZE);
}

/* A timetable with a window of each node on each day, for the tree with all nodes. Each begins at another minute of the day. */
static void fill_week(void)
{
    int64_t *window = windows;

    for (int64_t day = 0; day < DAYS; day++)
        for (int64_t node = 1; node <= HDS_LAST_NODE; node++, window += HDS_WINDOW_LENGTH) {
            window[HDS_WINDOW_NODE] = node;
            window[HDS_WINDOW_START] = DAY * day + node;
            window[HDS_WINDOW_END] = DAY * (day + 1);
            window[HDS_WINDOW_SHARE] = HDS_WHOLE_SHARE;
        }
}

static void nothing(void)
{
    memset(table, 0, sizeof table);
}

static void root_alone(void)
{
    grow(0, 0);
    for (int64_t node = 3; node >= 1; node--)
        hds_leave(TABLE, node);
}

static void half_full(void)
{
    grow(32, 4);
}

static void idle(void)
{
    grow(HDS_LAST_NODE - 1, 0);
}

static void all_but_one(void)
{
    grow(HDS_LAST_NODE - 1, HDS_MOST_WAITING - 1);
}

static void full(void)
{
    grow(HDS_LAST_NODE, HDS_MOST_WAITING);
}

static void (*const shapes[])(void) = {nothing, root_alone, half_full, idle, all_but_one, full};

static int64_t open_call(void)
{
    return hds_open(TABLE, 1000, 40);
}

static int64_t join_call(void)
{
    return hds_join(TABLE, HDS_LAST_NODE, 3, HDS_CLIENT, HDS_WEIGHTED, 1, CLIENT_DEPTH, HDS_FIRST_PORT);
}

static int64_t leave_call(void)
{
    return hds_leave(TABLE, HDS_LAST_NODE - 1);
}

static int64_t change_share_call(void)
{
    return hds_change_share(TABLE, 2, HDS_FIXED, 4000);
}

static int64_t change_rate_call(void)
{
    return hds_change_rate(TABLE, 1000);
}

static int64_t request_call(void)
{
    return hds_request(TABLE, HDS_LAST_NODE - 1, HIGHEST_TAG, LARGEST_SIZE);
}

static int64_t tick_call(void)
{
    return hds_tick(TABLE, FIRST, SECOND, counts);
}

static int64_t look_call(void)
{
    return hds_look(TABLE, HDS_ROOT, seen);
}

static int64_t same_call(void)
{
    return hds_same(TABLE, other, HDS_TABLE_LENGTH);
}

static int64_t plan_read_call(void)
{
    return hds_plan_read(TABLE, longest, sizeof longest);
}

static int64_t plan_write_call(void)
{
    return hds_plan_write(TABLE, HDS_SECOND_EDITION, plan, sizeof plan);
}

static int64_t plan_check_call(void)
{
    return hds_plan_judge(longest, sizeof longest);
}

static int64_t set_minute_call(void)
{
    return hds_set_minute(TABLE, longest, sizeof longest, windows, sizeof windows / sizeof *windows, HDS_LAST_MINUTE);
}

static const struct {
    const char *name;
    int64_t (*call)(void);
    int64_t bound;
} calls[] = {
    {"open", open_call, HDS_STACK_OPEN},
    {"join", join_call, HDS_STACK_JOIN},
    {"leave", leave_call, HDS_STACK_LEAVE},
    {"change share", change_share_call, HDS_STACK_CHANGE_SHARE},
    {"change rate", change_rate_call, HDS_STACK_CHANGE_RATE},
    {"request", request_call, HDS_STACK_REQUEST},
    {"tick", tick_call, HDS_STACK_TICK},
    {"look", look_call, HDS_STACK_LOOK},
    {"same", same_call, HDS_STACK_SAME},
    {"plan write", plan_write_call, HDS_STACK_PLAN_WRITE},
    {"plan read", plan_read_call, HDS_STACK_PLAN_READ},
    {"plan check", plan_check_call, HDS_STACK_PLAN_CHECK},
    {"set minute", set_minute_call, HDS_STACK_SET_MINUTE},
};

int main(void)
{
    const size_t count = sizeof calls / sizeof *calls;
    int failed = 0;

    full();
    memcpy(other, table, sizeof table);
    if (hds_plan_write(TABLE, HDS_SECOND_EDITION, longest, sizeof longest) != HDS_LONGEST_PLAN)
        return 1;
    fill_week();
    for (size_t i = 0; i < count; i++) {
        int64_t most = 0;
        int accepted = 0;

        for (size_t j = 0; j < sizeof shapes / sizeof *shapes; j++) {
            shapes[j]();
            int64_t bytes = used(calls[i].call);
            most = bytes > most ? bytes : most;
            accepted |= answer >= 0;
        }
        int kept = accepted && most <= calls[i].bound && calls[i].bound <= 2 * most + SLACK;
        failed += !kept;
        printf("%-12s %6" PRId64 " bytes of stack, bound %6" PRId64 "%s\n", calls[i].name, most, calls[i].bound,
               kept ? "" : ", WRONG");
    }
    printf("%zu passed, %d failed\n", count - (size_t)failed, failed);
    return failed != 0;
}
