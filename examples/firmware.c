/*
 * A cabinet's firmware in small: it checks plans, then runs one editing suite
 * with two streams and a backup beside it; then a playout desk joins. The
 * streams are at the host on the first port, backup and desk at the host on the
 * second. At the end the shares follow the hours of a week. It prints every
 * answer and every dispatch; firmware.out is worked out from documents 01 and 02
 * by hand.
 */
#include <inttypes.h>
#include <stdio.h>
#include <string.h>

#include "hds.h"

#define TABLE table, HDS_TABLE_LENGTH

static int64_t table[HDS_TABLE_LENGTH];
static int64_t lists[HDS_PORTS][HDS_LONGEST_LIST];

static void answer(const char *call, int64_t number)
{
    if (number < 0)
        printf("%s: refused %" PRId64 ", %s\n", call, -number, hds_refusal_name(-number));
    else
        printf("%s: %" PRId64 "\n", call, number);
}

static void look(int64_t node)
{
    int64_t seen[HDS_SEEN_LENGTH];
    int64_t number = hds_look(TABLE, node, seen);

    if (number < 0)
        answer("look", number);
    else
        printf("node %" PRId64 ": rate %" PRId64 ", balance %" PRId64 ", waiting %" PRId64 ", lost %" PRId64 "\n", node,
               seen[HDS_SEEN_RATE], seen[HDS_SEEN_BALANCE], seen[HDS_SEEN_WAITING], seen[HDS_SEEN_LOST]);
}

/* Hands the host at a port its list. */
static void host(int port, const int64_t *list, int64_t count)
{
    for (int64_t i = 0; i < count; i++) {
        const int64_t *entry = list + HDS_ENTRY_LENGTH * i;

        printf("  port %d: client %" PRId64 ", tag %" PRId64 ", size %" PRId64 ", supplier %" PRId64 "\n", port,
               entry[HDS_ENTRY_CLIENT], entry[HDS_ENTRY_TAG], entry[HDS_ENTRY_SIZE], entry[HDS_ENTRY_SUPPLIER]);
    }
}

/*
 * A tick with so many numbers on each list. After a refused one lists and counts are as they came: with counts that
 * are kept from tick to tick, test the answer before anything is sent. Here they begin with 0.
 */
static void tick(size_t first, size_t second)
{
    int64_t counts[HDS_PORTS] = {0, 0};

    answer("tick", hds_tick(TABLE, lists[HDS_FIRST_PORT], first, lists[HDS_SECOND_PORT], second, counts));
    for (int port = 0; port < HDS_PORTS; port++)
        host(port, lists[port], counts[port]);
}

/* Checks a plan, reads it and writes it again. */
static void plans(void)
{
    /* Disk 1000, root depth 40; client 5 under the root with weight 4 and depth 16. */
    static const uint8_t good[] = {0xE8, 0x03, 0x00, 0x00, 0x28, 0x00, 0x00, 0x00, 0x01, 0x05,
                                   0x00, 0x0D, 0x00, 0x03, 0x04, 0x00, 0x10, 0x00, 0x00, 0x00};
    uint8_t bad[sizeof good];
    uint8_t buffer[HDS_LONGEST_PLAN];

    memcpy(bad, good, sizeof good);
    bad[13] = 4; /* no kind of the first edition */
    printf("check good: %" PRIu32 "\n", hds_plan_check(good, sizeof good));
    printf("check bad: %" PRIu32 "\n", hds_plan_check(bad, sizeof bad));
    answer("read bad", hds_plan_read(TABLE, bad, sizeof bad));
    int64_t edition = hds_plan_read(TABLE, good, sizeof good);

    answer("read good", edition);
    look(0);
    look(5);
    answer("write, short buffer", hds_plan_write(TABLE, edition, buffer, sizeof good - 1));
    answer("write", hds_plan_write(TABLE, edition, buffer, sizeof buffer));
    printf("%s\n", memcmp(buffer, good, sizeof good) == 0 ? "the same bytes" : "other bytes");
}

/* Writes the plan of a tree with a stated node and two ports, and reads it into another table. */
static void save(void)
{
    static int64_t other[HDS_TABLE_LENGTH];
    uint8_t buffer[HDS_LONGEST_PLAN];

    answer("write, first edition", hds_plan_write(TABLE, HDS_FIRST_EDITION, buffer, sizeof buffer));
    int64_t length = hds_plan_write(TABLE, HDS_SECOND_EDITION, buffer, sizeof buffer);

    answer("write, second edition", length);
    answer("read", hds_plan_read(other, HDS_TABLE_LENGTH, buffer, (size_t)length));
    answer("same", hds_same(TABLE, other, HDS_TABLE_LENGTH));
    /* Plans have no ports: in the other table all are on the first. */
    printf("port of backup 4: %" PRId64 ", read from the plan: %" PRId64 "\n", table[HDS_PLACE(4, HDS_PORT_AT)],
           other[HDS_PLACE(4, HDS_PORT_AT)]);
}

/*
 * The timetable, in windows of node, start minute, end minute and share. This cabinet counts minutes from 0:00 of the day that
 * it calls the first. On that day suite 1 is rented from 9 to 18 o'clock, and desk 5 needs more from 17 to 24 o'clock.
 */
static const int64_t windows[] = {
    1, 540, 1080, 9000,  /* fixed in the plan: ten-thousandths */
    5, 1020, 1440, 4001, /* stated in the plan: a rate */
};
#define WINDOWS windows, sizeof windows / sizeof *windows

/* The plan that the timetable belongs to. */
static uint8_t plan[HDS_LONGEST_PLAN];
static size_t plan_length;

static void keep_plan(int64_t *of)
{
    int64_t length = hds_plan_write(of, HDS_TABLE_LENGTH, HDS_SECOND_EDITION, plan, sizeof plan);

    answer("write plan", length);
    plan_length = (size_t)length;
}

static void set_minute(int64_t *of, int64_t minute)
{
    printf("minute %" PRId64 ", ", minute);
    answer("set minute", hds_set_minute(of, HDS_TABLE_LENGTH, plan, plan_length, WINDOWS, minute));
}

/* The next minute at which shares can change: a start or an end, at last the end of the week. */
static int64_t next_change(int64_t minute)
{
    int64_t next = HDS_WEEK_MINUTES;

    for (size_t i = 0; i < sizeof windows / sizeof *windows; i += HDS_WINDOW_LENGTH)
        for (int at = HDS_WINDOW_START; at <= HDS_WINDOW_END; at++)
            if (windows[i + (size_t)at] > minute && windows[i + (size_t)at] < next)
                next = windows[i + (size_t)at];
    return next;
}

/*
 * A week of shares that follow the hours. What is to last is changed in the plan, on a table that is read from it: the
 * cabinet's own table has the shares of windows in it.
 */
static void hours(void)
{
    static int64_t other[HDS_TABLE_LENGTH];
    static const int64_t too_much[] = {5, 1020, 1440, 5002};

    keep_plan(table);
    for (int64_t minute = 0; minute < HDS_WEEK_MINUTES; minute = next_change(minute)) {
        set_minute(table, minute);
        look(1);
        look(5);
    }

    /* A restart at minute 1030: with a table of another minute, here of 1440; then with the plan, which has no ports. */
    memcpy(other, table, sizeof other);
    set_minute(table, 1030);
    set_minute(other, 1030);
    printf("%s\n", memcmp(other, table, sizeof other) == 0 ? "the same table" : "another table");
    answer("read", hds_plan_read(other, HDS_TABLE_LENGTH, plan, plan_length));
    set_minute(other, 1030);
    answer("same", hds_same(TABLE, other, HDS_TABLE_LENGTH));

    /* A share that is changed by hand lasts until the next set minute. */
    answer("change share of 1", hds_set_share(TABLE, 1, hds_fixed(1000)));
    look(1);
    set_minute(table, 1031);
    look(1);

    /* Desk 5 would have more than the disk from minute 1020 on: refused at every minute. */
    answer("desk above the disk", hds_set_minute(TABLE, plan, plan_length, too_much, HDS_WINDOW_LENGTH, 0));

    /* A stream leaves: the table is not the plan's until the plan is one without it. */
    answer("leave stream 3", hds_leave(TABLE, 3));
    set_minute(table, 1031);
    answer("read", hds_plan_read(other, HDS_TABLE_LENGTH, plan, plan_length));
    answer("leave stream 3", hds_leave(other, HDS_TABLE_LENGTH, 3));
    keep_plan(other);
    set_minute(table, 1031);
    look(2);
}

int main(void)
{
    static int64_t before[HDS_TABLE_LENGTH];

    look(0);
    plans();

    /* The disk: 8000 grains a tick, depth 72. Suite 1 has half of it; its streams 2 and 3 share that by weight. */
    answer("open", hds_open(TABLE, 8000, 72));
    answer("join suite 1", hds_join_class(TABLE, 1, 0, hds_fixed(5000), 40));
    answer("join stream 2", hds_join_client(TABLE, 2, 1, hds_weighted(3), 16));
    answer("join stream 3", hds_join_client(TABLE, 3, 1, hds_weighted(2), 24));
    answer("join backup 4", hds_join_client_on(TABLE, 4, 0, hds_weighted(1), 24, HDS_SECOND_PORT));
    answer("join 4 again", hds_join_client(TABLE, 4, 0, hds_weighted(1), 8));
    answer("join suite 5 on a port", hds_join(TABLE, 5, 0, HDS_CLASS, HDS_WEIGHTED, 1, 8, HDS_SECOND_PORT));
    answer("join 5, too deep", hds_join_client(TABLE, 5, 0, hds_weighted(1), 9));
    for (int64_t node = 0; node <= 5; node++)
        look(node);

    /* Stream 2 asks for 1, the backup for 7, stream 3 for 12; these cost 8, 8 and 16. At depth 16, 13 costs too much. */
    answer("cost of 1", hds_cost(1));
    answer("cost of 7", hds_cost(7));
    answer("cost of 12", hds_cost(12));
    answer("cost of 13", hds_cost(13));
    answer("request at 2", hds_request(TABLE, 2, 201, 1));
    answer("request at 4", hds_request(TABLE, 4, 401, 7));
    answer("request at 3", hds_request(TABLE, 3, 301, 12));
    answer("request at suite 1", hds_request(TABLE, 1, 101, 1));
    answer("request too large", hds_request(TABLE, 2, 202, 13));
    /* Two requests wait at the first port and one at the second: 8 numbers and 4. */
    tick(7, HDS_LONGEST_LIST);
    tick(HDS_LONGEST_LIST, 3);
    /* The disk is one step above the backup and two above stream 2, so 401 goes before 201. */
    for (int i = 0; i < 4; i++)
        tick(8, 4);
    for (int64_t node = 0; node <= 4; node++)
        look(node);

    /*
     * A change of shares is a change of the tree, and changing back undoes it. The disk's children now have fixed shares
     * alone: it loses what these leave, and two grains by rounding. The suite loses one.
     */
    for (int i = 0; i < HDS_TABLE_LENGTH; i++)
        before[i] = table[i];
    answer("change share of 4", hds_set_share(TABLE, 4, hds_fixed(2000)));
    answer("change rate", hds_change_rate(TABLE, 16003));
    for (int64_t node = 0; node <= 4; node++)
        look(node);
    answer("same", hds_same(before, HDS_TABLE_LENGTH, TABLE));
    answer("change share of 4", hds_set_share(TABLE, 4, hds_weighted(1)));
    answer("change rate", hds_change_rate(TABLE, 8000));
    answer("same", hds_same(before, HDS_TABLE_LENGTH, TABLE));

    /*
     * Playout desk 5 gets 2000 grains a tick, whatever the disk's rate becomes. Suite and backup divide the other 6000, then
     * 3001, of which one grain is lost. The disk cannot get less than 2000, nor stream 2 a stated share: it is in a suite.
     */
    answer("join desk 5, too much", hds_join_client_on(TABLE, 5, 0, hds_stated(8001), 8, HDS_SECOND_PORT));
    answer("join desk 5", hds_join_client_on(TABLE, 5, 0, hds_stated(2000), 8, HDS_SECOND_PORT));
    look(1);
    look(5);
    answer("change rate", hds_change_rate(TABLE, 5001));
    for (int64_t node = 0; node <= 5; node++)
        look(node);
    answer("change rate", hds_change_rate(TABLE, 1999));
    answer("change share of 2", hds_set_share(TABLE, 2, hds_stated(900)));
    save();

    /* Stream 2 and the backup have enough of their own; both go in one tick, each to its host. */
    answer("request at 2", hds_request(TABLE, 2, 203, 1));
    answer("request at 4", hds_request(TABLE, 4, 402, 1));
    tick(4, 4);
    for (int64_t node = 0; node <= 5; node++)
        look(node);
    /* Nothing waits at the second port, and its list may be empty. Stream 3 has enough at the second tick. */
    answer("request at 3", hds_request(TABLE, 3, 302, 1));
    for (int i = 0; i < 2; i++)
        tick(4, 0);
    answer("leave suite 1", hds_leave(TABLE, 1));
    answer("leave backup 4", hds_leave(TABLE, 4));
    hours();
    return 0;
}
