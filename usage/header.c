/*
 * What include/hds.h itself says: names and texts of the refusals, the calls with types of their own beside the plain ones, the
 * places of what look shows, the lists and counts of the two ports, the lengths of plans in both editions, the numbers of a window
 * and the minutes of the week, and costs beside what a request is charged. It is compiled as C and as C++. Prints what fails, then
 * 'N passed, 0 failed'.
 */
#include <stdio.h>
#include <string.h>

#include "hds.h"

#define TABLE table, HDS_TABLE_LENGTH
#define PLAIN plain, HDS_TABLE_LENGTH

static int64_t table[HDS_TABLE_LENGTH], plain[HDS_TABLE_LENGTH];
static int passed, failed;

static void check(int holds, const char *what)
{
    if (!holds)
        printf("header: %s\n", what);
    *(holds ? &passed : &failed) += 1;
}

/* Both tables were treated alike: the same expected answer, the same numbers. */
static void alike(int64_t one, int64_t two, int64_t expected, const char *what)
{
    check(one == expected && two == expected && memcmp(table, plain, sizeof table) == 0, what);
}

static void refusals(void)
{
    check(strcmp(hds_refusal_name(HDS_NOT_IN_ORDER), "HDS_NOT_IN_ORDER") == 0, "name of the first");
    check(strcmp(hds_refusal_name(HDS_IN_DEBT), "HDS_IN_DEBT") == 0, "name of 10");
    check(strcmp(hds_refusal_name(HDS_LAST_REFUSAL), "HDS_TIMETABLE_WRONG") == 0, "name of the last");
    check(strstr(hds_refusal_text(HDS_IN_DEBT), "below 0") != NULL, "text of 10");
    for (int64_t number = 1; number <= HDS_LAST_REFUSAL; number++) {
        int differ = 1;

        for (int64_t before = 0; before < number; before++)
            differ &= strcmp(hds_refusal_name(before), hds_refusal_name(number)) != 0 &&
                      strcmp(hds_refusal_text(before), hds_refusal_text(number)) != 0;
        check(differ, "two refusals have one name or text");
        check(strcmp(hds_refusal_name(-number), hds_refusal_name(number)) == 0, "name of an answer");
        check(strcmp(hds_refusal_text(-number), hds_refusal_text(number)) == 0, "text of an answer");
    }
    check(strcmp(hds_refusal_name(hds_open(table, 0, 1, 1)), "HDS_NOT_IN_ORDER") == 0, "name of a call's answer");
    static const int64_t others[] = {INT64_MIN, -HDS_LAST_REFUSAL - 1, 0, HDS_LAST_REFUSAL + 1, INT64_MAX};
    for (size_t i = 0; i < sizeof others / sizeof *others; i++) {
        check(strcmp(hds_refusal_name(others[i]), "no refusal") == 0, "name of another number");
        check(strcmp(hds_refusal_text(others[i]), "no refusal") == 0, "text of another number");
    }
}

static void typed_calls(void)
{
    alike(hds_open(TABLE, 1000, 40), hds_open(PLAIN, 1000, 40), 0, "open");
    alike(hds_join_class(TABLE, 1, 0, hds_fixed(5000), 20), hds_join(PLAIN, 1, 0, HDS_CLASS, HDS_FIXED, 5000, 20, HDS_FIRST_PORT), 0,
          "hds_join_class, fixed");
    alike(hds_join_class(TABLE, 2, 1, hds_weighted(2), 10), hds_join(PLAIN, 2, 1, HDS_CLASS, HDS_WEIGHTED, 2, 10, HDS_FIRST_PORT), 0,
          "hds_join_class, weighted");
    alike(hds_join_client(TABLE, 3, 2, hds_fixed(7), 4), hds_join(PLAIN, 3, 2, HDS_CLIENT, HDS_FIXED, 7, 4, HDS_FIRST_PORT), 0,
          "hds_join_client, fixed");
    alike(hds_join_client(TABLE, 4, 2, hds_weighted(9), 5), hds_join(PLAIN, 4, 2, HDS_CLIENT, HDS_WEIGHTED, 9, 5, HDS_FIRST_PORT), 0,
          "hds_join_client, weighted");
    alike(hds_set_share(TABLE, 3, hds_weighted(8)), hds_change_share(PLAIN, 3, HDS_WEIGHTED, 8), 0, "hds_set_share");
    alike(hds_join_class(TABLE, 5, 0, hds_stated(300), 6), hds_join(PLAIN, 5, 0, HDS_CLASS, HDS_STATED, 300, 6, HDS_FIRST_PORT), 0,
          "hds_join_class, stated");
    alike(hds_join_client(TABLE, 6, 0, hds_stated(700), 7), hds_join(PLAIN, 6, 0, HDS_CLIENT, HDS_STATED, 700, 7, HDS_FIRST_PORT), 0,
          "hds_join_client, stated");
    alike(hds_set_share(TABLE, 6, hds_stated(701)), hds_change_share(PLAIN, 6, HDS_STATED, 701), -HDS_STATED_WRONG,
          "hds_set_share, stated");
    static const struct hds_share constants[] = {HDS_FIXED_SHARE(6), HDS_WEIGHTED_SHARE(3), HDS_STATED_SHARE(10)};
    alike(hds_set_share(TABLE, 4, constants[0]), hds_change_share(PLAIN, 4, HDS_FIXED, 6), 0, "HDS_FIXED_SHARE");
    alike(hds_set_share(TABLE, 4, constants[1]), hds_change_share(PLAIN, 4, HDS_WEIGHTED, 3), 0, "HDS_WEIGHTED_SHARE");
    alike(hds_set_share(TABLE, 6, constants[2]), hds_change_share(PLAIN, 6, HDS_STATED, 10), 0, "HDS_STATED_SHARE");
    alike(hds_set_share(TABLE, 1, hds_fixed(10001)), hds_change_share(PLAIN, 1, HDS_FIXED, 10001), -HDS_OUTSIDE_LIMITS,
          "hds_set_share, refused");
}

/* The answer to a request of this size at a client of this depth. */
static int64_t asked(int64_t size, int64_t depth)
{
    hds_open(TABLE, 1, HDS_GREATEST_DEPTH);
    if (hds_join_client(TABLE, 1, 0, hds_weighted(1), depth) != 0)
        return INT64_MIN;
    return hds_request(TABLE, 1, 0, size);
}

/* What the root is charged for a request of this size, in grains: the root alone can supply it. */
static int64_t charged(int64_t size)
{
    static int64_t list[HDS_ENTRY_LENGTH];

    asked(size, HDS_GREATEST_DEPTH);
    table[HDS_PLACE(HDS_ROOT, HDS_BALANCE_AT)] = (int64_t)HDS_GREATEST_DEPTH * HDS_GRAIN_SCALE;
    if (hds_tick_first(TABLE, list, HDS_ENTRY_LENGTH) != 1 || list[HDS_ENTRY_SIZE] != size)
        return INT64_MIN;
    return (int64_t)HDS_GREATEST_DEPTH * HDS_GRAIN_SCALE - table[HDS_PLACE(HDS_ROOT, HDS_BALANCE_AT)];
}

static void costs(void)
{
    static const int64_t ends[][2] = {{1, 8}, {7, 8}, {8, 12}, {63, 67}, {64, 72}, {511, 519}, {512, 528}};
    static const int64_t none[] = {INT64_MIN, -1, 0, HDS_GREATEST_SIZE + 1, INT64_MAX};

    for (size_t i = 0; i < sizeof ends / sizeof *ends; i++)
        check(hds_cost(ends[i][0]) == ends[i][1], "hds_cost at the end of a range");
    for (size_t i = 0; i < sizeof none / sizeof *none; i++)
        check(hds_cost(none[i]) == INT64_MAX, "hds_cost of a size that no request has");
    int judged = 1, paid = 1;

    for (int64_t size = 1; size <= 1024; size++) {
        judged &= asked(size, hds_cost(size)) == 1 && asked(size, hds_cost(size) - 1) == -HDS_DEPTH_ABOVE;
        paid &= charged(size) == hds_cost(size) * HDS_GRAIN_SCALE;
    }
    check(judged, "hds_cost is what a depth is compared with");
    check(paid, "hds_cost is what is charged");
    check(hds_cost(1) == HDS_LEAST_COST, "HDS_LEAST_COST");
    check(hds_cost(HDS_GREATEST_SIZE) == HDS_GREATEST_DEPTH, "HDS_GREATEST_SIZE");
    check(asked(HDS_GREATEST_SIZE, HDS_GREATEST_DEPTH) == 1, "the largest request");
    check(asked(HDS_GREATEST_SIZE + 1, HDS_GREATEST_DEPTH) == -HDS_DEPTH_ABOVE, "a larger request");
}

/* Look writes HDS_SEEN_LENGTH numbers and no more, each at its place, and none where it is refused. */
static void looks(void)
{
    static int64_t list[HDS_LONGEST_LIST];
    int64_t seen[HDS_SEEN_LENGTH + 1];

    hds_open(TABLE, 1000, 40);
    for (int64_t node = 1; node <= 3; node++)
        hds_join_client(TABLE, node, HDS_ROOT, hds_weighted(1), 8);
    hds_request(TABLE, 2, 7, 1);
    hds_tick_first(TABLE, list, HDS_LONGEST_LIST);
    for (int i = 0; i <= HDS_SEEN_LENGTH; i++)
        seen[i] = -7;
    check(hds_look(TABLE, 4, seen) == -HDS_NOT_THERE, "a node that is not there");
    for (int i = 0; i <= HDS_SEEN_LENGTH; i++)
        check(seen[i] == -7, "a refused look writes nothing");
    check(hds_look(TABLE, HDS_ROOT, seen) == 0, "look at a class");
    check(seen[HDS_SEEN_RATE] == 1000 && seen[HDS_SEEN_BALANCE] == 1000, "a class's rate and balance");
    check(seen[HDS_SEEN_WAITING] == 0 && seen[HDS_SEEN_LOST] == 1, "a class's waiting requests and lost grains");
    check(hds_look(TABLE, 2, seen) == 0, "look at a client");
    check(seen[HDS_SEEN_RATE] == 333 && seen[HDS_SEEN_BALANCE] == 333, "a client's rate and balance");
    check(seen[HDS_SEEN_WAITING] == 1 && seen[HDS_SEEN_LOST] == 0, "a client's waiting requests and lost grains");
    check(seen[HDS_SEEN_LENGTH] == -7, "look writes no further number");
}

/* Each port has its own list and count, written where a tick is accepted and nowhere else; one host needs no second list. */
static void ports(void)
{
    int64_t first[HDS_ENTRY_LENGTH + 1], second[2 * HDS_ENTRY_LENGTH + 1], counts[HDS_PORTS + 1] = {-7, -7, -7};

    for (int i = 0; i <= HDS_ENTRY_LENGTH; i++)
        first[i] = -8;
    for (int i = 0; i <= 2 * HDS_ENTRY_LENGTH; i++)
        second[i] = -9;
    hds_open(TABLE, 24000, 40);
    check(hds_join_client_on(TABLE, 1, HDS_ROOT, hds_weighted(2), 16, HDS_SECOND_PORT) == 0, "hds_join_client_on");
    check(hds_join_client_on(TABLE, 2, HDS_ROOT, hds_weighted(1), 16, INT64_C(1) << 32) == -HDS_OUTSIDE_LIMITS, "no such port");
    check(hds_join_client(TABLE, 2, HDS_ROOT, hds_weighted(1), 16) == 0, "hds_join_client");
    check(table[HDS_PLACE(1, HDS_PORT_AT)] == HDS_SECOND_PORT && table[HDS_PLACE(2, HDS_PORT_AT)] == HDS_FIRST_PORT,
          "HDS_PORT_AT");
    check(HDS_PORT_AT + 1 == HDS_SPARE_AT && HDS_SPARE_AT + HDS_SPARE_LENGTH == HDS_QUEUE_AT, "HDS_SPARE_AT");
    check(hds_tick_first(TABLE, first, 0) == 0, "hds_tick_first, nothing waits");
    hds_request(TABLE, 1, 11, 1);
    hds_request(TABLE, 1, 12, 2);
    hds_request(TABLE, 2, 21, 3);
    check(hds_tick(TABLE, first, HDS_ENTRY_LENGTH - 1, second, 2 * HDS_ENTRY_LENGTH, counts) == -HDS_BUFFER_SHORT, "the first is short");
    check(hds_tick(TABLE, first, HDS_ENTRY_LENGTH, second, 2 * HDS_ENTRY_LENGTH - 1, counts) == -HDS_BUFFER_SHORT, "the second is short");
    check(hds_tick_first(TABLE, first, HDS_ENTRY_LENGTH) == -HDS_BUFFER_SHORT, "hds_tick_first, the second port waits");
    check(counts[0] == -7 && counts[1] == -7 && first[0] == -8 && second[0] == -9, "a refused tick writes nothing");
    check(hds_tick(TABLE, first, HDS_ENTRY_LENGTH, second, 2 * HDS_ENTRY_LENGTH, counts) == 0, "hds_tick");
    check(counts[HDS_FIRST_PORT] == 1 && counts[HDS_SECOND_PORT] == 2 && counts[HDS_PORTS] == -7, "the counts");
    check(first[HDS_ENTRY_TAG] == 21 && first[HDS_ENTRY_LENGTH] == -8, "the first list");
    check(second[HDS_ENTRY_TAG] == 11 && second[HDS_ENTRY_LENGTH + HDS_ENTRY_TAG] == 12 && second[2 * HDS_ENTRY_LENGTH] == -9,
          "the second list");
}

/* The tree of typed_calls has six nodes, two of them stated; without these it can be written in both editions. */
static void plans(void)
{
    static uint8_t plan[HDS_LONGEST_PLAN];
    static const int64_t others[] = {INT64_MIN, -1, 0, 3, INT64_MAX};
    int64_t length = hds_plan_write(TABLE, HDS_SECOND_EDITION, plan, sizeof plan);

    check(length == (int64_t)HDS_SECOND_PLAN_LENGTH(6), "HDS_SECOND_PLAN_LENGTH");
    check(hds_plan_judge(plan, (size_t)length) == 0, "hds_plan_judge, accepted");
    check(hds_plan_judge(plan, (size_t)length - 1) == -HDS_PLAN_WRONG, "hds_plan_judge, refused");
    check(hds_plan_read(PLAIN, plan, (size_t)length) == HDS_SECOND_EDITION, "HDS_SECOND_EDITION");
    check(hds_plan_write(TABLE, HDS_FIRST_EDITION, plan, sizeof plan) == -HDS_STATED_WRONG, "a stated node in the first edition");
    hds_leave(TABLE, 5);
    hds_leave(TABLE, 6);
    for (size_t i = 0; i < sizeof others / sizeof *others; i++)
        check(hds_plan_write(TABLE, others[i], plan, sizeof plan) == -HDS_OUTSIDE_LIMITS, "another number is no edition");
    length = hds_plan_write(TABLE, HDS_FIRST_EDITION, plan, sizeof plan);
    check(length == (int64_t)HDS_PLAN_LENGTH(4), "HDS_PLAN_LENGTH");
    check(hds_plan_read(PLAIN, plan, (size_t)length) == HDS_FIRST_EDITION, "HDS_FIRST_EDITION");
    check(HDS_SECOND_PLAN_LENGTH(HDS_LAST_NODE) == HDS_LONGEST_PLAN, "HDS_LONGEST_PLAN");
}

/* The rate of client 1 after a minute is set. Its window gives it all of the disk, outside it has a quarter. */
static int64_t rate_at(const uint8_t *plan, size_t length, const int64_t *windows, int64_t minute)
{
    if (hds_set_minute(TABLE, plan, length, windows, HDS_WINDOW_LENGTH, minute) != 0)
        return -1;
    return table[HDS_PLACE(1, HDS_RATE_AT)];
}

/* A window has its numbers at their places, covers its start and not its end, and can end with the week; a length counts numbers. */
static void hours(void)
{
    static uint8_t plan[HDS_LONGEST_PLAN];
    int64_t windows[HDS_WINDOW_LENGTH];

    windows[HDS_WINDOW_NODE] = 1;
    windows[HDS_WINDOW_START] = 100;
    windows[HDS_WINDOW_END] = HDS_WEEK_MINUTES;
    windows[HDS_WINDOW_SHARE] = HDS_WHOLE_SHARE;
    hds_open(TABLE, 1000, 40);
    hds_join_client_on(TABLE, 1, HDS_ROOT, hds_fixed(2500), 16, HDS_SECOND_PORT);
    hds_request(TABLE, 1, 7, 1);
    size_t length = (size_t)hds_plan_write(TABLE, HDS_FIRST_EDITION, plan, sizeof plan);

    memcpy(plain, table, sizeof table);
    check(hds_set_minute(TABLE, plan, length, windows, HDS_WINDOW_LENGTH, HDS_LAST_MINUTE + 1) == -HDS_OUTSIDE_LIMITS &&
              HDS_LAST_MINUTE + 1 == HDS_WEEK_MINUTES,
          "the minute behind the week's last");
    check(hds_set_minute(TABLE, plan, length - 1, windows, HDS_WINDOW_LENGTH, 0) == -HDS_PLAN_WRONG, "the plan's own cause");
    check(hds_set_minute(TABLE, plan, length, windows, HDS_WINDOW_LENGTH - 1, 0) == -HDS_TIMETABLE_WRONG, "a window that is cut");
    windows[HDS_WINDOW_END]++;
    check(hds_set_minute(TABLE, plan, length, windows, HDS_WINDOW_LENGTH, 0) == -HDS_TIMETABLE_WRONG, "an end behind the week's");
    windows[HDS_WINDOW_END]--;
    check(memcmp(table, plain, sizeof table) == 0, "a refused set minute writes nothing");
    check(rate_at(plan, length, windows, 99) == 250 && memcmp(table, plain, sizeof table) == 0, "the minute before a window");
    check(rate_at(plan, length, windows, 100) == 1000, "the start of a window");
    check(rate_at(plan, length, windows, HDS_LAST_MINUTE) == 1000, "the last minute of the week");
    plain[HDS_PLACE(1, HDS_SHARE_AT)] = HDS_WHOLE_SHARE;
    plain[HDS_PLACE(1, HDS_RATE_AT)] = 1000;
    check(memcmp(table, plain, sizeof table) == 0, "set minute writes shares and rates alone");
    windows[HDS_WINDOW_END] = 101;
    check(rate_at(plan, length, windows, 101) == 250, "the end of a window");
    check(rate_at(plan, length, windows, 100) == 1000 && hds_set_minute(TABLE, plan, length, windows, 0, 100) == 0 &&
              table[HDS_PLACE(1, HDS_RATE_AT)] == 250,
          "no windows");
}

int main(void)
{
    char version[16];

    snprintf(version, sizeof version, "%d.%d", HDS_VERSION_MAJOR, HDS_VERSION_MINOR);
    check(strcmp(version, HDS_VERSION) == 0, "version");
    refusals();
    typed_calls();
    plans();
    looks();
    ports();
    hours();
    costs();
    printf("%d passed, %d failed\n", passed, failed);
    return failed != 0;
}
