/*
 * The experiments of figures 3(c), 4 and 5 of the paper "Hierarchical Disk
 * Sharing for Multimedia Systems", on the exported calls. An experiment is
 * data: a tree, and phases that say what each stream offers. One function runs
 * any of them. For each phase and stream it prints the part of the disk that
 * the stream has reserved, the MB/s that it got, and its part of all that was
 * dispatched in the phase. paper.out is what the second engine gives.
 */
#include <inttypes.h>
#include <stdbool.h>
#include <stdio.h>
#include <stdlib.h>

#include "hds.h"

/*
 * The disk gives 18 MB/s, and 1 MB is 1000 tokens, as the paper counts. A
 * request has 16 tokens, the paper's example, and costs 20. The 18 MB/s are
 * what the disk gives in such requests, so its rate is 20 sixteenths of that.
 * In a tick of 5 ms it gives 90 tokens of data, at a cost of 112.5. Less than
 * one request can be left over from the tick before, so fewer than 132.5 are to
 * be had, and a full queue costs 160: one stream alone can use the whole disk.
 * With a tick of 10 ms, 225, it could not.
 */
enum {
    DISK_MB_PER_SECOND = 18,
    TOKENS_PER_MB = 1000,
    TICKS_PER_SECOND = 200,
    REQUEST_TOKENS = 16,
    REQUEST_COST = HDS_COST(REQUEST_TOKENS),
    QUEUE_TOKENS = HDS_MOST_WAITING * REQUEST_TOKENS,
    QUEUE_COST = HDS_MOST_WAITING * REQUEST_COST,
    DISK_RATE = DISK_MB_PER_SECOND * TOKENS_PER_MB * HDS_GRAIN_SCALE / TICKS_PER_SECOND / REQUEST_TOKENS * REQUEST_COST,
    PHASE_SECONDS = 60,
    PHASE_TICKS = PHASE_SECONDS * TICKS_PER_SECOND,
    MOST_PHASES = 6
};

/* An offer: MB/s, or GREEDY for a stream that keeps its queue full. A stream that offers 0 asks for nothing. */
enum { GREEDY = -1 };

/* Requests are not told apart here, so all have one tag. */
enum { TAG = 0 };

/* The nodes of all experiments. The disk is the root. */
enum { DISK = HDS_ROOT, STREAM_1 = 1, STREAM_2 = 2, STREAM_3 = 3, CLASS_A = 4, CLASS_B = 5, NODES = 6 };
enum { FIRST_STREAM = STREAM_1, LAST_STREAM = STREAM_3 };

/* A class or a stream with a fixed share, in ten-thousandths of its parent's. */
struct member {
    int64_t node;
    int64_t parent;
    enum hds_sort sort;
    int64_t share;
    int64_t depth;
};

struct phase {
    const char *name;
    int64_t offer[NODES];
};

struct experiment {
    const char *title;
    int64_t disk_depth;
    struct member tree[NODES];            /* parents first; ends with a member whose node is DISK */
    struct phase phases[MOST_PHASES + 1]; /* ends with a phase without a name */
};

/*
 * Depths: a stream's bucket holds a full queue, the most that a stream can send
 * at once. The bucket of a class or of the disk holds as much as its children's
 * do together. A join allows no less, and more would only carry more tokens
 * from one phase into the next.
 */
static const struct experiment experiments[] = {
    {
        .title = "figure 3(c): streams 1 and 2 reserve 70% and 30% and offer the same",
        .disk_depth = 2 * QUEUE_COST,
        .tree = {{STREAM_1, DISK, HDS_CLIENT, 7000, QUEUE_COST}, {STREAM_2, DISK, HDS_CLIENT, 3000, QUEUE_COST}},
        .phases = {{"3 MB/s each", {[STREAM_1] = 3, [STREAM_2] = 3}},
                   {"6 MB/s each", {[STREAM_1] = 6, [STREAM_2] = 6}},
                   {"9 MB/s each", {[STREAM_1] = 9, [STREAM_2] = 9}},
                   {"12 MB/s each", {[STREAM_1] = 12, [STREAM_2] = 12}},
                   {"15 MB/s each", {[STREAM_1] = 15, [STREAM_2] = 15}},
                   {"both greedy", {[STREAM_1] = GREEDY, [STREAM_2] = GREEDY}}},
    },
    {
        .title = "figure 4: class A has stream 1, class B has streams 2 (65%) and 3 (35%)",
        .disk_depth = 3 * QUEUE_COST,
        .tree = {{CLASS_A, DISK, HDS_CLASS, 5000, QUEUE_COST},
                 {CLASS_B, DISK, HDS_CLASS, 5000, 2 * QUEUE_COST},
                 {STREAM_1, CLASS_A, HDS_CLIENT, HDS_WHOLE_SHARE, QUEUE_COST},
                 {STREAM_2, CLASS_B, HDS_CLIENT, 6500, QUEUE_COST},
                 {STREAM_3, CLASS_B, HDS_CLIENT, 3500, QUEUE_COST}},
        .phases = {{"all greedy", {[STREAM_1] = GREEDY, [STREAM_2] = GREEDY, [STREAM_3] = GREEDY}}},
    },
    {
        .title = "figure 5: class A has streams 1 (80%) and 2 (20%), class B has stream 3",
        .disk_depth = 3 * QUEUE_COST,
        .tree = {{CLASS_A, DISK, HDS_CLASS, 5000, 2 * QUEUE_COST},
                 {CLASS_B, DISK, HDS_CLASS, 5000, QUEUE_COST},
                 {STREAM_1, CLASS_A, HDS_CLIENT, 8000, QUEUE_COST},
                 {STREAM_2, CLASS_A, HDS_CLIENT, 2000, QUEUE_COST},
                 {STREAM_3, CLASS_B, HDS_CLIENT, HDS_WHOLE_SHARE, QUEUE_COST}},
        .phases = {{"0-60 s: stream 1", {[STREAM_1] = GREEDY}},
                   {"60-120 s: 1 and 2", {[STREAM_1] = GREEDY, [STREAM_2] = GREEDY}},
                   {"120-180 s: all", {[STREAM_1] = GREEDY, [STREAM_2] = GREEDY, [STREAM_3] = GREEDY}}},
    },
};

#define TABLE table, HDS_TABLE_LENGTH
#define LIST list, HDS_LONGEST_LIST

static int64_t table[HDS_TABLE_LENGTH];
static int64_t list[HDS_LONGEST_LIST];

/* Gives an answer back; a refusal ends the program. */
static int64_t accepted(const char *call, int64_t answer)
{
    if (answer < 0) {
        fprintf(stderr, "%s: refused %" PRId64 ", %s\n", call, -answer, hds_refusal_text(-answer));
        exit(EXIT_FAILURE);
    }
    return answer;
}

static void build(const struct experiment *experiment)
{
    accepted("open", hds_open(TABLE, DISK_RATE, experiment->disk_depth));
    for (const struct member *member = experiment->tree; member->node != DISK; member++) {
        struct hds_share share = hds_fixed(member->share);

        if (member->sort == HDS_CLASS)
            accepted("join", hds_join_class(TABLE, member->node, member->parent, share, member->depth));
        else
            accepted("join", hds_join_client(TABLE, member->node, member->parent, share, member->depth));
    }
}

/* One request of a stream. Answers false where the queue is full. */
static bool ask(int64_t stream)
{
    int64_t answer = hds_request(TABLE, stream, TAG, REQUEST_TOKENS);

    if (answer == -HDS_QUEUE_FULL)
        return false;
    accepted("request", answer);
    return true;
}

/*
 * What a stream may ask for before the next tick, in tokens. An offered rate
 * adds to what is left: a request that found the queue full is asked again
 * later in the phase. A greedy stream may always ask for a full queue.
 */
static int64_t credit_for_tick(int64_t offer, int64_t left)
{
    if (offer == GREEDY)
        return QUEUE_TOKENS;
    return left + offer * TOKENS_PER_MB / TICKS_PER_SECOND;
}

/*
 * Every stream asks until its credit is used or its queue is full. Among
 * requests as many steps below their supplier, what is spare goes by arrival
 * number, so the order of asking counts. The streams ask in turn, one request
 * each, again and again: no stream's requests all arrive before the others'.
 * They do so in rising number before one tick and in falling number before the
 * next: of any two streams, each is first as often as the other.
 */
static void ask_in_turn(int64_t credit[NODES], bool rising)
{
    int64_t first = rising ? FIRST_STREAM : LAST_STREAM;
    int64_t step = rising ? 1 : -1;
    bool full[NODES] = {false};
    bool asked;

    do {
        asked = false;
        for (int64_t stream = first; stream >= FIRST_STREAM && stream <= LAST_STREAM; stream += step) {
            if (full[stream] || credit[stream] < REQUEST_TOKENS)
                continue;
            if (ask(stream)) {
                credit[stream] -= REQUEST_TOKENS;
                asked = true;
            } else {
                full[stream] = true;
            }
        }
    } while (asked);
}

/* One tick. What was dispatched for a stream, in tokens, is added to what was sent for it. */
static void tick(int64_t sent[NODES])
{
    int64_t count = accepted("tick", hds_tick_first(TABLE, LIST));

    for (int64_t i = 0; i < count; i++) {
        const int64_t *entry = list + HDS_ENTRY_LENGTH * i;

        sent[entry[HDS_ENTRY_CLIENT]] += entry[HDS_ENTRY_SIZE];
    }
}

/* A phase starts without credit. Buckets and waiting requests stay as the phase before left them. */
static void run_phase(const struct phase *phase, int64_t sent[NODES])
{
    int64_t credit[NODES] = {0};

    for (int i = 0; i < PHASE_TICKS; i++) {
        for (int64_t stream = FIRST_STREAM; stream <= LAST_STREAM; stream++)
            credit[stream] = credit_for_tick(phase->offer[stream], credit[stream]);
        ask_in_turn(credit, i % 2 == 0);
        tick(sent);
    }
}

/* A quotient rounded to the nearest whole number. */
static int64_t rounded(int64_t dividend, int64_t divisor)
{
    return (dividend + divisor / 2) / divisor;
}

/* Prints a part of a whole in percent with one decimal. */
static void print_part(int64_t part, int64_t whole)
{
    int64_t tenths = whole > 0 ? rounded(part * 1000, whole) : 0;

    printf("  %7" PRId64 ".%" PRId64 "%%", tenths / 10, tenths % 10);
}

/* Prints a line for a stream: what it has reserved, and the tokens sent for it as MB/s and as part of all. */
static void print_stream(const struct phase *phase, int64_t stream, int64_t tokens, int64_t all_tokens)
{
    int64_t seen[HDS_SEEN_LENGTH];
    int64_t hundredths = rounded(tokens * 100, (int64_t)TOKENS_PER_MB * PHASE_SECONDS);

    accepted("look", hds_look(TABLE, stream, seen));
    printf("%-18s  %6" PRId64, phase->name, stream);
    print_part(seen[HDS_SEEN_RATE], DISK_RATE);
    printf("  %5" PRId64 ".%02" PRId64, hundredths / 100, hundredths % 100);
    print_part(tokens, all_tokens);
    printf("\n");
}

static void print_phase(const struct experiment *experiment, const struct phase *phase, const int64_t sent[NODES])
{
    int64_t all = 0;

    for (int64_t stream = FIRST_STREAM; stream <= LAST_STREAM; stream++)
        all += sent[stream];
    for (const struct member *member = experiment->tree; member->node != DISK; member++)
        if (member->sort == HDS_CLIENT)
            print_stream(phase, member->node, sent[member->node], all);
}

static void run(const struct experiment *experiment)
{
    build(experiment);
    printf("%s\n", experiment->title);
    printf("%-18s  %6s  %10s  %8s  %10s\n", "phase", "stream", "reserved", "got MB/s", "part");
    for (const struct phase *phase = experiment->phases; phase->name != NULL; phase++) {
        int64_t sent[NODES] = {0};

        run_phase(phase, sent);
        print_phase(experiment, phase, sent);
    }
}

int main(void)
{
    for (size_t i = 0; i < sizeof experiments / sizeof experiments[0]; i++) {
        if (i > 0)
            printf("\n");
        run(&experiments[i]);
    }
    return 0;
}
