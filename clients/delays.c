/* Downloads through a wire with delays, in virtual time and without a network. They tell how much of the seeders' capacity a depth of requests
   uses, and what a bound on endgame costs and saves. A request takes 25 ms to its seeder, and each block as long on its way back. A seeder sends
   one block at a time.

   usage: delays
   The status is 1 if a seeder waited for a request at depth 500, before it was asked for its last block. This goes for downloads whose `rush` is
   no bound. With the usual one a seeder may wait in endgame, which asks few blocks twice. */
#include "piecepick.h"
#include <stdio.h>
#include <stdlib.h>
#include <string.h>

#define BLOCK 16384u
#define PIECE 262144u
#define TOTAL 400000000u
#define PIECES ((TOTAL + PIECE - 1) / PIECE)
#define ONE_WAY 0.025 /* seconds: a round trip has 50 ms */
enum { MOST_SEEDERS = 4, ROOM = 4096, ENOUGH = 500, NO_BOUND = 4096 };

/* What is under way, or waits, the oldest first: with the time at which it comes. */
struct message {
    piecepick_answer block;
    double at;
};
struct line {
    struct message messages[ROOM];
    size_t first, count;
};

struct seeder {
    struct line sent;    /* requests and cancels on their way */
    struct line waiting; /* requests that came */
    struct line back;    /* blocks on their way back */
    struct message now;  /* the block that it sends, and when that ends */
    int is_sending, has_sent;
    double rate, idle_from, idle; /* bytes a second; how long it waited between two blocks */
};

static struct seeder seeders[MOST_SEEDERS];
static uint8_t digests[20 * PIECES];
static uint8_t zeros[PIECE];
static uint64_t requests, twice; /* of blocks: asked, and come though they were held */
static int are_deaf;             /* the seeders pass over cancels, as one does that has handed all blocks to its socket */

static void check(piecepick_status status)
{
    if (status == PIECEPICK_OK) return;
    fprintf(stderr, "delays: %s\n", piecepick_status_text(status));
    exit(2);
}

/* The generator splitmix64. */
static uint64_t random_word(void)
{
    static uint64_t state = 1;
    uint64_t word = state += 0x9e3779b97f4a7c15u;
    word = (word ^ word >> 30) * 0xbf58476d1ce4e5b9u;
    word = (word ^ word >> 27) * 0x94d049bb133111ebu;
    return word ^ word >> 31;
}

static void put(struct line *line, const piecepick_answer *block, double at)
{
    struct message *message = &line->messages[(line->first + line->count) % ROOM];
    if (line->count == ROOM) exit(2);
    message->block = *block;
    message->at = at;
    line->count++;
}

static struct message take(struct line *line)
{
    struct message message = line->messages[line->first];
    line->first = (line->first + 1) % ROOM;
    line->count--;
    return message;
}

/* A block that waits is sent no more. One that is being sent goes on. */
static void cancel(struct line *line, const piecepick_answer *block)
{
    size_t kept = 0;
    for (size_t at = 0; at < line->count; at++) {
        struct message message = line->messages[(line->first + at) % ROOM];
        if (message.block.piece == block->piece && message.block.begin == block->begin) continue;
        line->messages[(line->first + kept++) % ROOM] = message;
    }
    line->count = kept;
}

/* ---- The seeder's side. */

static void send_next(struct seeder *seeder, double now)
{
    if (seeder->is_sending || seeder->waiting.count == 0) return;
    if (seeder->has_sent) seeder->idle += now - seeder->idle_from;
    seeder->now = take(&seeder->waiting);
    seeder->now.at = now + seeder->now.block.length / seeder->rate;
    seeder->is_sending = seeder->has_sent = 1;
}

static void hear(struct seeder *seeder)
{
    struct message message = take(&seeder->sent);
    if (message.block.kind != PIECEPICK_K_CANCEL) put(&seeder->waiting, &message.block, message.at);
    else if (!are_deaf) cancel(&seeder->waiting, &message.block);
    send_next(seeder, message.at);
}

static void end_block(struct seeder *seeder)
{
    double now = seeder->now.at;
    put(&seeder->back, &seeder->now.block, now + ONE_WAY);
    seeder->is_sending = 0;
    seeder->idle_from = now;
    send_next(seeder, now);
}

/* ---- The client's side. */

static void say(piecepick_picker *picker, uint32_t worker, double now)
{
    piecepick_answer answer;
    for (;;) {
        check(piecepick_next(picker, worker, random_word(), &answer));
        if (answer.kind != PIECEPICK_K_REQUEST && answer.kind != PIECEPICK_K_CANCEL) return;
        requests += answer.kind == PIECEPICK_K_REQUEST;
        put(&seeders[worker].sent, &answer, now + ONE_WAY);
    }
}

/* The block's own peer is asked again, and the others where that may give them something. */
static void receive(piecepick_picker *picker, uint32_t worker, uint32_t count)
{
    struct message message = take(&seeders[worker].back);
    piecepick_answer answer;
    piecepick_digest digest;
    uint64_t before, after;
    check(piecepick_epoch(picker, &before));
    check(piecepick_arrived(picker, worker, message.block.piece, message.block.begin, zeros, message.block.length, &answer));
    twice += answer.kind == PIECEPICK_K_DROPPED;
    if (answer.kind == PIECEPICK_K_FULL) {
        memcpy(digest.bytes, digests + 20 * message.block.piece, sizeof digest.bytes);
        check(piecepick_settle(picker, message.block.piece, &digest, &answer));
    }
    check(piecepick_epoch(picker, &after));
    say(picker, worker, message.at);
    for (uint32_t other = 0; other < count && after != before; other++)
        if (other != worker) say(picker, other, message.at);
}

/* What happens next, by kinds: a message comes to a seeder, a block is sent, a block comes back. */
enum event { HEARS, ENDS, COMES, NOTHING };

static enum event next_event(uint32_t count, uint32_t *worker, double *now)
{
    enum event found = NOTHING;
    for (uint32_t at = 0; at < count; at++) {
        struct seeder *seeder = &seeders[at];
        double times[3];
        int is_due[3];
        times[HEARS] = seeder->sent.messages[seeder->sent.first].at;
        is_due[HEARS] = seeder->sent.count > 0;
        times[ENDS] = seeder->now.at;
        is_due[ENDS] = seeder->is_sending;
        times[COMES] = seeder->back.messages[seeder->back.first].at;
        is_due[COMES] = seeder->back.count > 0;
        for (int event = HEARS; event < NOTHING; event++)
            if (is_due[event] && (found == NOTHING || times[event] < *now)) {
                found = (enum event)event;
                *worker = at;
                *now = times[event];
            }
    }
    return found;
}

static piecepick_picker *open_for(uint32_t count, uint32_t rush)
{
    piecepick_options options = PIECEPICK_OPTIONS;
    piecepick_picker *picker = NULL;
    options.workers = count;
    options.rush = rush;
    check(piecepick_open_parts(&picker, PIECE, TOTAL, digests, sizeof digests, &options));
    return picker;
}

static const uint64_t BLOCKS = (TOTAL + BLOCK - 1) / BLOCK;

/* All seeders come, show all pieces, and may be asked for so many blocks at a time. */
static void join_all(piecepick_picker *picker, const double *rates, uint32_t count, uint32_t depth)
{
    static uint8_t flags[(PIECES + 7) / 8];
    piecepick_answer answer;
    for (uint32_t piece = 0; piece < PIECES; piece++) flags[piece / 8] = (uint8_t)(flags[piece / 8] | 0x80 >> piece % 8);
    for (uint32_t at = 0; at < count; at++) {
        seeders[at].rate = rates[at];
        check(piecepick_join(picker, at, &answer));
        check(piecepick_bits(picker, at, flags, sizeof flags, &answer));
        check(piecepick_unchoke(picker, at, &answer));
        check(piecepick_depth(picker, at, depth, &answer));
        if (answer.kind != PIECEPICK_K_QUIET) exit(2);
    }
}

/* A whole download. Gives the seconds that it takes. */
static double download(const double *rates, uint32_t count, uint32_t rush, uint32_t depth)
{
    piecepick_picker *picker = open_for(count, rush);
    uint32_t worker = 0, done = 0;
    double now = 0;
    memset(seeders, 0, sizeof seeders);
    requests = twice = 0;
    join_all(picker, rates, count, depth);
    for (uint32_t at = 0; at < count; at++) say(picker, at, now);
    while (!done) {
        switch (next_event(count, &worker, &now)) {
        case HEARS: hear(&seeders[worker]); break;
        case ENDS: end_block(&seeders[worker]); break;
        case COMES: receive(picker, worker, count); break;
        case NOTHING: fprintf(stderr, "delays: nothing is under way\n"); exit(2);
        }
        check(piecepick_has_wanted(picker, &done));
    }
    piecepick_close(&picker);
    return now;
}

/* How much of the capacity a depth uses. Gives whether no seeder ever waited. */
static int try_depth(const double *rates, uint32_t count, uint32_t rush, uint32_t depth)
{
    double seconds = download(rates, count, rush, depth), idle = 0, capacity = 0;
    for (uint32_t at = 0; at < count; at++) {
        capacity += rates[at];
        idle += seeders[at].idle;
    }
    printf("    depth %3u: %6.2f s, %.3f requests a block, %5.1f%% of the capacity; ", (unsigned)depth, seconds,
           (double)requests / (double)BLOCKS, 100.0 * TOTAL / (capacity * seconds));
    if (idle > 0) printf("seeders waited for %.2f s\n", idle);
    else printf("the pipe is never the limit\n");
    return idle == 0;
}

/* What bounds on endgame cost in time, and save of blocks that come twice, where one seeder of four is slow and pipes are deep. */
static void try_endgames(void)
{
    static const double RATES[MOST_SEEDERS] = {6.5e6, 6.5e6, 6.5e6, 3.25e5};
    static const uint32_t RUSHES[] = {4, 8, 16, 32, 64, 128, NO_BOUND};
    for (are_deaf = 0; are_deaf <= 1; are_deaf++) {
        printf("three seeders of 6.5 MB a second and one of 0.3, at depth %d%s:\n", ENOUGH, are_deaf ? ", that pass over cancels" : "");
        for (size_t at = 0; at < sizeof RUSHES / sizeof *RUSHES; at++) {
            double seconds = download(RATES, MOST_SEEDERS, RUSHES[at], ENOUGH);
            printf("    rush %4u: %6.2f s, %5.2f%% of the blocks twice\n", (unsigned)RUSHES[at], seconds, 100.0 * (double)twice / (double)BLOCKS);
        }
    }
    are_deaf = 0;
}

/* The digest of so many zeros. */
static void put_digest(uint32_t piece, size_t length)
{
    uint8_t four[80];
    check(piecepick_hash_four(zeros, length, zeros, 0, zeros, 0, zeros, 0, four, sizeof four));
    memcpy(digests + 20 * piece, four, 20);
}

int main(void)
{
    static const piecepick_options USUAL = PIECEPICK_OPTIONS;
    const struct { const char *what; uint32_t count, rush; double rates[MOST_SEEDERS]; } scenes[] = {
        {"one seeder of 10 MB a second, 50 ms away, has 400 MB", 1, NO_BOUND, {1e7, 0, 0, 0}},
        {"three seeders of 10, 5 and 2 MB a second, 50 ms away, have 400 MB", 3, NO_BOUND, {1e7, 5e6, 2e6, 0}},
        {"the same three, with the usual bound on what endgame asks", 3, USUAL.rush, {1e7, 5e6, 2e6, 0}},
    };
    static const uint32_t DEPTHS[] = {5, 64, ENOUGH};
    int is_enough = 1;
    if (piecepick_abi() != PIECEPICK_ABI) return 2;
    put_digest(0, PIECE);
    for (uint32_t piece = 1; piece + 1 < PIECES; piece++) memcpy(digests + 20 * piece, digests, 20);
    put_digest(PIECES - 1, TOTAL - (size_t)(PIECES - 1) * PIECE);
    for (size_t scene = 0; scene < sizeof scenes / sizeof *scenes; scene++) {
        printf("%s:\n", scenes[scene].what);
        for (size_t at = 0; at < sizeof DEPTHS / sizeof *DEPTHS; at++) {
            int never = try_depth(scenes[scene].rates, scenes[scene].count, scenes[scene].rush, DEPTHS[at]);
            if (DEPTHS[at] == ENOUGH && scenes[scene].rush == NO_BOUND) is_enough &= never;
        }
    }
    try_endgames();
    return is_enough ? 0 : 1;
}
