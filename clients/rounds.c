/* A whole download through the C library, as `bench picker` does it in Rattle: 51 peers take turns, one of them a seed, and the others show
   half of the pieces each, drawn by a fixed generator. Where DEPTH blocks are in flight at a peer its oldest one comes, and then the peer is
   asked. Nothing is hashed.
       cc -O2 -I out rounds.c out/libpiecepick.a -o rounds && ./rounds PIECES [DEPTH [OPEN]]
   Prints how many asks, requests and arrivals there were, and the processor time of an ask with its arrival. For instructions:
       valgrind --tool=callgrind ./rounds 10000 && callgrind_annotate callgrind.out.* */
#define _POSIX_C_SOURCE 199309L
#include "piecepick.h"
#include <stdio.h>
#include <stdlib.h>
#include <string.h>
#include <time.h>

enum { PEERS = 51, SEED = PEERS - 1, BLOCK = 16384, PIECE = 16 * BLOCK, DEEPEST = 500 };

typedef struct {
    uint32_t piece, begin;
} place;

/* What the client keeps of a peer: its requests in flight whose blocks haven't come from others, the oldest first. */
typedef struct {
    place line[DEEPEST];
    uint32_t count;
    int active, unanswered;
} peer;

static piecepick_picker *picker;
static piecepick_answer answer;
static piecepick_digest digest;
static uint8_t block[BLOCK];
static peer peers[PEERS];
static uint8_t *askers; /* of each block: at how many peers it is in flight */
static uint32_t pieces, depth, complete;
static uint64_t asks, requests, arrivals, shown_by = 1, words = 2;

static void well(piecepick_status status) {
    if (status == PIECEPICK_OK) return;
    fprintf(stderr, "%s\n", piecepick_status_text(status));
    exit(1);
}

/* The next number of a splitmix64 generator. */
static uint64_t next_of(uint64_t *state) {
    uint64_t z = *state += 0x9E3779B97F4A7C15u;
    z = (z ^ (z >> 30)) * 0xBF58476D1CE4E5B9u;
    z = (z ^ (z >> 27)) * 0x94D049BB133111EBu;
    return z ^ (z >> 31);
}

static double now(void) {
    struct timespec at;
    clock_gettime(CLOCK_PROCESS_CPUTIME_ID, &at);
    return (double)at.tv_sec * 1e9 + (double)at.tv_nsec;
}

/* The digest of a piece of zeros. */
static void digest_of_zeros(void) {
    uint8_t *zeros = calloc(1, PIECE), four[80];
    if (!zeros) exit(1);
    well(piecepick_hash_four(zeros, PIECE, zeros, 0, zeros, 0, zeros, 0, four, sizeof four));
    memcpy(digest.bytes, four, sizeof digest.bytes);
    free(zeros);
}

static void open_picker(uint32_t open) {
    piecepick_options options = PIECEPICK_OPTIONS;
    uint8_t *digests = malloc(20 * (size_t)pieces);
    if (!digests) exit(1);
    options.workers = PEERS;
    options.depth = depth < 64 ? depth : 64;
    options.askers = 1024;
    options.open = open;
    options.rush = 4096;
    options.shown = 0;
    for (uint32_t piece = 0; piece < pieces; piece++) memcpy(digests + 20 * (size_t)piece, digest.bytes, 20);
    well(piecepick_open_parts(&picker, PIECE, (uint64_t)pieces * PIECE, digests, 20 * (size_t)pieces, &options));
    free(digests);
}

/* The peer is connected, shows its pieces and lets itself be asked. */
static void connect(uint32_t worker, uint8_t *flags, size_t length) {
    memset(flags, 0, length);
    for (uint32_t first = 0; first < pieces; first += 64) {
        uint64_t shown = worker == SEED ? UINT64_MAX : next_of(&shown_by);
        for (uint32_t piece = first; piece < pieces && piece < first + 64; piece++) {
            if (shown >> (piece - first) & 1) flags[piece / 8] |= (uint8_t)(0x80 >> piece % 8);
        }
    }
    well(piecepick_join(picker, worker, &answer));
    well(piecepick_bits(picker, worker, flags, length, &answer));
    well(piecepick_unchoke(picker, worker, &answer));
    if (depth > 64) well(piecepick_depth(picker, worker, depth, &answer));
    peers[worker].active = 1;
}

static void connect_all(void) {
    size_t length = (pieces + 7) / 8;
    uint8_t *flags = malloc(length);
    if (!flags) exit(1);
    for (uint32_t worker = 0; worker < PEERS; worker++) connect(worker, flags, length);
    free(flags);
}

/* Takes the request at this place out of the peer's line. */
static place taken(peer *of, uint32_t index) {
    place found = of->line[index];
    memmove(of->line + index, of->line + index + 1, (--of->count - index) * sizeof(place));
    return found;
}

/* Takes the request of a block out of the peer's line, if it is there. */
static void forget(peer *of, place came) {
    for (uint32_t index = 0; index < of->count; index++) {
        if (of->line[index].piece != came.piece || of->line[index].begin != came.begin) continue;
        taken(of, index);
        return;
    }
}

/* The oldest block that is in flight at the peer comes. In endgame others wait for it no more. */
static void oldest_comes(uint32_t worker) {
    place came = taken(&peers[worker], 0);
    uint8_t *at = &askers[came.piece * (PIECE / BLOCK) + came.begin / BLOCK];
    for (uint32_t other = 0; *at > 1 && other < PEERS; other++) forget(&peers[other], came);
    *at = 0;
    well(piecepick_arrived(picker, worker, came.piece, came.begin, block, BLOCK, &answer));
    arrivals++;
    if (answer.kind != PIECEPICK_K_FULL) return;
    well(piecepick_settle(picker, came.piece, &digest, &answer));
    complete++;
}

/* Queries for the peer, behind all cancels, whose requests are forgotten already. */
static void ask(uint32_t worker) {
    peer *of = &peers[worker];
    for (;;) {
        well(piecepick_next(picker, worker, next_of(&words), &answer));
        asks++;
        if (answer.kind != PIECEPICK_K_CANCEL) break;
    }
    of->unanswered = answer.kind != PIECEPICK_K_REQUEST;
    if (answer.kind == PIECEPICK_K_NOTHING_LEFT) of->active = 0;
    if (of->unanswered) return;
    of->line[of->count++] = (place){answer.piece, answer.begin};
    askers[answer.piece * (PIECE / BLOCK) + answer.begin / BLOCK]++;
    requests++;
}

int main(int count, char **arguments) {
    pieces = count > 1 ? (uint32_t)strtoul(arguments[1], NULL, 10) : 0;
    depth = count > 2 ? (uint32_t)strtoul(arguments[2], NULL, 10) : 5;
    if (pieces < 1 || depth < 1 || depth > DEEPEST) {
        fputs("usage: rounds PIECES [DEPTH [OPEN]], with a depth of 1 to 500\n", stderr);
        return 2;
    }
    digest_of_zeros();
    open_picker(count > 3 ? (uint32_t)strtoul(arguments[3], NULL, 10) : 0);
    connect_all();
    askers = calloc(pieces, PIECE / BLOCK);
    if (!askers) return 1;
    double begin = now();
    for (uint32_t worker = 0; complete < pieces; worker = (worker + 1) % PEERS) {
        peer *of = &peers[worker];
        if (!of->active) continue;
        if (of->count > 0 && (of->count >= depth || of->unanswered)) oldest_comes(worker);
        ask(worker);
    }
    double each = (now() - begin) / (double)asks;
    printf("asks %llu requests %llu arrivals %llu, %.0f ns an ask with its arrival\n", (unsigned long long)asks, (unsigned long long)requests,
           (unsigned long long)arrivals, each);
    free(askers);
    piecepick_close(&picker);
    return 0;
}
