/* What each call costs, at 1,000 and at 100,000 pieces of 16 blocks, with 50 peers, where nothing is kept. And what an arrival costs where the
   blocks of begun pieces are kept, in pieces of 16 to 4,096 blocks.
       cc -O2 -I out costs.c out/libpiecepick.a -o costs && ./costs
   Prints a row for each call: nanoseconds, the least of five rounds. With a number of pieces and the name of a row it makes the calls of that
   row alone, once, so that their instructions can be counted:
       valgrind --tool=callgrind --toggle-collect=piecepick_next ./costs 10000 'next, NOTHING_LEFT' */
#define _POSIX_C_SOURCE 199309L
#include "piecepick.h"
#include <stdio.h>
#include <stdlib.h>
#include <string.h>
#include <time.h>

enum { PEERS = 50, ROUNDS = 5, BLOCK = 16384, BLOCKS = 16 };

static piecepick_picker *picker;
static piecepick_answer answer;
static piecepick_digest digest;
static uint8_t *flags, *levels, block[BLOCK];
static uint32_t pieces;
static size_t flags_len;

static void well(piecepick_status status) {
    if (status == PIECEPICK_OK) return;
    fprintf(stderr, "%s\n", piecepick_status_text(status));
    exit(1);
}

static double now(void) {
    struct timespec at;
    clock_gettime(CLOCK_PROCESS_CPUTIME_ID, &at);
    return (double)at.tv_sec * 1e9 + (double)at.tv_nsec;
}

/* The digest of a piece of zeros. */
static void digest_of_zeros(void) {
    uint8_t *zeros = calloc(1, BLOCK * BLOCKS), four[80];
    if (!zeros) exit(1);
    well(piecepick_hash_four(zeros, BLOCK * BLOCKS, zeros, 0, zeros, 0, zeros, 0, four, sizeof four));
    memcpy(digest.bytes, four, sizeof digest.bytes);
    free(zeros);
}

static void open_picker(void) {
    piecepick_options options = PIECEPICK_OPTIONS;
    uint8_t *digests = malloc(20 * (size_t)pieces);
    if (!digests) exit(1);
    options.workers = PEERS + 1;
    for (uint32_t piece = 0; piece < pieces; piece++) memcpy(digests + 20 * (size_t)piece, digest.bytes, 20);
    well(piecepick_open_parts(&picker, BLOCK * BLOCKS, (uint64_t)pieces * BLOCK * BLOCKS, digests, 20 * (size_t)pieces, &options));
    free(digests);
    for (uint32_t worker = 0; worker < PEERS; worker++) {
        well(piecepick_join(picker, worker, &answer));
        well(piecepick_bits(picker, worker, flags, flags_len, &answer));
        well(piecepick_unchoke(picker, worker, &answer));
    }
}

/* Each of these makes a call, or calls that undo each other, some number of times, and says how many calls that were. */
static int come_and_go(void) {
    for (int i = 0; i < 1000; i++) {
        well(piecepick_join(picker, PEERS, &answer));
        well(piecepick_leave(picker, PEERS, &answer));
    }
    return 1000;
}
static int bits(void) {
    well(piecepick_join(picker, PEERS, &answer));
    double begin = now();
    well(piecepick_bits(picker, PEERS, flags, flags_len, &answer));
    double end = now();
    well(piecepick_leave(picker, PEERS, &answer));
    return -(int)(end - begin);
}
static int haves(void) {
    well(piecepick_haves(picker, 0, flags, flags_len, &answer));
    return 1;
}
static int have(void) {
    for (uint32_t piece = 0; piece < 1000; piece++) well(piecepick_have(picker, 0, piece, &answer));
    return 1000;
}
static int lack_and_have(void) {
    for (uint32_t piece = 0; piece < 1000; piece++) {
        well(piecepick_lack(picker, 0, piece, &answer));
        well(piecepick_have(picker, 0, piece, &answer));
    }
    return 1000;
}
static int ask_and_release(void) {
    for (int i = 0; i < 1000; i++) {
        well(piecepick_next(picker, 0, (uint64_t)i * 0x9e3779b97f4a7c15u, &answer));
        if (answer.kind != PIECEPICK_K_REQUEST) exit(1);
        well(piecepick_release(picker, 0, answer.piece, answer.begin, &answer));
    }
    return 1000;
}
/* The request was sent before the picker knew of it. */
static int count_and_release(void) {
    for (uint32_t piece = 0; piece < 1000; piece++) {
        well(piecepick_requested(picker, 6, piece, 0, &answer));
        if (answer.kind != PIECEPICK_K_IN_FLIGHT) exit(1);
        well(piecepick_release(picker, 6, piece, 0, &answer));
    }
    return 1000;
}
/* A peer that shows nothing has nothing to be asked for. */
static int nothing(void) {
    well(piecepick_join(picker, PEERS, &answer));
    well(piecepick_unchoke(picker, PEERS, &answer));
    double begin = now();
    for (uint64_t word = 0; word < 100000; word++) well(piecepick_next(picker, PEERS, word, &answer));
    double end = now();
    if (answer.kind != PIECEPICK_K_NOTHING_LEFT) exit(1);
    well(piecepick_leave(picker, PEERS, &answer));
    return -(int)((end - begin) / 100000);
}
/* The requests of forty full pipes are told late. Chokes free them. */
static int late(void) {
    enum { FIRST = 10, DEPTH = 16 };
    static piecepick_answer asked[PEERS][DEPTH];
    for (uint32_t worker = FIRST; worker < PEERS; worker++)
        for (int place = 0; place < DEPTH; place++) {
            well(piecepick_next(picker, worker, worker, &asked[worker][place]));
            if (asked[worker][place].kind != PIECEPICK_K_REQUEST) exit(1);
        }
    double begin = now();
    for (uint32_t worker = FIRST; worker < PEERS; worker++)
        for (int place = 0; place < DEPTH; place++)
            well(piecepick_late(picker, worker, asked[worker][place].piece, asked[worker][place].begin, &answer));
    double end = now();
    for (uint32_t worker = FIRST; worker < PEERS; worker++) {
        well(piecepick_choke(picker, worker, &answer));
        well(piecepick_unchoke(picker, worker, &answer));
    }
    return -(int)((end - begin) / ((PEERS - FIRST) * DEPTH));
}
/* The peer has sixteen requests, all of them late, and its depth has room for another one. */
static int ask_with_late(void) {
    const uint32_t worker = 5;
    for (int place = 0; place < 16; place++) {
        well(piecepick_next(picker, worker, 0, &answer));
        if (answer.kind != PIECEPICK_K_REQUEST) exit(1);
        well(piecepick_late(picker, worker, answer.piece, answer.begin, &answer));
    }
    well(piecepick_depth(picker, worker, 17, &answer));
    double begin = now();
    for (int i = 0; i < 1000; i++) {
        well(piecepick_next(picker, worker, (uint64_t)i * 0x9e3779b97f4a7c15u, &answer));
        if (answer.kind != PIECEPICK_K_REQUEST) exit(1);
        well(piecepick_release(picker, worker, answer.piece, answer.begin, &answer));
    }
    double end = now();
    well(piecepick_choke(picker, worker, &answer));
    well(piecepick_unchoke(picker, worker, &answer));
    return -(int)((end - begin) / 1000);
}
static int full(void) {
    do well(piecepick_next(picker, 1, 0, &answer)); while (answer.kind == PIECEPICK_K_REQUEST);
    double begin = now();
    for (int i = 0; i < 1000; i++) well(piecepick_next(picker, 1, (uint64_t)i, &answer));
    return -(int)((now() - begin) / 1000);
}
static int choke(void) {
    for (int i = 0; i < 1000; i++) {
        well(piecepick_choke(picker, 2, &answer));
        well(piecepick_unchoke(picker, 2, &answer));
    }
    return 1000;
}
static int depth(void) {
    for (uint32_t i = 0; i < 1000; i++) well(piecepick_depth(picker, 3, 5 + (i & 1), &answer));
    return 1000;
}
static int reach(void) {
    for (uint32_t i = 0; i < 1000; i++) well(piecepick_reach(picker, 3, i & 1 ? 7 : 4, &answer));
    return 1000;
}
static int alone(void) {
    for (uint32_t i = 0; i < 1000; i++) well(piecepick_alone(picker, 3, i & 1 ? 0 : 1, &answer));
    return 1000;
}
/* Eight others work alone, each at a piece of its own. */
static int ask_beside_alone(void) {
    enum { FIRST = 10, BEHIND = 18 };
    for (uint32_t worker = FIRST; worker < BEHIND; worker++) {
        well(piecepick_alone(picker, worker, 1, &answer));
        well(piecepick_next(picker, worker, worker, &answer));
        if (answer.kind != PIECEPICK_K_REQUEST) exit(1);
    }
    double begin = now();
    int calls = ask_and_release();
    double end = now();
    for (uint32_t worker = FIRST; worker < BEHIND; worker++) {
        well(piecepick_alone(picker, worker, 0, &answer));
        well(piecepick_choke(picker, worker, &answer));
        well(piecepick_unchoke(picker, worker, &answer));
    }
    return -(int)((end - begin) / calls);
}
static int set_level(void) {
    for (uint32_t i = 0; i < 1000; i++) well(piecepick_set_level(picker, i, 5, &answer));
    for (uint32_t i = 0; i < 1000; i++) well(piecepick_set_level(picker, i, 4, &answer));
    return 2000;
}
static int set_levels(void) {
    well(piecepick_set_levels(picker, levels, pieces, &answer));
    return 1;
}
static int want(void) {
    well(piecepick_want(picker, flags, flags_len, &answer));
    return 1;
}
static int in_order(void) {
    for (int i = 0; i < 1000; i++) {
        well(piecepick_set_in_order(picker, 1, &answer));
        well(piecepick_set_in_order(picker, 0, &answer));
    }
    return 2000;
}
static int in_order_from(void) {
    for (int i = 0; i < 1000; i++) {
        well(piecepick_set_in_order_from(picker, 5, &answer));
        well(piecepick_set_in_order_from(picker, 8, &answer));
    }
    return 2000;
}
static int epoch(void) {
    uint64_t number = 0;
    for (int i = 0; i < 1000; i++) well(piecepick_epoch(picker, &number));
    return 1000;
}
static int rule(void) {
    uint32_t number = 0;
    for (uint32_t i = 0; i < 1000; i++) well(piecepick_rule(picker, i, 0, &number));
    return 1000;
}
static int has_piece(void) {
    uint32_t number = 0;
    for (uint32_t i = 0; i < 1000; i++) well(piecepick_has_piece(picker, i, &number));
    return 1000;
}

/* Whole pieces: the cost of an arrival, of settling, of a loss, and of a block that is discarded and comes again. */
static double arrived_ns, settled_ns, restored_ns, lost_ns, discarded_ns;
static void pieces_come(void) {
    double arrived = 0, settled = 0, restored = 0, lost = 0, discarded = 0, begin;
    for (uint32_t piece = 0; piece < 500; piece++) {
        begin = now();
        for (uint32_t index = 0; index < BLOCKS; index++) well(piecepick_arrived(picker, 4, piece, index * BLOCK, block, BLOCK, &answer));
        arrived += now() - begin;
        begin = now();
        well(piecepick_settle(picker, piece, &digest, &answer));
        settled += now() - begin;
        if (answer.kind != PIECEPICK_K_COMPLETE) exit(1);
    }
    uint8_t *zeros = calloc(1, BLOCK * BLOCKS);
    if (!zeros) exit(1);
    for (uint32_t piece = 500; piece < 900; piece++) {
        begin = now();
        well(piecepick_restore(picker, 4, piece, zeros, BLOCK * BLOCKS, &digest, &answer));
        restored += now() - begin;
        if (answer.kind != PIECEPICK_K_COMPLETE) exit(1);
    }
    free(zeros);
    for (uint32_t piece = 500; piece < 900; piece++) {
        begin = now();
        well(piecepick_lose(picker, piece, &answer));
        lost += now() - begin;
        if (answer.kind != PIECEPICK_K_FAILED) exit(1);
        well(piecepick_arrived(picker, 4, piece, 0, block, BLOCK, &answer));
        begin = now();
        well(piecepick_discard(picker, piece, 0, &answer));
        well(piecepick_arrived(picker, 4, piece, 0, block, BLOCK, &answer));
        discarded += now() - begin;
        if (answer.kind != PIECEPICK_K_STORED) exit(1);
    }
    arrived_ns = arrived / 500 / BLOCKS;
    settled_ns = settled / 500;
    restored_ns = restored / 400;
    lost_ns = lost / 400;
    discarded_ns = discarded / 400;
}

static const struct {
    const char *name;
    int (*make)(void);
} CALLS[] = {
    {"join, leave of a peer that shows nothing", come_and_go}, {"bits, the first ones", bits}, {"haves that tell nothing new", haves}, {"have that tells nothing new", have},
    {"lack, and the have behind it", lack_and_have},
    {"next with a request, and its release", ask_and_release}, {"the same of a peer with 16 late requests", ask_with_late}, {"late", late},
    {"requested, and its release", count_and_release},
    {"next, NOTHING_LEFT", nothing}, {"next, PIPE_FULL", full}, {"choke, unchoke with nothing asked", choke}, {"depth", depth},
    {"reach", reach}, {"set_level, from 4 to 5 or back", set_level}, {"set_levels that change nothing", set_levels}, {"want that changes nothing", want},
    {"set_in_order", in_order}, {"set_in_order_from", in_order_from}, {"epoch", epoch}, {"rule", rule}, {"has_piece", has_piece},
    /* From here on a peer was told to work alone, which each ask of this picker looks at. */
    {"alone", alone}, {"next with a request, and its release, once a peer worked alone", ask_and_release},
    {"the same where eight others work alone", ask_beside_alone},
};

/* Takes the sets and levels of so many pieces. */
static void take_pieces(uint32_t count) {
    pieces = count;
    flags_len = (pieces + 7) / 8;
    flags = malloc(flags_len);
    levels = malloc(pieces);
    if (!flags || !levels) exit(1);
    memset(flags, 0xff, flags_len);
    if (pieces % 8) flags[flags_len - 1] = (uint8_t)(0xff << (8 - pieces % 8));
    memset(levels, 4, pieces);
}

/* Makes the calls of one row once. */
static int make_row(uint32_t count, const char *name) {
    take_pieces(count);
    open_picker();
    for (size_t i = 0; i < sizeof CALLS / sizeof *CALLS; i++) {
        if (strcmp(CALLS[i].name, name)) continue;
        CALLS[i].make();
        return 0;
    }
    fprintf(stderr, "no row has this name: %s\n", name);
    return 2;
}

static void measure(uint32_t count) {
    take_pieces(count);
    double begin = now();
    open_picker();
    printf("%u pieces\n%12.0f ns  open_parts, and %d peers that come\n", pieces, now() - begin, PEERS);
    for (size_t i = 0; i < sizeof CALLS / sizeof *CALLS; i++) {
        double least = 1e18;
        for (int round = 0; round < ROUNDS; round++) {
            begin = now();
            int calls = CALLS[i].make();
            double took = calls < 0 ? -calls : (now() - begin) / calls;
            if (took < least) least = took;
        }
        printf("%12.0f ns  %s\n", least, CALLS[i].name);
    }
    pieces_come();
    printf("%12.0f ns  arrived\n%12.0f ns  settle\n%12.0f ns  restore\n", arrived_ns, settled_ns, restored_ns);
    printf("%12.0f ns  lose\n%12.0f ns  discard, and the block again\n", lost_ns, discarded_ns);
    piecepick_close(&picker);
    free(flags);
    free(levels);
}

/* The least that an arrival of 4,096 took, in whole pieces of so many blocks, where the blocks are kept. */
static void measure_kept(uint32_t blocks) {
    const uint32_t count = 4096 / blocks, piece_length = blocks * BLOCK;
    const uint64_t total = (uint64_t)count * piece_length;
    piecepick_options options = PIECEPICK_OPTIONS;
    uint8_t *digests = calloc(20, count);
    double least = 1e18;
    if (!digests) exit(1);
    options.keeps = PIECEPICK_KEEPS_BEGUN;
    for (int round = 0; round < ROUNDS; round++) {
        well(piecepick_open_parts(&picker, piece_length, total, digests, 20 * (size_t)count, &options));
        well(piecepick_join(picker, 0, &answer));
        double begin = now();
        for (uint32_t piece = 0; piece < count; piece++)
            for (uint32_t index = 0; index < blocks; index++) well(piecepick_arrived(picker, 0, piece, index * BLOCK, block, BLOCK, &answer));
        double took = (now() - begin) / 4096;
        if (took < least) least = took;
        if (answer.kind != PIECEPICK_K_FULL) exit(1);
        piecepick_close(&picker);
    }
    printf("%12.0f ns  arrived where blocks are kept, in pieces of %u blocks\n", least, blocks);
    free(digests);
}

int main(int count, char **words) {
    digest_of_zeros();
    if (count == 3) return make_row((uint32_t)strtoul(words[1], NULL, 10), words[2]);
    measure(1000);
    measure(100000);
    measure_kept(16);
    measure_kept(256);
    measure_kept(4096);
    return 0;
}
