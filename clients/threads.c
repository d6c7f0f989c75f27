/* A download by eight peers, each in a thread of its own, over one picker under one lock.
       cc -O2 -pthread -I out threads.c out/libpiecepick.a -o threads && ./threads [PIECES [THREADS]]
       ./threads --pairs N THREADS       times calls alone: each thread queries and brings the block, N times, and locks for each call

   The peers are simulated. Each shows half of the pieces, and the first one all of them. They choke at times, reject a request, and the last one sends
   bad blocks. A thread holds the lock while it calls the picker and while it writes a block, and hashes without it. Where a peer has nothing to be
   asked for, its thread sleeps until the epoch rises.

   What is proved: each call at a picker does what the rules say, made one at a time. That calls come one at a time is what the lock is for. */
#define _POSIX_C_SOURCE 200809L
#include "piecepick.h"
#include <pthread.h>
#include <stdio.h>
#include <stdlib.h>
#include <string.h>
#include <time.h>

enum { BLOCK = 16384, BLOCKS = 4, PIECE = BLOCKS * BLOCK, MOST_THREADS = 64, DEPTH = 8 };

typedef struct {
    uint32_t piece, begin, length;
} request;

typedef struct {
    uint32_t number;
    uint64_t state;         /* of its random numbers */
    request sent[DEPTH];    /* what the peer hasn't answered yet, the oldest first */
    uint32_t count;
    uint64_t calls, again;  /* calls, and blocks that came twice */
    double longest;         /* nanoseconds that it waited for the lock, at most */
} peer;

static pthread_mutex_t lock = PTHREAD_MUTEX_INITIALIZER;
static pthread_cond_t risen = PTHREAD_COND_INITIALIZER;
static piecepick_picker *picker;
static uint64_t epoch;                  /* the one that was told last */
static uint32_t pieces = 64, threads = 8, pairs, failed;
static uint8_t *content, *file;         /* what the peers have, and what was written */

static void must(piecepick_status status)
{
    if (status == PIECEPICK_OK) return;
    fprintf(stderr, "%s\n", piecepick_status_text(status));
    exit(1);
}

static double now(void)
{
    struct timespec at;
    clock_gettime(CLOCK_MONOTONIC, &at);
    return (double)at.tv_sec * 1e9 + (double)at.tv_nsec;
}

/* The next number of a splitmix64 generator. */
static uint64_t random_of(uint64_t *state)
{
    uint64_t z = *state += 0x9E3779B97F4A7C15u;
    z = (z ^ (z >> 30)) * 0xBF58476D1CE4E5B9u;
    z = (z ^ (z >> 27)) * 0x94D049BB133111EBu;
    return z ^ (z >> 31);
}

static void take(peer *me)
{
    double begin, waited;
    if (pthread_mutex_trylock(&lock) == 0) return;
    begin = now();
    pthread_mutex_lock(&lock);
    waited = now() - begin;
    if (waited > me->longest) me->longest = waited;
}

/* Threads that wait for another epoch are woken, if there is one. */
static void give(void)
{
    uint64_t found;
    must(piecepick_epoch(picker, &found));
    if (found != epoch) pthread_cond_broadcast(&risen);
    epoch = found;
    pthread_mutex_unlock(&lock);
}

/* The peer is connected, shows its pieces and unchokes us. */
static void come(peer *me)
{
    piecepick_answer answer;
    size_t length = (pieces + 7) / 8;
    uint8_t *flags = (uint8_t *)calloc(1, length);
    if (!flags) exit(1);
    for (uint32_t piece = 0; piece < pieces; piece++)
        if (pairs > 0 || me->number == 0 || random_of(&me->state) % 2 == 0) flags[piece / 8] |= (uint8_t)(0x80 >> piece % 8);
    must(piecepick_join(picker, me->number, &answer));
    must(piecepick_bits(picker, me->number, flags, length, &answer));
    must(piecepick_depth(picker, me->number, DEPTH, &answer));
    must(piecepick_unchoke(picker, me->number, &answer));
    free(flags);
}

/* The request of this place in the list is answered, or void. */
static request take_out(peer *me, uint32_t place)
{
    request found = me->sent[place];
    me->count--;
    memmove(me->sent + place, me->sent + place + 1, (me->count - place) * sizeof found);
    return found;
}

static void cancel(peer *me, const piecepick_answer *answer)
{
    for (uint32_t place = 0; place < me->count; place++)
        if (me->sent[place].piece == answer->piece && me->sent[place].begin == answer->begin) {
            take_out(me, place);
            return;
        }
}

/* Sends requests and cancels, until no more come. */
static void fill(peer *me)
{
    piecepick_answer answer;
    for (;;) {
        must(piecepick_next(picker, me->number, random_of(&me->state), &answer));
        me->calls++;
        if (answer.kind == PIECEPICK_K_CANCEL) {
            cancel(me, &answer);
        } else if (answer.kind == PIECEPICK_K_REQUEST) {
            request next = {answer.piece, answer.begin, answer.length};
            if (me->count == DEPTH) exit(1);
            me->sent[me->count++] = next;
        } else {
            return;
        }
    }
}

/* A full piece is hashed without the lock: nothing of it changes before its verdict. */
static void check(peer *me, uint32_t piece)
{
    piecepick_answer answer;
    piecepick_digest digest;
    give();
    piecepick_hash(file + (size_t)piece * PIECE, PIECE, &digest);
    take(me);
    must(piecepick_settle(picker, piece, &digest, &answer));
    me->calls++;
    failed += answer.kind == PIECEPICK_K_FAILED;
}

/* The peer answers its oldest request: what lies in `wire` came. */
static void receive(peer *me, const uint8_t *wire)
{
    piecepick_answer answer;
    request came = take_out(me, 0);
    must(piecepick_received(picker, me->number, came.piece, came.begin, came.length, &answer));
    me->calls++;
    if (answer.kind == PIECEPICK_K_DROPPED) me->again++;
    else memcpy(file + (size_t)came.piece * PIECE + came.begin, wire, came.length);
    if (answer.kind == PIECEPICK_K_FULL) check(me, came.piece);
}

/* Something else may come in place of a block: a choke and an unchoke, or a reject of the oldest request. */
static void upset(peer *me, uint64_t what)
{
    piecepick_answer answer;
    if (what == 0) {
        must(piecepick_choke(picker, me->number, &answer));
        must(piecepick_unchoke(picker, me->number, &answer));
        me->count = 0;
    } else {
        request rejected = take_out(me, 0);
        must(piecepick_release(picker, me->number, rejected.piece, rejected.begin, &answer));
    }
    me->calls++;
}

/* What the peer sends for its oldest request, without the lock. */
static void send_block(peer *me, uint8_t *wire)
{
    request next = me->sent[0];
    memcpy(wire, content + (size_t)next.piece * PIECE + next.begin, next.length);
    if (me->number + 1 == threads && random_of(&me->state) % 16 == 0) wire[0] ^= 1;
}

static int is_complete(void)
{
    uint32_t complete;
    must(piecepick_is_complete(picker, &complete));
    return complete != 0;
}

static void *connection(void *argument)
{
    peer *me = (peer *)argument;
    uint8_t wire[BLOCK];
    take(me);
    come(me);
    for (fill(me); !is_complete(); fill(me)) {
        uint64_t what = random_of(&me->state) % 64, seen = epoch;
        if (me->count == 0) {
            while (seen == epoch && !is_complete()) pthread_cond_wait(&risen, &lock);
            continue;
        }
        give();
        send_block(me, wire);
        take(me);
        if (what < 2) upset(me, what);
        else receive(me, wire);
    }
    give();
    pthread_cond_broadcast(&risen);
    return NULL;
}

/* Each call locks for itself, and nothing else is done. */
static void *caller(void *argument)
{
    peer *me = (peer *)argument;
    piecepick_answer answer;
    for (uint32_t pair = 0; pair < pairs; pair++) {
        take(me);
        must(piecepick_next(picker, me->number, random_of(&me->state), &answer));
        pthread_mutex_unlock(&lock);
        if (answer.kind != PIECEPICK_K_REQUEST) exit(1);
        take(me);
        must(piecepick_received(picker, me->number, answer.piece, answer.begin, answer.length, &answer));
        pthread_mutex_unlock(&lock);
        me->calls += 2;
    }
    return NULL;
}

/* Random content, and the hashes of its pieces. */
static uint8_t *made(void)
{
    uint64_t state = 1;
    uint8_t *hashes = (uint8_t *)malloc((size_t)pieces * 20);
    content = (uint8_t *)malloc((size_t)pieces * PIECE);
    file = (uint8_t *)calloc(pieces, PIECE);
    if (!hashes || !content || !file) exit(1);
    for (size_t at = 0; at < (size_t)pieces * PIECE; at += 8) {
        uint64_t number = random_of(&state);
        memcpy(content + at, &number, 8);
    }
    for (uint32_t piece = 0; piece < pieces; piece++) {
        piecepick_digest digest;
        piecepick_hash(content + (size_t)piece * PIECE, PIECE, &digest);
        memcpy(hashes + (size_t)piece * 20, digest.bytes, 20);
    }
    return hashes;
}

static void open_picker(void)
{
    piecepick_options options = PIECEPICK_OPTIONS;
    uint8_t *hashes;
    if (pairs > 0) pieces = pairs * threads / BLOCKS + 1;
    options.workers = threads;
    if (pairs == 0) {
        hashes = made();
    } else {
        hashes = (uint8_t *)calloc(pieces, 20);
        if (!hashes) exit(1);
    }
    must(piecepick_open_parts(&picker, PIECE, (uint64_t)pieces * PIECE, hashes, (size_t)pieces * 20, &options));
    free(hashes);
}

int main(int count, char **words)
{
    static peer peers[MOST_THREADS];
    pthread_t all[MOST_THREADS];
    double begin, took, longest = 0;
    uint64_t calls = 0, again = 0;
    int is_timed = count == 4 && strcmp(words[1], "--pairs") == 0;
    if (is_timed) pairs = (uint32_t)atol(words[2]);
    else if (count > 1) pieces = (uint32_t)atol(words[1]);
    if (count > 2) threads = (uint32_t)atol(words[count - 1]);
    if (count > 4 || threads < 1 || threads > MOST_THREADS || pieces < 1 || (is_timed && (pairs < 1 || pairs > 1000000))) return 2;
    open_picker();
    for (uint32_t number = 0; number < threads; number++) {
        peers[number].number = number;
        peers[number].state = number + 100;
        if (is_timed) {
            come(&peers[number]);
        }
    }
    begin = now();
    for (uint32_t number = 0; number < threads; number++)
        if (pthread_create(&all[number], NULL, is_timed ? caller : connection, &peers[number])) return 1;
    for (uint32_t number = 0; number < threads; number++) pthread_join(all[number], NULL);
    took = now() - begin;
    for (uint32_t number = 0; number < threads; number++) {
        calls += peers[number].calls;
        again += peers[number].again;
        if (peers[number].longest > longest) longest = peers[number].longest;
    }
    printf("%u threads, %llu calls, %.0f ns each, longest wait for the lock %.0f us", threads, (unsigned long long)calls, took / (double)calls,
           longest / 1e3);
    if (is_timed) printf("\n");
    else printf("; %u pieces, %u failed, %llu blocks came twice\n", pieces, failed, (unsigned long long)again);
    if (!is_timed && (!is_complete() || memcmp(file, content, (size_t)pieces * PIECE) != 0)) return 1;
    piecepick_close(&picker);
    free(content);
    free(file);
    return 0;
}
