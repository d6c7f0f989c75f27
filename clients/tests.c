/* What only a caller in C can try, with each of the three kinds of picker: each allocation refused in turn, rooms of each length, four
   threads under one lock, four pieces hashed at once, and what the header says of statuses and answers.

   usage: tests FILE.torrent CONTENT INFOHASH NAME        linked with -Wl,--wrap=malloc,--wrap=realloc
   The torrent has pieces of two blocks, but for a shorter last one, and a number of pieces that eight doesn't divide. The infohash is in
   hexadecimal digits. */
#define _DEFAULT_SOURCE /* for MAP_ANONYMOUS */
#include "piecepick.h"
#include <pthread.h>
#include <sched.h>
#include <stdio.h>
#include <stdlib.h>
#include <string.h>
#include <sys/mman.h>

#define BLOCK 16384u
#define PIECE (2 * BLOCK)
enum { THREADS = 4, MOST = 1 << 24, MOST_PIECES = 256 };

#ifdef __cplusplus
extern "C" {
#endif
void *__real_malloc(size_t size);
void *__real_realloc(void *at, size_t size);
void *__wrap_malloc(size_t size);
void *__wrap_realloc(void *at, size_t size);
#ifdef __cplusplus
}
#endif

/* Of the thread's own, since the library takes memory in several threads at once. */
static __thread long until_refusal = -1; /* allocations until one is refused; none is while it is negative */
static __thread long made;

static int refuses(void)
{
    made++;
    return until_refusal >= 0 && until_refusal-- == 0;
}

void *__wrap_malloc(size_t size) { return refuses() ? NULL : __real_malloc(size); }
void *__wrap_realloc(void *at, size_t size) { return refuses() ? NULL : __real_realloc(at, size); }

static uint8_t metainfo[1 << 20];
static uint8_t content[MOST];
static uint8_t room[MOST + 1];
static size_t metainfo_len, content_len;
static uint32_t pieces;
static uint8_t all[MOST_PIECES / 8], none[MOST_PIECES / 8]; /* flags: each piece, and no piece */
static size_t flags_len;
static const uint8_t *digests; /* of the pieces, as they stand in the metainfo file */
static long tried;             /* comparisons since the last line was printed */

static const uint32_t KINDS[] = {PIECEPICK_KEEPS_NOTHING, PIECEPICK_KEEPS_BEGUN, PIECEPICK_KEEPS_JOURNAL};
static const char *const KEPT[] = {"nothing", "what is begun", "a journal"};

static void fail(int line, const char *what, uint64_t got, uint64_t wanted)
{
    printf("tests.c:%d: %s: %llu instead of %llu\n", line, what, (unsigned long long)got, (unsigned long long)wanted);
    fflush(stdout);
    _Exit(1);
}

#define EQUAL(got, wanted)                                                                                    \
    do {                                                                                                      \
        uint64_t equal_got = (uint64_t)(got), equal_wanted = (uint64_t)(wanted);                              \
        tried++;                                                                                              \
        if (equal_got != equal_wanted) fail(__LINE__, #got, equal_got, equal_wanted);                         \
    } while (0)

static void told(const char *what)
{
    printf("%s: %ld comparisons\n", what, tried);
    tried = 0;
}

/* A whole answer. Only NOTED tells of interest, only REFUSED has a reason, and only requests, cancels and what is in flight have a block. */
static void is_answer(int line, const char *what, const piecepick_answer *answer, piecepick_kind kind, piecepick_reason reason,
                      uint32_t interesting)
{
    tried++;
    if (answer->kind != kind) fail(line, what, answer->kind, kind);
    if (answer->reason != reason) fail(line, what, answer->reason, reason);
    if (answer->interesting != interesting) fail(line, what, answer->interesting, interesting);
    if (answer->piece || answer->begin || answer->length) fail(line, what, answer->piece, 0);
}

static void is_block(int line, const char *what, const piecepick_answer *answer, piecepick_kind kind, uint32_t piece, uint32_t begin)
{
    uint64_t rest = content_len - (uint64_t)piece * PIECE - begin;
    tried++;
    if (answer->kind != kind) fail(line, what, answer->kind, kind);
    if (answer->piece != piece) fail(line, what, answer->piece, piece);
    if (answer->begin != begin) fail(line, what, answer->begin, begin);
    if (answer->length != (rest < BLOCK ? rest : BLOCK)) fail(line, what, answer->length, rest);
    if (answer->reason || answer->interesting) fail(line, what, answer->reason, 0);
}

/* These use an `answer` or a `number` of the caller's. It is spoilt first, so that it must be written: nothing that the call is passed may
   come from it. */
#define SPOIL(thing) memset(&(thing), 0xa5, sizeof(thing))
#define ANSWERS(call, kind, reason, interesting)                               \
    do {                                                                       \
        SPOIL(answer);                                                         \
        EQUAL(call, PIECEPICK_OK);                                             \
        is_answer(__LINE__, #call, &answer, kind, reason, interesting);        \
    } while (0)
#define GETS(call, kind) ANSWERS(call, kind, PIECEPICK_R_NONE, 0)
#define QUIET(call) GETS(call, PIECEPICK_K_QUIET)
#define NOTED(call, interesting) ANSWERS(call, PIECEPICK_K_NOTED, PIECEPICK_R_NONE, interesting)
#define REFUSED(call, reason) ANSWERS(call, PIECEPICK_K_REFUSED, reason, 0)
#define BLOCKS(call, kind, piece, begin)                                       \
    do {                                                                       \
        SPOIL(answer);                                                         \
        EQUAL(call, PIECEPICK_OK);                                             \
        is_block(__LINE__, #call, &answer, kind, piece, begin);                \
    } while (0)
#define NO_ANSWER(call, status)                                                             \
    do {                                                                                    \
        SPOIL(answer);                                                                      \
        EQUAL(call, status);                                                                \
        is_answer(__LINE__, #call, &answer, PIECEPICK_K_NONE, PIECEPICK_R_NONE, 0);         \
    } while (0)
#define NUMBER(call, wanted)           \
    do {                               \
        SPOIL(number);                 \
        EQUAL(call, PIECEPICK_OK);     \
        EQUAL(number, wanted);         \
    } while (0)
#define NO_NUMBER(call, status)        \
    do {                               \
        SPOIL(number);                 \
        EQUAL(call, status);           \
        EQUAL(number, 0);              \
    } while (0)

static uint32_t length_of(uint32_t piece)
{
    size_t rest = content_len - (size_t)piece * PIECE;
    return (uint32_t)(rest < PIECE ? rest : PIECE);
}

static uint32_t blocks_of(uint32_t piece) { return (length_of(piece) + BLOCK - 1) / BLOCK; }

static uint32_t all_blocks(void)
{
    uint32_t blocks = 0;
    for (uint32_t piece = 0; piece < pieces; piece++) blocks += blocks_of(piece);
    return blocks;
}

static const uint8_t *bytes_of(uint32_t piece) { return content + (size_t)piece * PIECE; }

static piecepick_digest sha1(const uint8_t *bytes, size_t length)
{
    piecepick_digest digest;
    piecepick_hash(bytes, length, &digest);
    return digest;
}

static piecepick_picker *open_by(const piecepick_options *options)
{
    piecepick_picker *picker = NULL;
    EQUAL(piecepick_open(&picker, metainfo, metainfo_len, options), PIECEPICK_OK);
    return picker;
}

static piecepick_picker *open_for(uint32_t keeps, uint32_t workers)
{
    piecepick_options options = PIECEPICK_OPTIONS;
    options.keeps = keeps;
    options.workers = workers;
    options.depth = 5; /* by the usual depth a peer would be asked for nearly all of so small a torrent */
    return open_by(&options);
}

/* A peer joins, shows some pieces, or each, and doesn't choke us. */
static void come_with(piecepick_picker *picker, uint32_t worker, const uint8_t *flags)
{
    piecepick_answer answer;
    GETS(piecepick_join(picker, worker, &answer), PIECEPICK_K_JOINED);
    NOTED(piecepick_bits(picker, worker, flags, flags_len, &answer), 1);
    QUIET(piecepick_unchoke(picker, worker, &answer));
}

static void come(piecepick_picker *picker, uint32_t worker) { come_with(picker, worker, all); }

/* The bytes of a block as the peer has them, or wrong ones; how many they are. */
static uint32_t copy_of(uint8_t *block, uint32_t piece, uint32_t begin, int wrong)
{
    uint32_t rest = length_of(piece) - begin, length = rest < BLOCK ? rest : BLOCK;
    memcpy(block, bytes_of(piece) + begin, length);
    block[length - 1] = (uint8_t)(block[length - 1] + (wrong != 0));
    return length;
}

/* They come. */
static piecepick_kind bring(piecepick_picker *picker, uint32_t worker, uint32_t piece, uint32_t begin, int wrong)
{
    uint8_t block[BLOCK];
    piecepick_answer answer;
    uint32_t length = copy_of(block, piece, begin, wrong);
    EQUAL(piecepick_arrived(picker, worker, piece, begin, block, length, &answer), PIECEPICK_OK);
    is_answer(__LINE__, "arrived", &answer, answer.kind, PIECEPICK_R_NONE, 0);
    return answer.kind;
}

/* A block whose bytes are elsewhere. */
static piecepick_kind receive(piecepick_picker *picker, uint32_t worker, uint32_t piece, uint32_t begin)
{
    piecepick_answer answer;
    uint32_t left = length_of(piece) - begin;
    EQUAL(piecepick_received(picker, worker, piece, begin, left < BLOCK ? left : BLOCK, &answer), PIECEPICK_OK);
    is_answer(__LINE__, "received", &answer, answer.kind, PIECEPICK_R_NONE, 0);
    return answer.kind;
}

/* The client compares the digest itself, and tells what it found. */
static piecepick_status tell_verdict(piecepick_picker *picker, uint32_t piece, const piecepick_digest *digest, piecepick_answer *answer)
{
    piecepick_digest expected;
    EQUAL(piecepick_piece_hash(picker, piece, &expected), PIECEPICK_OK);
    return piecepick_verdict(picker, piece, memcmp(&expected, digest, sizeof expected) == 0 ? piece : 0, answer);
}

/* A full piece is checked in the way of its picker, by the bytes that came. A client that keeps them has two ways, and so has a journal. */
static piecepick_kind settle_bytes(piecepick_picker *picker, uint32_t keeps, uint32_t piece, const uint8_t *bytes, uint32_t length)
{
    piecepick_answer answer;
    piecepick_job *job = NULL;
    if (keeps == PIECEPICK_KEEPS_NOTHING) {
        piecepick_digest digest = sha1(bytes, length);
        EQUAL((piece % 2 == 0 ? piecepick_settle : tell_verdict)(picker, piece, &digest, &answer), PIECEPICK_OK);
    } else if (keeps == PIECEPICK_KEEPS_JOURNAL && piece % 2 == 0) {
        EQUAL(piecepick_settle_now(picker, piece, &answer), PIECEPICK_OK);
    } else {
        EQUAL(piecepick_job_take(picker, piece, &job), PIECEPICK_OK);
        EQUAL(piecepick_job_hash(job), PIECEPICK_OK);
        EQUAL(piecepick_job_settle(picker, job, &answer), PIECEPICK_OK);
        EQUAL(piecepick_job_read(job, room, length), PIECEPICK_OK);
        EQUAL(memcmp(room, bytes, length), 0);
        piecepick_job_close(&job);
        EQUAL(job == NULL, 1);
    }
    is_answer(__LINE__, "a check", &answer, answer.kind, PIECEPICK_R_NONE, 0);
    return answer.kind;
}

/* The same of the torrent's piece, whose last block came with wrong bytes, or not. */
static piecepick_kind settle(piecepick_picker *picker, uint32_t keeps, uint32_t piece, int wrong)
{
    uint8_t bytes[PIECE];
    uint32_t length = length_of(piece);
    memcpy(bytes, bytes_of(piece), length);
    bytes[length - 1] = (uint8_t)(bytes[length - 1] + (wrong != 0));
    return settle_bytes(picker, keeps, piece, bytes, length);
}

static piecepick_kind bring_whole(piecepick_picker *picker, uint32_t keeps, uint32_t worker, uint32_t piece)
{
    for (uint32_t begin = 0; begin < length_of(piece); begin += BLOCK)
        EQUAL(bring(picker, worker, piece, begin, 0), begin + BLOCK < length_of(piece) ? PIECEPICK_K_STORED : PIECEPICK_K_FULL);
    return settle(picker, keeps, piece, 0);
}

/* ---- What a picker tells of itself, as one number. */

static uint64_t mixed(uint64_t sum, uint64_t number) { return (sum ^ number) * 0x100000001b3u; }

/* But for the epoch. */
static uint64_t still_picture(piecepick_picker *picker)
{
    typedef piecepick_status question(piecepick_picker * picker, uint32_t piece, uint32_t * number);
    static question *const QUESTIONS[] = {piecepick_has_piece, piecepick_is_waiting, piecepick_level, piecepick_availability};
    uint64_t sum = 0xcbf29ce484222325u;
    uint32_t number, workers, count;
    piecepick_answer answer;
    EQUAL(piecepick_is_in_order(picker, &number), PIECEPICK_OK);
    sum = mixed(sum, number);
    EQUAL(piecepick_order_from(picker, &number), PIECEPICK_OK);
    sum = mixed(sum, number);
    for (uint32_t piece = 0; piece < pieces; piece++) {
        for (size_t at = 0; at < sizeof QUESTIONS / sizeof *QUESTIONS; at++) {
            EQUAL(QUESTIONS[at](picker, piece, &number), PIECEPICK_OK);
            sum = mixed(sum, number);
        }
        for (uint32_t index = 0; index < blocks_of(piece); index++) {
            sum = mixed(sum, (uint64_t)piecepick_sender(picker, piece, index, &number) << 32 | number);
            /* A number at any block, though it means something only of the one that was just requested. */
            EQUAL(piecepick_rule(picker, piece, index, &number), PIECEPICK_OK);
            EQUAL(number >= PIECEPICK_RULE_IN_ORDER && number <= PIECEPICK_RULE_LATE, 1);
            sum = mixed(sum, number);
            EQUAL(piecepick_askers(picker, piece, index, &number), PIECEPICK_OK);
            sum = mixed(sum, number);
        }
    }
    EQUAL(piecepick_workers(picker, &workers), PIECEPICK_OK);
    for (uint32_t worker = 0; worker < workers; worker++) {
        EQUAL(piecepick_outstanding(picker, worker, &count), PIECEPICK_OK);
        for (uint32_t place = 0; place < count; place++) {
            EQUAL(piecepick_outstanding_at(picker, worker, place, &answer), PIECEPICK_OK);
            sum = mixed(mixed(sum, answer.piece), answer.begin);
        }
    }
    return sum;
}

static uint64_t picture(piecepick_picker *picker)
{
    uint64_t epoch;
    EQUAL(piecepick_epoch(picker, &epoch), PIECEPICK_OK);
    return mixed(still_picture(picker), epoch);
}

/* ---- Opening. */

#define SIZE ((uint32_t)sizeof(piecepick_options))
#define MORE UINT32_MAX

static const struct { piecepick_options options; piecepick_status status; } OPTIONS[] = {
    {{0, 0, 50, 5, 500, 1, 2, 0, 16, 1}, PIECEPICK_E_OPTIONS},
    {{24, 0, 50, 5, 500, 1, 2, 0, 16, 1}, PIECEPICK_E_OPTIONS},
    {{SIZE - 1, 0, 50, 5, 500, 1, 2, 0, 16, 1}, PIECEPICK_E_OPTIONS},
    {{SIZE + 1, 0, 50, 5, 500, 1, 2, 0, 16, 1}, PIECEPICK_E_OPTIONS},
    {{28, 0, 50, 5, 500, 1, 2, 0, 16, 1}, PIECEPICK_E_OPTIONS},
    {{32, 0, 50, 5, 500, 1, 2, 0, 16, 1}, PIECEPICK_E_OPTIONS},
    {{36, 0, 50, 5, 500, 1, 2, 0, 16, 1}, PIECEPICK_E_OPTIONS},
    {{44, 0, 50, 5, 500, 1, 2, 0, 16, 1}, PIECEPICK_E_OPTIONS},
    {{MORE, 0, 50, 5, 500, 1, 2, 0, 16, 1}, PIECEPICK_E_OPTIONS},
    {{SIZE, 3, 50, 5, 500, 1, 2, 0, 16, 1}, PIECEPICK_E_OPTIONS},
    {{SIZE, MORE, 50, 5, 500, 1, 2, 0, 16, 1}, PIECEPICK_E_OPTIONS},
    {{SIZE, 0, 0, 5, 500, 1, 2, 0, 16, 1}, PIECEPICK_E_WORKER},
    {{SIZE, 1, 1025, 5, 500, 1, 2, 0, 16, 1}, PIECEPICK_E_WORKER},
    {{SIZE, 2, MORE, 5, 500, 1, 2, 0, 16, 1}, PIECEPICK_E_WORKER},
    {{SIZE, 0, 50, 0, 500, 1, 2, 0, 16, 1}, PIECEPICK_E_RULES},
    {{SIZE, 1, 50, 65, 500, 1, 2, 0, 16, 1}, PIECEPICK_E_RULES},
    {{SIZE, 2, 50, MORE, 500, 1, 2, 0, 16, 1}, PIECEPICK_E_RULES},
    {{SIZE, 0, 50, 5, 0, 1, 2, 0, 16, 1}, PIECEPICK_E_RULES},
    {{SIZE, 1, 50, 5, 4097, 1, 2, 0, 16, 1}, PIECEPICK_E_RULES},
    {{SIZE, 2, 50, 5, MORE, 1, 2, 0, 16, 1}, PIECEPICK_E_RULES},
    {{SIZE, 0, 50, 5, 500, 11, 2, 0, 16, 1}, PIECEPICK_E_RULES},
    {{SIZE, 2, 50, 5, 500, MORE, 2, 0, 16, 1}, PIECEPICK_E_RULES},
    {{SIZE, 0, 50, 5, 500, 1, 0, 0, 16, 1}, PIECEPICK_E_RULES},
    {{SIZE, 1, 50, 5, 500, 1, 1025, 0, 16, 1}, PIECEPICK_E_RULES},
    {{SIZE, 2, 50, 5, 500, 1, MORE, 0, 16, 1}, PIECEPICK_E_RULES},
    {{SIZE, 0, 2, 5, 500, 1, 2, 1025, 16, 1}, PIECEPICK_E_RULES},
    {{SIZE, 0, 2, 5, 500, 1, 2, MORE, 16, 1}, PIECEPICK_E_RULES},
    {{SIZE, 0, 2, 5, 500, 1, 2, 0, 4097, 1}, PIECEPICK_E_RULES},
    {{SIZE, 1, 2, 5, 500, 1, 2, 0, MORE, 1}, PIECEPICK_E_RULES},
    {{SIZE, 0, 2, 5, 500, 1, 2, 0, 16, 2}, PIECEPICK_E_RULES},
    {{SIZE, 2, 2, 5, 500, 1, 2, 0, 16, MORE}, PIECEPICK_E_RULES},
    /* Two causes: the one that the header has first. */
    {{0, 0, 0, 0, 500, 1, 2, 0, 16, 1}, PIECEPICK_E_OPTIONS},
    {{SIZE, 0, 0, 0, 500, 1, 2, 0, 16, 1}, PIECEPICK_E_WORKER},
    /* The borders. */
    {{SIZE, 0, 1, 1, 1, 0, 1, 0, 0, 0}, PIECEPICK_OK},
    {{SIZE, 1, 1, 1, 1, 0, 1, 0, 0, 0}, PIECEPICK_OK},
    {{SIZE, 2, 1, 1, 1, 0, 1, 0, 0, 0}, PIECEPICK_OK},
    {{SIZE, 0, 1024, 64, 4096, 10, 1024, 1024, 4096, 1}, PIECEPICK_OK},
    {{SIZE, 1, 1024, 64, 500, 10, 1024, 1024, 4096, 1}, PIECEPICK_OK},
    {{SIZE, 2, 1024, 64, 500, 10, 1024, 1024, 4096, 1}, PIECEPICK_OK},
};

/* Reads the metainfo file, or takes the same torrent by its parts. */
static piecepick_status open_either(int by_parts, piecepick_picker **picker, const piecepick_options *options)
{
    return by_parts ? piecepick_open_parts(picker, PIECE, content_len, digests, (size_t)20 * pieces, options)
                    : piecepick_open(picker, metainfo, metainfo_len, options);
}

static void try_options(void)
{
    const piecepick_options usual = PIECEPICK_OPTIONS;
    uint32_t number;
    EQUAL(usual.size, sizeof usual);
    EQUAL(usual.depth, 16);
    EQUAL(usual.open, 8);
    EQUAL(usual.rush, 32);
    EQUAL(usual.shown, 1);
    for (size_t at = 0; at < sizeof OPTIONS / sizeof *OPTIONS; at++)
        for (int by_parts = 0; by_parts < 2; by_parts++) {
            const piecepick_options *options = &OPTIONS[at].options;
            piecepick_picker *picker = NULL, *same;
            EQUAL(open_either(by_parts, &picker, options), OPTIONS[at].status);
            EQUAL(picker == NULL, OPTIONS[at].status != PIECEPICK_OK);
            if (picker == NULL) EQUAL(open_either(by_parts, &picker, &usual), PIECEPICK_OK);
            else NUMBER(piecepick_workers(picker, &number), options->workers);
            /* Whatever else is wrong, a pointer that isn't NULL stays as it is. */
            same = picker;
            EQUAL(open_either(by_parts, &picker, options), PIECEPICK_E_OPEN);
            EQUAL(open_either(by_parts, &picker, &usual), PIECEPICK_E_OPEN);
            EQUAL(picker == same, 1);
            NUMBER(piecepick_pieces(picker, &number), pieces);
            piecepick_close(&picker);
            EQUAL(picker == NULL, 1);
            piecepick_close(&picker);
            EQUAL(picker == NULL, 1);
        }
    told("options, each out of its range and at its borders");
}

#define INFO(first, piece_length, row) "d4:infod" first "4:name1:n12:piece lengthi" piece_length "e6:pieces" row "ee"
#define ONE "20:01234567890123456789"
#define FILE_OF(length) "d6:lengthi" length "e4:pathl1:aee"

static const struct { const char *bytes; piecepick_status status; } FILES[] = {
    {"", PIECEPICK_E_BENCODE},
    {"d", PIECEPICK_E_BENCODE},
    {"i01e", PIECEPICK_E_BENCODE},
    {"d4:infod12:piece lengthi1e6:lengthi1eee", PIECEPICK_E_BENCODE}, /* keys that aren't sorted */
    {INFO("6:lengthi1e", "16384", ONE) "x", PIECEPICK_E_BENCODE},     /* bytes behind the end */
    {"i1e", PIECEPICK_E_NOT_DICTIONARY},
    {"le", PIECEPICK_E_NOT_DICTIONARY},
    {"de", PIECEPICK_E_MISSING_KEY},
    {"d4:infodee", PIECEPICK_E_MISSING_KEY},
    {"d4:infod6:lengthi1e4:name1:n6:pieces" ONE "ee", PIECEPICK_E_MISSING_KEY},
    {"d4:infoi1ee", PIECEPICK_E_WRONG_KIND},
    {INFO("6:length1:1", "16384", ONE), PIECEPICK_E_WRONG_KIND},
    {INFO("6:lengthi-1e", "16384", ONE), PIECEPICK_E_WRONG_KIND},
    {INFO("5:files0:", "16384", ONE), PIECEPICK_E_WRONG_KIND},
    {INFO("6:lengthi1e", "0", ONE), PIECEPICK_E_PIECE_LENGTH},
    {INFO("6:lengthi1e", "-1", ONE), PIECEPICK_E_PIECE_LENGTH},
    {INFO("6:lengthi1e", "2147483649", ONE), PIECEPICK_E_PIECE_LENGTH},
    {INFO("6:lengthi1e", "16384", "19:0123456789012345678"), PIECEPICK_E_PIECES_LENGTH},
    {INFO("5:filesl" FILE_OF("1") "e6:lengthi1e", "16384", ONE), PIECEPICK_E_LENGTH_AND_FILES},
    {INFO("6:lengthi0e", "16384", "0:"), PIECEPICK_E_NO_CONTENT},
    {INFO("", "16384", ONE), PIECEPICK_E_NO_CONTENT},
    {INFO("6:lengthi16385e", "16384", ONE), PIECEPICK_E_COUNT_MISMATCH},
    {INFO("6:lengthi1e", "16384", "0:"), PIECEPICK_E_COUNT_MISMATCH},
    {INFO("5:filesl" FILE_OF("4611686018427387904") FILE_OF("4611686018427387904") "e", "16384", ONE), PIECEPICK_E_TOO_LARGE},
    {INFO("6:lengthi4294967296e", "1", ONE), PIECEPICK_E_TOO_LARGE},
    {INFO("6:lengthi1e", "16384", ONE), PIECEPICK_OK},
    {INFO("6:lengthi1e", "2147483648", ONE), PIECEPICK_OK},
    {INFO("5:filesl" FILE_OF("1") FILE_OF("16383") "e", "16384", ONE), PIECEPICK_OK},
};

static const struct { uint32_t piece_length; uint64_t total; size_t digests_len; piecepick_status status; } PARTS[] = {
    {0, 1, 20, PIECEPICK_E_PIECE_LENGTH},
    {2147483649u, 1, 20, PIECEPICK_E_PIECE_LENGTH},
    {MORE, 1, 20, PIECEPICK_E_PIECE_LENGTH},
    {BLOCK, 1, 19, PIECEPICK_E_PIECES_LENGTH},
    {BLOCK, 1, 21, PIECEPICK_E_PIECES_LENGTH},
    {BLOCK, 0, 0, PIECEPICK_E_NO_CONTENT},
    {BLOCK, 0, 20, PIECEPICK_E_NO_CONTENT},
    {BLOCK, 1, 0, PIECEPICK_E_COUNT_MISMATCH},
    {BLOCK, BLOCK + 1, 20, PIECEPICK_E_COUNT_MISMATCH},
    {BLOCK, BLOCK, 40, PIECEPICK_E_COUNT_MISMATCH},
    {BLOCK, (uint64_t)1 << 63, 20, PIECEPICK_E_TOO_LARGE},
    {BLOCK, UINT64_MAX, 20, PIECEPICK_E_TOO_LARGE},
    {1, (uint64_t)1 << 32, 20, PIECEPICK_E_TOO_LARGE},
    {1, 1, 20, PIECEPICK_OK},
    {2147483648u, 1, 20, PIECEPICK_OK},
    {BLOCK, BLOCK, 20, PIECEPICK_OK},
};

static void try_torrents(void)
{
    piecepick_options usual = PIECEPICK_OPTIONS, unfit = PIECEPICK_OPTIONS;
    piecepick_picker *picker = NULL;
    unfit.depth = 0;
    for (size_t at = 0; at < sizeof FILES / sizeof *FILES; at++) {
        piecepick_status status = FILES[at].status;
        const uint8_t *bytes = (const uint8_t *)FILES[at].bytes;
        EQUAL(piecepick_open(&picker, bytes, strlen(FILES[at].bytes), &usual), status);
        piecepick_close(&picker);
        /* A file that can't be read comes before rules that don't fit it. */
        EQUAL(piecepick_open(&picker, bytes, strlen(FILES[at].bytes), &unfit), status == PIECEPICK_OK ? PIECEPICK_E_RULES : status);
        EQUAL(picker == NULL, 1);
    }
    for (size_t at = 0; at < sizeof PARTS / sizeof *PARTS; at++) {
        EQUAL(piecepick_open_parts(&picker, PARTS[at].piece_length, PARTS[at].total, content, PARTS[at].digests_len, &usual),
              PARTS[at].status);
        EQUAL(picker == NULL, PARTS[at].status != PIECEPICK_OK);
        piecepick_close(&picker);
    }
    told("metainfo files and parts, with each fault");
}

/* ---- What the torrent is. */

/* A room of another length stays as it was. */
static void has_name(piecepick_picker *picker, const char *name)
{
    uint64_t number;
    uint8_t place[64];
    size_t length = strlen(name);
    NUMBER(piecepick_name_length(picker, &number), length);
    memset(place, 0x5a, sizeof place);
    EQUAL(piecepick_name(picker, place, length + 1), PIECEPICK_E_LENGTH);
    if (length > 0) EQUAL(piecepick_name(picker, place, length - 1), PIECEPICK_E_LENGTH);
    for (size_t at = 0; at < sizeof place; at++) EQUAL(place[at], 0x5a);
    EQUAL(piecepick_name(picker, place, length), PIECEPICK_OK);
    EQUAL(memcmp(place, name, length), 0);
    EQUAL(place[length], 0x5a);
}

/* A name on a path, by a room of its length; a room of another length stays as it was. */
static void has_part(piecepick_picker *picker, uint64_t file, uint64_t part, const char *name, size_t length)
{
    uint64_t number;
    uint8_t place[64];
    NUMBER(piecepick_file_part_length(picker, file, part, &number), length);
    memset(place, 0x5a, sizeof place);
    EQUAL(piecepick_file_part(picker, file, part, place, length + 1), PIECEPICK_E_LENGTH);
    if (length > 0) EQUAL(piecepick_file_part(picker, file, part, place, length - 1), PIECEPICK_E_LENGTH);
    for (size_t at = 0; at < sizeof place; at++) EQUAL(place[at], 0x5a);
    EQUAL(piecepick_file_part(picker, file, part, place, length), PIECEPICK_OK);
    EQUAL(memcmp(place, name, length), 0);
    EQUAL(place[length], 0x5a);
}

/* What is behind the last file, and behind the last name on the path of file 0, isn't there. */
static void has_no_more(piecepick_picker *picker, uint64_t files, uint64_t parts)
{
    uint64_t number;
    uint8_t place[1] = {0x5a};
    const uint64_t beyond[] = {files, (uint64_t)1 << 32, UINT64_MAX};
    NUMBER(piecepick_files(picker, &number), files);
    for (size_t at = 0; at < sizeof beyond / sizeof *beyond; at++) {
        EQUAL(piecepick_file_length(picker, beyond[at], &number), PIECEPICK_E_FILE);
        EQUAL(piecepick_file_parts(picker, beyond[at], &number), PIECEPICK_E_FILE);
        EQUAL(piecepick_file_part_length(picker, beyond[at], 0, &number), PIECEPICK_E_FILE);
        EQUAL(piecepick_file_part(picker, beyond[at], 0, place, 1), PIECEPICK_E_FILE);
    }
    if (files == 0) return;
    NUMBER(piecepick_file_parts(picker, 0, &number), parts);
    EQUAL(piecepick_file_part_length(picker, 0, parts, &number), PIECEPICK_E_PART);
    EQUAL(number, 0);
    EQUAL(piecepick_file_part(picker, 0, parts, place, 1), PIECEPICK_E_PART);
    EQUAL(place[0], 0x5a);
}

/* Three files, of which the second has no bytes, and names that are no good ones. */
#define LISTED "5:filesld6:lengthi5e4:pathl3:oneeed6:lengthi0e4:pathl0:2:..3:a/beed6:lengthi11e4:pathl4:deep3:twoeee"

static void try_files(const char *name)
{
    static const struct { uint64_t length; size_t parts; const char *path[4]; } listed[] = {
        {5, 2, {"n", "one"}}, {0, 4, {"n", "", "..", "a/b"}}, {11, 3, {"n", "deep", "two"}},
    };
    const char *several = INFO(LISTED, "16", ONE);
    for (size_t kind = 0; kind < 3; kind++) {
        piecepick_options options = PIECEPICK_OPTIONS;
        piecepick_picker *picker = NULL;
        uint64_t number;
        options.keeps = KINDS[kind];
        EQUAL(piecepick_open(&picker, (const uint8_t *)several, strlen(several), &options), PIECEPICK_OK);
        for (size_t file = 0; file < 3; file++) {
            NUMBER(piecepick_file_length(picker, file, &number), listed[file].length);
            NUMBER(piecepick_file_parts(picker, file, &number), listed[file].parts);
            for (size_t part = 0; part < listed[file].parts; part++)
                has_part(picker, file, part, listed[file].path[part], strlen(listed[file].path[part]));
        }
        has_no_more(picker, 3, 2);
        piecepick_close(&picker);
        EQUAL(open_either(0, &picker, &options), PIECEPICK_OK);
        NUMBER(piecepick_file_length(picker, 0, &number), content_len);
        has_part(picker, 0, 0, name, strlen(name));
        has_no_more(picker, 1, 1);
        piecepick_close(&picker);
        EQUAL(open_either(1, &picker, &options), PIECEPICK_OK);
        has_no_more(picker, 0, 0);
        piecepick_close(&picker);
    }
    told("files, with their lengths and paths");
}

static void try_torrent(const char *infohash, const char *name)
{
    unsigned major, minor, least;
    EQUAL(piecepick_abi(), PIECEPICK_ABI);
    EQUAL(piecepick_version(), PIECEPICK_VERSION_NUMBER);
    EQUAL(sscanf(PIECEPICK_VERSION, "%u.%u.%u", &major, &minor, &least), 3);
    EQUAL(major * 10000 + minor * 100 + least, PIECEPICK_VERSION_NUMBER);
    EQUAL(major, PIECEPICK_ABI);
    EQUAL(strlen(infohash), 40);
    EQUAL(sizeof(piecepick_options), 40);
    EQUAL(sizeof(piecepick_answer), 24);
    EQUAL(sizeof(piecepick_digest), 20);
    for (size_t kind = 0; kind < 3; kind++)
        for (int by_parts = 0; by_parts < 2; by_parts++) {
            piecepick_options options = PIECEPICK_OPTIONS;
            piecepick_picker *picker = NULL;
            piecepick_digest digest;
            uint32_t number;
            options.keeps = KINDS[kind];
            EQUAL(open_either(by_parts, &picker, &options), PIECEPICK_OK);
            has_name(picker, by_parts ? "" : name);
            {
                uint64_t large = 0;
                EQUAL(piecepick_total(picker, &large), PIECEPICK_OK);
                EQUAL(large, content_len);
            }
            SPOIL(digest);
            EQUAL(piecepick_infohash(picker, &digest), PIECEPICK_OK);
            for (size_t at = 0; at < 20; at++) {
                unsigned byte = 0;
                EQUAL(sscanf(infohash + 2 * at, "%2x", &byte), 1);
                EQUAL(digest.bytes[at], by_parts ? 0 : byte);
            }
            NUMBER(piecepick_pieces(picker, &number), pieces);
            for (uint32_t piece = 0; piece < pieces; piece++) {
                piecepick_digest hash = sha1(bytes_of(piece), length_of(piece));
                SPOIL(digest);
                EQUAL(piecepick_piece_hash(picker, piece, &digest), PIECEPICK_OK);
                EQUAL(memcmp(digest.bytes, digests + 20 * piece, 20), 0);
                EQUAL(memcmp(digest.bytes, hash.bytes, 20), 0);
                NUMBER(piecepick_piece_length(picker, piece, &number), length_of(piece));
                NUMBER(piecepick_blocks(picker, piece, &number), blocks_of(piece));
                NUMBER(piecepick_level(picker, piece, &number), 4);
                NUMBER(piecepick_has_piece(picker, piece, &number), 0);
                NUMBER(piecepick_is_waiting(picker, piece, &number), 0);
                NUMBER(piecepick_availability(picker, piece, &number), 0);
            }
            NUMBER(piecepick_is_complete(picker, &number), 0);
            NUMBER(piecepick_has_wanted(picker, &number), 0);
            NUMBER(piecepick_is_in_order(picker, &number), 0);
            NUMBER(piecepick_order_from(picker, &number), 8);
            piecepick_close(&picker);
        }
    told("what the torrent is, of a file and of parts");
}

/* Each number has a text of its own, and others have none. */
static void try_texts(void)
{
    const char *texts[128];
    size_t count = 0;
    for (int status = 0; status < 128; status++) {
        const int is_one = status <= 22 || (status > 100 && status <= 110);
        const char *text = piecepick_status_text((piecepick_status)status);
        EQUAL(strcmp(text, "no status of this interface") == 0, !is_one);
        if (is_one) texts[count++] = text;
    }
    for (int kind = 0; kind < 17; kind++) texts[count++] = piecepick_kind_text((piecepick_kind)kind);
    EQUAL(count, 33 + 17);
    for (size_t at = 0; at < count; at++)
        for (size_t other = 0; other < at; other++) EQUAL(strcmp(texts[at], texts[other]) == 0, 0);
    for (int reason = 0; reason < 16; reason++)
        EQUAL(strcmp(piecepick_reason_text((piecepick_reason)reason), "no reason of this interface") == 0, reason > 12);
    for (int rule = 0; rule < 8; rule++) {
        const char *text = piecepick_rule_text((piecepick_pick_rule)rule);
        EQUAL(strcmp(text, "no rule of this interface") == 0, rule < 1 || rule > 6);
        for (int other = 1; other < rule && rule <= 6; other++) EQUAL(strcmp(text, piecepick_rule_text((piecepick_pick_rule)other)) == 0, 0);
    }
    told("texts");
}

/* ---- The same cause has the same status at each call. */

typedef piecepick_status by_number(piecepick_picker *picker, uint32_t at, piecepick_answer *answer);
typedef piecepick_status by_flags(piecepick_picker *picker, const uint8_t *flags, size_t flags_len, piecepick_answer *answer);

#define BY_NUMBER(name, call) \
    static piecepick_status name(piecepick_picker *picker, uint32_t at, piecepick_answer *answer) { return call; }
BY_NUMBER(bits_of, piecepick_bits(picker, at, all, flags_len, answer))
BY_NUMBER(haves_of, piecepick_haves(picker, at, all, flags_len, answer))
BY_NUMBER(have_of, piecepick_have(picker, at, 0, answer))
BY_NUMBER(lack_of, piecepick_lack(picker, at, 0, answer))
BY_NUMBER(arrived_of, piecepick_arrived(picker, at, 0, 0, content, BLOCK, answer))
BY_NUMBER(release_of, piecepick_release(picker, at, 0, 0, answer))
BY_NUMBER(late_of, piecepick_late(picker, at, 0, 0, answer))
BY_NUMBER(depth_of, piecepick_depth(picker, at, 7, answer))
BY_NUMBER(reach_of, piecepick_reach(picker, at, 4, answer))
BY_NUMBER(alone_of, piecepick_alone(picker, at, 1, answer))
BY_NUMBER(next_of, piecepick_next(picker, at, 1, answer))
BY_NUMBER(outstanding_of, piecepick_outstanding_at(picker, at, 0, answer))
BY_NUMBER(requested_of, piecepick_requested(picker, at, 0, 0, answer))
BY_NUMBER(have_at, piecepick_have(picker, 0, at, answer))
BY_NUMBER(lack_at, piecepick_lack(picker, 0, at, answer))
BY_NUMBER(arrived_at, piecepick_arrived(picker, 0, at, 0, content, BLOCK, answer))
BY_NUMBER(release_at, piecepick_release(picker, 0, at, 0, answer))
BY_NUMBER(late_at, piecepick_late(picker, 0, at, 0, answer))
BY_NUMBER(level_at, piecepick_set_level(picker, at, 4, answer))
BY_NUMBER(discard_at, piecepick_discard(picker, at, 0, answer))
BY_NUMBER(requested_at, piecepick_requested(picker, 0, at, 0, answer))
#define BY_FLAGS(name, call) \
    static piecepick_status name(piecepick_picker *picker, const uint8_t *flags, size_t len, piecepick_answer *answer) { return call; }
BY_FLAGS(bits_by, piecepick_bits(picker, 0, flags, len, answer))
BY_FLAGS(haves_by, piecepick_haves(picker, 0, flags, len, answer))

static piecepick_status restore_piece(piecepick_picker *picker, uint32_t worker, uint32_t piece, uint32_t of, piecepick_answer *answer)
{
    piecepick_digest digest = sha1(bytes_of(of), length_of(of));
    return piecepick_restore(picker, worker, piece, bytes_of(of), length_of(of), &digest, answer);
}
BY_NUMBER(resume_of, piecepick_resume(picker, at, 0, 1, answer))
BY_NUMBER(resume_at, piecepick_resume(picker, 0, at, 1, answer))
BY_NUMBER(received_of, piecepick_received(picker, at, 0, 0, BLOCK, answer))
BY_NUMBER(received_at, piecepick_received(picker, 0, at, 0, BLOCK, answer))
BY_NUMBER(restore_of, restore_piece(picker, at, 0, 0, answer))
BY_NUMBER(restore_at, restore_piece(picker, 0, at, 0, answer))
static piecepick_status settle_at(piecepick_picker *picker, uint32_t piece, piecepick_answer *answer)
{
    piecepick_digest digest = sha1(content, length_of(0));
    return piecepick_settle(picker, piece, &digest, answer);
}

/* The first are refused where no peer has joined. `join` isn't, the one behind it asks only, and no journal has the last. */
static by_number *const AT_WORKER[] = {
    piecepick_leave, piecepick_choke, piecepick_unchoke, bits_of, haves_of, have_of, lack_of, arrived_of, release_of, late_of, depth_of, reach_of,
    alone_of, next_of, piecepick_join, outstanding_of, requested_of,
};
enum { NEED_A_PEER = 14, AT_WORKERS = 17 };
static by_number *const AT_PIECE[] = {have_at, lack_at, arrived_at, release_at, late_at, level_at, discard_at, piecepick_lose, requested_at};
static by_flags *const WITH_FLAGS[] = {bits_by, haves_by, piecepick_want};

static void no_worker(piecepick_picker *picker, uint32_t keeps, uint32_t worker)
{
    piecepick_answer answer;
    uint32_t number;
    for (size_t at = 0; at < AT_WORKERS; at++) NO_ANSWER(AT_WORKER[at](picker, worker, &answer), PIECEPICK_E_WORKER);
    NO_NUMBER(piecepick_outstanding(picker, worker, &number), PIECEPICK_E_WORKER);
    NO_NUMBER(piecepick_is_interesting(picker, worker, &number), PIECEPICK_E_WORKER);
    NO_ANSWER(restore_of(picker, worker, &answer), keeps == PIECEPICK_KEEPS_NOTHING ? PIECEPICK_E_WORKER : PIECEPICK_E_KEEPS);
    NO_ANSWER(resume_of(picker, worker, &answer), keeps == PIECEPICK_KEEPS_NOTHING ? PIECEPICK_E_WORKER : PIECEPICK_E_KEEPS);
    NO_ANSWER(received_of(picker, worker, &answer), keeps == PIECEPICK_KEEPS_NOTHING ? PIECEPICK_E_WORKER : PIECEPICK_E_KEEPS);
    /* The worker comes before the piece, the flags and the level. */
    NO_ANSWER(piecepick_have(picker, worker, pieces, &answer), PIECEPICK_E_WORKER);
    NO_ANSWER(piecepick_lack(picker, worker, pieces, &answer), PIECEPICK_E_WORKER);
    NO_ANSWER(piecepick_late(picker, worker, pieces, 0, &answer), PIECEPICK_E_WORKER);
    NO_ANSWER(piecepick_requested(picker, worker, pieces, 0, &answer), PIECEPICK_E_WORKER);
    NO_ANSWER(piecepick_bits(picker, worker, all, 0, &answer), PIECEPICK_E_WORKER);
    NO_ANSWER(piecepick_reach(picker, worker, 8, &answer), PIECEPICK_E_WORKER);
}

static void no_piece(piecepick_picker *picker, uint32_t keeps, uint32_t piece)
{
    const int is_journal = keeps == PIECEPICK_KEEPS_JOURNAL, is_nothing = keeps == PIECEPICK_KEEPS_NOTHING;
    piecepick_job *job = NULL;
    piecepick_answer answer;
    piecepick_digest digest;
    piecepick_status status;
    uint32_t number;
    for (size_t at = 0; at < sizeof AT_PIECE / sizeof *AT_PIECE; at++) NO_ANSWER(AT_PIECE[at](picker, piece, &answer), PIECEPICK_E_PIECE);
    NO_NUMBER(piecepick_has_piece(picker, piece, &number), PIECEPICK_E_PIECE);
    NO_NUMBER(piecepick_is_waiting(picker, piece, &number), PIECEPICK_E_PIECE);
    NO_NUMBER(piecepick_level(picker, piece, &number), PIECEPICK_E_PIECE);
    NO_NUMBER(piecepick_availability(picker, piece, &number), PIECEPICK_E_PIECE);
    NO_NUMBER(piecepick_piece_length(picker, piece, &number), PIECEPICK_E_PIECE);
    NO_NUMBER(piecepick_blocks(picker, piece, &number), PIECEPICK_E_PIECE);
    NO_NUMBER(piecepick_sender(picker, piece, 0, &number), PIECEPICK_E_PIECE);
    NO_NUMBER(piecepick_sender(picker, piece, MORE, &number), PIECEPICK_E_PIECE);
    NO_NUMBER(piecepick_rule(picker, piece, 0, &number), PIECEPICK_E_PIECE);
    NO_NUMBER(piecepick_rule(picker, piece, MORE, &number), PIECEPICK_E_PIECE);
    NO_NUMBER(piecepick_askers(picker, piece, 0, &number), PIECEPICK_E_PIECE);
    NO_NUMBER(piecepick_askers(picker, piece, MORE, &number), PIECEPICK_E_PIECE);
    SPOIL(digest);
    EQUAL(piecepick_piece_hash(picker, piece, &digest), PIECEPICK_E_PIECE);
    EQUAL(digest.bytes[0] == 0xa5 && digest.bytes[19] == 0xa5, 1);
    NO_ANSWER(settle_at(picker, piece, &answer), is_nothing ? PIECEPICK_E_PIECE : PIECEPICK_E_KEEPS);
    NO_ANSWER(piecepick_verdict(picker, piece, 1, &answer), is_nothing ? PIECEPICK_E_PIECE : PIECEPICK_E_KEEPS);
    NO_ANSWER(restore_at(picker, piece, &answer), is_nothing ? PIECEPICK_E_PIECE : PIECEPICK_E_KEEPS);
    NO_ANSWER(resume_at(picker, piece, &answer), is_nothing ? PIECEPICK_E_PIECE : PIECEPICK_E_KEEPS);
    NO_ANSWER(received_at(picker, piece, &answer), is_nothing ? PIECEPICK_E_PIECE : PIECEPICK_E_KEEPS);
    NO_ANSWER(piecepick_settle_now(picker, piece, &answer), is_journal ? PIECEPICK_E_PIECE : PIECEPICK_E_KEEPS);
    EQUAL(piecepick_read(picker, piece, room, PIECE), is_journal ? PIECEPICK_E_PIECE : PIECEPICK_E_KEEPS);
    /* Where nothing is kept there are two causes, of which the contract doesn't say which comes first at this call. */
    status = piecepick_job_take(picker, piece, &job);
    EQUAL(status == PIECEPICK_E_PIECE || (is_nothing && status == PIECEPICK_E_KEEPS), 1);
    EQUAL(job == NULL, 1);
}

static void try_statuses(uint32_t keeps)
{
    const int is_journal = keeps == PIECEPICK_KEEPS_JOURNAL, is_nothing = keeps == PIECEPICK_KEEPS_NOTHING;
    piecepick_picker *picker = open_for(keeps, 3);
    piecepick_job *job = NULL;
    piecepick_answer answer;
    uint32_t number;
    uint8_t spare[MOST_PIECES / 8];
    uint64_t before;
    EQUAL(pieces % 8 != 0, 1);
    come(picker, 0);
    SPOIL(answer);
    EQUAL(piecepick_next(picker, 0, 1, &answer), PIECEPICK_OK);
    EQUAL(answer.kind, PIECEPICK_K_REQUEST);
    before = picture(picker);
    no_worker(picker, keeps, 3);
    no_worker(picker, keeps, 1024);
    no_worker(picker, keeps, MORE);
    no_piece(picker, keeps, pieces);
    no_piece(picker, keeps, MORE);
    memcpy(spare, all, flags_len);
    spare[flags_len - 1] |= 1;
    for (size_t at = 0; at < sizeof WITH_FLAGS / sizeof *WITH_FLAGS; at++) {
        NO_ANSWER(WITH_FLAGS[at](picker, all, 0, &answer), PIECEPICK_E_BITS_LENGTH);
        NO_ANSWER(WITH_FLAGS[at](picker, all, flags_len - 1, &answer), PIECEPICK_E_BITS_LENGTH);
        NO_ANSWER(WITH_FLAGS[at](picker, all, flags_len + 1, &answer), PIECEPICK_E_BITS_LENGTH);
        NO_ANSWER(WITH_FLAGS[at](picker, spare, flags_len, &answer), PIECEPICK_E_SPARE_BITS);
    }
    /* Where no peer has joined. */
    for (size_t at = 0; at < NEED_A_PEER; at++) REFUSED(AT_WORKER[at](picker, 1, &answer), PIECEPICK_R_NOT_JOINED);
    REFUSED(piecepick_reach(picker, 1, 8, &answer), PIECEPICK_R_NOT_JOINED);
    REFUSED(piecepick_alone(picker, 1, 0, &answer), PIECEPICK_R_NOT_JOINED);
    NO_ANSWER(piecepick_lack(picker, 1, pieces, &answer), PIECEPICK_E_PIECE);
    NO_ANSWER(piecepick_late(picker, 1, pieces, 0, &answer), PIECEPICK_E_PIECE);
    NO_ANSWER(piecepick_requested(picker, 1, pieces, 0, &answer), PIECEPICK_E_PIECE);
    if (!is_journal) REFUSED(piecepick_requested(picker, 1, 0, 1, &answer), PIECEPICK_R_NOT_JOINED);
    else NO_ANSWER(piecepick_requested(picker, 1, 0, 1, &answer), PIECEPICK_E_KEEPS);
    if (is_nothing) REFUSED(restore_of(picker, 1, &answer), PIECEPICK_R_NOT_JOINED);
    else NO_ANSWER(restore_of(picker, 1, &answer), PIECEPICK_E_KEEPS);
    if (is_nothing) REFUSED(resume_of(picker, 1, &answer), PIECEPICK_R_NOT_JOINED);
    else NO_ANSWER(resume_of(picker, 1, &answer), PIECEPICK_E_KEEPS);
    if (is_nothing) REFUSED(received_of(picker, 1, &answer), PIECEPICK_R_NOT_JOINED);
    else NO_ANSWER(received_of(picker, 1, &answer), PIECEPICK_E_KEEPS);
    NUMBER(piecepick_outstanding(picker, 1, &number), 0);
    NO_ANSWER(piecepick_outstanding_at(picker, 1, 0, &answer), PIECEPICK_E_PLACE);
    NO_ANSWER(piecepick_outstanding_at(picker, 0, 1, &answer), PIECEPICK_E_PLACE);
    NO_ANSWER(piecepick_outstanding_at(picker, 0, MORE, &answer), PIECEPICK_E_PLACE);
    /* A piece that isn't full, and a block that isn't there. */
    NO_ANSWER(settle_at(picker, 1, &answer), is_nothing ? PIECEPICK_E_NOT_WAITING : PIECEPICK_E_KEEPS);
    NO_ANSWER(piecepick_settle_now(picker, 1, &answer), is_journal ? PIECEPICK_E_NOT_WAITING : PIECEPICK_E_KEEPS);
    EQUAL(piecepick_job_take(picker, 1, &job), is_nothing ? PIECEPICK_E_KEEPS : PIECEPICK_E_NOT_WAITING);
    EQUAL(job == NULL, 1);
    EQUAL(piecepick_read(picker, 1, room, PIECE), is_journal ? PIECEPICK_E_INCOMPLETE : PIECEPICK_E_KEEPS);
    EQUAL(piecepick_audit(picker), is_journal ? PIECEPICK_OK : PIECEPICK_E_KEEPS);
    NO_NUMBER(piecepick_sender(picker, 1, 0, &number), PIECEPICK_E_NOT_HELD);
    NO_NUMBER(piecepick_sender(picker, 1, blocks_of(1), &number), PIECEPICK_E_BLOCK);
    NO_NUMBER(piecepick_sender(picker, pieces - 1, blocks_of(pieces - 1), &number), PIECEPICK_E_BLOCK);
    NO_NUMBER(piecepick_sender(picker, 1, MORE, &number), PIECEPICK_E_BLOCK);
    NO_NUMBER(piecepick_rule(picker, 1, blocks_of(1), &number), PIECEPICK_E_BLOCK);
    NO_NUMBER(piecepick_rule(picker, pieces - 1, blocks_of(pieces - 1), &number), PIECEPICK_E_BLOCK);
    NO_NUMBER(piecepick_rule(picker, 1, MORE, &number), PIECEPICK_E_BLOCK);
    NO_NUMBER(piecepick_askers(picker, pieces - 1, blocks_of(pieces - 1), &number), PIECEPICK_E_BLOCK);
    NO_NUMBER(piecepick_askers(picker, 1, MORE, &number), PIECEPICK_E_BLOCK);
    NO_ANSWER(piecepick_verdict(picker, 1, 0, &answer), is_nothing ? PIECEPICK_E_NOT_WAITING : PIECEPICK_E_KEEPS);
    NO_ANSWER(piecepick_verdict(picker, 1, 1, &answer), is_nothing ? PIECEPICK_E_NOT_WAITING : PIECEPICK_E_KEEPS);
    EQUAL(piecepick_hash_four(content, 0, content, 0, content, 0, content, 0, room, 79), PIECEPICK_E_LENGTH);
    EQUAL(piecepick_hash_four(content, 0, content, 0, content, 0, content, 0, room, 81), PIECEPICK_E_LENGTH);
    /* Refusals change nothing either. */
    REFUSED(piecepick_join(picker, 0, &answer), PIECEPICK_R_ALREADY_JOINED);
    REFUSED(piecepick_bits(picker, 0, all, flags_len, &answer), PIECEPICK_R_LATE_BITS);
    REFUSED(piecepick_depth(picker, 0, 0, &answer), PIECEPICK_R_WRONG_DEPTH);
    REFUSED(piecepick_depth(picker, 0, 501, &answer), PIECEPICK_R_WRONG_DEPTH);
    REFUSED(piecepick_depth(picker, 0, MORE, &answer), PIECEPICK_R_WRONG_DEPTH);
    REFUSED(piecepick_reach(picker, 0, 8, &answer), PIECEPICK_R_WRONG_LEVEL);
    REFUSED(piecepick_reach(picker, 0, 260, &answer), PIECEPICK_R_WRONG_LEVEL);
    REFUSED(piecepick_reach(picker, 0, MORE, &answer), PIECEPICK_R_WRONG_LEVEL);
    REFUSED(piecepick_set_level(picker, 0, 8, &answer), PIECEPICK_R_WRONG_LEVEL);
    REFUSED(piecepick_set_level(picker, 0, 260, &answer), PIECEPICK_R_WRONG_LEVEL);
    REFUSED(piecepick_set_level(picker, 0, MORE, &answer), PIECEPICK_R_WRONG_LEVEL);
    REFUSED(piecepick_set_in_order_from(picker, 9, &answer), PIECEPICK_R_WRONG_LEVEL);
    REFUSED(piecepick_set_in_order_from(picker, 260, &answer), PIECEPICK_R_WRONG_LEVEL);
    REFUSED(piecepick_set_in_order_from(picker, MORE, &answer), PIECEPICK_R_WRONG_LEVEL);
    REFUSED(piecepick_set_levels(picker, none, pieces - 1, &answer), PIECEPICK_R_WRONG_COUNT);
    REFUSED(piecepick_set_levels(picker, none, pieces + 1, &answer), PIECEPICK_R_WRONG_COUNT);
    REFUSED(piecepick_set_levels(picker, none, 0, &answer), PIECEPICK_R_WRONG_COUNT);
    REFUSED(piecepick_arrived(picker, 0, 1, 1, content, BLOCK, &answer), PIECEPICK_R_NO_SUCH_BLOCK);
    REFUSED(piecepick_arrived(picker, 0, 1, PIECE, content, BLOCK, &answer), PIECEPICK_R_NO_SUCH_BLOCK);
    REFUSED(piecepick_arrived(picker, 0, 1, MORE, content, BLOCK, &answer), PIECEPICK_R_NO_SUCH_BLOCK);
    REFUSED(piecepick_arrived(picker, 0, 1, 0, content, BLOCK - 1, &answer), PIECEPICK_R_WRONG_LENGTH);
    REFUSED(piecepick_arrived(picker, 0, 1, 0, content, BLOCK + 1, &answer), PIECEPICK_R_WRONG_LENGTH);
    REFUSED(piecepick_arrived(picker, 0, 1, 0, content, 0, &answer), PIECEPICK_R_WRONG_LENGTH);
    REFUSED(piecepick_arrived(picker, 0, pieces - 1, 0, content, BLOCK, &answer), PIECEPICK_R_WRONG_LENGTH);
    REFUSED(piecepick_release(picker, 0, 0, 1, &answer), PIECEPICK_R_NOT_REQUESTED);
    REFUSED(piecepick_release(picker, 0, 0, MORE, &answer), PIECEPICK_R_NOT_REQUESTED);
    REFUSED(piecepick_late(picker, 0, 0, 1, &answer), PIECEPICK_R_NOT_REQUESTED);
    REFUSED(piecepick_late(picker, 0, 0, MORE, &answer), PIECEPICK_R_NOT_REQUESTED);
    EQUAL(picture(picker), before);
    if (is_journal) EQUAL(piecepick_audit(picker), PIECEPICK_OK);
    piecepick_close(&picker);
}

/* ---- What comes on the wire, and what is asked. */

static void try_wire(uint32_t keeps)
{
    piecepick_picker *picker = open_for(keeps, 2);
    piecepick_answer answer, request[3];
    uint32_t number;
    GETS(piecepick_join(picker, 0, &answer), PIECEPICK_K_JOINED);
    GETS(piecepick_next(picker, 0, 0, &answer), PIECEPICK_K_CHOKED);
    QUIET(piecepick_unchoke(picker, 0, &answer));
    GETS(piecepick_next(picker, 0, 0, &answer), PIECEPICK_K_NOTHING_LEFT);
    REFUSED(piecepick_bits(picker, 0, all, flags_len, &answer), PIECEPICK_R_LATE_BITS);
    NOTED(piecepick_haves(picker, 0, none, flags_len, &answer), 0);
    NOTED(piecepick_haves(picker, 0, all, flags_len, &answer), 1);
    NOTED(piecepick_haves(picker, 0, none, flags_len, &answer), 1); /* what it had before stays */
    /* The other peer. */
    GETS(piecepick_join(picker, 1, &answer), PIECEPICK_K_JOINED);
    NOTED(piecepick_bits(picker, 1, none, flags_len, &answer), 0);
    NOTED(piecepick_have(picker, 1, 2, &answer), 1);
    NUMBER(piecepick_availability(picker, 2, &number), 2);
    NUMBER(piecepick_availability(picker, 1, &number), 1);
    QUIET(piecepick_leave(picker, 1, &answer));
    NUMBER(piecepick_availability(picker, 2, &number), 1);
    /* Five blocks at a time: each is told once more by its place, until it comes or is given up. */
    for (uint32_t place = 0; place < 5; place++) {
        SPOIL(answer);
        EQUAL(piecepick_next(picker, 0, place, &answer), PIECEPICK_OK);
        EQUAL(answer.kind, PIECEPICK_K_REQUEST);
        is_block(__LINE__, "next", &answer, PIECEPICK_K_REQUEST, answer.piece, answer.begin);
        if (place < 3) request[place] = answer;
        NUMBER(piecepick_outstanding(picker, 0, &number), place + 1);
        for (uint32_t before = 0; before <= place && before < 3; before++)
            BLOCKS(piecepick_outstanding_at(picker, 0, before, &answer), PIECEPICK_K_REQUEST, request[before].piece, request[before].begin);
    }
    GETS(piecepick_next(picker, 0, 5, &answer), PIECEPICK_K_PIPE_FULL);
    QUIET(piecepick_release(picker, 0, request[1].piece, request[1].begin, &answer));
    REFUSED(piecepick_release(picker, 0, request[1].piece, request[1].begin, &answer), PIECEPICK_R_NOT_REQUESTED);
    NUMBER(piecepick_outstanding(picker, 0, &number), 4);
    BLOCKS(piecepick_outstanding_at(picker, 0, 1, &answer), PIECEPICK_K_REQUEST, request[2].piece, request[2].begin);
    EQUAL(piecepick_next(picker, 0, 6, &answer), PIECEPICK_OK);
    EQUAL(answer.kind, PIECEPICK_K_REQUEST);
    /* A block that nobody was asked for is kept too; what is told of it goes by what is held. */
    EQUAL(bring(picker, 0, request[0].piece, request[0].begin, 0) != PIECEPICK_K_DROPPED, 1);
    EQUAL(bring(picker, 0, request[0].piece, request[0].begin, 0), PIECEPICK_K_DROPPED);
    NUMBER(piecepick_outstanding(picker, 0, &number), 4);
    /* A choke ends what is asked; a depth that was told lasts until the next peer joins. */
    QUIET(piecepick_depth(picker, 0, 2, &answer));
    NUMBER(piecepick_outstanding(picker, 0, &number), 4);
    GETS(piecepick_next(picker, 0, 7, &answer), PIECEPICK_K_PIPE_FULL);
    QUIET(piecepick_choke(picker, 0, &answer));
    NUMBER(piecepick_outstanding(picker, 0, &number), 0);
    GETS(piecepick_next(picker, 0, 8, &answer), PIECEPICK_K_CHOKED);
    QUIET(piecepick_unchoke(picker, 0, &answer));
    for (uint32_t depth = 0; depth < 2; depth++) {
        EQUAL(piecepick_next(picker, 0, depth, &answer), PIECEPICK_OK);
        EQUAL(answer.kind, PIECEPICK_K_REQUEST);
    }
    GETS(piecepick_next(picker, 0, 9, &answer), PIECEPICK_K_PIPE_FULL);
    QUIET(piecepick_leave(picker, 0, &answer));
    come(picker, 0);
    for (uint32_t depth = 0; depth < 5; depth++) {
        EQUAL(piecepick_next(picker, 0, depth, &answer), PIECEPICK_OK);
        EQUAL(answer.kind, PIECEPICK_K_REQUEST);
    }
    GETS(piecepick_next(picker, 0, 10, &answer), PIECEPICK_K_PIPE_FULL);
    if (keeps == PIECEPICK_KEEPS_JOURNAL) EQUAL(piecepick_audit(picker), PIECEPICK_OK);
    piecepick_close(&picker);
}

/* Pieces on their way to being complete, and what is wanted. */
static void try_pieces(uint32_t keeps)
{
    piecepick_picker *picker = open_for(keeps, 2);
    piecepick_answer answer;
    uint32_t number;
    uint8_t third[MOST_PIECES / 8] = {0x20};
    NUMBER(piecepick_is_interesting(picker, 0, &number), 0); /* no peer has joined */
    QUIET(piecepick_want(picker, third, flags_len, &answer));
    for (uint32_t piece = 0; piece < pieces; piece++) NUMBER(piecepick_level(picker, piece, &number), piece == 2 ? 4 : 0);
    GETS(piecepick_join(picker, 1, &answer), PIECEPICK_K_JOINED);
    NOTED(piecepick_have(picker, 1, 1, &answer), 0);
    NUMBER(piecepick_is_interesting(picker, 1, &number), 0); /* it shows nothing that is wanted */
    come(picker, 0);
    NUMBER(piecepick_is_interesting(picker, 0, &number), 1);
    /* A piece that isn't wanted isn't asked for. */
    for (uint32_t index = 0; index < 2; index++) {
        EQUAL(piecepick_next(picker, 0, 9, &answer), PIECEPICK_OK);
        is_block(__LINE__, "next", &answer, PIECEPICK_K_REQUEST, 2, answer.begin);
    }
    GETS(piecepick_next(picker, 0, 9, &answer), PIECEPICK_K_IDLE);
    EQUAL(bring(picker, 0, 2, 0, 0), PIECEPICK_K_STORED);
    NUMBER(piecepick_is_waiting(picker, 2, &number), 0);
    EQUAL(bring(picker, 0, 2, BLOCK, 1), PIECEPICK_K_FULL);
    NUMBER(piecepick_is_waiting(picker, 2, &number), 1);
    NUMBER(piecepick_has_piece(picker, 2, &number), 0);
    GETS(piecepick_next(picker, 0, 9, &answer), PIECEPICK_K_IDLE); /* a full piece isn't complete yet */
    NUMBER(piecepick_is_interesting(picker, 0, &number), 1);
    EQUAL(settle(picker, keeps, 2, 1), PIECEPICK_K_FAILED);
    NUMBER(piecepick_is_waiting(picker, 2, &number), 0);
    NUMBER(piecepick_has_piece(picker, 2, &number), 0);
    EQUAL(bring_whole(picker, keeps, 0, 2), PIECEPICK_K_COMPLETE);
    NUMBER(piecepick_is_waiting(picker, 2, &number), 0);
    NUMBER(piecepick_has_piece(picker, 2, &number), 1);
    NUMBER(piecepick_has_wanted(picker, &number), 1);
    NUMBER(piecepick_is_complete(picker, &number), 0);
    GETS(piecepick_next(picker, 0, 9, &answer), PIECEPICK_K_NOTHING_LEFT);
    NUMBER(piecepick_is_interesting(picker, 0, &number), 0);
    EQUAL(bring(picker, 0, 2, 0, 0), PIECEPICK_K_DROPPED);
    /* A piece that isn't wanted comes all the same. */
    EQUAL(bring_whole(picker, keeps, 0, pieces - 1), PIECEPICK_K_COMPLETE);
    QUIET(piecepick_want(picker, all, flags_len, &answer));
    NUMBER(piecepick_has_wanted(picker, &number), 0);
    for (uint32_t peer = 0; peer < 2; peer++) NUMBER(piecepick_is_interesting(picker, peer, &number), 1);
    for (uint32_t piece = 0; piece < pieces; piece++)
        if (piece != 2 && piece != pieces - 1) EQUAL(bring_whole(picker, keeps, 0, piece), PIECEPICK_K_COMPLETE);
    NUMBER(piecepick_has_wanted(picker, &number), 1);
    NUMBER(piecepick_is_complete(picker, &number), 1);
    NOTED(piecepick_have(picker, 0, 1, &answer), 0);
    GETS(piecepick_next(picker, 0, 9, &answer), PIECEPICK_K_NOTHING_LEFT);
    if (keeps == PIECEPICK_KEEPS_JOURNAL) EQUAL(piecepick_audit(picker), PIECEPICK_OK);
    piecepick_close(&picker);
}

/* Levels, and the order of pieces of one level. */
static void try_levels(uint32_t keeps)
{
    piecepick_picker *picker = open_for(keeps, 2);
    piecepick_answer answer;
    uint32_t number;
    uint8_t levels[MOST_PIECES];
    memset(levels, 4, sizeof levels);
    levels[2] = 7;
    QUIET(piecepick_set_levels(picker, levels, pieces, &answer));
    NUMBER(piecepick_level(picker, 2, &number), 7);
    levels[3] = 8;
    REFUSED(piecepick_set_levels(picker, levels, pieces, &answer), PIECEPICK_R_WRONG_LEVEL);
    QUIET(piecepick_set_level(picker, 0, 0, &answer));
    NUMBER(piecepick_level(picker, 0, &number), 0);
    QUIET(piecepick_set_in_order(picker, 1, &answer));
    NUMBER(piecepick_is_in_order(picker, &number), 1);
    come(picker, 0);
    BLOCKS(piecepick_next(picker, 0, 0, &answer), PIECEPICK_K_REQUEST, 2, 0);
    BLOCKS(piecepick_next(picker, 0, 0, &answer), PIECEPICK_K_REQUEST, 2, BLOCK);
    BLOCKS(piecepick_next(picker, 0, 0, &answer), PIECEPICK_K_REQUEST, 1, 0);
    QUIET(piecepick_set_level(picker, 0, 4, &answer));
    BLOCKS(piecepick_next(picker, 0, 0, &answer), PIECEPICK_K_REQUEST, 0, 0);
    QUIET(piecepick_set_in_order(picker, 7, &answer)); /* any number but 0 */
    NUMBER(piecepick_is_in_order(picker, &number), 1);
    QUIET(piecepick_set_in_order(picker, 0, &answer));
    NUMBER(piecepick_is_in_order(picker, &number), 0);
    EQUAL(piecepick_next(picker, 0, 0, &answer), PIECEPICK_OK); /* a piece that has begun comes first: 0 or 1 */
    EQUAL(answer.kind, PIECEPICK_K_REQUEST);
    EQUAL(answer.piece < 2 && answer.begin == BLOCK, 1);
    if (keeps == PIECEPICK_KEEPS_JOURNAL) EQUAL(piecepick_audit(picker), PIECEPICK_OK);
    piecepick_close(&picker);
}

/* From which level on pieces come in order, and whether all of them do. */
static void orders_from(piecepick_picker *picker, uint32_t level)
{
    uint32_t number;
    NUMBER(piecepick_order_from(picker, &number), level);
    NUMBER(piecepick_is_in_order(picker, &number), level < 2);
}

/* The blocks of this piece are requested next, one behind the other. */
static void asks_piece(piecepick_picker *picker, uint32_t worker, uint64_t word, uint32_t piece)
{
    piecepick_answer answer;
    for (uint32_t begin = 0; begin < length_of(piece); begin += BLOCK)
        BLOCKS(piecepick_next(picker, worker, word, &answer), PIECEPICK_K_REQUEST, piece, begin);
}

/* A reader is at the last pieces. Peer 0 has all, and peer 1 has pieces 0, 1, 6 and 7: the others are rarer. */
static piecepick_picker *open_with_reader(uint32_t keeps)
{
    static const uint8_t LEVELS[] = {4, 4, 4, 4, 4, 4, 5, 5, 5, 7}, SHOWN[] = {0xc3, 0};
    piecepick_options options = PIECEPICK_OPTIONS;
    piecepick_picker *picker;
    piecepick_answer answer;
    options.keeps = keeps;
    options.workers = 2;
    options.depth = 64;
    options.random = 0;
    picker = open_by(&options);
    orders_from(picker, 8);
    QUIET(piecepick_set_in_order_from(picker, 5, &answer)); /* nobody has joined yet */
    orders_from(picker, 5);
    QUIET(piecepick_set_levels(picker, LEVELS, pieces, &answer));
    come(picker, 0);
    come_with(picker, 1, SHOWN);
    return picker;
}

/* The window before a reader comes in order, and the rest the rarest first. */
static void try_windows(uint32_t keeps)
{
    piecepick_picker *picker = open_with_reader(keeps);
    piecepick_answer answer;
    BLOCKS(piecepick_next(picker, 0, 4, &answer), PIECEPICK_K_REQUEST, 9, 0);
    for (uint32_t piece = 6; piece < 9; piece++) asks_piece(picker, 0, 4, piece); /* though the last of these is the rarest */
    BLOCKS(piecepick_next(picker, 0, 4, &answer), PIECEPICK_K_REQUEST, 4, 0);     /* not 0, which is before it and less rare */
    QUIET(piecepick_set_in_order_from(picker, 4, &answer));
    orders_from(picker, 4);
    BLOCKS(piecepick_next(picker, 0, 4, &answer), PIECEPICK_K_REQUEST, 0, 0);
    /* With 7 the highest level alone is in order, with 8 none. */
    NOTED(piecepick_have(picker, 1, 2, &answer), 1); /* so 3 is rarer than 2 */
    QUIET(piecepick_set_level(picker, 2, 7, &answer));
    QUIET(piecepick_set_level(picker, 3, 7, &answer));
    QUIET(piecepick_set_in_order_from(picker, 8, &answer));
    orders_from(picker, 8);
    BLOCKS(piecepick_next(picker, 0, 4, &answer), PIECEPICK_K_REQUEST, 3, 0);
    QUIET(piecepick_set_in_order_from(picker, 7, &answer));
    orders_from(picker, 7);
    asks_piece(picker, 0, 4, 2);
    BLOCKS(piecepick_next(picker, 0, 4, &answer), PIECEPICK_K_REQUEST, 3, BLOCK);
    BLOCKS(piecepick_next(picker, 0, 4, &answer), PIECEPICK_K_REQUEST, 4, BLOCK); /* below it the rarest again */
    REFUSED(piecepick_set_in_order_from(picker, 9, &answer), PIECEPICK_R_WRONG_LEVEL);
    orders_from(picker, 7);
    if (keeps == PIECEPICK_KEEPS_JOURNAL) EQUAL(piecepick_audit(picker), PIECEPICK_OK);
    piecepick_close(&picker);
}

/* Two calls tell an order, and the newest of either holds. */
static void try_orders(uint32_t keeps)
{
    piecepick_picker *picker = open_with_reader(keeps);
    piecepick_answer answer;
    QUIET(piecepick_set_in_order(picker, 0, &answer));
    orders_from(picker, 8);
    asks_piece(picker, 0, 4, 9);
    BLOCKS(piecepick_next(picker, 0, 4, &answer), PIECEPICK_K_REQUEST, 8, 0);
    QUIET(piecepick_set_in_order_from(picker, 5, &answer));
    orders_from(picker, 5);
    for (uint32_t piece = 6; piece < 8; piece++) asks_piece(picker, 0, 4, piece);
    BLOCKS(piecepick_next(picker, 0, 4, &answer), PIECEPICK_K_REQUEST, 8, BLOCK);
    BLOCKS(piecepick_next(picker, 0, 4, &answer), PIECEPICK_K_REQUEST, 4, 0);
    QUIET(piecepick_set_in_order(picker, 1, &answer));
    orders_from(picker, 0);
    BLOCKS(piecepick_next(picker, 0, 4, &answer), PIECEPICK_K_REQUEST, 0, 0);
    QUIET(piecepick_set_in_order_from(picker, 8, &answer));
    orders_from(picker, 8);
    BLOCKS(piecepick_next(picker, 0, 4, &answer), PIECEPICK_K_REQUEST, 4, BLOCK);
    QUIET(piecepick_set_in_order_from(picker, 1, &answer));
    orders_from(picker, 1);
    BLOCKS(piecepick_next(picker, 0, 4, &answer), PIECEPICK_K_REQUEST, 0, BLOCK);
    QUIET(piecepick_set_in_order(picker, 0, &answer));
    orders_from(picker, 8);
    BLOCKS(piecepick_next(picker, 0, 4, &answer), PIECEPICK_K_REQUEST, 5, 0);
    QUIET(piecepick_set_in_order_from(picker, 0, &answer));
    orders_from(picker, 0);
    BLOCKS(piecepick_next(picker, 0, 4, &answer), PIECEPICK_K_REQUEST, 1, 0);
    if (keeps == PIECEPICK_KEEPS_JOURNAL) EQUAL(piecepick_audit(picker), PIECEPICK_OK);
    piecepick_close(&picker);
}

static const uint8_t two[MOST_PIECES / 8] = {0xc0}; /* flags: the first two pieces */

/* With one open piece allowed: worker 1 has two pieces, and 0 has all. */
static void try_open_pieces(uint32_t keeps)
{
    piecepick_options options = PIECEPICK_OPTIONS;
    piecepick_picker *picker;
    piecepick_answer answer;
    options.keeps = keeps;
    options.workers = 2;
    options.random = 0;
    options.open = 1;
    picker = open_by(&options);
    come(picker, 0);
    come_with(picker, 1, two);
    BLOCKS(piecepick_next(picker, 1, 0, &answer), PIECEPICK_K_REQUEST, 0, 0);
    BLOCKS(piecepick_next(picker, 0, 2, &answer), PIECEPICK_K_REQUEST, 2, 0);     /* rarer than the begun one */
    BLOCKS(piecepick_next(picker, 0, 3, &answer), PIECEPICK_K_REQUEST, 2, BLOCK); /* two are open: the rarer one goes on */
    BLOCKS(piecepick_next(picker, 1, 1, &answer), PIECEPICK_K_REQUEST, 0, BLOCK); /* as rare as one that hasn't begun */
    if (keeps == PIECEPICK_KEEPS_JOURNAL) EQUAL(piecepick_audit(picker), PIECEPICK_OK);
    piecepick_close(&picker);
}

/* Depths that may be told, and as many requests. The torrent has a thousand blocks, and is never downloaded. */
static const struct { uint32_t deepest, depth; int is_refused; } DEPTHS[] = {
    {500, 500, 0}, {500, 501, 1}, {500, 1, 0}, {500, 0, 1}, {500, MORE, 1}, {1, 1, 0}, {1, 2, 1}, {1, 64, 1}, {64, 64, 0},
    {64, 65, 1}, {65, 65, 0}, {65, 66, 1}, {4096, 900, 0}, {4096, 4096, 0}, {4096, 4097, 1},
};

static void try_depths(uint32_t keeps)
{
    for (size_t at = 0; at < sizeof DEPTHS / sizeof *DEPTHS; at++) {
        piecepick_options options = PIECEPICK_OPTIONS;
        piecepick_picker *picker = NULL;
        piecepick_answer answer;
        uint32_t asked = 0, wanted = DEPTHS[at].is_refused ? options.depth : DEPTHS[at].depth, number;
        const uint8_t every[2] = {0xff, 0xc0};
        options.keeps = keeps;
        options.workers = 1;
        options.deepest = DEPTHS[at].deepest;
        EQUAL(piecepick_open_parts(&picker, 100 * BLOCK, 1000 * BLOCK, content, 200, &options), PIECEPICK_OK);
        GETS(piecepick_join(picker, 0, &answer), PIECEPICK_K_JOINED);
        NOTED(piecepick_bits(picker, 0, every, sizeof every, &answer), 1);
        QUIET(piecepick_unchoke(picker, 0, &answer));
        if (DEPTHS[at].is_refused) REFUSED(piecepick_depth(picker, 0, DEPTHS[at].depth, &answer), PIECEPICK_R_WRONG_DEPTH);
        else QUIET(piecepick_depth(picker, 0, DEPTHS[at].depth, &answer));
        for (;;) {
            SPOIL(answer);
            EQUAL(piecepick_next(picker, 0, asked, &answer), PIECEPICK_OK);
            if (answer.kind != PIECEPICK_K_REQUEST) break;
            asked++;
        }
        EQUAL(answer.kind, wanted > 1000 ? PIECEPICK_K_IDLE : PIECEPICK_K_PIPE_FULL);
        EQUAL(asked, wanted > 1000 ? 1000 : wanted);
        NUMBER(piecepick_outstanding(picker, 0, &number), asked);
        if (keeps == PIECEPICK_KEEPS_JOURNAL && asked < 100) EQUAL(piecepick_audit(picker), PIECEPICK_OK);
        piecepick_close(&picker);
    }
}

/* In endgame a block is asked of no more peers than the bound says; the first that brings it has cancels sent to the others. */
static uint32_t asks_all(piecepick_picker *picker, uint32_t worker, piecepick_kind last)
{
    piecepick_answer answer;
    uint32_t asked = 0;
    for (;;) {
        SPOIL(answer);
        EQUAL(piecepick_next(picker, worker, 3, &answer), PIECEPICK_OK);
        if (answer.kind != PIECEPICK_K_REQUEST) break;
        asked++;
    }
    EQUAL(answer.kind, last);
    return asked;
}

/* How many blocks of the piece are in flight at the worker's peer. */
static uint32_t in_flight_of(piecepick_picker *picker, uint32_t worker, uint32_t piece)
{
    piecepick_answer answer;
    uint32_t count, found = 0;
    EQUAL(piecepick_outstanding(picker, worker, &count), PIECEPICK_OK);
    for (uint32_t place = 0; place < count; place++) {
        EQUAL(piecepick_outstanding_at(picker, worker, place, &answer), PIECEPICK_OK);
        found += answer.piece == piece;
    }
    return found;
}

static void try_endgame(uint32_t keeps)
{
    static const uint32_t BOUNDS[] = {1, 2, 3, 1024};
    for (size_t at = 0; at < sizeof BOUNDS / sizeof *BOUNDS; at++) {
        piecepick_options options = PIECEPICK_OPTIONS;
        piecepick_answer answer, block;
        piecepick_picker *picker;
        const uint32_t blocks = all_blocks();
        options.keeps = keeps;
        options.workers = 3;
        options.depth = 64;
        options.rush = 4096;
        options.askers = BOUNDS[at];
        picker = open_by(&options);
        for (uint32_t worker = 0; worker < 3; worker++) come(picker, worker);
        for (uint32_t worker = 0; worker < 3; worker++)
            EQUAL(asks_all(picker, worker, PIECEPICK_K_IDLE), worker < BOUNDS[at] ? blocks : 0);
        if (BOUNDS[at] == 2) {
            EQUAL(piecepick_outstanding_at(picker, 1, 0, &block), PIECEPICK_OK);
            EQUAL(bring(picker, 1, block.piece, block.begin, 0) == PIECEPICK_K_DROPPED, 0);
            BLOCKS(piecepick_next(picker, 0, 3, &answer), PIECEPICK_K_CANCEL, block.piece, block.begin);
            GETS(piecepick_next(picker, 0, 3, &answer), PIECEPICK_K_IDLE); /* once */
            GETS(piecepick_next(picker, 2, 3, &answer), PIECEPICK_K_IDLE);
            QUIET(piecepick_choke(picker, 0, &answer));
            EQUAL(asks_all(picker, 2, PIECEPICK_K_IDLE), blocks - 1);
            EQUAL(asks_all(picker, 1, PIECEPICK_K_IDLE), 0);
        }
        if (keeps == PIECEPICK_KEEPS_JOURNAL) EQUAL(piecepick_audit(picker), PIECEPICK_OK);
        piecepick_close(&picker);
    }
}

/* In endgame a block is asked again only of a peer that is asked for fewer than the bound says. What nobody was asked for has no such bound. */
static void try_rush(uint32_t keeps)
{
    static const uint32_t BOUNDS[] = {0, 1, 2, 16, 4096};
    const uint32_t blocks = all_blocks();
    EQUAL(blocks > 16, 1);
    for (size_t at = 0; at < sizeof BOUNDS / sizeof *BOUNDS; at++) {
        const uint32_t again = BOUNDS[at] < blocks ? BOUNDS[at] : blocks;
        piecepick_options options = PIECEPICK_OPTIONS;
        piecepick_answer answer, block;
        piecepick_picker *picker;
        options.keeps = keeps;
        options.workers = 2;
        options.depth = 64;
        options.rush = BOUNDS[at];
        picker = open_by(&options);
        come(picker, 0);
        come(picker, 1);
        EQUAL(asks_all(picker, 0, PIECEPICK_K_IDLE), blocks);
        EQUAL(asks_all(picker, 1, PIECEPICK_K_IDLE), again);
        if (BOUNDS[at] == 1) {
            /* Its one block comes from the other peer. Then it is asked for none, and so for the next one. */
            EQUAL(piecepick_outstanding_at(picker, 1, 0, &block), PIECEPICK_OK);
            EQUAL(bring(picker, 0, block.piece, block.begin, 0) == PIECEPICK_K_DROPPED, 0);
            BLOCKS(piecepick_next(picker, 1, 3, &answer), PIECEPICK_K_CANCEL, block.piece, block.begin);
            EQUAL(asks_all(picker, 1, PIECEPICK_K_IDLE), 1);
            /* A block that is given up is asked of a peer with any number of them. */
            QUIET(piecepick_choke(picker, 0, &answer));
            EQUAL(asks_all(picker, 1, PIECEPICK_K_IDLE), blocks - 2);
        }
        if (keeps == PIECEPICK_KEEPS_JOURNAL) EQUAL(piecepick_audit(picker), PIECEPICK_OK);
        piecepick_close(&picker);
    }
}

/* Two peers have two pieces, and nobody has the others. Where endgame waits for all of them, it doesn't begin. */
static void try_shown(uint32_t keeps)
{
    for (uint32_t shown = 0; shown < 2; shown++) {
        piecepick_options options = PIECEPICK_OPTIONS;
        piecepick_answer answer;
        piecepick_picker *picker;
        options.keeps = keeps;
        options.workers = 3;
        options.shown = shown;
        picker = open_by(&options);
        come_with(picker, 0, two);
        come_with(picker, 1, two);
        EQUAL(asks_all(picker, 0, PIECEPICK_K_IDLE), 4);
        EQUAL(asks_all(picker, 1, PIECEPICK_K_IDLE), shown ? 4 : 0);
        if (shown) {
            /* While a third peer has the others, endgame waits for them, though that peer chokes us. */
            QUIET(piecepick_release(picker, 1, 0, BLOCK, &answer));
            GETS(piecepick_join(picker, 2, &answer), PIECEPICK_K_JOINED);
            NOTED(piecepick_bits(picker, 2, all, flags_len, &answer), 1);
            GETS(piecepick_next(picker, 1, 3, &answer), PIECEPICK_K_IDLE);
            QUIET(piecepick_leave(picker, 2, &answer));
            BLOCKS(piecepick_next(picker, 1, 3, &answer), PIECEPICK_K_REQUEST, 0, BLOCK);
        } else {
            /* It does once the others aren't wanted. */
            QUIET(piecepick_want(picker, two, flags_len, &answer));
            EQUAL(asks_all(picker, 1, PIECEPICK_K_IDLE), 4);
        }
        if (keeps == PIECEPICK_KEEPS_JOURNAL) EQUAL(piecepick_audit(picker), PIECEPICK_OK);
        piecepick_close(&picker);
    }
}

/* Four pieces are wanted, each of another level. A slow peer gets nothing urgent: no block beyond its reach is requested of it. */
static const uint8_t URGENT[] = {7, 5, 4, 2, 0, 0, 0, 0, 0, 0};

static void try_reach(uint32_t keeps)
{
    piecepick_picker *picker = open_for(keeps, 2);
    piecepick_answer answer;
    uint32_t number;
    QUIET(piecepick_set_levels(picker, URGENT, pieces, &answer));
    come(picker, 0);
    QUIET(piecepick_depth(picker, 0, 64, &answer));
    QUIET(piecepick_reach(picker, 0, 4, &answer));
    for (uint32_t piece = 2; piece < 4; piece++) asks_piece(picker, 0, 0, piece);
    GETS(piecepick_next(picker, 0, 0, &answer), PIECEPICK_K_IDLE);
    QUIET(piecepick_reach(picker, 0, 6, &answer));
    asks_piece(picker, 0, 0, 1);
    GETS(piecepick_next(picker, 0, 0, &answer), PIECEPICK_K_IDLE);
    QUIET(piecepick_reach(picker, 0, 7, &answer));
    BLOCKS(piecepick_next(picker, 0, 0, &answer), PIECEPICK_K_REQUEST, 0, 0);
    /* What is in flight stays so. */
    QUIET(piecepick_reach(picker, 0, 0, &answer));
    NUMBER(piecepick_outstanding(picker, 0, &number), 7);
    GETS(piecepick_next(picker, 0, 0, &answer), PIECEPICK_K_IDLE);
    /* A piece that is raised or lowered is beyond the reach or within it by its newest level. */
    QUIET(piecepick_reach(picker, 0, 4, &answer));
    QUIET(piecepick_set_level(picker, 6, 5, &answer));
    GETS(piecepick_next(picker, 0, 0, &answer), PIECEPICK_K_IDLE);
    QUIET(piecepick_set_level(picker, 6, 4, &answer));
    asks_piece(picker, 0, 0, 6);
    GETS(piecepick_next(picker, 0, 0, &answer), PIECEPICK_K_IDLE);
    /* Another peer has a reach of its own. */
    come(picker, 1);
    BLOCKS(piecepick_next(picker, 1, 0, &answer), PIECEPICK_K_REQUEST, 0, BLOCK);
    if (keeps == PIECEPICK_KEEPS_JOURNAL) EQUAL(piecepick_audit(picker), PIECEPICK_OK);
    piecepick_close(&picker);
}

/* A reach holds until the worker's next peer joins. It is no word of the peer, so a bitfield may follow. */
static void try_reaches_gone(uint32_t keeps)
{
    piecepick_picker *picker = open_for(keeps, 1);
    piecepick_answer answer;
    QUIET(piecepick_set_levels(picker, URGENT, pieces, &answer));
    REFUSED(piecepick_reach(picker, 0, 7, &answer), PIECEPICK_R_NOT_JOINED);
    GETS(piecepick_join(picker, 0, &answer), PIECEPICK_K_JOINED);
    QUIET(piecepick_reach(picker, 0, 1, &answer));
    NOTED(piecepick_bits(picker, 0, all, flags_len, &answer), 1);
    GETS(piecepick_next(picker, 0, 0, &answer), PIECEPICK_K_CHOKED);
    for (int turn = 0; turn < 2; turn++) { /* a choke ends no reach */
        QUIET(piecepick_unchoke(picker, 0, &answer));
        GETS(piecepick_next(picker, 0, 0, &answer), PIECEPICK_K_IDLE);
        REFUSED(piecepick_reach(picker, 0, 8, &answer), PIECEPICK_R_WRONG_LEVEL);
        GETS(piecepick_next(picker, 0, 0, &answer), PIECEPICK_K_IDLE);
        QUIET(piecepick_choke(picker, 0, &answer));
    }
    QUIET(piecepick_leave(picker, 0, &answer));
    come(picker, 0);
    asks_piece(picker, 0, 0, 0);
    QUIET(piecepick_reach(picker, 0, 0, &answer));
    GETS(piecepick_next(picker, 0, 0, &answer), PIECEPICK_K_IDLE);
    QUIET(piecepick_want(picker, none, flags_len, &answer));
    GETS(piecepick_next(picker, 0, 0, &answer), PIECEPICK_K_NOTHING_LEFT);
    if (keeps == PIECEPICK_KEEPS_JOURNAL) EQUAL(piecepick_audit(picker), PIECEPICK_OK);
    piecepick_close(&picker);
}

/* In endgame no block beyond a peer's reach is requested again of it. A cancel is told whatever its reach is. */
static void try_reaches_in_endgame(uint32_t keeps)
{
    piecepick_picker *picker = open_for(keeps, 2);
    piecepick_answer answer;
    QUIET(piecepick_set_levels(picker, URGENT, pieces, &answer));
    come(picker, 0);
    come(picker, 1);
    for (uint32_t worker = 0; worker < 2; worker++) {
        QUIET(piecepick_depth(picker, worker, 64, &answer));
        QUIET(piecepick_reach(picker, worker, 4, &answer));
    }
    EQUAL(asks_all(picker, 0, PIECEPICK_K_IDLE), 4);
    EQUAL(asks_all(picker, 1, PIECEPICK_K_IDLE), 0); /* endgame waits for the two pieces that are beyond both */
    QUIET(piecepick_reach(picker, 0, 7, &answer));
    EQUAL(asks_all(picker, 0, PIECEPICK_K_IDLE), 4);
    EQUAL(asks_all(picker, 1, PIECEPICK_K_IDLE), 4);
    EQUAL(in_flight_of(picker, 1, 2) + in_flight_of(picker, 1, 3), 4);
    QUIET(piecepick_reach(picker, 1, 5, &answer));
    EQUAL(asks_all(picker, 1, PIECEPICK_K_IDLE), 2);
    EQUAL(in_flight_of(picker, 1, 1), 2);
    QUIET(piecepick_reach(picker, 1, 0, &answer));
    EQUAL(bring(picker, 0, 1, 0, 0), PIECEPICK_K_STORED);
    BLOCKS(piecepick_next(picker, 1, 0, &answer), PIECEPICK_K_CANCEL, 1, 0);
    GETS(piecepick_next(picker, 1, 0, &answer), PIECEPICK_K_IDLE);
    if (keeps == PIECEPICK_KEEPS_JOURNAL) EQUAL(piecepick_audit(picker), PIECEPICK_OK);
    piecepick_close(&picker);
}

/* ---- A peer that drops a piece. */

/* It shows the piece no more, and what was in flight there of it any peer may be asked for again. */
static void try_lacks(uint32_t keeps)
{
    piecepick_options options = PIECEPICK_OPTIONS;
    piecepick_picker *picker;
    piecepick_answer answer;
    uint32_t number;
    options.keeps = keeps;
    options.workers = 2;
    options.askers = 1; /* no endgame: the other peer is asked for what was freed alone */
    picker = open_by(&options);
    come_with(picker, 0, two);
    come_with(picker, 1, two);
    EQUAL(asks_all(picker, 0, PIECEPICK_K_IDLE), 4);
    EQUAL(asks_all(picker, 1, PIECEPICK_K_IDLE), 0);
    EQUAL(bring(picker, 0, 0, 0, 0), PIECEPICK_K_STORED);
    NOTED(piecepick_lack(picker, 0, 0, &answer), 1);
    NUMBER(piecepick_availability(picker, 0, &number), 1);
    NUMBER(piecepick_availability(picker, 1, &number), 2);
    NUMBER(piecepick_outstanding(picker, 0, &number), 2);
    EQUAL(in_flight_of(picker, 0, 1), 2);
    REFUSED(piecepick_release(picker, 0, 0, BLOCK, &answer), PIECEPICK_R_NOT_REQUESTED);
    GETS(piecepick_next(picker, 0, 3, &answer), PIECEPICK_K_IDLE); /* no cancel */
    NUMBER(piecepick_sender(picker, 0, 0, &number), 0);            /* what it brought stays held */
    BLOCKS(piecepick_next(picker, 1, 3, &answer), PIECEPICK_K_REQUEST, 0, BLOCK);
    GETS(piecepick_next(picker, 1, 3, &answer), PIECEPICK_K_IDLE);
    /* A have takes it back. */
    NOTED(piecepick_have(picker, 0, 0, &answer), 1);
    NUMBER(piecepick_availability(picker, 0, &number), 2);
    GETS(piecepick_next(picker, 0, 3, &answer), PIECEPICK_K_IDLE); /* the other peer has the block in flight */
    QUIET(piecepick_release(picker, 1, 0, BLOCK, &answer));
    BLOCKS(piecepick_next(picker, 0, 3, &answer), PIECEPICK_K_REQUEST, 0, BLOCK);
    /* The peer drops the piece once more, and its block comes all the same: it is stored, and cancelled at the other peer. */
    NOTED(piecepick_lack(picker, 0, 0, &answer), 1);
    BLOCKS(piecepick_next(picker, 1, 3, &answer), PIECEPICK_K_REQUEST, 0, BLOCK);
    EQUAL(bring(picker, 0, 0, BLOCK, 0), PIECEPICK_K_FULL);
    BLOCKS(piecepick_next(picker, 1, 3, &answer), PIECEPICK_K_CANCEL, 0, BLOCK);
    EQUAL(settle(picker, keeps, 0, 0), PIECEPICK_K_COMPLETE);
    /* Nothing is left at it. */
    NOTED(piecepick_lack(picker, 0, 1, &answer), 0);
    NUMBER(piecepick_outstanding(picker, 0, &number), 0);
    GETS(piecepick_next(picker, 0, 3, &answer), PIECEPICK_K_NOTHING_LEFT);
    asks_piece(picker, 1, 3, 1);
    /* A piece that is had is of no interest, dropped or not. The set of a `haves` takes back what was dropped. */
    NOTED(piecepick_have(picker, 0, 0, &answer), 0);
    NOTED(piecepick_lack(picker, 0, 0, &answer), 0);
    NUMBER(piecepick_has_piece(picker, 0, &number), 1);
    NOTED(piecepick_haves(picker, 0, two, flags_len, &answer), 1);
    NUMBER(piecepick_availability(picker, 0, &number), 2);
    NUMBER(piecepick_availability(picker, 1, &number), 2);
    if (keeps == PIECEPICK_KEEPS_JOURNAL) EQUAL(piecepick_audit(picker), PIECEPICK_OK);
    piecepick_close(&picker);
}

/* A peer may drop what it never showed. Nothing changes, but that a bitfield comes too late. */
static void try_lacks_of_nothing(uint32_t keeps)
{
    piecepick_picker *picker = open_for(keeps, 2);
    piecepick_answer answer;
    uint32_t number;
    uint64_t before;
    come_with(picker, 1, two);
    GETS(piecepick_join(picker, 0, &answer), PIECEPICK_K_JOINED);
    before = still_picture(picker);
    NOTED(piecepick_lack(picker, 0, 1, &answer), 0);
    EQUAL(still_picture(picker), before);
    REFUSED(piecepick_bits(picker, 0, all, flags_len, &answer), PIECEPICK_R_LATE_BITS);
    NOTED(piecepick_haves(picker, 0, two, flags_len, &answer), 1);
    QUIET(piecepick_unchoke(picker, 0, &answer));
    EQUAL(asks_all(picker, 0, PIECEPICK_K_IDLE), 4);
    before = still_picture(picker);
    for (uint32_t piece = 2; piece < pieces; piece++) NOTED(piecepick_lack(picker, 0, piece, &answer), 1);
    EQUAL(still_picture(picker), before);
    /* Twice is as once. */
    NOTED(piecepick_lack(picker, 0, 1, &answer), 1);
    before = still_picture(picker);
    NOTED(piecepick_lack(picker, 0, 1, &answer), 1);
    EQUAL(still_picture(picker), before);
    NUMBER(piecepick_availability(picker, 1, &number), 1);
    /* It is of this peer alone: the worker's next one shows what it shows. */
    QUIET(piecepick_leave(picker, 0, &answer));
    REFUSED(piecepick_lack(picker, 0, 1, &answer), PIECEPICK_R_NOT_JOINED);
    come_with(picker, 0, two);
    NUMBER(piecepick_availability(picker, 1, &number), 2);
    if (keeps == PIECEPICK_KEEPS_JOURNAL) EQUAL(piecepick_audit(picker), PIECEPICK_OK);
    piecepick_close(&picker);
}

/* In endgame the other peer's requests stay, and a third peer may be asked in place of the one that dropped the piece. */
static void try_lacks_in_endgame(uint32_t keeps)
{
    piecepick_picker *picker = open_for(keeps, 3);
    piecepick_answer answer;
    uint32_t number;
    for (uint32_t worker = 0; worker < 3; worker++) come_with(picker, worker, two);
    for (uint32_t worker = 0; worker < 3; worker++) EQUAL(asks_all(picker, worker, PIECEPICK_K_IDLE), worker < 2 ? 4 : 0);
    NOTED(piecepick_lack(picker, 0, 0, &answer), 1);
    EQUAL(in_flight_of(picker, 0, 0), 0);
    EQUAL(in_flight_of(picker, 1, 0), 2);
    for (uint32_t worker = 0; worker < 2; worker++) GETS(piecepick_next(picker, worker, 3, &answer), PIECEPICK_K_IDLE);
    asks_piece(picker, 2, 3, 0);
    GETS(piecepick_next(picker, 2, 3, &answer), PIECEPICK_K_IDLE);
    /* A cancel that is due stays due. */
    EQUAL(bring(picker, 1, 1, 0, 0), PIECEPICK_K_STORED);
    NOTED(piecepick_lack(picker, 0, 1, &answer), 0);
    NUMBER(piecepick_outstanding(picker, 0, &number), 0);
    BLOCKS(piecepick_next(picker, 0, 3, &answer), PIECEPICK_K_CANCEL, 1, 0);
    GETS(piecepick_next(picker, 0, 3, &answer), PIECEPICK_K_NOTHING_LEFT);
    BLOCKS(piecepick_next(picker, 2, 3, &answer), PIECEPICK_K_REQUEST, 1, BLOCK);
    GETS(piecepick_next(picker, 2, 3, &answer), PIECEPICK_K_IDLE);
    if (keeps == PIECEPICK_KEEPS_JOURNAL) EQUAL(piecepick_audit(picker), PIECEPICK_OK);
    piecepick_close(&picker);
}

/* ---- By which rule a block was requested. */

static void asks_by(piecepick_picker *picker, uint32_t worker, uint64_t word, uint32_t piece, uint32_t begin, piecepick_pick_rule rule)
{
    piecepick_answer answer;
    uint32_t number;
    BLOCKS(piecepick_next(picker, worker, word, &answer), PIECEPICK_K_REQUEST, piece, begin);
    NUMBER(piecepick_rule(picker, piece, begin / BLOCK, &number), rule);
}

/* Peer 0 has all, and peer 1 has the first two pieces: the others are rarer. */
static void try_rules(uint32_t keeps)
{
    piecepick_picker *picker = open_for(keeps, 2);
    piecepick_answer answer;
    come(picker, 0);
    come_with(picker, 1, two);
    QUIET(piecepick_depth(picker, 0, 64, &answer));
    asks_by(picker, 0, 1, 1, 0, PIECEPICK_RULE_RANDOM); /* though others are rarer */
    asks_by(picker, 0, 1, 1, BLOCK, PIECEPICK_RULE_BEGUN);
    EQUAL(bring_whole(picker, keeps, 0, 1), PIECEPICK_K_COMPLETE);
    asks_by(picker, 0, 1, 2, 0, PIECEPICK_RULE_RAREST);
    QUIET(piecepick_release(picker, 0, 2, 0, &answer)); /* then the piece is unbegun again */
    asks_by(picker, 0, 1, 2, 0, PIECEPICK_RULE_RAREST);
    asks_by(picker, 0, 1, 2, BLOCK, PIECEPICK_RULE_BEGUN);
    asks_by(picker, 1, 1, 0, 0, PIECEPICK_RULE_RAREST); /* the rarest of those that this peer has */
    /* A piece goes on by what is held, too. */
    EQUAL(bring(picker, 0, 3, BLOCK, 0), PIECEPICK_K_STORED);
    asks_by(picker, 0, 1, 3, 0, PIECEPICK_RULE_BEGUN);
    /* In order, whether the piece has begun or not. */
    QUIET(piecepick_set_in_order(picker, 1, &answer));
    asks_by(picker, 0, 7, 0, BLOCK, PIECEPICK_RULE_IN_ORDER);
    asks_by(picker, 0, 7, 4, 0, PIECEPICK_RULE_IN_ORDER);
    QUIET(piecepick_set_in_order(picker, 0, &answer));
    asks_by(picker, 0, 7, 4, BLOCK, PIECEPICK_RULE_BEGUN);
    /* Of two levels the higher one comes in order. */
    QUIET(piecepick_set_in_order_from(picker, 5, &answer));
    QUIET(piecepick_set_level(picker, 8, 5, &answer));
    asks_by(picker, 0, 5, 8, 0, PIECEPICK_RULE_IN_ORDER);
    asks_by(picker, 0, 5, 8, BLOCK, PIECEPICK_RULE_IN_ORDER);
    for (uint32_t piece = 5; piece < 8; piece++) {
        asks_by(picker, 0, piece, piece, 0, PIECEPICK_RULE_RAREST);
        asks_by(picker, 0, piece, piece, BLOCK, PIECEPICK_RULE_BEGUN);
    }
    asks_by(picker, 0, 0, 9, 0, PIECEPICK_RULE_RAREST); /* a piece of one block */
    /* In endgame, also where pieces come in order. */
    asks_by(picker, 0, 0, 0, 0, PIECEPICK_RULE_ENDGAME);
    GETS(piecepick_next(picker, 0, 0, &answer), PIECEPICK_K_IDLE);
    QUIET(piecepick_set_in_order(picker, 1, &answer));
    asks_by(picker, 1, 0, 0, BLOCK, PIECEPICK_RULE_ENDGAME);
    GETS(piecepick_next(picker, 1, 0, &answer), PIECEPICK_K_IDLE);
    /* What is freed is requested by the rules of before, though endgame was there. */
    QUIET(piecepick_choke(picker, 0, &answer));
    QUIET(piecepick_release(picker, 1, 0, BLOCK, &answer));
    asks_by(picker, 1, 0, 0, BLOCK, PIECEPICK_RULE_IN_ORDER);
    if (keeps == PIECEPICK_KEEPS_JOURNAL) EQUAL(piecepick_audit(picker), PIECEPICK_OK);
    piecepick_close(&picker);
}

/* ---- Of how many peers a block is requested. */

static void try_askers(uint32_t keeps)
{
    piecepick_picker *picker = open_for(keeps, 3);
    piecepick_answer answer;
    uint32_t number;
    for (uint32_t worker = 0; worker < 3; worker++) come(picker, worker);
    QUIET(piecepick_want(picker, two, flags_len, &answer));
    QUIET(piecepick_set_level(picker, 1, 0, &answer)); /* so piece 0 alone is wanted, which has two blocks */
    NUMBER(piecepick_askers(picker, 0, 0, &number), 0);
    BLOCKS(piecepick_next(picker, 0, 0, &answer), PIECEPICK_K_REQUEST, 0, 0);
    NUMBER(piecepick_askers(picker, 0, 0, &number), 1);
    BLOCKS(piecepick_next(picker, 0, 0, &answer), PIECEPICK_K_REQUEST, 0, BLOCK);
    BLOCKS(piecepick_next(picker, 1, 0, &answer), PIECEPICK_K_REQUEST, 0, 0); /* in endgame */
    NUMBER(piecepick_askers(picker, 0, 0, &number), 2);
    NUMBER(piecepick_askers(picker, 0, 1, &number), 1);
    QUIET(piecepick_late(picker, 0, 0, 0, &answer)); /* a late one doesn't count */
    NUMBER(piecepick_askers(picker, 0, 0, &number), 1);
    BLOCKS(piecepick_next(picker, 2, 0, &answer), PIECEPICK_K_REQUEST, 0, 0);
    NUMBER(piecepick_askers(picker, 0, 0, &number), 2);
    QUIET(piecepick_release(picker, 2, 0, 0, &answer));
    NUMBER(piecepick_askers(picker, 0, 0, &number), 1);
    EQUAL(bring(picker, 1, 0, 0, 0), PIECEPICK_K_STORED); /* what is held is requested of nobody */
    NUMBER(piecepick_askers(picker, 0, 0, &number), 0);
    NUMBER(piecepick_askers(picker, 0, 1, &number), 1);
    piecepick_close(&picker);
}

/* ---- A request that takes too long. */

/* The block stays in flight at its peer. Another peer is asked for it as if it were in flight nowhere, and not in endgame alone. */
static void try_late(uint32_t keeps)
{
    piecepick_picker *picker = open_for(keeps, 2);
    piecepick_answer answer;
    uint32_t number;
    come(picker, 0);
    come(picker, 1);
    asks_by(picker, 0, 0, 0, 0, PIECEPICK_RULE_RANDOM);
    QUIET(piecepick_late(picker, 0, 0, 0, &answer));
    NUMBER(piecepick_outstanding(picker, 0, &number), 1);
    BLOCKS(piecepick_outstanding_at(picker, 0, 0, &answer), PIECEPICK_K_REQUEST, 0, 0);
    asks_by(picker, 0, 0, 0, BLOCK, PIECEPICK_RULE_RANDOM); /* its own peer gets the other block, which begins the piece anew */
    asks_by(picker, 1, 0, 0, 0, PIECEPICK_RULE_LATE);
    asks_by(picker, 1, 0, 1, 0, PIECEPICK_RULE_RANDOM);
    EQUAL(bring(picker, 1, 0, 0, 0), PIECEPICK_K_STORED);
    NUMBER(piecepick_outstanding(picker, 0, &number), 1);
    REFUSED(piecepick_late(picker, 0, 0, 0, &answer), PIECEPICK_R_NOT_REQUESTED);
    BLOCKS(piecepick_next(picker, 0, 0, &answer), PIECEPICK_K_CANCEL, 0, 0);
    asks_by(picker, 0, 0, 1, BLOCK, PIECEPICK_RULE_BEGUN);
    /* Its own peer brings the block: no cancel is due there, but one at the other peer that was asked for it. */
    QUIET(piecepick_late(picker, 0, 0, BLOCK, &answer));
    asks_by(picker, 1, 0, 0, BLOCK, PIECEPICK_RULE_LATE);
    EQUAL(bring(picker, 0, 0, BLOCK, 0), PIECEPICK_K_FULL);
    NUMBER(piecepick_sender(picker, 0, 1, &number), 0);
    BLOCKS(piecepick_next(picker, 1, 0, &answer), PIECEPICK_K_CANCEL, 0, BLOCK);
    asks_by(picker, 1, 2, 2, 0, PIECEPICK_RULE_RANDOM);
    asks_by(picker, 0, 2, 2, BLOCK, PIECEPICK_RULE_BEGUN);
    EQUAL(settle(picker, keeps, 0, 0), PIECEPICK_K_COMPLETE);
    /* Nobody else was asked for it: no cancel anywhere. */
    QUIET(piecepick_late(picker, 1, 2, 0, &answer));
    EQUAL(bring(picker, 1, 2, 0, 0), PIECEPICK_K_STORED);
    NUMBER(piecepick_outstanding(picker, 1, &number), 1);
    asks_by(picker, 0, 3, 3, 0, PIECEPICK_RULE_RAREST);
    asks_by(picker, 1, 3, 3, BLOCK, PIECEPICK_RULE_BEGUN);
    /* In order the rule is the same. */
    QUIET(piecepick_set_in_order(picker, 1, &answer));
    asks_by(picker, 0, 0, 4, 0, PIECEPICK_RULE_IN_ORDER);
    QUIET(piecepick_late(picker, 0, 4, 0, &answer));
    asks_by(picker, 0, 0, 4, BLOCK, PIECEPICK_RULE_IN_ORDER);
    asks_by(picker, 1, 0, 4, 0, PIECEPICK_RULE_LATE);
    asks_by(picker, 1, 0, 5, 0, PIECEPICK_RULE_IN_ORDER);
    if (keeps == PIECEPICK_KEEPS_JOURNAL) EQUAL(piecepick_audit(picker), PIECEPICK_OK);
    piecepick_close(&picker);
}

/* It counts for the depth of its peer. Told twice it is as once, and one cancel is due. */
static void try_late_depths(uint32_t keeps)
{
    piecepick_picker *picker = open_for(keeps, 2);
    piecepick_answer answer;
    uint32_t number;
    uint64_t before;
    REFUSED(piecepick_late(picker, 0, 0, 0, &answer), PIECEPICK_R_NOT_JOINED);
    come(picker, 0);
    come(picker, 1);
    REFUSED(piecepick_late(picker, 0, 0, 0, &answer), PIECEPICK_R_NOT_REQUESTED);
    QUIET(piecepick_depth(picker, 0, 1, &answer));
    asks_by(picker, 0, 0, 0, 0, PIECEPICK_RULE_RANDOM);
    REFUSED(piecepick_late(picker, 1, 0, 0, &answer), PIECEPICK_R_NOT_REQUESTED); /* another peer is asked for it */
    REFUSED(piecepick_late(picker, 0, 0, BLOCK, &answer), PIECEPICK_R_NOT_REQUESTED);
    QUIET(piecepick_late(picker, 0, 0, 0, &answer));
    GETS(piecepick_next(picker, 0, 0, &answer), PIECEPICK_K_PIPE_FULL);
    before = still_picture(picker);
    QUIET(piecepick_late(picker, 0, 0, 0, &answer));
    EQUAL(still_picture(picker), before);
    GETS(piecepick_next(picker, 0, 0, &answer), PIECEPICK_K_PIPE_FULL);
    QUIET(piecepick_depth(picker, 0, 2, &answer));
    asks_by(picker, 0, 0, 0, BLOCK, PIECEPICK_RULE_RANDOM);
    QUIET(piecepick_late(picker, 0, 0, BLOCK, &answer));
    GETS(piecepick_next(picker, 0, 0, &answer), PIECEPICK_K_PIPE_FULL);
    QUIET(piecepick_depth(picker, 0, 3, &answer));
    asks_by(picker, 0, 0, 1, 0, PIECEPICK_RULE_RANDOM);    /* both blocks of piece 0 are late here */
    asks_by(picker, 1, 0, 1, BLOCK, PIECEPICK_RULE_BEGUN); /* they begin no piece, and this one has begun */
    asks_by(picker, 1, 0, 0, 0, PIECEPICK_RULE_LATE);
    EQUAL(bring(picker, 1, 0, 0, 0), PIECEPICK_K_STORED);
    NUMBER(piecepick_outstanding(picker, 0, &number), 2);
    BLOCKS(piecepick_next(picker, 0, 0, &answer), PIECEPICK_K_CANCEL, 0, 0);
    asks_by(picker, 0, 2, 2, 0, PIECEPICK_RULE_RANDOM); /* piece 0 has begun now, and lacks a block that is late here */
    GETS(piecepick_next(picker, 0, 0, &answer), PIECEPICK_K_PIPE_FULL);
    REFUSED(piecepick_late(picker, 0, 0, 0, &answer), PIECEPICK_R_NOT_REQUESTED);
    if (keeps == PIECEPICK_KEEPS_JOURNAL) EQUAL(piecepick_audit(picker), PIECEPICK_OK);
    piecepick_close(&picker);
}

/* A late request ends in each of these ways, and nothing stays of it: either peer may be asked for the block, by the usual rules. */
static void try_late_ends(uint32_t keeps)
{
    enum { RELEASE, LACK, CHOKE, LEAVE, BLOCK_CAME, ENDS };
    for (int end = 0; end < ENDS; end++)
        for (uint32_t next = 0; next < 2; next++) {
            piecepick_picker *picker = open_for(keeps, 2);
            piecepick_answer answer;
            uint32_t number;
            come(picker, 0);
            come(picker, 1);
            asks_by(picker, 0, 0, 0, 0, PIECEPICK_RULE_RANDOM);
            QUIET(piecepick_late(picker, 0, 0, 0, &answer));
            if (end == RELEASE) {
                QUIET(piecepick_release(picker, 0, 0, 0, &answer));
                REFUSED(piecepick_late(picker, 0, 0, 0, &answer), PIECEPICK_R_NOT_REQUESTED);
            } else if (end == LACK) {
                NOTED(piecepick_lack(picker, 0, 0, &answer), 1);
                NOTED(piecepick_have(picker, 0, 0, &answer), 1);
            } else if (end == CHOKE) {
                QUIET(piecepick_choke(picker, 0, &answer));
                QUIET(piecepick_unchoke(picker, 0, &answer));
            } else if (end == LEAVE) {
                QUIET(piecepick_leave(picker, 0, &answer));
                come(picker, 0);
            } else {
                /* It comes from the other peer. Then the piece has another hash, and no block of it is held. */
                EQUAL(bring(picker, 1, 0, 0, 0), PIECEPICK_K_STORED);
                EQUAL(bring(picker, 1, 0, BLOCK, 1), PIECEPICK_K_FULL);
                EQUAL(settle(picker, keeps, 0, 1), PIECEPICK_K_FAILED);
                BLOCKS(piecepick_next(picker, 0, 0, &answer), PIECEPICK_K_CANCEL, 0, 0);
            }
            NUMBER(piecepick_outstanding(picker, 0, &number), 0);
            asks_by(picker, next, 0, 0, 0, PIECEPICK_RULE_RANDOM);
            asks_by(picker, 1 - next, 0, 0, BLOCK, PIECEPICK_RULE_BEGUN); /* by the request of the first block, which isn't late */
            EQUAL(bring(picker, 1, 0, 0, 0), PIECEPICK_K_STORED);
            if (next == 0) BLOCKS(piecepick_next(picker, 0, 1, &answer), PIECEPICK_K_CANCEL, 0, 0);
            asks_by(picker, 0, 1, 1, 0, PIECEPICK_RULE_RANDOM);
            if (keeps == PIECEPICK_KEEPS_JOURNAL) EQUAL(piecepick_audit(picker), PIECEPICK_OK);
            piecepick_close(&picker);
        }
}

/* Endgame waits for a late block as for one that nobody was asked for. It doesn't ask its own peer for it, nor count that peer. */
static void try_late_in_endgame(uint32_t keeps)
{
    piecepick_picker *picker = open_for(keeps, 3);
    piecepick_answer answer;
    uint32_t number;
    for (uint32_t worker = 0; worker < 3; worker++) come_with(picker, worker, two);
    EQUAL(asks_all(picker, 0, PIECEPICK_K_IDLE), 4);
    QUIET(piecepick_late(picker, 0, 0, 0, &answer));
    for (uint32_t place = 0; place < 4; place++) /* it stays the oldest request */
        BLOCKS(piecepick_outstanding_at(picker, 0, place, &answer), PIECEPICK_K_REQUEST, place / 2, place % 2 * BLOCK);
    GETS(piecepick_next(picker, 0, 3, &answer), PIECEPICK_K_IDLE);
    asks_by(picker, 1, 3, 0, 0, PIECEPICK_RULE_LATE); /* the one request that isn't of endgame */
    for (uint32_t place = 1; place < 4; place++) asks_by(picker, 1, 3, place / 2, place % 2 * BLOCK, PIECEPICK_RULE_ENDGAME);
    GETS(piecepick_next(picker, 1, 3, &answer), PIECEPICK_K_IDLE);
    /* It is in flight at two peers, of which one is late: a third one may be asked. */
    asks_by(picker, 2, 3, 0, 0, PIECEPICK_RULE_ENDGAME);
    GETS(piecepick_next(picker, 2, 3, &answer), PIECEPICK_K_IDLE);
    GETS(piecepick_next(picker, 0, 3, &answer), PIECEPICK_K_IDLE);
    EQUAL(bring(picker, 2, 0, 0, 0), PIECEPICK_K_STORED);
    for (uint32_t worker = 0; worker < 2; worker++) {
        BLOCKS(piecepick_next(picker, worker, 3, &answer), PIECEPICK_K_CANCEL, 0, 0);
        GETS(piecepick_next(picker, worker, 3, &answer), PIECEPICK_K_IDLE);
    }
    /* One of two peers gets late in endgame, which goes on. */
    QUIET(piecepick_late(picker, 0, 0, BLOCK, &answer));
    GETS(piecepick_next(picker, 0, 3, &answer), PIECEPICK_K_IDLE);
    asks_by(picker, 2, 3, 0, BLOCK, PIECEPICK_RULE_ENDGAME);
    GETS(piecepick_next(picker, 2, 3, &answer), PIECEPICK_K_IDLE);
    /* Both do: a block that no peer has in time ends it, until it is requested. */
    for (uint32_t worker = 0; worker < 2; worker++) QUIET(piecepick_late(picker, worker, 1, 0, &answer));
    for (uint32_t worker = 0; worker < 2; worker++) GETS(piecepick_next(picker, worker, 3, &answer), PIECEPICK_K_IDLE);
    asks_by(picker, 2, 3, 1, 0, PIECEPICK_RULE_LATE);
    GETS(piecepick_next(picker, 2, 3, &answer), PIECEPICK_K_IDLE);
    EQUAL(bring(picker, 1, 1, 0, 0), PIECEPICK_K_STORED);
    for (uint32_t worker = 0; worker < 3; worker += 2) BLOCKS(piecepick_next(picker, worker, 3, &answer), PIECEPICK_K_CANCEL, 1, 0);
    NUMBER(piecepick_outstanding(picker, 0, &number), 2);
    NUMBER(piecepick_outstanding(picker, 1, &number), 2);
    NUMBER(piecepick_outstanding(picker, 2, &number), 1);
    if (keeps == PIECEPICK_KEEPS_JOURNAL) EQUAL(piecepick_audit(picker), PIECEPICK_OK);
    piecepick_close(&picker);
}

/* A peer is late with the last block of all, and there is no other one. */
static void try_late_last(uint32_t keeps)
{
    const uint32_t last = pieces - 1;
    piecepick_picker *picker = open_for(keeps, 1);
    piecepick_answer answer;
    uint32_t number;
    come(picker, 0);
    for (uint32_t piece = 0; piece < last; piece++) EQUAL(bring_whole(picker, keeps, 0, piece), PIECEPICK_K_COMPLETE);
    asks_by(picker, 0, 0, last, 0, PIECEPICK_RULE_RAREST);
    QUIET(piecepick_late(picker, 0, last, 0, &answer));
    for (uint64_t word = 0; word < 2; word++) GETS(piecepick_next(picker, 0, word, &answer), PIECEPICK_K_IDLE);
    EQUAL(bring(picker, 0, last, 0, 0), PIECEPICK_K_FULL);
    GETS(piecepick_next(picker, 0, 0, &answer), PIECEPICK_K_IDLE);
    EQUAL(settle(picker, keeps, last, 0), PIECEPICK_K_COMPLETE);
    GETS(piecepick_next(picker, 0, 0, &answer), PIECEPICK_K_NOTHING_LEFT);
    NUMBER(piecepick_is_complete(picker, &number), 1);
    if (keeps == PIECEPICK_KEEPS_JOURNAL) EQUAL(piecepick_audit(picker), PIECEPICK_OK);
    piecepick_close(&picker);
}

/* No piece comes at random, and so many may be open. Peer 0 has all pieces, and peer 1 these. */
static piecepick_picker *open_with_open(uint32_t keeps, uint32_t open, const uint8_t *flags)
{
    piecepick_options options = PIECEPICK_OPTIONS;
    piecepick_picker *picker;
    options.keeps = keeps;
    options.workers = 2;
    options.random = 0;
    options.open = open;
    picker = open_by(&options);
    come(picker, 0);
    come_with(picker, 1, flags);
    return picker;
}

/* What is late makes no piece a begun one, and leaves a begun one open. */
static void try_late_open_pieces(uint32_t keeps)
{
    piecepick_picker *picker = open_with_open(keeps, 0, two);
    piecepick_answer answer;
    asks_by(picker, 1, 0, 0, 0, PIECEPICK_RULE_RAREST);
    QUIET(piecepick_late(picker, 1, 0, 0, &answer));
    asks_by(picker, 0, 2, 2, 0, PIECEPICK_RULE_RAREST); /* begun pieces come first, and there is none */
    if (keeps == PIECEPICK_KEEPS_JOURNAL) EQUAL(piecepick_audit(picker), PIECEPICK_OK);
    piecepick_close(&picker);
    /* One piece may be open. Of two begun ones the first has no block to request, until its request is late. */
    picker = open_with_open(keeps, 1, two);
    EQUAL(bring(picker, 1, 0, 0, 0), PIECEPICK_K_STORED);
    asks_by(picker, 1, 0, 0, BLOCK, PIECEPICK_RULE_BEGUN);
    EQUAL(bring(picker, 1, 1, 0, 0), PIECEPICK_K_STORED);
    asks_by(picker, 0, 2, 2, 0, PIECEPICK_RULE_RAREST);
    QUIET(piecepick_release(picker, 0, 2, 0, &answer));
    QUIET(piecepick_late(picker, 1, 0, BLOCK, &answer));
    asks_by(picker, 0, 2, 0, BLOCK, PIECEPICK_RULE_LATE);
    if (keeps == PIECEPICK_KEEPS_JOURNAL) EQUAL(piecepick_audit(picker), PIECEPICK_OK);
    piecepick_close(&picker);
}

/* A piece whose unrequested blocks are all late at this peer has nothing for it, and keeps no other piece back. */
static void try_late_keeps_none_back(uint32_t keeps)
{
    static const uint8_t second[MOST_PIECES / 8] = {0x40}, but_the_last[MOST_PIECES / 8] = {0xff, 0x80};
    for (uint32_t open = 0; open < 2; open++) {
        /* The late block is of the rarest begun piece, and of the first one. */
        piecepick_picker *picker = open_with_open(keeps, open, second);
        piecepick_answer answer;
        QUIET(piecepick_want(picker, two, flags_len, &answer));
        asks_by(picker, 0, 0, 0, 0, PIECEPICK_RULE_RAREST);
        asks_by(picker, 0, 0, 0, BLOCK, PIECEPICK_RULE_BEGUN);
        EQUAL(bring(picker, 1, 1, 0, 0), PIECEPICK_K_STORED);
        QUIET(piecepick_late(picker, 0, 0, 0, &answer));
        asks_by(picker, 0, 0, 1, BLOCK, PIECEPICK_RULE_BEGUN);
        GETS(piecepick_next(picker, 0, 0, &answer), PIECEPICK_K_IDLE);
        if (keeps == PIECEPICK_KEEPS_JOURNAL) EQUAL(piecepick_audit(picker), PIECEPICK_OK);
        piecepick_close(&picker);
        /* It is all of the rarest piece that hasn't begun. */
        picker = open_with_open(keeps, open, but_the_last);
        asks_by(picker, 0, 0, pieces - 1, 0, PIECEPICK_RULE_RAREST);
        QUIET(piecepick_late(picker, 0, pieces - 1, 0, &answer));
        asks_by(picker, 0, 3, 3, 0, PIECEPICK_RULE_RAREST);
        asks_by(picker, 0, 4, 3, BLOCK, PIECEPICK_RULE_BEGUN);
        if (keeps == PIECEPICK_KEEPS_JOURNAL) EQUAL(piecepick_audit(picker), PIECEPICK_OK);
        piecepick_close(&picker);
        /* It is all of the first piece, where they come in order. */
        picker = open_with_open(keeps, open, two);
        QUIET(piecepick_set_in_order(picker, 1, &answer));
        for (uint32_t begin = 0; begin < PIECE; begin += BLOCK) {
            asks_by(picker, 0, 0, 0, begin, PIECEPICK_RULE_IN_ORDER);
            QUIET(piecepick_late(picker, 0, 0, begin, &answer));
        }
        asks_by(picker, 0, 0, 1, 0, PIECEPICK_RULE_IN_ORDER);
        asks_by(picker, 1, 0, 0, 0, PIECEPICK_RULE_LATE);
        if (keeps == PIECEPICK_KEEPS_JOURNAL) EQUAL(piecepick_audit(picker), PIECEPICK_OK);
        piecepick_close(&picker);
        /* It is the one block of the highest level that is left. */
        picker = open_with_open(keeps, open, two);
        QUIET(piecepick_set_level(picker, 4, 7, &answer));
        asks_by(picker, 0, 0, 4, 0, PIECEPICK_RULE_RAREST);
        asks_by(picker, 0, 0, 4, BLOCK, PIECEPICK_RULE_BEGUN);
        QUIET(piecepick_late(picker, 0, 4, 0, &answer));
        asks_by(picker, 0, 2, 2, 0, PIECEPICK_RULE_RAREST);
        if (keeps == PIECEPICK_KEEPS_JOURNAL) EQUAL(piecepick_audit(picker), PIECEPICK_OK);
        piecepick_close(&picker);
    }
}

/* ---- A peer that works alone. */

/* Two peers have the first two pieces, and no piece comes at random. The second peer works alone, and has begun piece 0. */
static piecepick_picker *open_with_alone(uint32_t keeps)
{
    piecepick_options options = PIECEPICK_OPTIONS;
    piecepick_picker *picker;
    piecepick_answer answer;
    options.keeps = keeps;
    options.workers = 3;
    options.random = 0;
    picker = open_by(&options);
    come_with(picker, 0, two);
    come_with(picker, 1, two);
    QUIET(piecepick_alone(picker, 1, 1, &answer));
    asks_by(picker, 1, 0, 0, 0, PIECEPICK_RULE_RAREST);
    return picker;
}

/* Another peer isn't asked for the second block of its piece, until it is told off; nor is it asked for that of another peer's. */
static void try_alone(uint32_t keeps)
{
    piecepick_picker *picker = open_with_alone(keeps);
    piecepick_answer answer;
    uint64_t before;
    asks_by(picker, 0, 0, 1, 0, PIECEPICK_RULE_RAREST);
    asks_by(picker, 0, 0, 1, BLOCK, PIECEPICK_RULE_BEGUN);
    GETS(piecepick_next(picker, 0, 0, &answer), PIECEPICK_K_IDLE);
    before = still_picture(picker);
    QUIET(piecepick_alone(picker, 1, MORE, &answer)); /* any number but 0, and told twice it is as once */
    EQUAL(still_picture(picker), before);
    GETS(piecepick_next(picker, 0, 0, &answer), PIECEPICK_K_IDLE);
    QUIET(piecepick_alone(picker, 1, 0, &answer));
    EQUAL(still_picture(picker), before);
    asks_by(picker, 0, 0, 0, BLOCK, PIECEPICK_RULE_BEGUN);
    if (keeps == PIECEPICK_KEEPS_JOURNAL) EQUAL(piecepick_audit(picker), PIECEPICK_OK);
    piecepick_close(&picker);
    /* A piece that another peer has begun isn't for one that works alone; and each of two such peers has pieces of its own. */
    for (uint32_t both = 0; both < 2; both++) {
        picker = open_with_alone(keeps);
        QUIET(piecepick_alone(picker, 0, 1, &answer));
        QUIET(piecepick_alone(picker, 1, both, &answer));
        asks_by(picker, 0, 0, 1, 0, PIECEPICK_RULE_RAREST);
        asks_by(picker, 1, 0, 0, BLOCK, PIECEPICK_RULE_BEGUN);
        GETS(piecepick_next(picker, 1, 0, &answer), PIECEPICK_K_IDLE);
        asks_by(picker, 0, 0, 1, BLOCK, PIECEPICK_RULE_BEGUN);
        /* Endgame shares them. */
        for (uint32_t begin = 0; begin < PIECE; begin += BLOCK) {
            asks_by(picker, 0, 0, 0, begin, PIECEPICK_RULE_ENDGAME);
            asks_by(picker, 1, 0, 1, begin, PIECEPICK_RULE_ENDGAME);
        }
        for (uint32_t worker = 0; worker < 2; worker++) GETS(piecepick_next(picker, worker, 0, &answer), PIECEPICK_K_IDLE);
        if (keeps == PIECEPICK_KEEPS_JOURNAL) EQUAL(piecepick_audit(picker), PIECEPICK_OK);
        piecepick_close(&picker);
    }
    /* In order too. */
    picker = open_with_alone(keeps);
    QUIET(piecepick_set_in_order(picker, 1, &answer));
    asks_by(picker, 0, 0, 1, 0, PIECEPICK_RULE_IN_ORDER);
    asks_by(picker, 1, 0, 0, BLOCK, PIECEPICK_RULE_IN_ORDER);
    if (keeps == PIECEPICK_KEEPS_JOURNAL) EQUAL(piecepick_audit(picker), PIECEPICK_OK);
    piecepick_close(&picker);
}

/* A piece is its peer's own no more in each of these ways. */
static void try_alone_ends(uint32_t keeps)
{
    enum { TOLD_OFF, CHOKE, LEAVE, LATE, BLOCK_CAME, ENDS };
    for (int end = 0; end < ENDS; end++) {
        piecepick_picker *picker = open_with_alone(keeps);
        piecepick_answer answer;
        uint32_t number;
        if (end < LATE) EQUAL(bring(picker, 1, 0, 0, 0), PIECEPICK_K_STORED);
        for (uint32_t begin = 0; begin < PIECE; begin += BLOCK)
            BLOCKS(piecepick_next(picker, 0, 0, &answer), PIECEPICK_K_REQUEST, 1, begin);
        GETS(piecepick_next(picker, 0, 0, &answer), PIECEPICK_K_IDLE);
        if (end == TOLD_OFF) {
            QUIET(piecepick_alone(picker, 1, 0, &answer));
        } else if (end == CHOKE) {
            QUIET(piecepick_choke(picker, 1, &answer));
        } else if (end == LEAVE) {
            QUIET(piecepick_leave(picker, 1, &answer));
        } else if (end == LATE) {
            QUIET(piecepick_late(picker, 1, 0, 0, &answer)); /* nobody is expected to bring a block of it, so it hasn't begun */
            asks_by(picker, 0, 0, 0, 0, PIECEPICK_RULE_LATE);
        } else {
            GETS(piecepick_join(picker, 2, &answer), PIECEPICK_K_JOINED);
            EQUAL(bring(picker, 2, 0, 0, 0), PIECEPICK_K_STORED);
        }
        BLOCKS(piecepick_next(picker, 0, 0, &answer), PIECEPICK_K_REQUEST, 0, BLOCK);
        if (end == BLOCK_CAME) {
            BLOCKS(piecepick_next(picker, 1, 0, &answer), PIECEPICK_K_CANCEL, 0, 0);
            QUIET(piecepick_release(picker, 0, 0, BLOCK, &answer));
            GETS(piecepick_next(picker, 1, 0, &answer), PIECEPICK_K_IDLE); /* both pieces are others' too, and one block is free */
            NUMBER(piecepick_outstanding(picker, 1, &number), 0);
        }
        if (keeps == PIECEPICK_KEEPS_JOURNAL) EQUAL(piecepick_audit(picker), PIECEPICK_OK);
        piecepick_close(&picker);
    }
}

/* It goes with its peer, and a choke doesn't forget it. A late block of a piece of which others are held is for no other peer. */
static void try_alone_lasts(uint32_t keeps)
{
    piecepick_picker *picker = open_with_alone(keeps);
    piecepick_answer answer;
    QUIET(piecepick_leave(picker, 1, &answer));
    REFUSED(piecepick_alone(picker, 1, 1, &answer), PIECEPICK_R_NOT_JOINED);
    come_with(picker, 1, two);
    asks_by(picker, 1, 0, 0, 0, PIECEPICK_RULE_RAREST);
    asks_by(picker, 0, 0, 0, BLOCK, PIECEPICK_RULE_BEGUN);
    if (keeps == PIECEPICK_KEEPS_JOURNAL) EQUAL(piecepick_audit(picker), PIECEPICK_OK);
    piecepick_close(&picker);
    picker = open_with_alone(keeps);
    QUIET(piecepick_choke(picker, 1, &answer));
    QUIET(piecepick_unchoke(picker, 1, &answer));
    asks_by(picker, 1, 0, 0, 0, PIECEPICK_RULE_RAREST);
    EQUAL(bring(picker, 1, 0, 0, 0), PIECEPICK_K_STORED);
    asks_by(picker, 0, 0, 1, 0, PIECEPICK_RULE_RAREST);
    asks_by(picker, 0, 0, 1, BLOCK, PIECEPICK_RULE_BEGUN);
    asks_by(picker, 1, 0, 0, BLOCK, PIECEPICK_RULE_BEGUN);
    QUIET(piecepick_late(picker, 1, 0, BLOCK, &answer));
    GETS(piecepick_next(picker, 0, 0, &answer), PIECEPICK_K_IDLE);
    GETS(piecepick_next(picker, 1, 0, &answer), PIECEPICK_K_IDLE);
    QUIET(piecepick_alone(picker, 1, 0, &answer));
    asks_by(picker, 0, 0, 0, BLOCK, PIECEPICK_RULE_LATE);
    if (keeps == PIECEPICK_KEEPS_JOURNAL) EQUAL(piecepick_audit(picker), PIECEPICK_OK);
    piecepick_close(&picker);
}

/* A piece of two senders is wrong. Each of them works alone then, and the next wrong piece of the liar has one sender. */
static void try_liar(uint32_t keeps)
{
    piecepick_picker *picker = open_for(keeps, 2);
    piecepick_answer answer;
    uint32_t number;
    for (uint32_t worker = 0; worker < 2; worker++) come(picker, worker);
    asks_by(picker, 0, 0, 0, 0, PIECEPICK_RULE_RANDOM);
    asks_by(picker, 1, 0, 0, BLOCK, PIECEPICK_RULE_BEGUN);
    EQUAL(bring(picker, 0, 0, 0, 0), PIECEPICK_K_STORED);
    EQUAL(bring(picker, 1, 0, BLOCK, 1), PIECEPICK_K_FULL);
    for (uint32_t index = 0; index < 2; index++) NUMBER(piecepick_sender(picker, 0, index, &number), index);
    EQUAL(settle(picker, keeps, 0, 1), PIECEPICK_K_FAILED);
    for (uint32_t worker = 0; worker < 2; worker++) QUIET(piecepick_alone(picker, worker, 1, &answer));
    for (uint32_t begin = 0; begin < PIECE; begin += BLOCK)
        for (uint32_t worker = 0; worker < 2; worker++) BLOCKS(piecepick_next(picker, worker, worker, &answer), PIECEPICK_K_REQUEST, worker, begin);
    for (uint32_t worker = 0; worker < 2; worker++) {
        EQUAL(bring(picker, worker, worker, 0, 0), PIECEPICK_K_STORED);
        EQUAL(bring(picker, worker, worker, BLOCK, worker == 1), PIECEPICK_K_FULL);
        for (uint32_t index = 0; index < 2; index++) NUMBER(piecepick_sender(picker, worker, index, &number), worker);
        EQUAL(settle(picker, keeps, worker, worker == 1), worker == 1 ? PIECEPICK_K_FAILED : PIECEPICK_K_COMPLETE);
        if (worker == 0) QUIET(piecepick_alone(picker, 0, 0, &answer));
        else QUIET(piecepick_leave(picker, 1, &answer));
    }
    BLOCKS(piecepick_next(picker, 0, 1, &answer), PIECEPICK_K_REQUEST, 1, 0);
    if (keeps == PIECEPICK_KEEPS_JOURNAL) EQUAL(piecepick_audit(picker), PIECEPICK_OK);
    piecepick_close(&picker);
}

/* ---- When a peer is worth another question. */

static uint64_t epoch(piecepick_picker *picker)
{
    uint64_t number;
    SPOIL(number);
    EQUAL(piecepick_epoch(picker, &number), PIECEPICK_OK);
    return number;
}

#define STAYS(step) do { uint64_t stays_at = epoch(picker); step; EQUAL(epoch(picker) == stays_at, 1); } while (0)
#define RISES(step) do { uint64_t rises_from = epoch(picker); step; EQUAL(epoch(picker) > rises_from, 1); } while (0)

/* ---- Bytes that are gone, or bad. */

/* A picker that keeps its content loses none of it. Otherwise all of a lost piece is lacking, and what is in flight stays in flight. */
static void try_losses(uint32_t keeps)
{
    piecepick_picker *picker = open_for(keeps, 2);
    piecepick_answer answer;
    uint32_t number;
    uint64_t before;
    come(picker, 0);
    EQUAL(bring_whole(picker, keeps, 0, 0), PIECEPICK_K_COMPLETE);
    before = picture(picker);
    if (keeps == PIECEPICK_KEEPS_JOURNAL) {
        NO_ANSWER(piecepick_lose(picker, 0, &answer), PIECEPICK_E_KEEPS);
        NO_ANSWER(piecepick_discard(picker, 1, 0, &answer), PIECEPICK_E_KEEPS);
        EQUAL(picture(picker), before);
        EQUAL(piecepick_audit(picker), PIECEPICK_OK);
        piecepick_close(&picker);
        return;
    }
    GETS(piecepick_lose(picker, 0, &answer), PIECEPICK_K_FAILED);
    NUMBER(piecepick_has_piece(picker, 0, &number), 0);
    NUMBER(piecepick_is_waiting(picker, 0, &number), 0);
    NO_NUMBER(piecepick_sender(picker, 0, 0, &number), PIECEPICK_E_NOT_HELD);
    asks_piece(picker, 0, 0, 0);
    EQUAL(bring_whole(picker, keeps, 0, 0), PIECEPICK_K_COMPLETE);
    /* One block of a begun piece is held, and the other one is in flight. */
    asks_piece(picker, 0, 1, 1);
    EQUAL(bring(picker, 0, 1, 0, 1), PIECEPICK_K_STORED);
    GETS(piecepick_lose(picker, 1, &answer), PIECEPICK_K_FAILED);
    NUMBER(piecepick_outstanding(picker, 0, &number), 1);
    BLOCKS(piecepick_next(picker, 0, 1, &answer), PIECEPICK_K_REQUEST, 1, 0);
    EQUAL(bring_whole(picker, keeps, 0, 1), PIECEPICK_K_COMPLETE);
    /* Of this one nothing is held. */
    before = still_picture(picker);
    RISES(GETS(piecepick_lose(picker, 5, &answer), PIECEPICK_K_FAILED));
    EQUAL(still_picture(picker), before);
    /* The last piece of all. */
    for (uint32_t piece = 2; piece < pieces; piece++) EQUAL(bring_whole(picker, keeps, 0, piece), PIECEPICK_K_COMPLETE);
    GETS(piecepick_next(picker, 0, 0, &answer), PIECEPICK_K_NOTHING_LEFT);
    RISES(GETS(piecepick_lose(picker, pieces - 1, &answer), PIECEPICK_K_FAILED));
    NUMBER(piecepick_has_wanted(picker, &number), 0);
    asks_piece(picker, 0, 0, pieces - 1);
    EQUAL(bring_whole(picker, keeps, 0, pieces - 1), PIECEPICK_K_COMPLETE);
    NUMBER(piecepick_is_complete(picker, &number), 1);
    piecepick_close(&picker);
}

/* A bad block of one peer is brought by another. The other block of the piece stays, and so does who sent it. */
static void try_discards(uint32_t keeps)
{
    piecepick_picker *picker = open_for(keeps, 2);
    piecepick_job *job = NULL;
    piecepick_answer answer;
    uint32_t number;
    uint64_t before;
    come(picker, 0);
    come(picker, 1);
    if (keeps != PIECEPICK_KEEPS_JOURNAL) {
        EQUAL(bring(picker, 0, 0, 0, 1), PIECEPICK_K_STORED);
        EQUAL(bring(picker, 1, 0, BLOCK, 0), PIECEPICK_K_FULL);
        RISES(GETS(piecepick_discard(picker, 0, 0, &answer), PIECEPICK_K_FAILED));
        NUMBER(piecepick_is_waiting(picker, 0, &number), 0);
        NO_NUMBER(piecepick_sender(picker, 0, 0, &number), PIECEPICK_E_NOT_HELD);
        NUMBER(piecepick_sender(picker, 0, 1, &number), 1);
        STAYS(REFUSED(piecepick_discard(picker, 0, 1, &answer), PIECEPICK_R_NO_SUCH_BLOCK));
        STAYS(REFUSED(piecepick_discard(picker, 0, length_of(0), &answer), PIECEPICK_R_NO_SUCH_BLOCK));
        before = still_picture(picker);
        GETS(piecepick_discard(picker, 0, 0, &answer), PIECEPICK_K_FAILED); /* it isn't held */
        EQUAL(still_picture(picker), before);
        BLOCKS(piecepick_next(picker, 1, 3, &answer), PIECEPICK_K_REQUEST, 0, 0);
        EQUAL(bring(picker, 1, 0, 0, 0), PIECEPICK_K_FULL);
        EQUAL(settle(picker, keeps, 0, 0), PIECEPICK_K_COMPLETE);
        STAYS(REFUSED(piecepick_discard(picker, 0, 0, &answer), PIECEPICK_R_NOT_WAITING));
    }
    if (keeps == PIECEPICK_KEEPS_BEGUN) { /* a check that was under way is of bytes that are held no more */
        for (uint32_t begin = 0; begin < length_of(1); begin += BLOCK) EQUAL(bring(picker, 0, 1, begin, 0) != PIECEPICK_K_DROPPED, 1);
        EQUAL(piecepick_job_take(picker, 1, &job), PIECEPICK_OK);
        EQUAL(piecepick_job_hash(job), PIECEPICK_OK);
        GETS(piecepick_discard(picker, 1, BLOCK, &answer), PIECEPICK_K_FAILED);
        NO_ANSWER(piecepick_job_settle(picker, job, &answer), PIECEPICK_E_NOT_WAITING);
        EQUAL(bring(picker, 1, 1, BLOCK, 1), PIECEPICK_K_FULL);
        NO_ANSWER(piecepick_job_settle(picker, job, &answer), PIECEPICK_E_STALE);
        piecepick_job_close(&job);
        EQUAL(settle(picker, keeps, 1, 1), PIECEPICK_K_FAILED);
    }
    piecepick_close(&picker);
}

/* ---- A request that the picker didn't choose, and that is in flight. */

/* It counts as one of the picker's own: for the depth, for other peers, and as the last of its peer's line. No journal has it. */
static void try_requested(uint32_t keeps)
{
    piecepick_picker *picker = open_for(keeps, 2);
    piecepick_answer answer;
    uint32_t number;
    come(picker, 0);
    come(picker, 1);
    asks_by(picker, 0, 0, 0, 0, PIECEPICK_RULE_RANDOM);
    if (keeps == PIECEPICK_KEEPS_JOURNAL) {
        const uint64_t before = picture(picker);
        NO_ANSWER(piecepick_requested(picker, 0, 2, BLOCK, &answer), PIECEPICK_E_KEEPS);
        NO_ANSWER(piecepick_requested(picker, 0, 0, 0, &answer), PIECEPICK_E_KEEPS); /* also where it would be refused */
        EQUAL(picture(picker), before);
        EQUAL(piecepick_audit(picker), PIECEPICK_OK);
        piecepick_close(&picker);
        return;
    }
    STAYS(BLOCKS(piecepick_requested(picker, 0, 2, BLOCK, &answer), PIECEPICK_K_IN_FLIGHT, 2, BLOCK));
    NUMBER(piecepick_outstanding(picker, 0, &number), 2);
    BLOCKS(piecepick_outstanding_at(picker, 0, 1, &answer), PIECEPICK_K_REQUEST, 2, BLOCK);
    NUMBER(piecepick_askers(picker, 2, 1, &number), 1);
    /* Its piece has begun, and nobody is asked for the block again. */
    asks_by(picker, 1, 3, 0, BLOCK, PIECEPICK_RULE_BEGUN);
    asks_by(picker, 1, 3, 2, 0, PIECEPICK_RULE_BEGUN);
    asks_by(picker, 1, 3, 3, 0, PIECEPICK_RULE_RANDOM);
    /* Another peer brings it, or its own does. */
    RISES(EQUAL(bring(picker, 1, 2, BLOCK, 0), PIECEPICK_K_STORED));
    BLOCKS(piecepick_next(picker, 0, 0, &answer), PIECEPICK_K_CANCEL, 2, BLOCK);
    BLOCKS(piecepick_requested(picker, 0, pieces - 1, 0, &answer), PIECEPICK_K_IN_FLIGHT, pieces - 1, 0); /* a shorter one */
    STAYS(EQUAL(bring(picker, 0, pieces - 1, 0, 0), PIECEPICK_K_FULL));
    /* It may be late, released and reported again, and a choke ends it. */
    BLOCKS(piecepick_requested(picker, 0, 5, 0, &answer), PIECEPICK_K_IN_FLIGHT, 5, 0);
    RISES(QUIET(piecepick_late(picker, 0, 5, 0, &answer)));
    BLOCKS(piecepick_requested(picker, 1, 5, 0, &answer), PIECEPICK_K_IN_FLIGHT, 5, 0);
    NUMBER(piecepick_askers(picker, 5, 0, &number), 1);
    for (uint32_t worker = 0; worker < 2; worker++) RISES(QUIET(piecepick_release(picker, worker, 5, 0, &answer)));
    BLOCKS(piecepick_requested(picker, 0, 5, 0, &answer), PIECEPICK_K_IN_FLIGHT, 5, 0);
    RISES(QUIET(piecepick_choke(picker, 0, &answer)));
    NUMBER(piecepick_outstanding(picker, 0, &number), 0);
    NUMBER(piecepick_askers(picker, 5, 0, &number), 0);
    piecepick_close(&picker);
}

/* By the last block that nobody was asked for endgame begins, and another peer has something again. */
static void try_requested_last(uint32_t keeps)
{
    piecepick_picker *picker = open_for(keeps, 2);
    piecepick_answer answer;
    if (keeps != PIECEPICK_KEEPS_JOURNAL) {
        come_with(picker, 0, two);
        come_with(picker, 1, two);
        for (uint32_t begin = 0; begin < PIECE; begin += BLOCK)
            STAYS(BLOCKS(piecepick_requested(picker, 0, 0, begin, &answer), PIECEPICK_K_IN_FLIGHT, 0, begin));
        STAYS(BLOCKS(piecepick_requested(picker, 0, 1, 0, &answer), PIECEPICK_K_IN_FLIGHT, 1, 0));
        RISES(BLOCKS(piecepick_requested(picker, 0, 1, BLOCK, &answer), PIECEPICK_K_IN_FLIGHT, 1, BLOCK));
        asks_by(picker, 1, 0, 0, 0, PIECEPICK_RULE_ENDGAME);
        REFUSED(piecepick_requested(picker, 1, 1, BLOCK, &answer), PIECEPICK_R_NOT_WAITING); /* in endgame too */
        EQUAL(asks_all(picker, 1, PIECEPICK_K_IDLE), 3);
    }
    piecepick_close(&picker);
}

/* What can't be requested of the peer now isn't counted, and nothing changes. */
#define NOT_NOW(worker, piece, begin)                                                                                       \
    do {                                                                                                                    \
        const uint64_t not_now_before = picture(picker);                                                                    \
        REFUSED(piecepick_requested(picker, worker, piece, begin, &answer), PIECEPICK_R_NOT_WAITING);                       \
        EQUAL(picture(picker), not_now_before);                                                                             \
    } while (0)
static void try_requested_refused(uint32_t keeps)
{
    piecepick_picker *picker = open_for(keeps, 2);
    piecepick_answer answer;
    if (keeps == PIECEPICK_KEEPS_JOURNAL) {
        piecepick_close(&picker);
        return;
    }
    REFUSED(piecepick_requested(picker, 0, 0, 0, &answer), PIECEPICK_R_NOT_JOINED);
    GETS(piecepick_join(picker, 0, &answer), PIECEPICK_K_JOINED);
    NOTED(piecepick_bits(picker, 0, two, flags_len, &answer), 1);
    REFUSED(piecepick_requested(picker, 0, 0, 1, &answer), PIECEPICK_R_NO_SUCH_BLOCK);
    REFUSED(piecepick_requested(picker, 0, 0, PIECE, &answer), PIECEPICK_R_NO_SUCH_BLOCK);
    REFUSED(piecepick_requested(picker, 0, pieces - 1, MORE, &answer), PIECEPICK_R_NO_SUCH_BLOCK);
    NOT_NOW(0, 0, 0); /* it chokes us */
    QUIET(piecepick_unchoke(picker, 0, &answer));
    NOT_NOW(0, 2, 0); /* it doesn't show the piece */
    QUIET(piecepick_set_level(picker, 0, 0, &answer));
    NOT_NOW(0, 0, 0); /* the piece isn't wanted */
    QUIET(piecepick_set_level(picker, 0, 5, &answer));
    QUIET(piecepick_reach(picker, 0, 4, &answer));
    NOT_NOW(0, 0, 0); /* it is above the reach */
    QUIET(piecepick_reach(picker, 0, 5, &answer));
    QUIET(piecepick_depth(picker, 0, 1, &answer));
    BLOCKS(piecepick_requested(picker, 0, 0, 0, &answer), PIECEPICK_K_IN_FLIGHT, 0, 0);
    NOT_NOW(0, 0, BLOCK); /* as many as may be are in flight */
    QUIET(piecepick_depth(picker, 0, 3, &answer));
    NOT_NOW(0, 0, 0); /* it is in flight there */
    come(picker, 1);
    NOT_NOW(1, 0, 0); /* or elsewhere */
    QUIET(piecepick_late(picker, 0, 0, 0, &answer));
    NOT_NOW(0, 0, 0); /* its own peer is late with it */
    BLOCKS(piecepick_requested(picker, 0, 0, BLOCK, &answer), PIECEPICK_K_IN_FLIGHT, 0, BLOCK);
    EQUAL(bring(picker, 1, 0, 0, 0), PIECEPICK_K_STORED);
    NOT_NOW(1, 0, 0); /* it is held */
    NOT_NOW(0, 1, 0); /* a cancel is due */
    BLOCKS(piecepick_next(picker, 0, 0, &answer), PIECEPICK_K_CANCEL, 0, 0);
    BLOCKS(piecepick_requested(picker, 0, 1, 0, &answer), PIECEPICK_K_IN_FLIGHT, 1, 0);
    EQUAL(bring(picker, 0, 0, BLOCK, 0), PIECEPICK_K_FULL);
    EQUAL(settle(picker, keeps, 0, 0), PIECEPICK_K_COMPLETE);
    NOT_NOW(1, 0, 0); /* its piece is complete */
    piecepick_close(&picker);
    /* A piece of a peer that works alone isn't for others, and that one has no part in theirs. */
    picker = open_with_alone(keeps);
    NOT_NOW(0, 0, BLOCK);
    BLOCKS(piecepick_requested(picker, 0, 1, 0, &answer), PIECEPICK_K_IN_FLIGHT, 1, 0);
    NOT_NOW(1, 1, BLOCK);
    BLOCKS(piecepick_requested(picker, 1, 0, BLOCK, &answer), PIECEPICK_K_IN_FLIGHT, 0, BLOCK);
    QUIET(piecepick_alone(picker, 1, 0, &answer));
    BLOCKS(piecepick_requested(picker, 1, 1, BLOCK, &answer), PIECEPICK_K_IN_FLIGHT, 1, BLOCK);
    piecepick_close(&picker);
}

static void try_epochs(uint32_t keeps)
{
    piecepick_options options = PIECEPICK_OPTIONS;
    piecepick_picker *picker;
    piecepick_answer answer;
    uint32_t piece, begin, number;
    uint8_t levels[MOST_PIECES];
    memset(levels, 4, sizeof levels);
    options.keeps = keeps;
    options.workers = 3;
    options.shown = 0; /* nobody has most pieces, and no endgame is to begin */
    picker = open_by(&options);
    EQUAL(epoch(picker), 0);
    RISES(GETS(piecepick_join(picker, 0, &answer), PIECEPICK_K_JOINED));
    RISES(GETS(piecepick_join(picker, 1, &answer), PIECEPICK_K_JOINED));
    /* What a peer's own worker tells gives another answer to that peer alone. */
    STAYS(NOTED(piecepick_have(picker, 0, 0, &answer), 1));
    STAYS(NOTED(piecepick_bits(picker, 1, none, flags_len, &answer), 0));
    STAYS(NOTED(piecepick_have(picker, 1, 0, &answer), 1));
    STAYS(NOTED(piecepick_haves(picker, 1, none, flags_len, &answer), 1));
    STAYS(QUIET(piecepick_unchoke(picker, 0, &answer)));
    STAYS(QUIET(piecepick_unchoke(picker, 1, &answer)));
    STAYS(QUIET(piecepick_depth(picker, 0, 64, &answer)));
    STAYS(QUIET(piecepick_set_in_order(picker, 1, &answer)));
    STAYS(QUIET(piecepick_set_in_order(picker, 0, &answer)));
    STAYS(QUIET(piecepick_set_in_order_from(picker, 5, &answer)));
    STAYS(QUIET(piecepick_set_in_order_from(picker, 8, &answer)));
    STAYS(QUIET(piecepick_reach(picker, 0, 3, &answer)));
    STAYS(QUIET(piecepick_reach(picker, 0, 7, &answer)));
    for (uint32_t yes = 2; yes > 0; yes--) RISES(QUIET(piecepick_alone(picker, 0, yes - 1, &answer))); /* others may have its pieces */
    /* Two blocks of piece 0 are asked of the first peer, so the second one has nothing. */
    for (uint32_t index = 0; index < 2; index++) {
        STAYS(EQUAL(piecepick_next(picker, 0, 1, &answer), PIECEPICK_OK));
        EQUAL(answer.kind, PIECEPICK_K_REQUEST);
        EQUAL(answer.piece, 0);
    }
    STAYS(GETS(piecepick_next(picker, 1, 1, &answer), PIECEPICK_K_IDLE));
    STAYS(GETS(piecepick_next(picker, 0, 1, &answer), PIECEPICK_K_IDLE));
    STAYS(NOTED(piecepick_have(picker, 0, 1, &answer), 1));
    STAYS(NOTED(piecepick_have(picker, 0, 2, &answer), 1));
    STAYS(GETS(piecepick_next(picker, 1, 1, &answer), PIECEPICK_K_IDLE));
    /* Refusals, statuses and questions. */
    STAYS(REFUSED(piecepick_choke(picker, 2, &answer), PIECEPICK_R_NOT_JOINED));
    STAYS(REFUSED(piecepick_leave(picker, 2, &answer), PIECEPICK_R_NOT_JOINED));
    STAYS(REFUSED(piecepick_join(picker, 0, &answer), PIECEPICK_R_ALREADY_JOINED));
    STAYS(REFUSED(piecepick_release(picker, 1, 0, 0, &answer), PIECEPICK_R_NOT_REQUESTED));
    STAYS(REFUSED(piecepick_late(picker, 1, 0, 0, &answer), PIECEPICK_R_NOT_REQUESTED));
    STAYS(REFUSED(piecepick_late(picker, 2, 0, 0, &answer), PIECEPICK_R_NOT_JOINED));
    STAYS(REFUSED(piecepick_lack(picker, 2, 0, &answer), PIECEPICK_R_NOT_JOINED));
    STAYS(REFUSED(piecepick_set_level(picker, 0, 8, &answer), PIECEPICK_R_WRONG_LEVEL));
    STAYS(REFUSED(piecepick_reach(picker, 0, 8, &answer), PIECEPICK_R_WRONG_LEVEL));
    STAYS(REFUSED(piecepick_alone(picker, 2, 1, &answer), PIECEPICK_R_NOT_JOINED));
    STAYS(NO_ANSWER(piecepick_alone(picker, 3, 1, &answer), PIECEPICK_E_WORKER));
    STAYS(REFUSED(piecepick_set_in_order_from(picker, 9, &answer), PIECEPICK_R_WRONG_LEVEL));
    STAYS(NO_ANSWER(piecepick_choke(picker, 3, &answer), PIECEPICK_E_WORKER));
    STAYS(NO_ANSWER(piecepick_lack(picker, 3, 0, &answer), PIECEPICK_E_WORKER));
    STAYS(NO_ANSWER(piecepick_lack(picker, 0, pieces, &answer), PIECEPICK_E_PIECE));
    STAYS(NO_ANSWER(piecepick_late(picker, 3, 0, 0, &answer), PIECEPICK_E_WORKER));
    STAYS(NO_ANSWER(piecepick_late(picker, 0, pieces, 0, &answer), PIECEPICK_E_PIECE));
    STAYS(NUMBER(piecepick_has_piece(picker, 0, &number), 0));
    STAYS(EQUAL(piecepick_rule(picker, 0, 0, &number), PIECEPICK_OK));
    /* The first peer drops the piece, which frees both blocks. Then it has the piece again, and they are asked of it again. */
    RISES(NOTED(piecepick_lack(picker, 0, 0, &answer), 1));
    STAYS(BLOCKS(piecepick_next(picker, 1, 1, &answer), PIECEPICK_K_REQUEST, 0, 0));
    RISES(QUIET(piecepick_release(picker, 1, 0, 0, &answer)));
    STAYS(NOTED(piecepick_have(picker, 0, 0, &answer), 1));
    for (uint32_t index = 0; index < 2; index++)
        STAYS(BLOCKS(piecepick_next(picker, 0, 0, &answer), PIECEPICK_K_REQUEST, 0, index * BLOCK));
    STAYS(GETS(piecepick_next(picker, 1, 1, &answer), PIECEPICK_K_IDLE));
    /* The first peer is late with one of them, which the second one gets then. */
    RISES(QUIET(piecepick_late(picker, 0, 0, 0, &answer)));
    STAYS(BLOCKS(piecepick_next(picker, 1, 1, &answer), PIECEPICK_K_REQUEST, 0, 0));
    STAYS(GETS(piecepick_next(picker, 1, 1, &answer), PIECEPICK_K_IDLE));
    RISES(QUIET(piecepick_release(picker, 1, 0, 0, &answer)));
    /* A choke of the first peer frees both blocks for the second one. */
    RISES(QUIET(piecepick_choke(picker, 0, &answer)));
    STAYS(EQUAL(piecepick_next(picker, 1, 1, &answer), PIECEPICK_OK));
    EQUAL(answer.kind, PIECEPICK_K_REQUEST);
    EQUAL(answer.piece, 0);
    begin = answer.begin;
    /* A block that its peer alone was asked for comes; another one comes unasked. */
    STAYS(EQUAL(bring(picker, 1, 0, begin, 0), PIECEPICK_K_STORED));
    STAYS(EQUAL(bring(picker, 1, 0, begin, 0), PIECEPICK_K_DROPPED));
    RISES(EQUAL(bring(picker, 1, 0, BLOCK - begin, 0), PIECEPICK_K_FULL));
    RISES(EQUAL(settle(picker, keeps, 0, 0), PIECEPICK_K_COMPLETE));
    GETS(piecepick_next(picker, 1, 1, &answer), PIECEPICK_K_NOTHING_LEFT);
    /* What is wanted, and what is given up. */
    RISES(QUIET(piecepick_want(picker, all, flags_len, &answer)));
    RISES(QUIET(piecepick_set_level(picker, 1, 5, &answer)));
    RISES(QUIET(piecepick_set_levels(picker, levels, pieces, &answer)));
    STAYS(QUIET(piecepick_unchoke(picker, 0, &answer)));
    STAYS(EQUAL(piecepick_next(picker, 0, 1, &answer), PIECEPICK_OK));
    EQUAL(answer.kind, PIECEPICK_K_REQUEST);
    piece = answer.piece;
    begin = answer.begin;
    RISES(QUIET(piecepick_release(picker, 0, piece, begin, &answer)));
    RISES(QUIET(piecepick_leave(picker, 0, &answer)));
    piecepick_close(&picker);
    /* The last block that nobody was asked for is asked: the endgame begins, and another peer has something again. */
    picker = open_for(keeps, 2);
    come(picker, 0);
    come(picker, 1);
    QUIET(piecepick_depth(picker, 0, 64, &answer));
    QUIET(piecepick_depth(picker, 1, 1, &answer));
    for (uint32_t left = 2 * pieces - 1; left > 1; left--) STAYS(EQUAL(piecepick_next(picker, 0, left, &answer), PIECEPICK_OK));
    RISES(EQUAL(piecepick_next(picker, 0, 0, &answer), PIECEPICK_OK));
    EQUAL(answer.kind, PIECEPICK_K_REQUEST);
    EQUAL(asks_all(picker, 0, PIECEPICK_K_IDLE), 0);
    EQUAL(asks_all(picker, 1, PIECEPICK_K_PIPE_FULL), 1);
    if (keeps == PIECEPICK_KEEPS_JOURNAL) EQUAL(piecepick_audit(picker), PIECEPICK_OK);
    piecepick_close(&picker);
    /* The last one of those that are shown, where nobody has the other pieces. */
    picker = open_for(keeps, 2);
    come_with(picker, 0, two);
    come_with(picker, 1, two);
    for (uint32_t left = 4; left > 1; left--) STAYS(EQUAL(piecepick_next(picker, 0, left, &answer), PIECEPICK_OK));
    RISES(EQUAL(piecepick_next(picker, 0, 0, &answer), PIECEPICK_OK));
    EQUAL(answer.kind, PIECEPICK_K_REQUEST);
    EQUAL(asks_all(picker, 1, PIECEPICK_K_IDLE), 4);
    if (keeps == PIECEPICK_KEEPS_JOURNAL) EQUAL(piecepick_audit(picker), PIECEPICK_OK);
    piecepick_close(&picker);
    /* Endgame waits for a piece that a third peer alone has, until that peer drops it. */
    picker = open_for(keeps, 3);
    come_with(picker, 0, two);
    come_with(picker, 1, two);
    GETS(piecepick_join(picker, 2, &answer), PIECEPICK_K_JOINED);
    NOTED(piecepick_have(picker, 2, 5, &answer), 1);
    EQUAL(asks_all(picker, 0, PIECEPICK_K_IDLE), 4);
    EQUAL(asks_all(picker, 1, PIECEPICK_K_IDLE), 0);
    RISES(NOTED(piecepick_lack(picker, 2, 5, &answer), 0));
    EQUAL(asks_all(picker, 1, PIECEPICK_K_IDLE), 4);
    if (keeps == PIECEPICK_KEEPS_JOURNAL) EQUAL(piecepick_audit(picker), PIECEPICK_OK);
    piecepick_close(&picker);
    /* Endgame waits for a late block that another peer can't be asked for, until its own peer brings it. */
    picker = open_for(keeps, 2);
    come_with(picker, 0, two);
    GETS(piecepick_join(picker, 1, &answer), PIECEPICK_K_JOINED);
    NOTED(piecepick_have(picker, 1, 1, &answer), 1);
    QUIET(piecepick_unchoke(picker, 1, &answer));
    EQUAL(asks_all(picker, 0, PIECEPICK_K_IDLE), 4);
    RISES(QUIET(piecepick_late(picker, 0, 0, 0, &answer)));
    EQUAL(asks_all(picker, 1, PIECEPICK_K_IDLE), 0);
    RISES(EQUAL(bring(picker, 0, 0, 0, 0), PIECEPICK_K_STORED));
    EQUAL(asks_all(picker, 1, PIECEPICK_K_IDLE), 2);
    if (keeps == PIECEPICK_KEEPS_JOURNAL) EQUAL(piecepick_audit(picker), PIECEPICK_OK);
    piecepick_close(&picker);
}

enum { PEERS = 4 };
/* Which requests were told late, for calls at random: of each peer those of each piece's blocks, as long as they last. */
static int is_late[PEERS][MOST_PIECES][2];

/* What isn't in flight at its peer any more isn't late there either. */
static void end_late_requests(piecepick_picker *picker)
{
    int lasts[PEERS][MOST_PIECES][2] = {{{0}}};
    piecepick_answer answer;
    uint32_t count;
    for (uint32_t peer = 0; peer < PEERS; peer++) {
        EQUAL(piecepick_outstanding(picker, peer, &count), PIECEPICK_OK);
        for (uint32_t place = 0; place < count; place++) {
            EQUAL(piecepick_outstanding_at(picker, peer, place, &answer), PIECEPICK_OK);
            lasts[peer][answer.piece][answer.begin / BLOCK] = is_late[peer][answer.piece][answer.begin / BLOCK];
        }
    }
    memcpy(is_late, lasts, sizeof is_late);
}

/* How often the block is in flight at the peer, which is late with it or isn't. */
static uint32_t times_at(piecepick_picker *picker, uint32_t peer, int late, uint32_t piece, uint32_t begin)
{
    piecepick_answer answer;
    uint32_t count, found = 0;
    EQUAL(piecepick_outstanding(picker, peer, &count), PIECEPICK_OK);
    for (uint32_t place = 0; place < count; place++) {
        EQUAL(piecepick_outstanding_at(picker, peer, place, &answer), PIECEPICK_OK);
        found += answer.piece == piece && answer.begin == begin && is_late[peer][piece][begin / BLOCK] == late;
    }
    return found;
}

/* At how many of the peers it is. */
static uint32_t askers_of(piecepick_picker *picker, int late, uint32_t piece, uint32_t begin)
{
    uint32_t found = 0;
    for (uint32_t peer = 0; peer < PEERS; peer++) found += times_at(picker, peer, late, piece, begin);
    return found;
}

/* The rule of the block that was requested right now, by what else the picker tells. So many pieces come at random. */
static piecepick_pick_rule rule_of(piecepick_picker *picker, uint32_t random, uint32_t piece, uint32_t begin)
{
    uint32_t level, from, number, touched = 0, had = 0;
    if (askers_of(picker, 0, piece, begin) > 1) return PIECEPICK_RULE_ENDGAME;
    if (askers_of(picker, 1, piece, begin) > 0) return PIECEPICK_RULE_LATE;
    EQUAL(piecepick_level(picker, piece, &level), PIECEPICK_OK);
    EQUAL(piecepick_order_from(picker, &from), PIECEPICK_OK);
    if (from <= level) return PIECEPICK_RULE_IN_ORDER;
    for (uint32_t index = 0; index < blocks_of(piece); index++)
        touched += piecepick_sender(picker, piece, index, &number) == PIECEPICK_OK || askers_of(picker, 0, piece, index * BLOCK) > 0;
    if (touched > 1) return PIECEPICK_RULE_BEGUN;
    for (uint32_t other = 0; other < pieces; other++) {
        EQUAL(piecepick_has_piece(picker, other, &number), PIECEPICK_OK);
        had += number;
    }
    return had < random ? PIECEPICK_RULE_RANDOM : PIECEPICK_RULE_RAREST;
}

/* Which peers work alone, and which let themselves be asked, for calls at random. */
static int is_alone[PEERS], is_open[PEERS];

/* Of how many blocks of the piece, but for the one that begins there, somebody has to do with; and of how many another peer has. */
static void deals_with(piecepick_picker *picker, uint32_t peer, uint32_t piece, uint32_t begin, uint32_t *all_of, uint32_t *of_others)
{
    *all_of = *of_others = 0;
    for (uint32_t place = 0; place < length_of(piece); place += BLOCK) {
        uint32_t sender, askers = askers_of(picker, 0, piece, place);
        if (place == begin) continue;
        if (piecepick_sender(picker, piece, place / BLOCK, &sender) == PIECEPICK_OK) {
            ++*all_of;
            *of_others += sender != peer;
        } else {
            *all_of += askers > 0;
            *of_others += askers > times_at(picker, peer, 0, piece, place);
        }
    }
}

/* Whether the peer may have been the first to be asked for the block: the piece is all its own, if it works alone, and else no other peer's own. */
static int may_be_first(piecepick_picker *picker, uint32_t worker, uint32_t piece, uint32_t begin)
{
    uint32_t all_of, of_others;
    if (is_alone[worker]) {
        deals_with(picker, worker, piece, begin, &all_of, &of_others);
        return of_others == 0;
    }
    for (uint32_t peer = 0; peer < PEERS; peer++) {
        deals_with(picker, peer, piece, begin, &all_of, &of_others);
        if (peer != worker && is_alone[peer] && is_open[peer] && all_of > 0 && of_others == 0) return 0;
    }
    return 1;
}

/* What was answered to a call of the worker by this number, of those of the next function, says whether its peer works alone and is open. */
static void follow_alone(uint32_t worker, uint32_t action, int yes, const piecepick_answer *answer)
{
    if (action > 17 || answer->kind == PIECEPICK_K_REFUSED) return;
    if (action < 4) is_alone[worker] = is_open[worker] = 0;
    else if (action < 9) is_open[worker] = action >= 5;
    else if (action == 17) is_alone[worker] = yes;
}

/* Calls at random. A peer that had nothing to be asked for has nothing while its own worker tells nothing, and the epoch stays. Each request
   tells its rule, and is of a block that wasn't in flight there. None is first for a block of a piece that is another one's own. Some were in
   flight before the picker knew of them. */
static void try_epochs_at_random(uint32_t keeps)
{
    enum { STEPS = 20000 };
    piecepick_options options = PIECEPICK_OPTIONS;
    piecepick_picker *picker = NULL;
    piecepick_answer answer;
    uint64_t state = 1, idle_at[PEERS] = {0};
    uint32_t complete = 1, number;
    int is_idle[PEERS] = {0}, is_wrong[MOST_PIECES] = {0};
    long again = 0, by[PIECEPICK_RULE_LATE + 1] = {0}, apart = 0, counted = 0;
    options.keeps = keeps;
    options.workers = PEERS;
    options.depth = 5;
    options.rush = 1;
    for (long step = 0; step < STEPS; step++) {
        if (complete) {
            piecepick_close(&picker);
            picker = open_by(&options);
            options.rush = 4 - options.rush; /* 1 and 3 by turns */
            memset(is_idle, 0, sizeof is_idle);
            memset(is_late, 0, sizeof is_late);
            memset(is_alone, 0, sizeof is_alone);
            memset(is_open, 0, sizeof is_open);
        }
        state = state * 6364136223846793005u + 1442695040888963407u;
        uint32_t worker = (uint32_t)(state >> 33) % PEERS, piece = (uint32_t)(state >> 37) % pieces, action = (uint32_t)(state >> 45) % 64;
        uint32_t level = (uint32_t)(state >> 52) % 8, begin = blocks_of(piece) > 1 && state >> 63 ? BLOCK : 0;
        int wrong = 0, yes = (int)(state >> 57) % 4 > 0;
        piecepick_status status = PIECEPICK_OK;
        const int was_idle = is_idle[worker];
        /* A block that is given up or comes is mostly one that was asked for. */
        EQUAL(piecepick_outstanding(picker, worker, &number), PIECEPICK_OK);
        if (number > 0 && action != 50) {
            EQUAL(piecepick_outstanding_at(picker, worker, piece % number, &answer), PIECEPICK_OK);
            if ((action >= 18 && action < 24) || (action > 50 && action < 60)) {
                piece = answer.piece;
                begin = answer.begin;
            }
        } else if (action > 50 && action < 60) {
            continue;
        }
        is_idle[worker] = 0;
        if (action < 3) status = piecepick_join(picker, worker, &answer);
        else if (action < 4) status = piecepick_leave(picker, worker, &answer);
        else if (action < 5) status = piecepick_choke(picker, worker, &answer);
        else if (action < 9) status = piecepick_unchoke(picker, worker, &answer);
        else if (action < 14) status = piecepick_have(picker, worker, piece, &answer);
        else if (action < 15) status = piecepick_lack(picker, worker, piece, &answer);
        else if (action < 16) status = piecepick_reach(picker, worker, level, &answer);
        else if (action < 16 + (level & 1)) status = piecepick_depth(picker, worker, level + 1, &answer);
        else if (action < 17) status = piecepick_haves(picker, worker, all, flags_len, &answer);
        else if (action < 18) status = piecepick_alone(picker, worker, (uint32_t)yes, &answer);
        else if (action < 20) status = piecepick_release(picker, worker, piece, begin, &answer);
        else if (action < 24) {
            status = piecepick_late(picker, worker, piece, begin, &answer);
            if (answer.kind == PIECEPICK_K_QUIET) is_late[worker][piece][begin / BLOCK] = 1;
        } else if (action < 32 && keeps != PIECEPICK_KEEPS_JOURNAL) {
            status = piecepick_requested(picker, worker, piece, begin, &answer);
            if (answer.kind == PIECEPICK_K_IN_FLIGHT) {
                EQUAL(times_at(picker, worker, 0, piece, begin), 1);
                EQUAL(askers_of(picker, 0, piece, begin), 1);
                EQUAL(may_be_first(picker, worker, piece, begin), 1);
                counted++;
            }
        } else if (action < 50) {
            status = piecepick_next(picker, worker, state, &answer);
            is_idle[worker] = answer.kind == PIECEPICK_K_IDLE || answer.kind == PIECEPICK_K_NOTHING_LEFT;
            if (is_idle[worker]) idle_at[worker] = epoch(picker);
            if (answer.kind == PIECEPICK_K_REQUEST) {
                EQUAL(times_at(picker, worker, 0, answer.piece, answer.begin), 1);
                NUMBER(piecepick_rule(picker, answer.piece, answer.begin / BLOCK, &number),
                       rule_of(picker, options.random, answer.piece, answer.begin));
                by[number]++;
                if (number != PIECEPICK_RULE_ENDGAME) EQUAL(may_be_first(picker, worker, answer.piece, answer.begin), 1);
                apart += is_alone[worker];
            }
        } else if (action < 60) {
            wrong = begin + BLOCK >= length_of(piece) && level < 3;
            uint8_t block[BLOCK];
            uint32_t rest = length_of(piece) - begin, length = rest < BLOCK ? rest : BLOCK;
            memcpy(block, bytes_of(piece) + begin, length);
            block[length - 1] = (uint8_t)(block[length - 1] + wrong);
            status = piecepick_arrived(picker, worker, piece, begin, block, length, &answer);
            if (answer.kind == PIECEPICK_K_STORED || answer.kind == PIECEPICK_K_FULL)
                is_wrong[piece] = begin + BLOCK >= length_of(piece) ? wrong : is_wrong[piece];
        } else {
            is_idle[worker] = was_idle; /* told by no worker */
            EQUAL(piecepick_is_waiting(picker, piece, &number), PIECEPICK_OK);
            /* Some last blocks were wrong. */
            if (number) EQUAL(settle(picker, keeps, piece, is_wrong[piece]), is_wrong[piece] ? PIECEPICK_K_FAILED : PIECEPICK_K_COMPLETE);
            else if (action < 61) status = piecepick_set_level(picker, piece, level, &answer);
            else if (action < 62) status = piecepick_set_in_order_from(picker, level + 1, &answer);
        }
        EQUAL(status, PIECEPICK_OK);
        follow_alone(worker, action, yes, &answer);
        end_late_requests(picker);
        for (uint32_t peer = 0; peer < PEERS; peer++) {
            if (!is_idle[peer] || epoch(picker) != idle_at[peer]) continue;
            EQUAL(piecepick_next(picker, peer, state, &answer), PIECEPICK_OK);
            EQUAL(answer.kind == PIECEPICK_K_IDLE || answer.kind == PIECEPICK_K_NOTHING_LEFT, 1);
            again++;
        }
        EQUAL(piecepick_is_complete(picker, &complete), PIECEPICK_OK);
    }
    EQUAL(again > 1000, 1);
    EQUAL(apart > 100, 1);
    EQUAL(counted > 10, keeps != PIECEPICK_KEEPS_JOURNAL);
    for (size_t rule = PIECEPICK_RULE_IN_ORDER; rule <= PIECEPICK_RULE_LATE; rule++) EQUAL(by[rule] > 0, 1);
    if (keeps == PIECEPICK_KEEPS_JOURNAL) EQUAL(piecepick_audit(picker), PIECEPICK_OK);
    piecepick_close(&picker);
}

/* ---- Who brought what. */

static void try_senders(uint32_t keeps)
{
    piecepick_picker *picker = open_for(keeps, 4);
    piecepick_answer answer;
    uint32_t number;
    come(picker, 1);
    come(picker, 3);
    for (int wrong = 1; wrong >= 0; wrong--) {
        NO_NUMBER(piecepick_sender(picker, 1, 0, &number), PIECEPICK_E_NOT_HELD);
        EQUAL(bring(picker, 1, 1, 0, 0), PIECEPICK_K_STORED);
        NUMBER(piecepick_sender(picker, 1, 0, &number), 1);
        NO_NUMBER(piecepick_sender(picker, 1, 1, &number), PIECEPICK_E_NOT_HELD);
        EQUAL(bring(picker, 3, 1, 0, 0), PIECEPICK_K_DROPPED); /* the first that brings a block has sent it */
        NUMBER(piecepick_sender(picker, 1, 0, &number), 1);
        EQUAL(bring(picker, 3, 1, BLOCK, wrong), PIECEPICK_K_FULL);
        NUMBER(piecepick_sender(picker, 1, 0, &number), 1);
        NUMBER(piecepick_sender(picker, 1, 1, &number), 3);
        NO_NUMBER(piecepick_sender(picker, 1, 2, &number), PIECEPICK_E_BLOCK);
        if (wrong) QUIET(piecepick_choke(picker, 3, &answer));
        NUMBER(piecepick_sender(picker, 1, 1, &number), 3);
        EQUAL(settle(picker, keeps, 1, wrong), wrong ? PIECEPICK_K_FAILED : PIECEPICK_K_COMPLETE);
        if (wrong) NO_NUMBER(piecepick_sender(picker, 1, 1, &number), PIECEPICK_E_NOT_HELD);
    }
    /* Blocks stay held, and their senders known, behind the peer's leave. */
    EQUAL(bring(picker, 3, pieces - 1, 0, 0), PIECEPICK_K_FULL);
    EQUAL(bring(picker, 3, 0, BLOCK, 0), PIECEPICK_K_STORED);
    QUIET(piecepick_leave(picker, 3, &answer));
    NUMBER(piecepick_sender(picker, pieces - 1, 0, &number), 3);
    NUMBER(piecepick_sender(picker, 0, 1, &number), 3);
    /* They are so when the number is another peer's, which has brought nothing. */
    come(picker, 3);
    NUMBER(piecepick_sender(picker, pieces - 1, 0, &number), 3);
    NUMBER(piecepick_sender(picker, 0, 1, &number), 3);
    EQUAL(settle(picker, keeps, pieces - 1, 0), PIECEPICK_K_COMPLETE);
    EQUAL(bring(picker, 1, 0, 0, 0), PIECEPICK_K_FULL);
    EQUAL(settle(picker, keeps, 0, 0), PIECEPICK_K_COMPLETE);
    piecepick_close(&picker);
}

/* ---- Blocks that come twice. */

/* A block comes to a client that keeps the content itself: it writes the bytes where they are stored, and at no other answer. */
static piecepick_kind bring_to(uint8_t *file, piecepick_picker *picker, uint32_t worker, uint32_t piece, uint32_t begin, int wrong)
{
    uint8_t block[BLOCK];
    uint32_t length = copy_of(block, piece, begin, wrong);
    piecepick_kind kind = bring(picker, worker, piece, begin, wrong);
    if (kind == PIECEPICK_K_STORED || kind == PIECEPICK_K_FULL) memcpy(file + begin, block, length);
    return kind;
}

/* A check of the piece that the client has written, or of what the picker keeps. */
static piecepick_kind settle_file(const uint8_t *file, piecepick_picker *picker, uint32_t keeps, uint32_t piece, int wrong)
{
    piecepick_answer answer;
    piecepick_digest digest = sha1(file, length_of(piece));
    if (keeps != PIECEPICK_KEEPS_NOTHING) return settle(picker, keeps, piece, wrong);
    EQUAL(piecepick_settle(picker, piece, &digest, &answer), PIECEPICK_OK);
    return answer.kind;
}

static void try_copies(uint32_t keeps)
{
    static uint8_t file[PIECE];
    piecepick_picker *picker = open_for(keeps, 2);
    uint32_t number;
    come(picker, 0);
    come(picker, 1);
    /* Bad copies come second, before and behind the piece's last block: the piece has its hash, and the peer of the good ones is named. */
    EQUAL(bring_to(file, picker, 0, 1, 0, 0), PIECEPICK_K_STORED);
    EQUAL(bring_to(file, picker, 1, 1, 0, 1), PIECEPICK_K_DROPPED);
    EQUAL(bring_to(file, picker, 0, 1, BLOCK, 0), PIECEPICK_K_FULL);
    EQUAL(bring_to(file, picker, 1, 1, BLOCK, 1), PIECEPICK_K_DROPPED);
    NUMBER(piecepick_sender(picker, 1, 0, &number), 0);
    NUMBER(piecepick_sender(picker, 1, 1, &number), 0);
    EQUAL(memcmp(file, bytes_of(1), PIECE), 0);
    EQUAL(settle_file(file, picker, keeps, 1, 0), PIECEPICK_K_COMPLETE);
    /* A bad copy comes first: it is the one that counts, and its peer is named until the check has failed. */
    EQUAL(bring_to(file, picker, 0, 2, 0, 0), PIECEPICK_K_STORED);
    EQUAL(bring_to(file, picker, 1, 2, BLOCK, 1), PIECEPICK_K_FULL);
    EQUAL(bring_to(file, picker, 0, 2, BLOCK, 0), PIECEPICK_K_DROPPED);
    NUMBER(piecepick_sender(picker, 2, 0, &number), 0);
    NUMBER(piecepick_sender(picker, 2, 1, &number), 1);
    EQUAL(settle_file(file, picker, keeps, 2, 1), PIECEPICK_K_FAILED);
    /* The piece comes again, and the copies of before are forgotten. */
    EQUAL(bring_to(file, picker, 0, 2, BLOCK, 0), PIECEPICK_K_STORED);
    EQUAL(bring_to(file, picker, 0, 2, 0, 0), PIECEPICK_K_FULL);
    EQUAL(settle_file(file, picker, keeps, 2, 0), PIECEPICK_K_COMPLETE);
    if (keeps == PIECEPICK_KEEPS_JOURNAL) EQUAL(piecepick_audit(picker), PIECEPICK_OK);
    piecepick_close(&picker);
}

/* ---- Extensions of the protocol, and what a client meets, as docs/GUIDE.md has them. */

/* A peer chokes us, and lets us fetch two pieces all the same (BEP 6). A second number stands for it, which shows these alone. Once the peer
   unchokes us, that number shows the rest and the first one leaves, or the other way round. */
static void try_allowed(uint32_t keeps)
{
    const uint32_t first = 0, second = 1;
    for (int stays = 0; stays < 2; stays++) {
        piecepick_picker *picker = open_for(keeps, 2);
        piecepick_answer answer;
        uint32_t number;
        GETS(piecepick_join(picker, first, &answer), PIECEPICK_K_JOINED);
        NOTED(piecepick_bits(picker, first, all, flags_len, &answer), 1);
        GETS(piecepick_join(picker, second, &answer), PIECEPICK_K_JOINED);
        NOTED(piecepick_haves(picker, second, two, flags_len, &answer), 1);
        QUIET(piecepick_unchoke(picker, second, &answer));
        GETS(piecepick_next(picker, first, 3, &answer), PIECEPICK_K_CHOKED);
        EQUAL(asks_all(picker, second, PIECEPICK_K_IDLE), 4);
        EQUAL(in_flight_of(picker, second, 0) + in_flight_of(picker, second, 1), 4);
        /* The peer counts twice where its pieces are allowed. */
        NUMBER(piecepick_availability(picker, 1, &number), 2);
        NUMBER(piecepick_availability(picker, 2, &number), 1);
        EQUAL(bring_whole(picker, keeps, second, 0), PIECEPICK_K_COMPLETE);
        GETS(piecepick_next(picker, second, 3, &answer), PIECEPICK_K_IDLE);
        /* Two blocks are in flight when it unchokes us. They stay so, or are requested once more on the same connection. */
        if (stays) {
            NOTED(piecepick_haves(picker, second, all, flags_len, &answer), 1);
            QUIET(piecepick_leave(picker, first, &answer));
        } else {
            QUIET(piecepick_unchoke(picker, first, &answer));
            QUIET(piecepick_leave(picker, second, &answer));
        }
        NUMBER(piecepick_availability(picker, 1, &number), 1);
        QUIET(piecepick_depth(picker, stays ? second : first, 64, &answer));
        EQUAL(in_flight_of(picker, stays ? second : first, 1), stays ? 2 : 0);
        EQUAL(asks_all(picker, stays ? second : first, PIECEPICK_K_IDLE), all_blocks() - (stays ? 4 : 2));
        EQUAL(in_flight_of(picker, stays ? second : first, 1), 2);
        EQUAL(bring_whole(picker, keeps, stays ? second : first, 1), PIECEPICK_K_COMPLETE);
        if (keeps == PIECEPICK_KEEPS_JOURNAL) EQUAL(piecepick_audit(picker), PIECEPICK_OK);
        piecepick_close(&picker);
    }
}

/* A peer suggests a piece (BEP 6). By its level all peers get it first; as the word of one peer it is begun next where nothing else comes
   before it. */
static void try_suggested(uint32_t keeps)
{
    piecepick_picker *picker = open_for(keeps, 2);
    piecepick_answer answer;
    come(picker, 0);
    come(picker, 1);
    BLOCKS(piecepick_next(picker, 0, 0, &answer), PIECEPICK_K_REQUEST, 0, 0);
    QUIET(piecepick_set_level(picker, 6, 5, &answer));
    BLOCKS(piecepick_next(picker, 0, 0, &answer), PIECEPICK_K_REQUEST, 6, 0);
    BLOCKS(piecepick_next(picker, 1, 0, &answer), PIECEPICK_K_REQUEST, 6, BLOCK);
    EQUAL(bring(picker, 0, 6, 0, 0), PIECEPICK_K_STORED);
    EQUAL(bring(picker, 1, 6, BLOCK, 0), PIECEPICK_K_FULL);
    EQUAL(settle(picker, keeps, 6, 0), PIECEPICK_K_COMPLETE);
    /* Another suggestion ends before its piece is begun, as the peer is gone. */
    QUIET(piecepick_set_level(picker, 8, 5, &answer));
    QUIET(piecepick_set_level(picker, 8, 4, &answer));
    BLOCKS(piecepick_next(picker, 0, 0, &answer), PIECEPICK_K_REQUEST, 0, BLOCK);
    /* One peer's word is 7 from here on, and the other's stays 0. */
    BLOCKS(piecepick_next(picker, 0, 7, &answer), PIECEPICK_K_REQUEST, 7, 0);
    BLOCKS(piecepick_next(picker, 1, 0, &answer), PIECEPICK_K_REQUEST, 7, BLOCK);
    BLOCKS(piecepick_next(picker, 1, 0, &answer), PIECEPICK_K_REQUEST, 1, 0);
    BLOCKS(piecepick_next(picker, 0, 7, &answer), PIECEPICK_K_REQUEST, 1, BLOCK); /* a begun piece comes before the word's */
    if (keeps == PIECEPICK_KEEPS_JOURNAL) EQUAL(piecepick_audit(picker), PIECEPICK_OK);
    piecepick_close(&picker);
}

/* The word is the piece behind the last one that was begun. A lone seeder gives the pieces in rising order from there, and behind the last one
   the first. */
static void try_ranges(uint32_t keeps)
{
    static const uint32_t ORDER[] = {7, 8, 2, 3, 4, 5, 6, 9, 0, 1};
    piecepick_options options = PIECEPICK_OPTIONS;
    piecepick_picker *picker;
    piecepick_answer answer;
    uint32_t word = ORDER[0];
    options.keeps = keeps;
    options.workers = 2;
    options.depth = 64;
    picker = open_by(&options);
    come(picker, 0);
    EQUAL(pieces, sizeof ORDER / sizeof *ORDER);
    for (uint32_t at = 0; at < pieces; at++) {
        const uint32_t piece = ORDER[at];
        if (at == 2) QUIET(piecepick_set_level(picker, piece, 5, &answer)); /* another range begins */
        for (uint32_t begin = 0; begin < length_of(piece); begin += BLOCK) {
            BLOCKS(piecepick_next(picker, 0, word, &answer), PIECEPICK_K_REQUEST, piece, begin);
            word = piece + 1;
        }
    }
    GETS(piecepick_next(picker, 0, word, &answer), PIECEPICK_K_IDLE);
    piecepick_close(&picker);
    /* A piece that another peer began comes before the word's. */
    picker = open_by(&options);
    come(picker, 0);
    come(picker, 1);
    BLOCKS(piecepick_next(picker, 1, 0, &answer), PIECEPICK_K_REQUEST, 0, 0);
    BLOCKS(piecepick_next(picker, 0, 5, &answer), PIECEPICK_K_REQUEST, 0, BLOCK);
    BLOCKS(piecepick_next(picker, 0, 5, &answer), PIECEPICK_K_REQUEST, 5, 0);
    piecepick_close(&picker);
    /* The first pieces may be any. Later ones are the rarest: the word's piece is passed over where more peers have it. */
    for (uint32_t random = 0; random < 2; random++) {
        options.random = random;
        picker = open_by(&options);
        come(picker, 0);
        come_with(picker, 1, two);
        BLOCKS(piecepick_next(picker, 0, 1, &answer), PIECEPICK_K_REQUEST, random ? 1 : 2, 0);
        if (keeps == PIECEPICK_KEEPS_JOURNAL) EQUAL(piecepick_audit(picker), PIECEPICK_OK);
        piecepick_close(&picker);
    }
}

/* A torrent of two pieces with padding (BEP 47), which is zeros: the second block of piece 1, and the end of piece 0. A peer has both pieces,
   and a disk has joined that shows nothing and stays. */
static uint8_t padded[2 * PIECE];

static piecepick_picker *open_padded(uint32_t keeps, uint32_t peer, uint32_t disk)
{
    const uint8_t both[1] = {0xc0};
    uint8_t hashes[40];
    piecepick_options options = PIECEPICK_OPTIONS;
    piecepick_picker *picker = NULL;
    piecepick_answer answer;
    options.keeps = keeps;
    options.workers = 2;
    memcpy(padded, content, sizeof padded);
    memset(padded + BLOCK + 100, 0, BLOCK - 100);
    memset(padded + PIECE + BLOCK, 0, BLOCK);
    for (size_t piece = 0; piece < 2; piece++) {
        piecepick_digest digest = sha1(padded + piece * PIECE, PIECE);
        memcpy(hashes + 20 * piece, digest.bytes, 20);
    }
    EQUAL(piecepick_open_parts(&picker, PIECE, sizeof padded, hashes, sizeof hashes, &options), PIECEPICK_OK);
    GETS(piecepick_join(picker, disk, &answer), PIECEPICK_K_JOINED);
    GETS(piecepick_join(picker, peer, &answer), PIECEPICK_K_JOINED);
    NOTED(piecepick_bits(picker, peer, both, sizeof both, &answer), 1);
    QUIET(piecepick_unchoke(picker, peer, &answer));
    return picker;
}

static void try_padding(uint32_t keeps)
{
    static const uint8_t zeros[BLOCK] = {0};
    const uint32_t peer = 0, disk = 1;
    uint8_t bad[PIECE];
    piecepick_picker *picker = open_padded(keeps, peer, disk);
    piecepick_answer answer;
    uint32_t number;
    for (uint32_t begin = 0; begin < PIECE; begin += BLOCK) {
        BLOCKS(piecepick_next(picker, peer, 0, &answer), PIECEPICK_K_REQUEST, 0, begin); /* padding in part is fetched */
        GETS(piecepick_arrived(picker, peer, 0, begin, padded + begin, BLOCK, &answer), begin ? PIECEPICK_K_FULL : PIECEPICK_K_STORED);
    }
    EQUAL(settle_bytes(picker, keeps, 0, padded, PIECE), PIECEPICK_K_COMPLETE);
    /* At the first request of the other piece its padding is told, and so once more after a check has failed. The disk makes no piece less
       rare. */
    memcpy(bad, padded + PIECE, PIECE);
    bad[0]++;
    for (int wrong = 1; wrong >= 0; wrong--) {
        BLOCKS(piecepick_next(picker, peer, 0, &answer), PIECEPICK_K_REQUEST, 1, 0);
        GETS(piecepick_arrived(picker, disk, 1, BLOCK, zeros, BLOCK, &answer), PIECEPICK_K_STORED);
        GETS(piecepick_next(picker, peer, 0, &answer), PIECEPICK_K_IDLE);
        NUMBER(piecepick_availability(picker, 1, &number), 1);
        NUMBER(piecepick_sender(picker, 1, 1, &number), disk);
        GETS(piecepick_arrived(picker, peer, 1, 0, wrong ? bad : padded + PIECE, BLOCK, &answer), PIECEPICK_K_FULL);
        EQUAL(settle_bytes(picker, keeps, 1, wrong ? bad : padded + PIECE, PIECE), wrong ? PIECEPICK_K_FAILED : PIECEPICK_K_COMPLETE);
    }
    NUMBER(piecepick_is_complete(picker, &number), 1);
    if (keeps == PIECEPICK_KEEPS_JOURNAL) EQUAL(piecepick_audit(picker), PIECEPICK_OK);
    piecepick_close(&picker);
    /* Told at the start it begins its piece, which comes first then. */
    picker = open_padded(keeps, peer, disk);
    GETS(piecepick_arrived(picker, disk, 1, BLOCK, zeros, BLOCK, &answer), PIECEPICK_K_STORED);
    BLOCKS(piecepick_next(picker, peer, 0, &answer), PIECEPICK_K_REQUEST, 1, 0);
    piecepick_close(&picker);
    /* The padding itself is requested, where all before it is held. The request is given up first, so no cancel comes. */
    for (int released = 0; released < 2; released++) {
        picker = open_padded(keeps, peer, disk);
        GETS(piecepick_arrived(picker, disk, 1, 0, padded + PIECE, BLOCK, &answer), PIECEPICK_K_STORED);
        BLOCKS(piecepick_next(picker, peer, 0, &answer), PIECEPICK_K_REQUEST, 1, BLOCK);
        if (released) QUIET(piecepick_release(picker, peer, 1, BLOCK, &answer));
        GETS(piecepick_arrived(picker, disk, 1, BLOCK, zeros, BLOCK, &answer), PIECEPICK_K_FULL);
        if (!released) BLOCKS(piecepick_next(picker, peer, 0, &answer), PIECEPICK_K_CANCEL, 1, BLOCK);
        BLOCKS(piecepick_next(picker, peer, 0, &answer), PIECEPICK_K_REQUEST, 0, 0);
        EQUAL(settle_bytes(picker, keeps, 1, padded + PIECE, PIECE), PIECEPICK_K_COMPLETE);
        if (keeps == PIECEPICK_KEEPS_JOURNAL) EQUAL(piecepick_audit(picker), PIECEPICK_OK);
        piecepick_close(&picker);
    }
}

/* A peer chokes us while four blocks are in flight. By BEP 3 all are given up. With the fast extension (BEP 6) the choke isn't told, and each
   block comes or is rejected. */
static void try_chokes(uint32_t keeps)
{
    for (int is_fast = 0; is_fast < 2; is_fast++) {
        piecepick_options options = PIECEPICK_OPTIONS;
        piecepick_picker *picker;
        piecepick_answer answer;
        uint32_t number;
        options.keeps = keeps;
        options.workers = 2;
        options.askers = 1; /* no endgame: the other peer is asked for what was given up alone */
        picker = open_by(&options);
        come_with(picker, 0, two);
        come_with(picker, 1, two);
        EQUAL(asks_all(picker, 0, PIECEPICK_K_IDLE), 4);
        EQUAL(asks_all(picker, 1, PIECEPICK_K_IDLE), 0);
        if (is_fast) {
            QUIET(piecepick_release(picker, 0, 0, BLOCK, &answer));
            QUIET(piecepick_release(picker, 0, 1, BLOCK, &answer));
        } else {
            QUIET(piecepick_choke(picker, 0, &answer));
        }
        EQUAL(asks_all(picker, 1, PIECEPICK_K_IDLE), is_fast ? 2 : 4);
        EQUAL(in_flight_of(picker, 1, 0), is_fast ? 1 : 2);
        /* What it sends all the same is stored. After a plain choke the other peer was asked for it too. */
        for (uint32_t piece = 0; piece < 2; piece++) {
            EQUAL(bring(picker, 0, piece, 0, 0), PIECEPICK_K_STORED);
            if (!is_fast) BLOCKS(piecepick_next(picker, 1, 3, &answer), PIECEPICK_K_CANCEL, piece, 0);
            GETS(piecepick_next(picker, 1, 3, &answer), PIECEPICK_K_IDLE);
        }
        /* Nothing is in flight there: the choke costs nothing now. */
        NUMBER(piecepick_outstanding(picker, 0, &number), 0);
        if (is_fast) QUIET(piecepick_choke(picker, 0, &answer));
        GETS(piecepick_next(picker, 0, 3, &answer), PIECEPICK_K_CHOKED);
        NUMBER(piecepick_outstanding(picker, 1, &number), 2);
        for (uint32_t piece = 0; piece < 2; piece++) {
            EQUAL(bring(picker, 1, piece, BLOCK, 0), PIECEPICK_K_FULL);
            EQUAL(settle(picker, keeps, piece, 0), PIECEPICK_K_COMPLETE);
        }
        if (keeps == PIECEPICK_KEEPS_JOURNAL) EQUAL(piecepick_audit(picker), PIECEPICK_OK);
        piecepick_close(&picker);
    }
}

/* A lacking piece at level 0 isn't wanted, so each wanted one is had. */
static void try_lowered(uint32_t keeps)
{
    const uint32_t last = pieces - 1;
    piecepick_picker *picker = open_for(keeps, 1);
    piecepick_answer answer;
    uint32_t number;
    come(picker, 0);
    for (uint32_t piece = 0; piece < last; piece++) EQUAL(bring_whole(picker, keeps, 0, piece), PIECEPICK_K_COMPLETE);
    NUMBER(piecepick_has_wanted(picker, &number), 0);
    QUIET(piecepick_set_level(picker, last, 0, &answer));
    NUMBER(piecepick_has_wanted(picker, &number), 1);
    NUMBER(piecepick_is_complete(picker, &number), 0);
    GETS(piecepick_next(picker, 0, 3, &answer), PIECEPICK_K_NOTHING_LEFT);
    QUIET(piecepick_set_level(picker, last, 4, &answer));
    NUMBER(piecepick_has_wanted(picker, &number), 0);
    BLOCKS(piecepick_next(picker, 0, 3, &answer), PIECEPICK_K_REQUEST, last, 0);
    if (keeps == PIECEPICK_KEEPS_JOURNAL) EQUAL(piecepick_audit(picker), PIECEPICK_OK);
    piecepick_close(&picker);
}

/* What a peer has may come by `haves` from its first word on. A bitfield is too late then. */
static void try_first_word(uint32_t keeps)
{
    piecepick_picker *picker = open_for(keeps, 1);
    piecepick_answer answer;
    GETS(piecepick_join(picker, 0, &answer), PIECEPICK_K_JOINED);
    NOTED(piecepick_haves(picker, 0, two, flags_len, &answer), 1);
    QUIET(piecepick_unchoke(picker, 0, &answer));
    EQUAL(asks_all(picker, 0, PIECEPICK_K_IDLE), 4);
    EQUAL(in_flight_of(picker, 0, 0) + in_flight_of(picker, 0, 1), 4);
    REFUSED(piecepick_bits(picker, 0, all, flags_len, &answer), PIECEPICK_R_LATE_BITS);
    NOTED(piecepick_haves(picker, 0, all, flags_len, &answer), 1);
    EQUAL(asks_all(picker, 0, PIECEPICK_K_PIPE_FULL), 1);
    EQUAL(in_flight_of(picker, 0, 3), 1);
    if (keeps == PIECEPICK_KEEPS_JOURNAL) EQUAL(piecepick_audit(picker), PIECEPICK_OK);
    piecepick_close(&picker);
}

/* A block is in flight at two peers, and comes. A client that cancels by itself gives it up at the other peer before that. */
static void try_own_cancels(uint32_t keeps)
{
    for (int before = 0; before < 2; before++) {
        piecepick_picker *picker = open_for(keeps, 2);
        piecepick_answer answer;
        come_with(picker, 0, two);
        come_with(picker, 1, two);
        EQUAL(asks_all(picker, 0, PIECEPICK_K_IDLE), 4);
        EQUAL(asks_all(picker, 1, PIECEPICK_K_IDLE), 4);
        if (before) QUIET(piecepick_release(picker, 1, 0, 0, &answer));
        EQUAL(bring(picker, 0, 0, 0, 0), PIECEPICK_K_STORED);
        if (!before) {
            REFUSED(piecepick_release(picker, 1, 0, 0, &answer), PIECEPICK_R_NOT_REQUESTED); /* too late */
            BLOCKS(piecepick_next(picker, 1, 3, &answer), PIECEPICK_K_CANCEL, 0, 0);
        }
        GETS(piecepick_next(picker, 1, 3, &answer), PIECEPICK_K_IDLE);
        if (keeps == PIECEPICK_KEEPS_JOURNAL) EQUAL(piecepick_audit(picker), PIECEPICK_OK);
        piecepick_close(&picker);
    }
}

/* ---- A start from a disk. */

static void try_restores(void)
{
    const uint32_t disk = 1, last = pieces - 1;
    piecepick_picker *picker = open_for(PIECEPICK_KEEPS_NOTHING, 2);
    piecepick_answer answer;
    piecepick_digest digest = sha1(content, length_of(0));
    uint32_t number, at = 0;
    uint64_t before;
    uint8_t *sealed = (uint8_t *)mmap(NULL, PIECE, PROT_NONE, MAP_PRIVATE | MAP_ANONYMOUS, -1, 0);
    EQUAL((void *)sealed == MAP_FAILED, 0);
    REFUSED(restore_piece(picker, disk, 0, 0, &answer), PIECEPICK_R_NOT_JOINED);
    GETS(piecepick_join(picker, disk, &answer), PIECEPICK_K_JOINED);
    before = picture(picker);
    NO_ANSWER(piecepick_restore(picker, disk, 0, content, PIECE - 1, &digest, &answer), PIECEPICK_E_LENGTH);
    NO_ANSWER(piecepick_restore(picker, disk, 0, content, PIECE + 1, &digest, &answer), PIECEPICK_E_LENGTH);
    NO_ANSWER(piecepick_restore(picker, disk, 0, content, 0, &digest, &answer), PIECEPICK_E_LENGTH);
    NO_ANSWER(restore_piece(picker, disk, last, 0, &answer), PIECEPICK_E_LENGTH);
    NO_ANSWER(restore_piece(picker, disk, 0, last, &answer), PIECEPICK_E_LENGTH);
    NO_ANSWER(restore_piece(picker, disk, pieces, 0, &answer), PIECEPICK_E_PIECE);
    NO_ANSWER(restore_piece(picker, 2, 0, 0, &answer), PIECEPICK_E_WORKER);
    EQUAL(picture(picker), before);
    /* Another piece's bytes fail, and leave the piece as it was: no block is held. The right ones are had then. */
    GETS(restore_piece(picker, disk, 0, 1, &answer), PIECEPICK_K_FAILED);
    NUMBER(piecepick_has_piece(picker, 0, &number), 0);
    NO_NUMBER(piecepick_sender(picker, 0, 0, &number), PIECEPICK_E_NOT_HELD);
    GETS(restore_piece(picker, disk, 0, 0, &answer), PIECEPICK_K_COMPLETE);
    NUMBER(piecepick_has_piece(picker, 0, &number), 1);
    NUMBER(piecepick_sender(picker, 0, 1, &number), disk);
    NO_ANSWER(restore_piece(picker, disk, 0, 0, &answer), PIECEPICK_E_BEGUN);
    GETS(restore_piece(picker, disk, last, last, &answer), PIECEPICK_K_COMPLETE);
    /* None of the bytes is read: these can't be. */
    digest = sha1(bytes_of(1), PIECE);
    GETS(piecepick_restore(picker, disk, 1, sealed, PIECE, &digest, &answer), PIECEPICK_K_COMPLETE);
    GETS(piecepick_arrived(picker, disk, 2, 0, sealed, BLOCK, &answer), PIECEPICK_K_STORED);
    NO_ANSWER(restore_piece(picker, disk, 2, 2, &answer), PIECEPICK_E_BEGUN);
    /* A disk shows nothing, so it has nothing to be asked for. */
    NUMBER(piecepick_availability(picker, 0, &number), 0);
    /* A piece of which a block is asked. */
    come(picker, 0);
    SPOIL(answer);
    while (at++ < 64) {
        EQUAL(piecepick_next(picker, 0, at, &answer), PIECEPICK_OK);
        if (answer.kind != PIECEPICK_K_REQUEST || answer.piece != 2) break;
    }
    EQUAL(answer.kind, PIECEPICK_K_REQUEST);
    at = answer.piece;
    NO_ANSWER(restore_piece(picker, disk, at, at, &answer), PIECEPICK_E_BEGUN);
    /* A disk's blocks stay held, and its pieces had, behind its leave. The rest comes from the peer. */
    QUIET(piecepick_leave(picker, disk, &answer));
    NUMBER(piecepick_sender(picker, 2, 0, &number), disk);
    EQUAL(bring(picker, 0, 2, BLOCK, 0), PIECEPICK_K_FULL);
    EQUAL(settle(picker, PIECEPICK_KEEPS_NOTHING, 2, 0), PIECEPICK_K_COMPLETE);
    for (uint32_t piece = 3; piece < last; piece++) EQUAL(bring_whole(picker, PIECEPICK_KEEPS_NOTHING, 0, piece), PIECEPICK_K_COMPLETE);
    NUMBER(piecepick_is_complete(picker, &number), 1);
    piecepick_close(&picker);
    munmap(sealed, PIECE);
    told("restores from a disk, whose bytes can't be read");
}

/* ---- Blocks and pieces of which the picker is told no byte. */

static void try_without_bytes(void)
{
    const uint32_t disk = 1, last = pieces - 1, tail = (length_of(last) - 1) / BLOCK * BLOCK;
    piecepick_picker *picker = open_for(PIECEPICK_KEEPS_NOTHING, 2), *twin = open_for(PIECEPICK_KEEPS_NOTHING, 2);
    piecepick_answer answer;
    uint32_t number;
    uint64_t before;
    come(picker, 0);
    come(twin, 0);
    before = picture(picker);
    REFUSED(piecepick_received(picker, 0, 1, 1, BLOCK, &answer), PIECEPICK_R_NO_SUCH_BLOCK);
    REFUSED(piecepick_received(picker, 0, 1, PIECE, BLOCK, &answer), PIECEPICK_R_NO_SUCH_BLOCK);
    REFUSED(piecepick_received(picker, 0, 1, 0, BLOCK - 1, &answer), PIECEPICK_R_WRONG_LENGTH);
    REFUSED(piecepick_received(picker, 0, 1, 0, BLOCK + 1, &answer), PIECEPICK_R_WRONG_LENGTH);
    REFUSED(piecepick_received(picker, 0, 1, 0, (size_t)1 << 32 | BLOCK, &answer), PIECEPICK_R_WRONG_LENGTH);
    REFUSED(piecepick_received(picker, 0, last, tail, BLOCK, &answer), PIECEPICK_R_WRONG_LENGTH);
    EQUAL(picture(picker), before);
    /* Each block is as one that came with its bytes: a picker that got these shows the same. */
    EQUAL(receive(picker, 0, 1, 0), PIECEPICK_K_STORED);
    EQUAL(bring(twin, 0, 1, 0, 0), PIECEPICK_K_STORED);
    EQUAL(receive(picker, 0, 1, 0), PIECEPICK_K_DROPPED);
    EQUAL(receive(picker, 0, last, tail), PIECEPICK_K_FULL);
    EQUAL(bring(twin, 0, last, tail, 0), PIECEPICK_K_FULL);
    EQUAL(receive(picker, 0, 1, BLOCK), PIECEPICK_K_FULL);
    EQUAL(bring(twin, 0, 1, BLOCK, 0), PIECEPICK_K_FULL);
    EQUAL(picture(picker), picture(twin));
    NUMBER(piecepick_is_waiting(picker, 1, &number), 1);
    GETS(piecepick_verdict(picker, 1, 1, &answer), PIECEPICK_K_COMPLETE);
    GETS(piecepick_verdict(twin, 1, 1, &answer), PIECEPICK_K_COMPLETE);
    /* Whole pieces, by a verdict: one that failed is as it was. */
    REFUSED(piecepick_resume(picker, disk, 2, 1, &answer), PIECEPICK_R_NOT_JOINED);
    GETS(piecepick_join(picker, disk, &answer), PIECEPICK_K_JOINED);
    GETS(piecepick_join(twin, disk, &answer), PIECEPICK_K_JOINED);
    NO_ANSWER(piecepick_resume(picker, disk, pieces, 1, &answer), PIECEPICK_E_PIECE);
    GETS(piecepick_resume(picker, disk, 2, 0, &answer), PIECEPICK_K_FAILED);
    GETS(restore_piece(twin, disk, 2, 3, &answer), PIECEPICK_K_FAILED);
    NUMBER(piecepick_has_piece(picker, 2, &number), 0);
    NO_NUMBER(piecepick_sender(picker, 2, 0, &number), PIECEPICK_E_NOT_HELD);
    GETS(piecepick_resume(picker, disk, 2, 4, &answer), PIECEPICK_K_COMPLETE);
    GETS(restore_piece(twin, disk, 2, 2, &answer), PIECEPICK_K_COMPLETE);
    NUMBER(piecepick_sender(picker, 2, 1, &number), disk);
    NO_ANSWER(piecepick_resume(picker, disk, 2, 1, &answer), PIECEPICK_E_BEGUN);
    NO_ANSWER(piecepick_resume(picker, disk, last, 1, &answer), PIECEPICK_E_BEGUN);
    EQUAL(picture(picker), picture(twin));
    for (uint32_t piece = 3; piece < last; piece++) GETS(piecepick_resume(picker, disk, piece, 1, &answer), PIECEPICK_K_COMPLETE);
    GETS(piecepick_resume(picker, disk, 0, 1, &answer), PIECEPICK_K_COMPLETE);
    NUMBER(piecepick_is_complete(picker, &number), 0);
    piecepick_close(&picker);
    piecepick_close(&twin);
    told("blocks and pieces of which no byte is passed are as those that came with bytes");
}

/* ---- Jobs. */

static piecepick_job *take(piecepick_picker *picker, uint32_t piece)
{
    piecepick_job *job = NULL;
    EQUAL(piecepick_job_take(picker, piece, &job), PIECEPICK_OK);
    EQUAL(job != NULL, 1);
    return job;
}

/* The room gets the bytes where it has their length, and stays as it was where it hasn't. */
static void reads(piecepick_job *job, const uint8_t *bytes, uint32_t length)
{
    memset(room, 0x5a, (size_t)length + 2);
    EQUAL(piecepick_job_read(job, room, 0), PIECEPICK_E_LENGTH);
    EQUAL(piecepick_job_read(job, room, length - 1), PIECEPICK_E_LENGTH);
    EQUAL(piecepick_job_read(job, room, (size_t)length + 1), PIECEPICK_E_LENGTH);
    for (uint32_t at = 0; at < length + 2; at++)
        if (room[at] != 0x5a) fail(__LINE__, "a room of another length", at, length);
    EQUAL(piecepick_job_read(job, room, length), PIECEPICK_OK);
    EQUAL(memcmp(room, bytes, length), 0);
    EQUAL(room[length], 0x5a);
}

static void try_jobs(uint32_t keeps)
{
    const uint32_t last = pieces - 1, length = length_of(last);
    piecepick_picker *picker = open_for(keeps, 2), *nothing = open_for(PIECEPICK_KEEPS_NOTHING, 2);
    piecepick_picker *another = open_for(PIECEPICK_KEEPS_BEGUN, 2);
    piecepick_job *first, *second, *third, *same;
    piecepick_answer answer;
    uint8_t wrong[PIECE];
    memcpy(wrong, bytes_of(last), length);
    wrong[length - 1]++;
    come(picker, 0);
    EQUAL(bring(picker, 0, last, 0, 1), PIECEPICK_K_FULL);
    first = take(picker, last);
    second = take(picker, last);
    third = take(picker, last);
    same = first;
    EQUAL(piecepick_job_take(picker, last, &first), PIECEPICK_E_OPEN);
    EQUAL(first == same, 1);
    reads(first, wrong, length);
    NO_ANSWER(piecepick_job_settle(picker, first, &answer), PIECEPICK_E_NOT_HASHED);
    EQUAL(piecepick_job_hash(first), PIECEPICK_OK);
    EQUAL(piecepick_job_hash(first), PIECEPICK_OK);
    EQUAL(piecepick_job_hash(second), PIECEPICK_OK);
    EQUAL(piecepick_job_hash(third), PIECEPICK_OK);
    reads(first, wrong, length);
    NO_ANSWER(piecepick_job_settle(nothing, first, &answer), PIECEPICK_E_KEEPS);
    NO_ANSWER(piecepick_job_settle(another, first, &answer), PIECEPICK_E_NOT_WAITING);
    GETS(piecepick_job_settle(picker, first, &answer), PIECEPICK_K_FAILED);
    NO_ANSWER(piecepick_job_settle(picker, first, &answer), PIECEPICK_E_NOT_WAITING);
    NO_ANSWER(piecepick_job_settle(picker, second, &answer), PIECEPICK_E_NOT_WAITING);
    reads(second, wrong, length);
    piecepick_job_close(&first);
    piecepick_job_close(&first);
    EQUAL(first == NULL, 1);
    /* The same bytes come again: what was hashed is what is held. */
    EQUAL(bring(picker, 0, last, 0, 1), PIECEPICK_K_FULL);
    GETS(piecepick_job_settle(picker, second, &answer), PIECEPICK_K_FAILED);
    /* Other bytes come. */
    EQUAL(bring(picker, 0, last, 0, 0), PIECEPICK_K_FULL);
    NO_ANSWER(piecepick_job_settle(picker, third, &answer), PIECEPICK_E_STALE);
    first = take(picker, last);
    EQUAL(piecepick_job_hash(first), PIECEPICK_OK);
    GETS(piecepick_job_settle(picker, first, &answer), PIECEPICK_K_COMPLETE);
    NO_ANSWER(piecepick_job_settle(picker, first, &answer), PIECEPICK_E_NOT_WAITING);
    NO_ANSWER(piecepick_job_settle(picker, third, &answer), PIECEPICK_E_NOT_WAITING);
    reads(first, bytes_of(last), length);
    same = NULL;
    EQUAL(piecepick_job_take(picker, last, &same), PIECEPICK_E_NOT_WAITING);
    /* A job outlives its picker. */
    EQUAL(bring(picker, 0, 1, 0, 0), PIECEPICK_K_STORED);
    EQUAL(bring(picker, 0, 1, BLOCK, 0), PIECEPICK_K_FULL);
    same = take(picker, 1);
    if (keeps == PIECEPICK_KEEPS_JOURNAL) EQUAL(piecepick_audit(picker), PIECEPICK_OK);
    piecepick_close(&picker);
    EQUAL(piecepick_job_hash(same), PIECEPICK_OK);
    reads(same, bytes_of(1), length_of(1));
    reads(first, bytes_of(last), length);
    piecepick_job_close(&same);
    piecepick_job_close(&first);
    piecepick_job_close(&second);
    piecepick_job_close(&third);
    piecepick_close(&nothing);
    piecepick_close(&another);
}

/* ---- Each allocation refused in turn. */

/* A call that may find no memory is made once more; any other status but OK fails. Its results were written all the same, so nothing that
   the call is passed may come from them. */
static long refusals;
#define AGAIN(call)                                                                             \
    do {                                                                                        \
        piecepick_status again_status;                                                          \
        while ((again_status = (call)) != PIECEPICK_OK) {                                       \
            if (again_status != PIECEPICK_E_MEMORY) fail(__LINE__, #call, again_status, 0);     \
            refusals++;                                                                         \
        }                                                                                       \
    } while (0)
/* A call that takes none, by the header: where something, or a journal, is kept it may. */
#define AGAIN_IF(may, call) do { if (may) AGAIN(call); else EQUAL(call, PIECEPICK_OK); } while (0)

static void settle_again(piecepick_picker *picker, uint32_t keeps, uint32_t piece)
{
    piecepick_job *job = NULL;
    piecepick_answer answer;
    uint8_t *place = room + (size_t)piece * PIECE;
    if (keeps == PIECEPICK_KEEPS_NOTHING) {
        piecepick_digest digest = sha1(place, length_of(piece));
        EQUAL(piecepick_settle(picker, piece, &digest, &answer), PIECEPICK_OK);
    } else if (keeps == PIECEPICK_KEEPS_JOURNAL && piece % 2 == 0) {
        AGAIN(piecepick_settle_now(picker, piece, &answer));
    } else {
        AGAIN(piecepick_job_take(picker, piece, &job));
        AGAIN(piecepick_job_hash(job));
        AGAIN(piecepick_job_settle(picker, job, &answer));
        EQUAL(piecepick_job_read(job, place, length_of(piece)), PIECEPICK_OK);
        piecepick_job_close(&job);
    }
    EQUAL(answer.kind, PIECEPICK_K_COMPLETE);
}

/* Reads each piece into its place, with a byte behind it that stays as it is; a room of another length stays so too. */
static void read_all(piecepick_picker *picker)
{
    memset(room, 0x5a, content_len + 1);
    for (uint32_t piece = 0; piece < pieces; piece++) {
        uint8_t *place = room + (size_t)piece * PIECE;
        uint32_t length = length_of(piece);
        EQUAL(piecepick_read(picker, piece, place, 0), PIECEPICK_E_LENGTH);
        EQUAL(piecepick_read(picker, piece, place, length - 1), PIECEPICK_E_LENGTH);
        EQUAL(piecepick_read(picker, piece, place, (size_t)length + 1), PIECEPICK_E_LENGTH);
        EQUAL(place[0] == 0x5a && place[length] == 0x5a, 1);
        EQUAL(piecepick_read(picker, piece, place, length), PIECEPICK_OK);
        EQUAL(place[length], 0x5a);
    }
}

/* A whole download by two peers in one thread, of which a third worker's disk has a piece where nothing is kept. What comes is put into
   the room by the caller, where that keeps it, or by the jobs. */
static void run(uint32_t keeps)
{
    const int is_journal = keeps == PIECEPICK_KEEPS_JOURNAL, is_nothing = keeps == PIECEPICK_KEEPS_NOTHING;
    piecepick_options options = PIECEPICK_OPTIONS;
    piecepick_picker *picker = NULL;
    piecepick_answer answer, request;
    uint8_t levels[MOST_PIECES];
    uint32_t idle = 0, number;
    options.keeps = keeps;
    options.workers = 3;
    memset(room, 0, content_len);
    AGAIN(piecepick_open(&picker, metainfo, metainfo_len, &options));
    AGAIN(piecepick_want(picker, all, flags_len, &answer));
    memset(levels, 4, sizeof levels);
    AGAIN_IF(is_journal, piecepick_set_levels(picker, levels, pieces, &answer));
    AGAIN_IF(is_journal, piecepick_set_level(picker, 0, 7, &answer));
    AGAIN_IF(is_journal, piecepick_set_in_order(picker, 1, &answer));
    AGAIN_IF(is_journal, piecepick_set_in_order_from(picker, 5, &answer));
    for (uint32_t worker = 0; worker < 2; worker++) {
        AGAIN_IF(!is_nothing, piecepick_join(picker, worker, &answer));
        AGAIN(piecepick_bits(picker, worker, all, flags_len, &answer));
        AGAIN(piecepick_haves(picker, worker, all, flags_len, &answer));
        AGAIN_IF(is_journal, piecepick_lack(picker, worker, 1, &answer));
        AGAIN_IF(!is_nothing, piecepick_have(picker, worker, 1, &answer));
        AGAIN_IF(!is_nothing, piecepick_unchoke(picker, worker, &answer));
        AGAIN_IF(!is_nothing, piecepick_depth(picker, worker, 7, &answer));
        AGAIN_IF(is_journal, piecepick_reach(picker, worker, worker == 0 ? 7 : 4, &answer));
        AGAIN_IF(is_journal, piecepick_alone(picker, worker, worker, &answer));
    }
    if (is_nothing) {
        EQUAL(piecepick_join(picker, 2, &answer), PIECEPICK_OK);
        EQUAL(restore_piece(picker, 2, 1, 1, &answer), PIECEPICK_OK);
        EQUAL(answer.kind, PIECEPICK_K_COMPLETE);
        memcpy(room + PIECE, bytes_of(1), PIECE);
        EQUAL(piecepick_leave(picker, 2, &answer), PIECEPICK_OK);
    }
    for (uint32_t worker = 0; idle < 2; worker = 1 - worker) {
        AGAIN_IF(!is_nothing, piecepick_next(picker, worker, worker * 77u, &request));
        idle = request.kind == PIECEPICK_K_NOTHING_LEFT ? idle + 1 : 0;
        if (request.kind != PIECEPICK_K_REQUEST) continue;
        EQUAL(piecepick_rule(picker, request.piece, request.begin / BLOCK, &number), PIECEPICK_OK);
        EQUAL(piecepick_outstanding(picker, worker, &number), PIECEPICK_OK);
        EQUAL(number, 1);
        EQUAL(piecepick_outstanding_at(picker, worker, 0, &answer), PIECEPICK_OK);
        EQUAL(memcmp(&answer, &request, sizeof answer), 0);
        if (!is_journal) {
            EQUAL(piecepick_release(picker, worker, request.piece, request.begin, &answer), PIECEPICK_OK);
            EQUAL(piecepick_requested(picker, worker, request.piece, request.begin, &answer), PIECEPICK_OK);
            EQUAL(answer.kind, PIECEPICK_K_IN_FLIGHT);
        }
        AGAIN_IF(is_journal, piecepick_late(picker, worker, request.piece, request.begin, &answer));
        const uint8_t *block = bytes_of(request.piece) + request.begin;
        AGAIN_IF(!is_nothing, piecepick_arrived(picker, worker, request.piece, request.begin, block, request.length, &answer));
        if (is_nothing) memcpy(room + (size_t)request.piece * PIECE + request.begin, block, request.length);
        if (answer.kind == PIECEPICK_K_FULL) settle_again(picker, keeps, request.piece);
        else EQUAL(answer.kind, PIECEPICK_K_STORED);
    }
    EQUAL(piecepick_is_complete(picker, &number), PIECEPICK_OK);
    EQUAL(number, 1);
    if (is_journal) {
        read_all(picker);
        AGAIN(piecepick_audit(picker));
    }
    EQUAL(memcmp(room, content, content_len), 0);
    AGAIN_IF(!is_nothing, piecepick_choke(picker, 0, &answer));
    AGAIN_IF(!is_nothing, piecepick_leave(picker, 0, &answer));
    piecepick_close(&picker);
}

/* One allocation is the journal's room, which `open` takes where there is that much: a picker does without it. */
static void refuse_each(uint32_t keeps)
{
    long before = made, each, borne = 0;
    run(keeps);
    each = made - before;
    refusals = 0;
    for (long place = 0; place < each; place++) {
        long told_of = refusals;
        until_refusal = place;
        run(keeps);
        if (until_refusal >= 0 || refusals > told_of + 1) fail(__LINE__, "a refusal", (uint64_t)place, (uint64_t)each);
        borne += refusals == told_of;
    }
    printf("    %ld allocations, each refused in turn: %ld statuses of no memory, each call made again\n", each, refusals);
    EQUAL(borne, keeps == PIECEPICK_KEEPS_JOURNAL ? 1 : 0);
}

/* ---- Four threads under one lock. */

static pthread_mutex_t lock = PTHREAD_MUTEX_INITIALIZER;
static piecepick_picker *shared;
static uint32_t shared_keeps;

#define LOCKED(call)                                                       \
    do {                                                                   \
        piecepick_status locked_status;                                    \
        pthread_mutex_lock(&lock);                                         \
        locked_status = (call);                                            \
        pthread_mutex_unlock(&lock);                                       \
        if (locked_status) fail(__LINE__, #call, locked_status, 0);        \
    } while (0)

/* A piece is hashed outside the lock: by its job, or by the caller, who keeps the content. */
static void settle_shared(uint32_t piece)
{
    piecepick_answer answer;
    uint8_t place[PIECE], four[80];
    const uint8_t *bytes = bytes_of(piece);
    uint32_t length = length_of(piece);
    if (shared_keeps == PIECEPICK_KEEPS_NOTHING) {
        piecepick_digest digest;
        if (piecepick_hash_four(bytes, length, bytes, length, bytes, length, bytes, length, four, sizeof four)) fail(__LINE__, "hash_four", 1, 0);
        memcpy(digest.bytes, four + 40, 20);
        LOCKED(piecepick_settle(shared, piece, &digest, &answer));
    } else {
        piecepick_job *job = NULL;
        LOCKED(piecepick_job_take(shared, piece, &job));
        if (piecepick_job_hash(job)) fail(__LINE__, "hash", 1, 0);
        LOCKED(piecepick_job_settle(shared, job, &answer));
        if (piecepick_job_read(job, place, length)) fail(__LINE__, "read", 1, 0);
        if (memcmp(place, bytes, length) != 0) fail(__LINE__, "bytes", 1, 0);
        piecepick_job_close(&job);
    }
    if (answer.kind != PIECEPICK_K_COMPLETE) fail(__LINE__, "a check", answer.kind, PIECEPICK_K_COMPLETE);
}

static void *worker_thread(void *argument)
{
    uint32_t worker = (uint32_t)(size_t)argument;
    piecepick_answer answer;
    LOCKED(piecepick_join(shared, worker, &answer));
    LOCKED(piecepick_bits(shared, worker, all, flags_len, &answer));
    LOCKED(piecepick_unchoke(shared, worker, &answer));
    for (;;) {
        LOCKED(piecepick_next(shared, worker, worker, &answer));
        if (answer.kind == PIECEPICK_K_NOTHING_LEFT) return NULL;
        if (answer.kind != PIECEPICK_K_REQUEST) {
            sched_yield();
            continue;
        }
        uint32_t piece = answer.piece;
        const uint8_t *block = bytes_of(piece) + answer.begin;
        LOCKED(piecepick_arrived(shared, worker, piece, answer.begin, block, answer.length, &answer));
        if (answer.kind == PIECEPICK_K_FULL) settle_shared(piece);
    }
}

static void by_threads(uint32_t keeps)
{
    shared_keeps = keeps;
    for (int round = 0; round < 25; round++) {
        pthread_t threads[THREADS];
        uint32_t complete;
        shared = open_for(keeps, THREADS);
        for (size_t worker = 0; worker < THREADS; worker++)
            if (pthread_create(&threads[worker], NULL, worker_thread, (void *)worker)) fail(__LINE__, "thread", 1, 0);
        for (size_t worker = 0; worker < THREADS; worker++) pthread_join(threads[worker], NULL);
        EQUAL(piecepick_is_complete(shared, &complete), PIECEPICK_OK);
        EQUAL(complete, 1);
        if (keeps == PIECEPICK_KEEPS_JOURNAL) EQUAL(piecepick_audit(shared), PIECEPICK_OK);
        piecepick_close(&shared);
    }
    printf("    25 downloads by four threads under one lock, hashed outside it\n");
}

/* ---- Hashing. */

/* Digests that FIPS 180 and its examples give. */
static const struct { const char *message, *digest; } KNOWN[] = {
    {"", "da39a3ee5e6b4b0d3255bfef95601890afd80709"},
    {"abc", "a9993e364706816aba3e25717850c26c9cd0d89d"},
    {"abcdbcdecdefdefgefghfghighijhijkijkljklmklmnlmnomnopnopq", "84983e441c3bd26ebaae4aa1f95129e5e54670f1"},
    {"The quick brown fox jumps over the lazy dog", "2fd4e1c67a2d28fced849ee1bb76e7391b93eb12"},
};

/* Four pieces from this one on, against the digests that the metainfo file has. */
static void hash_pieces(uint32_t piece)
{
    uint8_t found[81];
    memset(found, 7, sizeof found);
    EQUAL(piecepick_hash_four(bytes_of(piece), length_of(piece), bytes_of(piece + 1), length_of(piece + 1), bytes_of(piece + 2),
                          length_of(piece + 2), bytes_of(piece + 3), length_of(piece + 3), found, 80), PIECEPICK_OK);
    EQUAL(memcmp(found, digests + 20 * piece, 80), 0);
    EQUAL(found[80], 7);
}

/* Four pieces of one length, four of which the last is shorter, and messages of other lengths in each place. */
static void try_hashing(void)
{
    hash_pieces(0);
    hash_pieces(pieces - 4);
    for (size_t turn = 0; turn < 4; turn++) {
        uint8_t found[80];
        const char *said[4];
        for (size_t at = 0; at < 4; at++) said[at] = KNOWN[(turn + at) % 4].message;
        EQUAL(piecepick_hash_four((const uint8_t *)said[0], strlen(said[0]), (const uint8_t *)said[1], strlen(said[1]),
                              (const uint8_t *)said[2], strlen(said[2]), (const uint8_t *)said[3], strlen(said[3]), found, 80),
              PIECEPICK_OK);
        piecepick_digest alone = sha1((const uint8_t *)said[0], strlen(said[0]));
        for (size_t at = 0; at < 80; at++) {
            unsigned byte = 0;
            EQUAL(sscanf(KNOWN[(turn + at / 20) % 4].digest + 2 * (at % 20), "%2x", &byte), 1);
            EQUAL(found[at], byte);
            if (at < 20) EQUAL(alone.bytes[at], byte);
        }
    }
    told("messages hashed one and four at a time");
}

/* ---- */

static size_t read_file(const char *path, uint8_t *bytes, size_t most)
{
    FILE *file = fopen(path, "rb");
    size_t length;
    if (file == NULL) exit(2);
    length = fread(bytes, 1, most, file);
    fclose(file);
    return length;
}

/* The digests stand behind the key `pieces` and their length. */
static const uint8_t *digests_of(void)
{
    static const char key[] = "6:pieces";
    const uint8_t *at = metainfo;
    while (memcmp(at, key, sizeof key - 1) != 0) at++;
    at += sizeof key - 1;
    while (*at != ':') at++;
    return at + 1;
}

int main(int argc, char **argv)
{
    static const struct { const char *what; void (*tries)(uint32_t keeps); } TRIES[] = {
        {"statuses, each cause at each call", try_statuses},
        {"what comes on the wire, and what is asked", try_wire},
        {"pieces, and what is wanted", try_pieces},
        {"levels and order", try_levels},
        {"a window in order", try_windows},
        {"two calls that tell an order", try_orders},
        {"open pieces", try_open_pieces},
        {"depths", try_depths},
        {"askers in endgame, and cancels", try_endgame},
        {"how many blocks endgame asks of a peer", try_rush},
        {"an endgame though nobody has a piece", try_shown},
        {"the reach of a slow peer", try_reach},
        {"a reach that goes with its peer", try_reaches_gone},
        {"a reach in endgame", try_reaches_in_endgame},
        {"a piece that a peer drops", try_lacks},
        {"a piece that it never had", try_lacks_of_nothing},
        {"a dropped piece in endgame", try_lacks_in_endgame},
        {"by which rule a block is requested", try_rules},
        {"of how many peers a block is requested", try_askers},
        {"a request that takes too long", try_late},
        {"the depth of a late peer, and late told twice", try_late_depths},
        {"ends of a late request", try_late_ends},
        {"a late request in endgame", try_late_in_endgame},
        {"the last block of all, which is late", try_late_last},
        {"late blocks of begun pieces", try_late_open_pieces},
        {"pieces whose blocks are late at their own peer", try_late_keeps_none_back},
        {"a peer that works alone", try_alone},
        {"ends of a piece of its own", try_alone_ends},
        {"how long it works alone", try_alone_lasts},
        {"a liar that works alone", try_liar},
        {"pieces that are lost", try_losses},
        {"blocks that are discarded", try_discards},
        {"requests that were in flight already", try_requested},
        {"an endgame by one of them", try_requested_last},
        {"such as can't be requested now", try_requested_refused},
        {"epochs", try_epochs},
        {"epochs, in calls at random", try_epochs_at_random},
        {"senders", try_senders},
        {"blocks that come twice", try_copies},
        {"pieces that a peer allows while it chokes us", try_allowed},
        {"pieces that a peer suggests", try_suggested},
        {"ranges of pieces, by the word", try_ranges},
        {"padding, told by the disk", try_padding},
        {"chokes, with and without the fast extension", try_chokes},
        {"a lacking piece at level 0", try_lowered},
        {"haves as a peer's first word", try_first_word},
        {"cancels of the client's own", try_own_cancels},
    };
    if (argc != 5) return 2;
    metainfo_len = read_file(argv[1], metainfo, sizeof metainfo);
    content_len = read_file(argv[2], content, sizeof content);
    pieces = (uint32_t)((content_len + PIECE - 1) / PIECE);
    if (pieces != 10) return 2; /* as the table of options has it */
    flags_len = (pieces + 7) / 8;
    for (uint32_t piece = 0; piece < pieces; piece++) all[piece / 8] = (uint8_t)(all[piece / 8] | (0x80 >> piece % 8));
    digests = digests_of();
    try_options();
    try_torrents();
    try_torrent(argv[3], argv[4]);
    try_files(argv[4]);
    try_texts();
    try_hashing();
    try_restores();
    try_without_bytes();
    for (size_t kind = 0; kind < 3; kind++) {
        printf("a picker that keeps %s:\n", KEPT[kind]);
        for (size_t at = 0; at < sizeof TRIES / sizeof *TRIES; at++) {
            printf("    ");
            TRIES[at].tries(KINDS[kind]);
            told(TRIES[at].what);
        }
        if (KINDS[kind] != PIECEPICK_KEEPS_NOTHING) {
            printf("    ");
            try_jobs(KINDS[kind]);
            told("jobs");
        }
        refuse_each(KINDS[kind]);
        by_threads(KINDS[kind]);
        tried = 0;
    }
    return 0;
}
