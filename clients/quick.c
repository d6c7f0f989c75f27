/* A download from one peer, which has two pieces of zeros. README.md and docs/GUIDE.md show the marked lines (tools/excerpt.py). */
#include "piecepick.h"
#include <stdlib.h>
#include <string.h>

enum { BLOCK = 16384, PIECE = 2 * BLOCK, MOST = 4, PEERS = 1 };
#define HASH "\x51\x88\x43\x18\x49\xb4\x61\x31\x52\xfd\x7b\xdb\xa6\xa3\xff\x0a\x4f\xd6\x42\x4b"
static const uint8_t metainfo[] = "d4:infod6:lengthi65536e4:name1:x12:piece lengthi32768e6:pieces40:" HASH HASH "ee";
static const uint8_t bitfield[] = {0xc0}, block[BLOCK] = {0};
static uint8_t file[2 * PIECE]; /* a client writes to its disk */
static piecepick_picker *picker;
static piecepick_answer answer;

static void fill(uint32_t peer);
static void wake(void);

/* The requests that the peer hasn't answered yet. */
static struct { uint32_t piece, begin, length; } sent[MOST];
static uint32_t count;

/* The peers whose last answer gave nothing, and the epoch of that. */
static int is_idle[PEERS];
static uint64_t epoch;

static void must(piecepick_status status) { if (status != PIECEPICK_OK) exit((int)status); }

static void disconnect(uint32_t peer) { exit((int)peer + 1); }

static void send_have(uint32_t piece) { if (piece > 1) exit(1); }

static void send_request(uint32_t peer, uint32_t piece, uint32_t begin, uint32_t length)
{
    if (peer != 0 || count == MOST) exit(1);
    sent[count].piece = piece;
    sent[count].begin = begin;
    sent[count++].length = length;
}

/* Nobody else has any of its blocks. */
static void send_cancel(uint32_t peer, uint32_t piece, uint32_t begin, uint32_t length) { exit((int)(peer + piece + begin + length + 1)); }

static void write_block(uint32_t piece, uint32_t begin, const uint8_t *bytes, uint32_t length) { memcpy(file + piece * PIECE + begin, bytes, length); }

/* The SHA-1 of a piece as it was written. */
static piecepick_digest digest_of(uint32_t piece)
{
    piecepick_digest digest;
    piecepick_hash(file + piece * PIECE, PIECE, &digest);
    return digest;
}

/* excerpt: sane */
/* What a peer sent may be nonsense: let the peer go then. Any other status is a mistake of ours, or there was no memory. */
static int is_sane(uint32_t peer, piecepick_status status)
{
    if (status == PIECEPICK_E_PIECE || status == PIECEPICK_E_BITS_LENGTH || status == PIECEPICK_E_SPARE_BITS) {
        must(piecepick_leave(picker, peer, &answer));
        disconnect(peer);
        return 0;
    }
    must(status);
    return 1;
}
/* end of excerpt */

/* excerpt: events */
/* A peer is connected, has shown its pieces, and unchokes us. */
static void peer_came(uint32_t peer)
{
    must(piecepick_join(picker, peer, &answer));
    if (!is_sane(peer, piecepick_bits(picker, peer, bitfield, sizeof bitfield, &answer))) return;
    must(piecepick_unchoke(picker, peer, &answer));
    fill(peer);
}

/* The peer may have room for requests: send what comes back, until it is neither a request nor a cancel. */
static void fill(uint32_t peer)
{
    for (;;) {
        must(piecepick_next(picker, peer, (uint64_t)rand(), &answer));
        if (answer.kind == PIECEPICK_K_REQUEST) send_request(peer, answer.piece, answer.begin, answer.length);
        else if (answer.kind == PIECEPICK_K_CANCEL) send_cancel(peer, answer.piece, answer.begin, answer.length);
        else break;
    }
    is_idle[peer] = answer.kind == PIECEPICK_K_IDLE || answer.kind == PIECEPICK_K_NOTHING_LEFT;
}

/* A block came. Report it first, and write it only if the picker takes it: of a block that comes twice the first copy counts. */
static void block_came(uint32_t peer, uint32_t piece, uint32_t begin, const uint8_t *bytes, uint32_t length)
{
    if (!is_sane(peer, piecepick_arrived(picker, peer, piece, begin, bytes, length, &answer))) return;
    if (answer.kind == PIECEPICK_K_STORED || answer.kind == PIECEPICK_K_FULL) write_block(piece, begin, bytes, length);
    if (answer.kind == PIECEPICK_K_FULL) {
        piecepick_digest digest = digest_of(piece); /* the SHA-1 of what was written */
        must(piecepick_settle(picker, piece, &digest, &answer));
        if (answer.kind == PIECEPICK_K_COMPLETE) send_have(piece); /* else its blocks are requested again */
    }
    fill(peer);
    wake();
}
/* end of excerpt */

/* excerpt: wake */
/* Idle peers may have another answer once the epoch is another one. */
static void wake(void)
{
    const uint64_t before = epoch;
    must(piecepick_epoch(picker, &epoch));
    for (uint32_t peer = 0; epoch != before && peer < PEERS; peer++) if (is_idle[peer]) fill(peer);
}
/* end of excerpt */

int main(void)
{
    piecepick_options options = PIECEPICK_OPTIONS; /* the picker keeps no content, so the client hashes */
    uint32_t done = 0;
    memset(file, 1, sizeof file);
    must(piecepick_open(&picker, metainfo, sizeof metainfo - 1, &options));
    peer_came(0);
    while (count > 0) {
        count--;
        block_came(0, sent[count].piece, sent[count].begin, block, sent[count].length);
    }
    must(piecepick_has_wanted(picker, &done));
    must(piecepick_leave(picker, 0, &answer));
    piecepick_close(&picker);
    for (size_t at = 0; at < sizeof file; at++) if (file[at] != 0) return 1;
    return done ? 0 : 1;
}
