/* A client's loop round the picker, without a network: two peers in memory that have all of the content answer our requests.

   usage: example FILE.torrent CONTENT
   It reads the torrent, downloads the content from the peers, compares it, and prints how many pieces are complete. */
#include "piecepick.h"
#include <stdio.h>
#include <stdlib.h>
#include <string.h>

enum { PEERS = 2, DEPTH = 16 };

/* What was requested from a peer and hasn't come, the oldest first. A client writes messages to a socket, and the peer does the rest. */
struct peer {
    piecepick_answer requests[DEPTH];
    size_t count;
};

/* A status that isn't OK is a mistake here, or want of memory. */
static void check(const char *call, piecepick_status status)
{
    if (status == PIECEPICK_OK) return;
    fprintf(stderr, "%s: %s\n", call, piecepick_status_text(status));
    exit(1);
}

/* A whole file in memory, of at least one byte, which the caller frees. */
static uint8_t *read_file(const char *path, size_t *length)
{
    FILE *file = fopen(path, "rb");
    uint8_t *bytes = NULL;
    long end = -1;
    if (file != NULL && fseek(file, 0, SEEK_END) == 0) end = ftell(file);
    if (end >= 0 && fseek(file, 0, SEEK_SET) == 0) bytes = (uint8_t *)malloc((size_t)end + 1);
    if (bytes == NULL || fread(bytes, 1, (size_t)end, file) != (size_t)end) {
        fprintf(stderr, "%s can't be read\n", path);
        exit(1);
    }
    fclose(file);
    *length = (size_t)end;
    return bytes;
}

/* The peer has this block in its line no more. */
static void drop(struct peer *peer, uint32_t piece, uint32_t begin)
{
    size_t at = 0;
    while (at < peer->count && (peer->requests[at].piece != piece || peer->requests[at].begin != begin)) at++;
    if (at == peer->count) return;
    peer->count--;
    memmove(&peer->requests[at], &peer->requests[at + 1], (peer->count - at) * sizeof *peer->requests);
}

/* The handshakes were exchanged; the peer shows each piece, and unchokes us. */
static void come(piecepick_picker *picker, uint32_t worker, uint32_t pieces)
{
    uint8_t *payload = (uint8_t *)calloc((pieces + 7) / 8, 1);
    piecepick_answer answer;
    if (payload == NULL) exit(1);
    for (uint32_t piece = 0; piece < pieces; piece++) payload[piece / 8] = (uint8_t)(payload[piece / 8] | 0x80 >> piece % 8);
    check("join", piecepick_join(picker, worker, &answer));
    check("bits", piecepick_bits(picker, worker, payload, (pieces + 7) / 8, &answer));
    check("unchoke", piecepick_unchoke(picker, worker, &answer));
    free(payload);
}

/* Sends the peer what the picker wants sent, which is no more requests than it may have at a time. */
static void send_all(piecepick_picker *picker, uint32_t worker, struct peer *peer)
{
    piecepick_answer answer;
    for (;;) {
        check("next", piecepick_next(picker, worker, (uint64_t)rand(), &answer));
        if (answer.kind == PIECEPICK_K_CANCEL) drop(peer, answer.piece, answer.begin);
        else if (answer.kind == PIECEPICK_K_REQUEST) peer->requests[peer->count++] = answer;
        else return;
    }
}

/* A piece is full: its bytes are written where they belong, if they have its hash. A client with threads hashes outside its lock. */
static void settle(piecepick_picker *picker, uint32_t piece, uint8_t *place)
{
    piecepick_job *job = NULL;
    piecepick_answer answer;
    uint32_t length;
    check("job_take", piecepick_job_take(picker, piece, &job));
    check("job_hash", piecepick_job_hash(job));
    check("job_settle", piecepick_job_settle(picker, job, &answer));
    if (answer.kind == PIECEPICK_K_FAILED) { /* a client had noted the senders before, drops who sent wrong bytes, and downloads the piece again */
        fprintf(stderr, "piece %u has another hash\n", (unsigned)piece);
        exit(1);
    }
    check("piece_length", piecepick_piece_length(picker, piece, &length));
    check("job_read", piecepick_job_read(job, place, length));
    piecepick_job_close(&job);
}

int main(int argc, char **argv)
{
    piecepick_options options = PIECEPICK_OPTIONS;
    piecepick_picker *picker = NULL;
    piecepick_answer answer;
    static struct peer peers[PEERS];
    size_t metainfo_len, content_len;
    uint32_t pieces, piece_length, done = 0;
    if (argc != 3 || piecepick_abi() != PIECEPICK_ABI) return 2;
    uint8_t *metainfo = read_file(argv[1], &metainfo_len);
    uint8_t *content = read_file(argv[2], &content_len);
    uint8_t *copy = (uint8_t *)calloc(content_len + 1, 1);
    options.keeps = PIECEPICK_KEEPS_BEGUN;
    options.workers = PEERS;
    options.depth = DEPTH;
    check("open", piecepick_open(&picker, metainfo, metainfo_len, &options));
    free(metainfo);
    uint64_t total;
    check("total", piecepick_total(picker, &total));
    if (copy == NULL || total != content_len) return 2;
    check("pieces", piecepick_pieces(picker, &pieces));
    check("piece_length", piecepick_piece_length(picker, 0, &piece_length));
    for (uint32_t worker = 0; worker < PEERS; worker++) come(picker, worker, pieces);
    for (uint32_t worker = 0; !done; worker = (worker + 1) % PEERS) {
        struct peer *peer = &peers[worker];
        send_all(picker, worker, peer);
        if (peer->count > 0) { /* its oldest block comes */
            piecepick_answer block = peer->requests[0];
            size_t place = (size_t)block.piece * piece_length;
            drop(peer, block.piece, block.begin);
            const uint8_t *bytes = content + place + block.begin;
            /* The library keeps the copy that it stores. Where it keeps nothing, write the bytes at STORED and FULL, and at no other answer. */
            check("arrived", piecepick_arrived(picker, worker, block.piece, block.begin, bytes, block.length, &answer));
            if (answer.kind == PIECEPICK_K_FULL) settle(picker, block.piece, copy + place);
            send_all(picker, worker, peer);
        }
        check("has_wanted", piecepick_has_wanted(picker, &done));
    }
    for (uint32_t worker = 0; worker < PEERS; worker++) check("leave", piecepick_leave(picker, worker, &answer));
    piecepick_close(&picker);
    int same = memcmp(copy, content, content_len) == 0;
    printf("%u pieces complete, the content is %s\n", (unsigned)pieces, same ? "the same" : "another");
    free(copy);
    free(content);
    return same ? 0 : 1;
}
