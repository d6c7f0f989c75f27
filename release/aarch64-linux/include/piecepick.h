/** @file
   piecepick.h: a formally verified piece picker for BitTorrent v1 clients (BEP 3). It decides which block to request next, and from which peer,
   which cancels to send, and which pieces are complete. Every call is proved to do what the picker's rules say, whatever its numbers are. The
   contracts are in crates/bt_c/src/exports.

   To query the picker is to call piecepick_next, and to request is to ask a peer for a block. A block is held from its arrival on. A piece is full
   where each of its blocks is held, and complete where they have been checked and have the hash of the metainfo file.

   A call returns a status, and writes its answer or its number in any case: kind 0, number 0 where the status isn't PIECEPICK_OK. A digest or a
   buffer is written at PIECEPICK_OK alone. The last words in capitals of a call's comment are the statuses that it may return, without their
   PIECEPICK_E_. Three of them may come of what a peer sent: at PIECE, BITS_LENGTH and SPARE_BITS let that peer go.
   A call whose status isn't PIECEPICK_OK has changed nothing that a later call can tell, and may be made again. A journal alone gets one more entry
   where piecepick_job_settle says STALE or NOT_WAITING: the refusal. Of several causes the call reports the first: statuses before refusals, each
   in the order in which the call lists them. At piecepick_restore and piecepick_resume NOT_JOINED comes behind WORKER and before PIECE. Lengths are in bytes.

   The interface is that of version 1. PIECEPICK_ABI, the name of the shared object and the first number of the version rise together, and only
   where a caller has to be changed or compiled anew. A version whose second number rises may add calls, statuses, kinds, reasons and rules, and
   fields at the end of piecepick_options: treat a number that you don't know as an error. No other struct ever grows, and no number changes.

   What the library can't test, and the caller must see to:
   - A digest that you pass is the SHA-1 of the bytes that it is passed for (piecepick_settle, piecepick_restore), and a verdict says whether these
     have the piece's hash (piecepick_verdict, piecepick_resume). Of a block that came twice these are the bytes that came first. So where the picker
     keeps nothing, write a block's bytes where piecepick_arrived or piecepick_received answers STORED or FULL, and at no other answer. Throw away
     what is DROPPED. Else a good piece fails, and piecepick_sender names an honest peer.
   - A pointer to a picker or a job starts as NULL. It is filled and freed by its own two calls alone, and isn't NULL at any other.
   - Each other pointer is valid for its call: an answer and a number may be written, a buffer has the length that is given with it, isn't NULL
     (also at length 0: pass any valid pointer) and isn't freed meanwhile. What is written lies in nothing else that is passed.
   - One call at a time at each picker, and at each job: threads hold a mutex of the caller's over each call. Where nothing is kept, they hold it
     over an arrival and the write of its bytes: else another thread may hash the piece before they are written. The library takes no lock and
     keeps no state of its own. So other pickers may be used meanwhile, and a picker may go to another thread under the caller's lock.
   - malloc, realloc and free come from one allocator. No call is made in a signal handler, or in the forked child of a process with threads.
   - The processor has the level x86-64-v2 (SSSE3, SSE4.1), where the library wasn't built for another. */
#ifndef PIECEPICK_H
#define PIECEPICK_H
#include <stddef.h>
#include <stdint.h>
#ifdef __cplusplus
extern "C" {
#endif

/** Compare it with piecepick_abi() before the first other call. It rises with each change that an older caller can't bear. */
#define PIECEPICK_ABI 1u
/** The version as a text. Its first number is that of the interface. */
#define PIECEPICK_VERSION "1.2.0"
/** The version as a number: compare it with piecepick_version(). */
#define PIECEPICK_VERSION_NUMBER 10200u

#if defined(__GNUC__) || defined(__clang__)
/** A status that isn't looked at is a warning. */
#define PIECEPICK_MUST __attribute__((warn_unused_result))
#else
/** A status that isn't looked at is a warning, where the compiler can give it. */
#define PIECEPICK_MUST
#endif

/** The picker of one download. */
typedef struct piecepick_picker piecepick_picker;
/** The check of one full piece, to be hashed while others use the picker. */
typedef struct piecepick_job piecepick_job;

/** What became of a call. */
typedef enum piecepick_status {
    PIECEPICK_OK = 0,
    PIECEPICK_E_CLOSED = 1,       /**< there is no picker at the pointer: for wrappers, since no call at a pointer that was opened answers it */
    PIECEPICK_E_OPEN = 2,         /**< the handle to be filled must start as NULL */
    PIECEPICK_E_WORKER = 3,       /**< no such worker number; at open: the option `workers` isn't 1 to 1,024 */
    PIECEPICK_E_PIECE = 4,        /**< no such piece */
    PIECEPICK_E_BITS_LENGTH = 5,  /**< wrong bitfield length: it must have one bit per piece, rounded up to bytes */
    PIECEPICK_E_SPARE_BITS = 6,   /**< a spare bit at the end of the bitfield is set */
    PIECEPICK_E_LENGTH = 7,       /**< wrong buffer length: it must be exactly that of the item */
    PIECEPICK_E_MEMORY = 8,       /**< out of memory */
    PIECEPICK_E_INCOMPLETE = 9,   /**< the piece isn't complete */
    PIECEPICK_E_RULES = 10,       /**< depth, deepest, askers, random, open, rush or shown is out of its range */
    PIECEPICK_E_NOT_WAITING = 11, /**< the piece isn't waiting for a check: a block is lacking, or it is complete */
    PIECEPICK_E_NO_JOB = 12,      /**< there is no job at the pointer: for wrappers too */
    PIECEPICK_E_NOT_HASHED = 13,  /**< the job wasn't hashed yet */
    PIECEPICK_E_PLACE = 14,       /**< fewer blocks are requested from this peer */
    PIECEPICK_E_KEEPS = 15,       /**< the call isn't for what this picker keeps */
    PIECEPICK_E_OPTIONS = 16,     /**< `size` is of no version up to the library's: use sizeof(piecepick_options); or `keeps` is none of the three */
    PIECEPICK_E_STALE = 17,       /**< the bytes that were hashed aren't those that the picker holds now */
    PIECEPICK_E_BLOCK = 18,       /**< no such block in this piece */
    PIECEPICK_E_NOT_HELD = 19,    /**< the block isn't held */
    PIECEPICK_E_BEGUN = 20,       /**< the piece is complete, or a block of it is held or requested */
    PIECEPICK_E_FILE = 21,        /**< no such file */
    PIECEPICK_E_PART = 22,        /**< no such name on the file's path */
    /** Numbers above 100 come from the two open calls: the bytes are no metainfo file, or the parts make no torrent. Reading is strict: unsorted
       keys, and bytes behind the end, give BENCODE. piecepick_open_parts takes what another parser has read. */
    PIECEPICK_E_BENCODE = 101, PIECEPICK_E_NOT_DICTIONARY = 102, PIECEPICK_E_MISSING_KEY = 103, PIECEPICK_E_WRONG_KIND = 104,
    PIECEPICK_E_PIECE_LENGTH = 105, PIECEPICK_E_PIECES_LENGTH = 106, PIECEPICK_E_LENGTH_AND_FILES = 107, PIECEPICK_E_NO_CONTENT = 108,
    PIECEPICK_E_COUNT_MISMATCH = 109, PIECEPICK_E_TOO_LARGE = 110
} piecepick_status;

/** What the picker answers. */
typedef enum piecepick_kind {
    PIECEPICK_K_NONE = 0,        /**< no answer: the status isn't PIECEPICK_OK */
    PIECEPICK_K_JOINED = 1,      /**< the peer is known by this worker number */
    PIECEPICK_K_NOTED = 2,       /**< done; `interesting` says whether the peer shows a wanted piece that isn't complete */
    PIECEPICK_K_QUIET = 3,       /**< done; there is nothing to say */
    PIECEPICK_K_CANCEL = 4,      /**< to be sent as `cancel`: the block came from another peer */
    PIECEPICK_K_REQUEST = 5,     /**< to be sent as `request` */
    PIECEPICK_K_CHOKED = 6,      /**< nothing to request: the peer chokes us */
    PIECEPICK_K_PIPE_FULL = 7,   /**< nothing to request: as many blocks as may be are requested from the peer */
    PIECEPICK_K_IDLE = 8,        /**< nothing to request now, though the peer has a wanted piece that isn't complete */
    PIECEPICK_K_NOTHING_LEFT = 9,/**< the peer shows no wanted piece that isn't complete */
    PIECEPICK_K_STORED = 10,     /**< the block is held: where nothing is kept, write its bytes now */
    PIECEPICK_K_FULL = 11,       /**< the block is held, and its piece is full now: write the bytes too, and check the piece */
    PIECEPICK_K_DROPPED = 12,    /**< the block was held already: it came twice, and these bytes are written nowhere */
    PIECEPICK_K_COMPLETE = 13,   /**< the piece has its hash */
    PIECEPICK_K_FAILED = 14,     /**< the piece has another hash, or you said that bytes are gone or bad: its blocks, or that one, are held no more */
    PIECEPICK_K_REFUSED = 15,    /**< by a rule, which `reason` names: mostly the peer's fault, not the caller's */
    PIECEPICK_K_IN_FLIGHT = 16   /**< the request that you sent already counts from now on: nothing is to be sent */
} piecepick_kind;

/** Why a call was refused. 4, 5, 8 and 9 come as a status instead, but for 4 at piecepick_set_levels, and 8 at piecepick_discard and
   piecepick_requested. */
typedef enum piecepick_reason {
    PIECEPICK_R_NONE = 0,
    PIECEPICK_R_NOT_JOINED = 1, PIECEPICK_R_ALREADY_JOINED = 2,
    PIECEPICK_R_LATE_BITS = 3,     /**< a bitfield must be a peer's first message: report it by piecepick_haves */
    PIECEPICK_R_WRONG_COUNT = 4, PIECEPICK_R_NO_SUCH_PIECE = 5, PIECEPICK_R_NO_SUCH_BLOCK = 6, PIECEPICK_R_WRONG_LENGTH = 7,
    PIECEPICK_R_NOT_WAITING = 8,   /**< the piece is complete, or the block can't be requested from this peer now */
    PIECEPICK_R_STALE = 9,
    PIECEPICK_R_NOT_REQUESTED = 10,/**< the block isn't requested from this peer */
    PIECEPICK_R_WRONG_DEPTH = 11,  /**< a depth of 0, or beyond `deepest` */
    PIECEPICK_R_WRONG_LEVEL = 12   /**< a level or a reach above 7, or an order from a level above 8 */
} piecepick_reason;

/** The rule by which a block was requested: piecepick_rule tells it. */
typedef enum piecepick_pick_rule {
    PIECEPICK_RULE_IN_ORDER = 1, /**< pieces of its level come in rising order, begun or not */
    PIECEPICK_RULE_BEGUN = 2,    /**< its piece had begun, and goes on */
    PIECEPICK_RULE_RAREST = 3,   /**< its piece begins, as one that fewest peers show */
    PIECEPICK_RULE_RANDOM = 4,   /**< its piece begins at random: fewer than `random` are complete, too few to tell which are rare */
    PIECEPICK_RULE_ENDGAME = 5,  /**< it is requested from another peer too, which isn't late */
    PIECEPICK_RULE_LATE = 6      /**< its request to another peer is late: piecepick_late */
} piecepick_pick_rule;

/** CANCEL, REQUEST and IN_FLIGHT alone have a block, and REFUSED alone has a reason. `interesting` is 1 at NOTED where the peer has a wanted piece
   that isn't complete. All else is 0. */
typedef struct piecepick_answer {
    piecepick_kind kind;     /**< what it is */
    uint32_t piece;          /**< of the block: its piece */
    uint32_t begin;          /**< where the block begins in the piece, in bytes */
    uint32_t length;         /**< the block's bytes */
    piecepick_reason reason; /**< why the call was refused */
    uint32_t interesting;    /**< 1 or 0 */
} piecepick_answer;

/** A SHA-1. */
typedef struct piecepick_digest {
    uint8_t bytes[20]; /**< its bytes */
} piecepick_digest;

/** What a picker keeps of what is reported. */
enum {
    PIECEPICK_KEEPS_NOTHING = 0, /**< neither content nor journal: the caller keeps the content and hashes it, and passes the digest (piecepick_settle) */
    PIECEPICK_KEEPS_BEGUN = 1,   /**< the blocks of begun pieces, until these are complete: jobs hash them, and hand them out (piecepick_job_*) */
    PIECEPICK_KEEPS_JOURNAL = 2  /**< all content, and each call with its answer, until it is closed: for simulators and audits */
};

/** Start from PIECEPICK_OPTIONS, and change what you need. */
typedef struct piecepick_options {
    uint32_t size;    /**< sizeof(piecepick_options) */
    uint32_t keeps;   /**< what the picker keeps: PIECEPICK_KEEPS_NOTHING, _BEGUN or _JOURNAL */
    uint32_t workers; /**< peers at a time, 1 to 1,024: a worker is a number below it */
    uint32_t depth;   /**< blocks requested from a peer at a time until another depth is set, 1 to 64 */
    uint32_t deepest; /**< the greatest depth that may be set for a peer later, 1 to 4,096 */
    uint32_t random;  /**< pieces that are complete before the rarest come first, no more than there are */
    uint32_t askers;  /**< from how many peers one block is requested at most in endgame, 1 (no endgame) to 1,024 (no bound) */
    uint32_t open;    /**< so many pieces may be begun and have unrequested blocks before those come first, 0 (they always do) to 1,024 */
    uint32_t rush;    /**< in endgame a block is requested again only from a peer with fewer requests than this, 0 (no endgame) to 4,096 (no bound) */
    uint32_t shown;   /**< 1 where endgame waits only for pieces that a joined peer shows, 0 where it waits for all wanted ones */
} piecepick_options;
/** The usual options: nothing kept, and 50 workers. */
#define PIECEPICK_OPTIONS { sizeof(piecepick_options), PIECEPICK_KEEPS_NOTHING, 50, 16, 500, 1, 2, 8, 32, 1 }

/** The interface of the library that was linked: compare it with PIECEPICK_ABI. */
uint32_t piecepick_abi(void);
/** Its version as a number: compare it with PIECEPICK_VERSION_NUMBER. */
uint32_t piecepick_version(void);

/** Fills a NULL pointer. OPEN, OPTIONS, WORKER, 101 to 110, RULES; MEMORY at any place. */
PIECEPICK_MUST piecepick_status piecepick_open(piecepick_picker **picker, const uint8_t *metainfo, size_t metainfo_len, const piecepick_options *options);
/** The same by parts: bytes of a piece and of the content, and the SHA-1 of each piece, 20 bytes each. Its infohash is zeros, its name empty.
   105, 106, 108 to 110 of the faults above 100. */
PIECEPICK_MUST piecepick_status piecepick_open_parts(piecepick_picker **picker, uint32_t piece_length, uint64_t total, const uint8_t *digests,
                                                     size_t digests_len, const piecepick_options *options);
/** Frees the picker, if there is one. The pointer is NULL then. */
void piecepick_close(piecepick_picker **picker);

/* What came on the wire from a worker's peer. WORKER; PIECE where there is no such piece; BITS_LENGTH and SPARE_BITS at piecepick_bits and
   piecepick_haves. MEMORY at
   these two, at each call where a journal is kept, and at an arrival where its block is kept. No other of these calls returns it. */
/** A peer is connected: it chokes us, and shows no piece yet. JOINED, or REFUSED by ALREADY_JOINED. */
PIECEPICK_MUST piecepick_status piecepick_join(piecepick_picker *picker, uint32_t worker, piecepick_answer *answer);
/** It is gone, and its requests with it. What it brought stays held. QUIET, or REFUSED by NOT_JOINED. */
PIECEPICK_MUST piecepick_status piecepick_leave(piecepick_picker *picker, uint32_t worker, piecepick_answer *answer);
/** It chokes us, or is silent: its requests are void. Reported twice it is as once. QUIET, or REFUSED by NOT_JOINED. */
PIECEPICK_MUST piecepick_status piecepick_choke(piecepick_picker *picker, uint32_t worker, piecepick_answer *answer);
/** It unchokes us, so blocks may be requested from it. Reported twice it is as once. QUIET, or REFUSED by NOT_JOINED. */
PIECEPICK_MUST piecepick_status piecepick_unchoke(piecepick_picker *picker, uint32_t worker, piecepick_answer *answer);
/** A `have` message. NOTED, or REFUSED by NOT_JOINED. */
PIECEPICK_MUST piecepick_status piecepick_have(piecepick_picker *picker, uint32_t worker, uint32_t piece, piecepick_answer *answer);
/** A `bitfield` message: its payload. NOTED, or REFUSED by NOT_JOINED, or by LATE_BITS where another message of the peer was reported before. */
PIECEPICK_MUST piecepick_status piecepick_bits(piecepick_picker *picker, uint32_t worker, const uint8_t *payload, size_t payload_len, piecepick_answer *answer);
/** The peer has these pieces too, at any time, spelled as in a `bitfield` message: a second `bitfield` came, or `have all` (BEP 6). What it had
   before stays, so `have none` needs no call. NOTED, or REFUSED by NOT_JOINED. */
PIECEPICK_MUST piecepick_status piecepick_haves(piecepick_picker *picker, uint32_t worker, const uint8_t *flags, size_t flags_len, piecepick_answer *answer);
/** The peer has this piece no more (`lt_donthave`, BEP 54), until a later call shows it again. Each block of it that is requested from the peer
   is released, as by piecepick_release, and no cancel follows. What is held stays held. A piece that the peer doesn't show is no error: the
   epoch rises, and a bitfield would come too late. NOTED, or REFUSED by NOT_JOINED. */
PIECEPICK_MUST piecepick_status piecepick_lack(piecepick_picker *picker, uint32_t worker, uint32_t piece, piecepick_answer *answer);
/** A block came. A picker that keeps nothing reads none of the bytes, and the caller writes them at STORED and FULL alone; another one keeps
   a copy. A block that nobody requested is stored too: a client that doesn't want such ones remembers what it requested. STORED, FULL or DROPPED;
   REFUSED by NOT_JOINED, NO_SUCH_BLOCK or WRONG_LENGTH. */
PIECEPICK_MUST piecepick_status piecepick_arrived(piecepick_picker *picker, uint32_t worker, uint32_t piece, uint32_t begin, const uint8_t *bytes,
                                                  size_t bytes_len, piecepick_answer *answer);
/** KEEPS_NOTHING: as piecepick_arrived, for a block whose bytes are elsewhere, in a cache or on their way to the disk: it is told how many they are.
   STORED, FULL or DROPPED; REFUSED by NOT_JOINED, NO_SUCH_BLOCK or WRONG_LENGTH. KEEPS, before the other two. */
PIECEPICK_MUST piecepick_status piecepick_received(piecepick_picker *picker, uint32_t worker, uint32_t piece, uint32_t begin, size_t bytes_len,
                                                   piecepick_answer *answer);
/** The block that begins `begin` bytes into the piece is requested from the peer no more: the peer rejected it (BEP 6), or the request was not
   sent. It may be requested again from any peer, and it is kept if it comes after all. QUIET, or REFUSED by NOT_JOINED or NOT_REQUESTED. */
PIECEPICK_MUST piecepick_status piecepick_release(piecepick_picker *picker, uint32_t worker, uint32_t piece, uint32_t begin, piecepick_answer *answer);
/** A request takes too long: late. It was rejected, or never sent: release. The block that begins there stays requested from the peer, and counts
   for its depth. For all other peers it is as if it had been released: it may be requested from one of them at once, before endgame. When another
   one brings it, a cancel is due at this peer as ever. While the request lasts, the block isn't requested again from this peer, not in endgame
   either. Others of the piece may be. Late blocks come in the order of their pieces, like any block that isn't requested, and `rush` doesn't bound
   them. The mark ends with the request: when the block comes from anybody, or at a choke, a leave, a release or a lack. Reported twice it is as
   once. QUIET, or REFUSED by NOT_JOINED or NOT_REQUESTED. */
PIECEPICK_MUST piecepick_status piecepick_late(piecepick_picker *picker, uint32_t worker, uint32_t piece, uint32_t begin, piecepick_answer *answer);
/** The block that begins `begin` bytes into the piece was requested from the peer already, and not by the picker. The connection is older than
   the picker, as after a magnet link, or a part of the client chose by itself. From now on the request counts as one of the picker's own, for the
   depth, for other peers and for endgame. It is the last one of piecepick_outstanding_at. When another peer brings the block, a cancel is due at
   this one as ever. The epoch rises only where endgame begins by it. IN_FLIGHT, or REFUSED by NOT_JOINED, NO_SUCH_BLOCK or NOT_WAITING. A refusal
   changes nothing, and the request may stay in flight. Its block is stored when it comes, and may be requested from another peer before.
   NOT_WAITING says that the block can't be requested from this peer now, for one of these causes. A cancel is due at the peer: piecepick_next
   gives it, and then this call may be made again. The peer chokes us. As many blocks as may be are in flight there: raise piecepick_depth first.
   The block is held. It is in flight at a peer that isn't late with it, perhaps at this one. This peer is late with it. The piece isn't wanted,
   isn't shown by the peer, or is above its reach. Another peer works alone and has the piece to itself; or this one works alone, and somebody
   else has to do with the piece. No memory is taken. KEEPS where a journal is kept, after the other two. */
PIECEPICK_MUST piecepick_status piecepick_requested(piecepick_picker *picker, uint32_t worker, uint32_t piece, uint32_t begin, piecepick_answer *answer);
/** From now on `depth` blocks may be requested from the peer at a time, until another number is set or the worker's next peer joins. What is
   requested stays so: where that is as many or more, the answer to a query is PIPE_FULL. QUIET, or REFUSED by NOT_JOINED or WRONG_DEPTH. */
PIECEPICK_MUST piecepick_status piecepick_depth(piecepick_picker *picker, uint32_t worker, uint32_t depth, piecepick_answer *answer);
/** From now on only blocks of this level, 0 to 7, and of lower ones are requested from the peer, in endgame too. It holds until another level is
   set or the worker's next peer joins, which begins with 7: all levels. So a slow peer gets nothing urgent. With 0 nothing is requested from it,
   and the answer is IDLE while it shows a wanted piece that isn't complete. What is requested stays so. QUIET, or REFUSED by NOT_JOINED or
   WRONG_LEVEL. */
PIECEPICK_MUST piecepick_status piecepick_reach(piecepick_picker *picker, uint32_t worker, uint32_t level, piecepick_answer *answer);
/** From now on the peer works alone; or, where `yes` is 0, like the others again, as each peer does from when it joins. One that works alone begins
   pieces, and goes on with those that nobody else brought or is expected to bring a block of. No block of a piece that is its own is requested from
   others, until endgame. The piece is its own no more once the peer chokes us, leaves or is set back, or another one brings a block of the piece. So
   the sender of a whole piece is known where a check failed, or a fast peer or a web seed has pieces to itself. Its pieces wait for it: set it back
   where it gets slow, and where it is IDLE with nothing in flight. What is requested stays so. QUIET, or REFUSED by NOT_JOINED. */
PIECEPICK_MUST piecepick_status piecepick_alone(piecepick_picker *picker, uint32_t worker, uint32_t yes, piecepick_answer *answer);
/** What to send to the peer next: send what it answers while it is CANCEL or REQUEST. Else CHOKED, PIPE_FULL, IDLE or NOTHING_LEFT, or REFUSED by
   NOT_JOINED. The word is a random number, which decides between blocks that the rules treat alike. Any generator will do, and 0 is allowed. */
PIECEPICK_MUST piecepick_status piecepick_next(piecepick_picker *picker, uint32_t worker, uint64_t word, piecepick_answer *answer);

/** What is to be downloaded, for all peers. What is requested stays so. Just these pieces, spelled as in a `bitfield` message; they have level 4
   then. QUIET. BITS_LENGTH, SPARE_BITS, MEMORY. */
PIECEPICK_MUST piecepick_status piecepick_want(piecepick_picker *picker, const uint8_t *flags, size_t flags_len, piecepick_answer *answer);
/** The piece has this level from now on: 0 isn't downloaded, and of 1 to 7 a higher one comes before a lower one. Each piece has level 4 until
   another is set. QUIET, or REFUSED by WRONG_LEVEL. PIECE; MEMORY at this call and the next three, where a journal is kept. */
PIECEPICK_MUST piecepick_status piecepick_set_level(piecepick_picker *picker, uint32_t piece, uint32_t level, piecepick_answer *answer);
/** The same for each piece, a byte each. QUIET, or REFUSED by WRONG_COUNT or WRONG_LEVEL. */
PIECEPICK_MUST piecepick_status piecepick_set_levels(piecepick_picker *picker, const uint8_t *levels, size_t levels_len, piecepick_answer *answer);
/** The pieces of one level come in rising order from now on; or, where `rising` is 0, the rarest first again. QUIET. */
PIECEPICK_MUST piecepick_status piecepick_set_in_order(piecepick_picker *picker, uint32_t rising, piecepick_answer *answer);
/** Pieces of this level and of higher ones come in rising order from now on, and those of lower levels the rarest first. With 0 all come in
   order, with 8 none. So a window ahead of a reader comes in order, and the rest stays rarest first. Of this call and piecepick_set_in_order the
   later one holds: that one is the same as 0 here, or as 8 where `rising` is 0. QUIET, or REFUSED by WRONG_LEVEL. */
PIECEPICK_MUST piecepick_status piecepick_set_in_order_from(piecepick_picker *picker, uint32_t level, piecepick_answer *answer);

/** The piece is gone from where you keep it: a file was deleted, or a check of the disk found other bytes. It isn't complete any more, and all of
   its blocks are lacking, as after a failed check. What is in flight stays in flight. A piece of which nothing is held is no error: the epoch
   rises. FAILED. PIECE; KEEPS where a journal is kept, which has the content itself. */
PIECEPICK_MUST piecepick_status piecepick_lose(piecepick_picker *picker, uint32_t piece, piecepick_answer *answer);
/** The block that begins there is known to be bad, by a hash tree, or since its sender was banned. It is held no more, and is requested again. The
   other blocks of its piece stay, with their senders. A block that isn't held is no error: the epoch rises. FAILED, or REFUSED by NO_SUCH_BLOCK, or
   by NOT_WAITING where the piece is complete: lose that. PIECE; KEEPS where a journal is kept. */
PIECEPICK_MUST piecepick_status piecepick_discard(piecepick_picker *picker, uint32_t piece, uint32_t begin, piecepick_answer *answer);

/** KEEPS_NOTHING: the piece is full, and this is the SHA-1 of its blocks as they were stored. COMPLETE or FAILED. KEEPS, PIECE, NOT_WAITING. */
PIECEPICK_MUST piecepick_status piecepick_settle(piecepick_picker *picker, uint32_t piece, const piecepick_digest *digest, piecepick_answer *answer);
/** KEEPS_NOTHING: the piece is full, and you compared its hash yourself: `passed` isn't 0 where its blocks, as they were stored, have the hash of
   the metainfo file. COMPLETE or FAILED. KEEPS, PIECE, NOT_WAITING. Where the disk couldn't be read nothing is known of the hash: call
   piecepick_discard for each block, so that all are requested again. */
PIECEPICK_MUST piecepick_status piecepick_verdict(piecepick_picker *picker, uint32_t piece, uint32_t passed, piecepick_answer *answer);
/** KEEPS_NOTHING: the whole piece is on a disk, for which this worker stands; it has joined, and shows nothing. The digest is the SHA-1 of the
   bytes, of which none is read: a mapping of the file costs no reading. COMPLETE, FAILED, or REFUSED by NOT_JOINED. KEEPS, WORKER, PIECE, LENGTH,
   BEGUN. Report blocks of a piece that isn't whole by piecepick_arrived: they stay held after the worker's leave. */
PIECEPICK_MUST piecepick_status piecepick_restore(piecepick_picker *picker, uint32_t worker, uint32_t piece, const uint8_t *bytes, size_t bytes_len,
                                                  const piecepick_digest *digest, piecepick_answer *answer);
/** KEEPS_NOTHING: as piecepick_restore, for a whole piece that you have compared yourself: `passed` isn't 0 where it has the hash of the metainfo
   file. COMPLETE, FAILED, or REFUSED by NOT_JOINED. KEEPS, WORKER, PIECE, BEGUN. */
PIECEPICK_MUST piecepick_status piecepick_resume(piecepick_picker *picker, uint32_t worker, uint32_t piece, uint32_t passed, piecepick_answer *answer);

/* KEEPS_BEGUN and KEEPS_JOURNAL: the check of a full piece, away from its picker, in these five steps. */
/** Fills a NULL pointer with a job. OPEN, KEEPS, PIECE, NOT_WAITING, MEMORY. */
PIECEPICK_MUST piecepick_status piecepick_job_take(piecepick_picker *picker, uint32_t piece, piecepick_job **job);
/** Hashes the blocks. It needs no picker, and so no lock. MEMORY. */
PIECEPICK_MUST piecepick_status piecepick_job_hash(piecepick_job *job);
/** Reports the verdict. COMPLETE or FAILED. NOT_HASHED, KEEPS, STALE, NOT_WAITING, MEMORY. */
PIECEPICK_MUST piecepick_status piecepick_job_settle(piecepick_picker *picker, piecepick_job *job, piecepick_answer *answer);
/** Writes the bytes of the piece into a buffer of just their length, before or after it is settled. LENGTH. */
PIECEPICK_MUST piecepick_status piecepick_job_read(piecepick_job *job, uint8_t *buffer, size_t buffer_len);
/** Frees the job, before or after its picker. The pointer is NULL then. */
void piecepick_job_close(piecepick_job **job);

/* What the picker knows; flags are 1 or 0. These calls change nothing. */
/** How many pieces there are. */
PIECEPICK_MUST piecepick_status piecepick_pieces(piecepick_picker *picker, uint32_t *number);
/** How many workers there are. */
PIECEPICK_MUST piecepick_status piecepick_workers(piecepick_picker *picker, uint32_t *number);
/** Whether each piece is complete. */
PIECEPICK_MUST piecepick_status piecepick_is_complete(piecepick_picker *picker, uint32_t *number);
/** Whether each wanted piece is complete. */
PIECEPICK_MUST piecepick_status piecepick_has_wanted(piecepick_picker *picker, uint32_t *number);
/** Whether all pieces come in rising order. */
PIECEPICK_MUST piecepick_status piecepick_is_in_order(piecepick_picker *picker, uint32_t *number);
/** From which level on they do, 0 to 8. */
PIECEPICK_MUST piecepick_status piecepick_order_from(piecepick_picker *picker, uint32_t *number);
/** A number that rises when a peer whose answer was IDLE or NOTHING_LEFT may have another one, though its own worker reported nothing. While it is
   the same, the picker needn't be queried for that peer again. It rises too where a peer at PIPE_FULL gets a CANCEL. */
PIECEPICK_MUST piecepick_status piecepick_epoch(piecepick_picker *picker, uint64_t *number);
/** Whether the piece is complete. PIECE. */
PIECEPICK_MUST piecepick_status piecepick_has_piece(piecepick_picker *picker, uint32_t piece, uint32_t *number);
/** Whether the piece is full, and not complete: it waits for its check. PIECE. */
PIECEPICK_MUST piecepick_status piecepick_is_waiting(piecepick_picker *picker, uint32_t piece, uint32_t *number);
/** The piece's level, 0 to 7. PIECE. */
PIECEPICK_MUST piecepick_status piecepick_level(piecepick_picker *picker, uint32_t piece, uint32_t *number);
/** How many joined peers show the piece. PIECE. */
PIECEPICK_MUST piecepick_status piecepick_availability(piecepick_picker *picker, uint32_t piece, uint32_t *number);
/** The piece's length. PIECE. */
PIECEPICK_MUST piecepick_status piecepick_piece_length(piecepick_picker *picker, uint32_t piece, uint32_t *number);
/** How many blocks the piece has. PIECE. */
PIECEPICK_MUST piecepick_status piecepick_blocks(piecepick_picker *picker, uint32_t piece, uint32_t *number);
/** The worker whose peer brought a block that is held; `index` counts the piece's blocks from 0. PIECE, BLOCK, NOT_HELD. Call it for a
   piece whose bytes have another hash, before it is settled: compare with piecepick_piece_hash, and where a job has the verdict by its settle alone,
   note the senders before. A block from a disk has the number of the disk's worker: give no peer that number. */
PIECEPICK_MUST piecepick_status piecepick_sender(piecepick_picker *picker, uint32_t piece, uint32_t index, uint32_t *worker);
/** The rule by which a block was requested, a piecepick_pick_rule: for logs, and for a user who wants to know why. `index` is its `begin` / 16384.
   Call it for the block of a REQUEST before the next call that reports something, which may change it. Of any other block the number means nothing.
   PIECE, BLOCK. */
PIECEPICK_MUST piecepick_status piecepick_rule(piecepick_picker *picker, uint32_t piece, uint32_t index, uint32_t *number);
/** From how many peers a block is requested that aren't late with it; `index` is its `begin` / 16384. Right after a REQUEST the peer itself is one of
   them, so 1 says that the block is in flight nowhere else. PIECE, BLOCK. */
PIECEPICK_MUST piecepick_status piecepick_askers(piecepick_picker *picker, uint32_t piece, uint32_t index, uint32_t *number);
/** Whether the worker's peer shows a wanted piece that isn't complete, so that we are interested in it (BEP 3); 0 where no peer has joined. It may
   change when a piece becomes complete or is lost, and when levels are set. WORKER. */
PIECEPICK_MUST piecepick_status piecepick_is_interesting(piecepick_picker *picker, uint32_t worker, uint32_t *number);
/** How many blocks are requested from the worker's peer, late ones too. WORKER. */
PIECEPICK_MUST piecepick_status piecepick_outstanding(piecepick_picker *picker, uint32_t worker, uint32_t *number);
/** One of these blocks by its place from 0, the oldest request first, as a REQUEST. Where a request ends, those behind it move one place forward:
   who releases several goes from the last place to the first. WORKER, PLACE. */
PIECEPICK_MUST piecepick_status piecepick_outstanding_at(piecepick_picker *picker, uint32_t worker, uint32_t place, piecepick_answer *answer);

/* What the metainfo file says, so that nobody reads it twice. */
/** The content's length. */
PIECEPICK_MUST piecepick_status piecepick_total(piecepick_picker *picker, uint64_t *number);
/** The name's length. */
PIECEPICK_MUST piecepick_status piecepick_name_length(piecepick_picker *picker, uint64_t *number);
/** The name, which is a suggestion, and perhaps no text. LENGTH. */
PIECEPICK_MUST piecepick_status piecepick_name(piecepick_picker *picker, uint8_t *buffer, size_t buffer_len);
/** The SHA-1 of the info dictionary. */
PIECEPICK_MUST piecepick_status piecepick_infohash(piecepick_picker *picker, piecepick_digest *digest);
/** The SHA-1 that the piece has to have. PIECE. */
PIECEPICK_MUST piecepick_status piecepick_piece_hash(piecepick_picker *picker, uint32_t piece, piecepick_digest *digest);
/** How many files there are, none where the picker was made of parts. The content is all of them, one behind the other, counted from 0. */
PIECEPICK_MUST piecepick_status piecepick_files(piecepick_picker *picker, uint64_t *number);
/** The file's length. FILE. */
PIECEPICK_MUST piecepick_status piecepick_file_length(piecepick_picker *picker, uint64_t file, uint64_t *number);
/** How many names are on the file's path. The first one is the torrent's name: that of the folder, or of the file where the torrent is a single file. FILE. */
PIECEPICK_MUST piecepick_status piecepick_file_parts(piecepick_picker *picker, uint64_t file, uint64_t *number);
/** The length of a name on the file's path. FILE, PART. */
PIECEPICK_MUST piecepick_status piecepick_file_part_length(piecepick_picker *picker, uint64_t file, uint64_t part, uint64_t *number);
/** The name. It is whatever the metainfo file says: empty, "..", with slashes or zeros in it. Look at it before you make a path of it. FILE, PART,
   LENGTH. */
PIECEPICK_MUST piecepick_status piecepick_file_part(piecepick_picker *picker, uint64_t file, uint64_t part, uint8_t *buffer, size_t buffer_len);

/** The SHA-1 of one message, for a client that hashes. It needs no picker, takes no memory, and may be called by several threads at once. The
   same holds of the next one. */
void piecepick_hash(const uint8_t *message, size_t message_len, piecepick_digest *digest);
/** The SHA-1 of each of four messages, one digest behind the other, into a buffer of 80 bytes (LENGTH). Messages of one length are hashed side by
   side, at more than twice the speed. */
PIECEPICK_MUST piecepick_status piecepick_hash_four(const uint8_t *first, size_t first_len, const uint8_t *second, size_t second_len,
                                                const uint8_t *third, size_t third_len, const uint8_t *fourth, size_t fourth_len,
                                                uint8_t *digests, size_t digests_len);

/* ---- KEEPS_JOURNAL alone: for simulators and audits. Its memory is all content, and some 80 bytes for each call. */

/** Hashes a full piece, here and now. COMPLETE or FAILED. KEEPS, PIECE, NOT_WAITING, MEMORY. */
PIECEPICK_MUST piecepick_status piecepick_settle_now(piecepick_picker *picker, uint32_t piece, piecepick_answer *answer);
/** Writes a complete piece into a buffer of just its length, and takes no memory. KEEPS, PIECE, INCOMPLETE, LENGTH: then nothing is written. */
PIECEPICK_MUST piecepick_status piecepick_read(piecepick_picker *picker, uint32_t piece, uint8_t *buffer, size_t buffer_len);
/** Goes over the journal of all calls by the picker's rules. No journal fails it: KEEPS, MEMORY. */
PIECEPICK_MUST piecepick_status piecepick_audit(piecepick_picker *picker);

/* ---- Depth by rate, of the header alone: how many blocks should be in flight at a peer, by what came from it. Pass it to piecepick_depth.

   The depth is as many blocks of 16 KiB as come in a second, and 4 more. The rate is that of the last two seconds, or of the last eight if that is
   greater: the two tell of a rate that rises, and the eight of one that comes in bursts. The depth is at most `deepest`, and in endgame at most
   6, so that few blocks come twice. It rises at once. It falls by a quarter at most, and once a second. After a time-out it is 4, until a block
   comes. Before the first block or time-out it is the options' `depth`.

   Times are milliseconds of one clock that doesn't go back, such as CLOCK_MONOTONIC. A time that is earlier than the newest one counts as that.
   A second begins where its time is a multiple of 1,000. It counts at most 2^32 - 1 bytes, for which each depth is the deepest. So any numbers
   may be passed, and each depth is 1 to 4,096. Nothing fails, takes memory, or calls the library. */
/** The depth of one peer. Only `depth` is for the caller. */
typedef struct piecepick_depth_by_rate {
    uint64_t begin;         /**< when the peer came */
    uint64_t now;           /**< the newest time */
    uint32_t counts[8];     /**< bytes of the last eight seconds, each at its number modulo 8 */
    uint32_t depth;         /**< may be read at any time */
    uint32_t deepest;       /**< the greatest depth */
    uint32_t is_begun;      /**< a block or a time-out came: the depth follows */
    uint32_t is_late;       /**< a time-out came, and no block since */
    uint32_t is_in_endgame; /**< a block of the last request is requested from another peer too */
    uint32_t may_fall;      /**< the depth hasn't fallen in this second */
} piecepick_depth_by_rate;

/** A peer comes, of a picker that was opened by these options. `deepest` counts as 1 to 4,096, and `depth` as 1 to that. */
static inline void piecepick_depth_by_rate_begin(piecepick_depth_by_rate *peer, const piecepick_options *options, uint64_t now) {
    piecepick_depth_by_rate fresh = {now, now, {0}, options->depth, options->deepest, 0, 0, 0, 1};
    if (fresh.deepest == 0) fresh.deepest = 1;
    if (fresh.deepest > 4096) fresh.deepest = 4096;
    if (fresh.depth == 0) fresh.depth = 1;
    if (fresh.depth > fresh.deepest) fresh.depth = fresh.deepest;
    *peer = fresh;
}

/** The newest time is `now`, and the seconds that begin by it are empty. The calls below do this too. */
static inline void piecepick_depth_by_rate_turn(piecepick_depth_by_rate *peer, uint64_t now) {
    uint64_t second = peer->now / 1000;
    const uint64_t newest = now / 1000;
    if (now <= peer->now) return;
    peer->now = now;
    if (second < newest) peer->may_fall = 1;
    if (newest - second > 8) second = newest - 8;
    while (second < newest) peer->counts[++second % 8] = 0;
}

/** The rate: blocks a second in so many last seconds, 1 to 8, of which the newest isn't over, or in those since the peer came. Call `_turn` first. */
static inline uint64_t piecepick_depth_by_rate_blocks(const piecepick_depth_by_rate *peer, uint32_t seconds) {
    const uint64_t lasted = peer->now - peer->begin;
    uint64_t passed = (uint64_t)1000 * (seconds - 1) + peer->now % 1000, bytes = 0;
    if (passed > lasted) passed = lasted;
    if (passed < 1000) passed = 1000; /* of a moment nothing can be told */
    for (uint32_t back = 0; back < seconds; back++) bytes += peer->counts[(peer->now / 1000 + 8 - back) % 8];
    return bytes * 1000 / (passed * 16384);
}

/** Bytes of blocks came. That none came changes nothing. */
static inline void piecepick_depth_by_rate_came(piecepick_depth_by_rate *peer, uint64_t bytes, uint64_t now) {
    uint32_t *count, room;
    if (bytes == 0) return;
    piecepick_depth_by_rate_turn(peer, now);
    count = &peer->counts[peer->now / 1000 % 8];
    room = UINT32_MAX - *count;
    *count += bytes < room ? (uint32_t)bytes : room;
    peer->is_begun = 1;
    peer->is_late = 0;
}

/** A request took too long, and was reported as late. */
static inline void piecepick_depth_by_rate_timed_out(piecepick_depth_by_rate *peer) {
    peer->is_begun = peer->is_late = 1;
}

/** Report at each request whether its block is requested from another peer too, which isn't late. The depth is at most 6 at once where it is. */
static inline void piecepick_depth_by_rate_set_in_endgame(piecepick_depth_by_rate *peer, uint32_t is_in_endgame) {
    peer->is_in_endgame = is_in_endgame;
    if (is_in_endgame && peer->depth > 6) peer->depth = 6;
}

/** The depth now. Call it once a second, or at each block. */
static inline uint32_t piecepick_depth_by_rate_follow(piecepick_depth_by_rate *peer, uint64_t now) {
    uint64_t wanted = 4, newest, all;
    const uint32_t most = peer->is_in_endgame && peer->deepest > 6 ? 6 : peer->deepest, less = peer->depth * 3 / 4;
    piecepick_depth_by_rate_turn(peer, now);
    if (!peer->is_begun) return peer->depth;
    newest = piecepick_depth_by_rate_blocks(peer, 2);
    all = piecepick_depth_by_rate_blocks(peer, 8);
    if (!peer->is_late) wanted += newest > all ? newest : all;
    if (wanted > most) wanted = most;
    if (wanted >= peer->depth || peer->is_late) {
        peer->depth = (uint32_t)wanted;
    } else if (peer->may_fall) {
        peer->depth = wanted > less ? (uint32_t)wanted : less;
        peer->may_fall = 0;
    }
    return peer->depth;
}

/* ---- Texts, of the header alone. */

/** What a status says, in words. */
static inline const char *piecepick_status_text(piecepick_status status) {
    switch (status) {
    case PIECEPICK_OK: return "done";
    case PIECEPICK_E_CLOSED: return "there is no picker at this pointer";
    case PIECEPICK_E_OPEN: return "the handle to be filled must start as NULL";
    case PIECEPICK_E_WORKER: return "no such worker number, or the option workers isn't 1 to 1,024";
    case PIECEPICK_E_PIECE: return "no such piece";
    case PIECEPICK_E_BITS_LENGTH: return "wrong bitfield length: it must have one bit per piece, rounded up to bytes";
    case PIECEPICK_E_SPARE_BITS: return "a spare bit at the end of the bitfield is set";
    case PIECEPICK_E_LENGTH: return "wrong buffer length: it must be exactly that of the item";
    case PIECEPICK_E_MEMORY: return "out of memory";
    case PIECEPICK_E_INCOMPLETE: return "the piece isn't complete";
    case PIECEPICK_E_RULES: return "an option is out of its range: depth, deepest, askers, random, open, rush or shown";
    case PIECEPICK_E_NOT_WAITING: return "the piece isn't waiting for a check: a block is lacking, or it is complete";
    case PIECEPICK_E_NO_JOB: return "there is no job at this pointer";
    case PIECEPICK_E_NOT_HASHED: return "the job wasn't hashed yet";
    case PIECEPICK_E_PLACE: return "fewer blocks are requested from this peer";
    case PIECEPICK_E_KEEPS: return "the call isn't for what this picker keeps";
    case PIECEPICK_E_OPTIONS: return "wrong options: size must be sizeof(piecepick_options), and keeps one of the three";
    case PIECEPICK_E_STALE: return "the bytes that were hashed aren't those that the picker holds now";
    case PIECEPICK_E_BLOCK: return "no such block in this piece";
    case PIECEPICK_E_NOT_HELD: return "the block isn't held";
    case PIECEPICK_E_BEGUN: return "the piece is complete, or a block of it is held or requested";
    case PIECEPICK_E_FILE: return "no such file";
    case PIECEPICK_E_PART: return "no such name on the file's path";
    case PIECEPICK_E_BENCODE: return "not valid bencode: keys must be sorted, and nothing may follow the end";
    case PIECEPICK_E_NOT_DICTIONARY: return "the metainfo isn't a dictionary";
    case PIECEPICK_E_MISSING_KEY: return "a required key is missing from the metainfo";
    case PIECEPICK_E_WRONG_KIND: return "a value in the metainfo has the wrong type";
    case PIECEPICK_E_PIECE_LENGTH: return "the piece length isn't 1 to 2^31 bytes";
    case PIECEPICK_E_PIECES_LENGTH: return "the piece hashes aren't 20 bytes each";
    case PIECEPICK_E_LENGTH_AND_FILES: return "the metainfo has both length and files";
    case PIECEPICK_E_NO_CONTENT: return "the torrent has no content: neither length nor files, or not one byte in them";
    case PIECEPICK_E_COUNT_MISMATCH: return "the number of piece hashes doesn't match the length of the content";
    case PIECEPICK_E_TOO_LARGE: return "the torrent is too large: at most 2^63 - 1 bytes and 2^32 - 1 pieces";
    }
    return "no status of this interface";
}

/** What a kind is, in words. */
static inline const char *piecepick_kind_text(piecepick_kind kind) {
    switch (kind) {
    case PIECEPICK_K_NONE: return "no answer";
    case PIECEPICK_K_JOINED: return "joined";
    case PIECEPICK_K_NOTED: return "noted";
    case PIECEPICK_K_QUIET: return "quiet";
    case PIECEPICK_K_CANCEL: return "cancel";
    case PIECEPICK_K_REQUEST: return "request";
    case PIECEPICK_K_CHOKED: return "choked";
    case PIECEPICK_K_PIPE_FULL: return "pipe full";
    case PIECEPICK_K_IDLE: return "idle";
    case PIECEPICK_K_NOTHING_LEFT: return "nothing left";
    case PIECEPICK_K_STORED: return "stored";
    case PIECEPICK_K_FULL: return "full";
    case PIECEPICK_K_DROPPED: return "dropped";
    case PIECEPICK_K_COMPLETE: return "complete";
    case PIECEPICK_K_FAILED: return "failed";
    case PIECEPICK_K_REFUSED: return "refused";
    case PIECEPICK_K_IN_FLIGHT: return "in flight";
    }
    return "no kind of this interface";
}

/** What a reason says, in words. */
static inline const char *piecepick_reason_text(piecepick_reason reason) {
    switch (reason) {
    case PIECEPICK_R_NONE: return "none";
    case PIECEPICK_R_NOT_JOINED: return "no peer has joined under this worker number";
    case PIECEPICK_R_ALREADY_JOINED: return "a peer has joined under this worker number already";
    case PIECEPICK_R_LATE_BITS: return "a bitfield must be a peer's first message";
    case PIECEPICK_R_WRONG_COUNT: return "wrong number of items: it must be one per piece";
    case PIECEPICK_R_NO_SUCH_PIECE: return "no such piece";
    case PIECEPICK_R_NO_SUCH_BLOCK: return "no block begins there";
    case PIECEPICK_R_WRONG_LENGTH: return "wrong block length";
    case PIECEPICK_R_NOT_WAITING: return "the piece is complete, or the block can't be requested from this peer now";
    case PIECEPICK_R_STALE: return "the bytes that were hashed aren't those that the picker holds now";
    case PIECEPICK_R_NOT_REQUESTED: return "the block isn't requested from this peer";
    case PIECEPICK_R_WRONG_DEPTH: return "the depth must be 1 to the option deepest";
    case PIECEPICK_R_WRONG_LEVEL: return "a level is out of its range: 0 to 7, or 0 to 8 for the order";
    }
    return "no reason of this interface";
}

/** What a rule says, in words. */
static inline const char *piecepick_rule_text(piecepick_pick_rule rule) {
    switch (rule) {
    case PIECEPICK_RULE_IN_ORDER: return "in order";
    case PIECEPICK_RULE_BEGUN: return "its piece had begun";
    case PIECEPICK_RULE_RAREST: return "its piece is one of the rarest";
    case PIECEPICK_RULE_RANDOM: return "its piece begins at random";
    case PIECEPICK_RULE_ENDGAME: return "endgame";
    case PIECEPICK_RULE_LATE: return "another peer is late with it";
    }
    return "no rule of this interface";
}

#ifdef __cplusplus
}
#endif
#endif
