// The picker's rule with its tables in plain C++, with nothing proved: how fast the same steps go without the checks of a library. It plays the
// workload of crates/bench/README.md, makes the same requests, and prints the same counts and times.
//
//     g++ -std=c++17 -O2 -march=x86-64-v2 -o bench_plain tools/plain/bench_plain.cpp
//     ./bench_plain [PIECES [HALVINGS [PEERS]]]
//
// With -DAPART='[[gnu::noinline]]' callgrind counts its calls one by one.
#include <algorithm>
#include <cstdint>
#include <cstdio>
#include <cstdlib>
#include <ctime>
#include <vector>

#ifndef APART
#define APART
#endif

using std::vector;
typedef uint16_t u16;
typedef uint32_t u32;
typedef uint64_t u64;

static const u32 BLOCKS = 16, DEPTH = 5, NONE = UINT32_MAX;
static const u16 HELD = UINT16_MAX;

// splitmix64 (Steele, Lea and Flood 2014)
struct Mix {
    u64 state;
    u64 next()
    {
        u64 z = state += 0x9E3779B97F4A7C15u;
        z = (z ^ (z >> 30)) * 0xBF58476D1CE4E5B9u;
        z = (z ^ (z >> 27)) * 0x94D049BB133111EBu;
        return z ^ (z >> 31);
    }
};

struct Block {
    u32 piece, index;
};

enum Kind { REQUEST, CANCEL, FULL, IDLE, NOTHING_LEFT };

struct Answer {
    Kind kind;
    Block block;
};

// Pieces in groups, in one array by rising group.
struct Order {
    vector<u32> numbers, places, ends;
    vector<u16> groups;

    Order(u32 pieces, u32 count) : numbers(pieces), places(pieces), ends(count, pieces), groups(pieces, 0)
    {
        for (u32 i = 0; i < pieces; i++) numbers[i] = places[i] = i;
    }

    void exchange(u32 number, u32 place)
    {
        u32 here = places[number], other = numbers[place];
        numbers[here] = other;
        places[other] = here;
        numbers[place] = number;
        places[number] = place;
    }

    void raise(u32 number)
    {
        u16 group = groups[number];
        exchange(number, --ends[group]);
        groups[number] = group + 1;
    }

    void lower(u32 number)
    {
        u16 group = groups[number] - 1;
        exchange(number, ends[group]++);
        groups[number] = group;
    }

    void put(u32 number, u16 group)
    {
        while (groups[number] < group) raise(number);
        while (groups[number] > group) lower(number);
    }

    u32 begin(u32 group) const { return group ? ends[group - 1] : 0; }
};

static const u16 RESTING = 0, ASKED_OUT = 1, OPEN = 2, UNBEGUN = 3;

struct Row {
    bool had = false;
    u32 held = 0, touched = 0, first = 0;
};

struct Peer {
    vector<Block> asked, due;
    u32 floor = NONE;
};

struct Picker {
    u32 pieces, workers, had = 0;
    u64 unasked, unheld;
    vector<Row> rows;
    vector<u16> cells, shown_by;
    Order order;
    vector<u32> open;
    vector<Peer> peers;
    vector<uint8_t> shown; // what all peers show of eight pieces, side by side

    Picker(u32 pieces, u32 workers)
        : pieces(pieces), workers(workers), unasked(u64(pieces) * BLOCKS), unheld(unasked), rows(pieces), cells(size_t(pieces) * BLOCKS, 0),
          shown_by(pieces, 0), order(pieces, UNBEGUN + workers + 2), peers(workers), shown(size_t((pieces + 7) / 8) * workers, 0)
    {
        for (u32 piece = 0; piece < pieces; piece++) order.put(piece, UNBEGUN);
        open.reserve(pieces);
        for (Peer &peer : peers) {
            peer.asked.reserve(64);
            peer.due.reserve(64);
        }
    }

    bool shows(u32 worker, u32 piece) const { return shown[size_t(piece / 8) * workers + worker] >> (7 - piece % 8) & 1; }

    u16 group_of(u32 piece) const
    {
        const Row &row = rows[piece];
        if (row.had) return RESTING;
        if (row.touched == 0) return UNBEGUN + shown_by[piece];
        return row.touched == BLOCKS ? ASKED_OUT : OPEN;
    }

    // The piece stands where its row says.
    void regroup(u32 piece)
    {
        u16 before = order.groups[piece], after = group_of(piece);
        if (before == after) return;
        if ((before == OPEN) != (after == OPEN)) {
            auto place = std::lower_bound(open.begin(), open.end(), piece);
            if (after == OPEN) open.insert(place, piece);
            else open.erase(place);
        }
        order.put(piece, after);
    }

    void put(u32 piece, u32 index, u16 cell)
    {
        u16 &here = cells[size_t(piece) * BLOCKS + index];
        Row &row = rows[piece];
        unheld += (here == HELD) - (cell == HELD);
        unasked += (here > 0) - (cell > 0);
        row.held += (cell == HELD) - (here == HELD);
        row.touched += (cell > 0) - (here > 0);
        if (cell == 0) row.first = std::min(row.first, index);
        else if (row.first == index) row.first++;
        here = cell;
        regroup(piece);
    }

    APART void come(u32 worker, const vector<uint8_t> &bits)
    {
        for (u32 byte = 0; byte < bits.size(); byte++) {
            shown[size_t(byte) * workers + worker] = bits[byte];
            for (u32 rest = bits[byte]; rest; rest &= rest - 1) {
                u32 piece = 8 * byte + 7 - __builtin_ctz(rest);
                shown_by[piece]++;
                if (order.groups[piece] >= UNBEGUN) order.raise(piece);
            }
        }
        peers[worker].floor = 0;
    }

    bool comes_before(u32 piece, u32 other, u32 first) const { return (piece < first) == (other < first) ? piece < other : piece >= first; }

    // Of the group's pieces that the peer shows the first from `first` on, or else the first of all.
    u32 nearest_of(u32 worker, u16 group, u32 first) const
    {
        u32 begin = order.begin(group), end = order.ends[group];
        u32 steps = std::min(end - begin, pieces - first);
        for (u32 piece = first; piece < first + steps; piece++)
            if (order.groups[piece] == group && shows(worker, piece)) return piece;
        u32 nearest = NONE;
        for (u32 place = begin; place < end; place++) {
            u32 piece = order.numbers[place];
            if ((nearest == NONE || comes_before(piece, nearest, first)) && shows(worker, piece)) nearest = piece;
        }
        return nearest;
    }

    u32 rarest(u32 worker, u32 first) const
    {
        for (u32 n = peers[worker].floor; n <= workers; n++) {
            u32 piece = nearest_of(worker, UNBEGUN + n, first);
            if (piece != NONE) return piece;
        }
        return NONE;
    }

    // While no piece is had, the first from `first` on that may begin.
    u32 nearest(u32 worker, u32 first) const
    {
        for (u32 n = 0; n < pieces; n++) {
            u32 piece = first + n < pieces ? first + n : first + n - pieces;
            if (order.groups[piece] >= UNBEGUN && shows(worker, piece)) return piece;
        }
        return NONE;
    }

    Answer request(u32 piece)
    {
        u32 index = rows[piece].first;
        while (cells[size_t(piece) * BLOCKS + index] > 0) index++;
        return {REQUEST, {piece, index}};
    }

    bool asks(u32 worker, Block block) const
    {
        for (const Block &asked : peers[worker].asked)
            if (asked.piece == block.piece && asked.index == block.index) return true;
        return false;
    }

    // In endgame, a lacking block of the least piece that the peer shows and that has one it isn't asked for.
    Answer again(u32 worker) const
    {
        Block found = {NONE, 0};
        for (u32 place = order.begin(ASKED_OUT); place < order.ends[ASKED_OUT]; place++) {
            u32 piece = order.numbers[place];
            if (piece >= found.piece || !shows(worker, piece)) continue;
            for (u32 index = 0; index < BLOCKS; index++)
                if (cells[size_t(piece) * BLOCKS + index] != HELD && !asks(worker, {piece, index})) {
                    found = {piece, index};
                    break;
                }
        }
        return {found.piece == NONE ? NOTHING_LEFT : REQUEST, found};
    }

    bool interests(u32 worker) const
    {
        for (u16 group : {ASKED_OUT, OPEN})
            for (u32 place = order.begin(group); place < order.ends[group]; place++)
                if (shows(worker, order.numbers[place])) return true;
        return rarest(worker, 0) != NONE;
    }

    Answer choose(u32 worker, u64 word)
    {
        Peer &peer = peers[worker];
        if (!peer.due.empty()) return {CANCEL, peer.due[0]};
        if (peer.asked.size() >= DEPTH) return {FULL, {}};
        for (u32 piece : open)
            if (shows(worker, piece)) return request(piece);
        if (peer.floor <= workers) {
            u32 first = u32(word % pieces);
            u32 piece = had < 1 ? nearest(worker, first) : rarest(worker, first);
            if (piece != NONE) return request(piece);
        }
        if (unasked == 0 && unheld > 0) {
            Answer answer = again(worker);
            if (answer.kind == REQUEST) return answer;
        }
        return {interests(worker) ? IDLE : NOTHING_LEFT, {}};
    }

    APART Answer next(u32 worker, u64 word)
    {
        Answer answer = choose(worker, word);
        Peer &peer = peers[worker];
        if (answer.kind == REQUEST) {
            u32 piece = answer.block.piece;
            if (had >= 1 && order.groups[piece] >= UNBEGUN) peer.floor = shown_by[piece];
            peer.asked.push_back(answer.block);
            put(piece, answer.block.index, cells[size_t(piece) * BLOCKS + answer.block.index] + 1);
        } else if (answer.kind == CANCEL) {
            peer.due.erase(peer.due.begin());
        } else if (answer.kind != FULL) {
            peer.floor = NONE;
        }
        return answer;
    }

    bool forget(u32 worker, Block block)
    {
        vector<Block> &line = peers[worker].asked;
        for (size_t i = 0; i < line.size(); i++)
            if (line[i].piece == block.piece && line[i].index == block.index) {
                line.erase(line.begin() + i);
                return true;
            }
        return false;
    }

    // The block came. Whether it completes its piece.
    APART bool arrived(u32 worker, Block block)
    {
        u16 askers = cells[size_t(block.piece) * BLOCKS + block.index];
        if (askers == HELD) return false;
        askers -= forget(worker, block);
        for (u32 other = 0; askers > 0 && other < workers; other++)
            if (other != worker && forget(other, block)) {
                peers[other].due.push_back(block);
                askers--;
            }
        put(block.piece, block.index, HELD);
        return rows[block.piece].held == BLOCKS;
    }

    APART void settle(u32 piece)
    {
        rows[piece].had = true;
        had++;
        regroup(piece);
    }
};

static u64 now()
{
    timespec time;
    clock_gettime(CLOCK_THREAD_CPUTIME_ID, &time);
    return u64(time.tv_sec) * 1000000000 + time.tv_nsec;
}

static vector<uint8_t> bitfield(u32 pieces, u32 halvings, bool is_seed, Mix &words)
{
    vector<uint8_t> bits((pieces + 7) / 8, 0);
    u64 word = UINT64_MAX;
    for (u32 piece = 0; piece < pieces; piece++) {
        if (piece % 64 == 0 && !is_seed) {
            word = words.next();
            for (u32 i = 0; i < halvings; i++) word &= words.next();
        }
        if (word >> (piece % 64) & 1) bits[piece / 8] |= 0x80 >> piece % 8;
    }
    return bits;
}

int main(int count, char **words)
{
    u32 pieces = count > 1 ? atoi(words[1]) : 1000, halvings = count > 2 ? atoi(words[2]) : 0, workers = count > 3 ? atoi(words[3]) : 51;
    Picker picker(pieces, workers);
    Mix shown = {1}, random = {2};
    u64 came = 0, asks = 0, requests = 0, picks = 0;
    for (u32 worker = 0; worker < workers; worker++) {
        vector<uint8_t> bits = bitfield(pieces, halvings, worker + 1 == workers, shown);
        u64 start = now();
        picker.come(worker, bits);
        came += now() - start;
    }
    vector<bool> active(workers, true), dry(workers, false);
    u64 start = now();
    while (picker.had < pieces)
        for (u32 worker = 0; worker < workers && picker.had < pieces; worker++) {
            if (!active[worker]) continue;
            Peer &peer = picker.peers[worker];
            if (!peer.asked.empty() && peer.asked.size() >= (dry[worker] ? 0 : DEPTH)) {
                Block oldest = peer.asked[0];
                if (picker.arrived(worker, oldest)) picker.settle(oldest.piece);
            }
            Answer answer;
            do {
                asks++;
                answer = picker.next(worker, random.next());
            } while (answer.kind == CANCEL);
            if (answer.kind == REQUEST) {
                requests++;
                picks = (picks ^ (u64(worker) << 48 ^ u64(answer.block.piece) << 16 ^ answer.block.index)) * 0x100000001B3u;
            }
            dry[worker] = answer.kind != REQUEST;
            active[worker] = answer.kind != NOTHING_LEFT;
        }
    u64 ran = now() - start;
    printf("pieces %u: asks %llu requests %llu had %u picks %016llx\n", pieces, (unsigned long long)asks, (unsigned long long)requests, picker.had,
           (unsigned long long)picks);
    printf("come_ns %llu ask_ns %llu\n", (unsigned long long)(came / workers), (unsigned long long)(ran / asks));
}
