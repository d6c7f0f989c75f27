/* example.c in C++: a client's loop round the picker, without a network, with two peers in memory that have all of the content.

   usage: example FILE.torrent CONTENT */
#include "piecepick.hpp"
#include <algorithm>
#include <chrono>
#include <cstdio>
#include <cstring>
#include <deque>
#include <fstream>
#include <iterator>
#include <random>

using namespace piecepick;

/* What was requested from a peer and hasn't come, the oldest first. A client writes messages to a socket, and the peer does the rest. */
using Line = std::deque<Answer>;

/* Milliseconds of a clock that doesn't go back. */
static std::uint64_t now()
{
    using namespace std::chrono;
    return static_cast<std::uint64_t>(duration_cast<milliseconds>(steady_clock::now().time_since_epoch()).count());
}

/* The peer's depth follows the rate. A client does this once a second, or at each block. */
static void follow(Picker &picker, std::uint32_t worker, DepthByRate &by_rate)
{
    const std::uint32_t before = by_rate.depth();
    if (by_rate.follow(now()) != before) picker.depth(worker, by_rate.depth());
}

static std::vector<std::uint8_t> read_file(const char *path)
{
    std::ifstream file(path, std::ios::binary);
    if (!file) throw std::runtime_error(std::string(path) + " can't be read");
    return {std::istreambuf_iterator<char>(file), std::istreambuf_iterator<char>()};
}

/* The handshakes were exchanged; the peer shows each piece, and unchokes us. */
static void come(Picker &picker, std::uint32_t worker)
{
    std::vector<std::uint8_t> payload((picker.pieces() + 7) / 8);
    for (std::uint32_t piece = 0; piece < picker.pieces(); piece++)
        payload[piece / 8] = static_cast<std::uint8_t>(payload[piece / 8] | 0x80 >> piece % 8);
    picker.join(worker);
    picker.bits(worker, payload);
    picker.unchoke(worker);
}

/* Sends the peer what the picker wants sent. */
static void send_all(Picker &picker, std::uint32_t worker, Line &line)
{
    static std::mt19937_64 word;
    for (;;) {
        Answer answer = picker.next(worker, word());
        if (answer.kind == PIECEPICK_K_CANCEL)
            line.erase(std::remove_if(line.begin(), line.end(), [&](const Answer &block) {
                return block.piece == answer.piece && block.begin == answer.begin;
            }), line.end());
        else if (answer.kind == PIECEPICK_K_REQUEST) line.push_back(answer);
        else return;
    }
}

/* A piece is full: its bytes are written where they belong, if they have its hash. A client with threads hashes outside its lock. */
static void settle(Picker &picker, std::uint32_t piece, std::uint8_t *place)
{
    Job job = picker.job_take(piece);
    job.hash();
    if (picker.settle(job).kind == PIECEPICK_K_FAILED) throw std::runtime_error("a piece has another hash");
    job.read({place, picker.piece_length(piece)});
}

static bool download(const char *torrent, const char *path)
{
    const std::vector<std::uint8_t> content = read_file(path);
    std::vector<std::uint8_t> copy(content.size());
    std::array<Line, 2> lines;
    Options options;
    options.keeps = PIECEPICK_KEEPS_BEGUN;
    options.workers = static_cast<std::uint32_t>(lines.size());
    Picker picker(read_file(torrent), options);
    if (picker.total() != content.size()) throw std::runtime_error("the content has another length");
    std::array<DepthByRate, 2> depths = {DepthByRate(options, now()), DepthByRate(options, now())};
    for (std::uint32_t worker = 0; worker < options.workers; worker++) come(picker, worker);
    for (std::uint32_t worker = 0; !picker.has_wanted(); worker = (worker + 1) % options.workers) {
        Line &line = lines[worker];
        send_all(picker, worker, line);
        if (line.empty()) continue;
        const Answer block = line.front(); /* its oldest block comes */
        line.pop_front();
        const std::size_t place = std::size_t{block.piece} * picker.piece_length(0);
        /* The library keeps the copy that it stores. Where it keeps nothing, write the bytes at STORED and FULL, and at no other answer. */
        const Answer answer = picker.arrived(worker, block.piece, block.begin, {&content[place + block.begin], block.length});
        if (answer.kind == PIECEPICK_K_FULL) settle(picker, block.piece, &copy[place]);
        depths[worker].came(block.length, now());
        follow(picker, worker, depths[worker]);
        send_all(picker, worker, line);
    }
    for (std::uint32_t worker = 0; worker < options.workers; worker++) picker.leave(worker);
    std::printf("%s: %u pieces complete, the content is %s\n", picker.name().c_str(), picker.pieces(), copy == content ? "the same" : "another");
    return copy == content;
}

int main(int argc, char **argv)
{
    if (argc != 3) return 2;
    try {
        return download(argv[1], argv[2]) ? 0 : 1;
    } catch (const std::exception &error) {
        std::fprintf(stderr, "%s\n", error.what());
        return 1;
    }
}
