/* depths.c in C++: goes through the table of depths with DepthByRate. It needs no library.

   usage: depths depths.txt
   The status is 1 where a depth is another one. */
#include "piecepick.hpp"
#include <cstdio>
#include <fstream>
#include <sstream>

using namespace piecepick;

/* Makes the call of an event. Gives the depth that it answers, if it answers one, and else the one that is so then. */
static std::uint32_t play(DepthByRate &peer, const std::string &event, std::istream &numbers)
{
    std::uint64_t now = 0, bytes = 0;
    if (event == "begin") {
        Options options;
        numbers >> now >> options.depth >> options.deepest;
        peer = DepthByRate(options, now);
    } else if (event == "came") {
        numbers >> now >> bytes;
        peer.came(bytes, now);
    } else if (event == "timed_out") {
        peer.timed_out();
    } else if (event == "endgame") {
        bool flag = false;
        numbers >> flag;
        peer.set_in_endgame(flag);
    } else if (event == "follow") {
        numbers >> now;
        return peer.follow(now);
    } else {
        throw std::runtime_error("no such event: " + event);
    }
    return peer.depth();
}

/* Whether a line has the depth that it says. */
static bool is_well(DepthByRate &peer, const std::string &line)
{
    std::istringstream words(line);
    std::string event, equals;
    std::uint32_t wanted = 0;
    words >> event;
    const std::uint32_t depth = play(peer, event, words);
    words >> equals >> wanted;
    if (words && equals == "=" && depth == wanted && depth == peer.depth()) return true;
    std::fprintf(stderr, "the depth is %u: %s\n", static_cast<unsigned>(depth), line.c_str());
    return false;
}

int main(int argc, char **argv)
{
    std::ifstream table(argc == 2 ? argv[1] : "");
    DepthByRate peer(Options(), 0);
    std::string line;
    unsigned events = 0, bad = peer.depth() != 16;
    while (std::getline(table, line)) {
        if (line.empty() || line[0] == '#') continue;
        events++;
        bad += !is_well(peer, line);
    }
    if (bad == 0) std::printf("%u depths are those of the table\n", events);
    return bad == 0 && events > 0 ? 0 : 1;
}
