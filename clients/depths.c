/* Goes through the table of depths with the header's own functions. It needs no library, and compiles as C99, C11 and C++17.

   usage: depths depths.txt
   The status is 1 where a depth is another one. */
#include "piecepick.h"
#include <inttypes.h>
#include <stdio.h>

/* Reads the event, makes its call, and gives the depth after it and the one in the table; or 0 where the line is no event. */
static int play(piecepick_depth_by_rate *peer, const char *line, uint32_t *wanted)
{
    piecepick_options options = PIECEPICK_OPTIONS;
    uint64_t now, bytes;
    uint32_t flag;
    if (sscanf(line, "begin %" SCNu64 " %" SCNu32 " %" SCNu32 " = %" SCNu32, &now, &options.depth, &options.deepest, wanted) == 4)
        piecepick_depth_by_rate_begin(peer, &options, now);
    else if (sscanf(line, "came %" SCNu64 " %" SCNu64 " = %" SCNu32, &now, &bytes, wanted) == 3)
        piecepick_depth_by_rate_came(peer, bytes, now);
    else if (sscanf(line, "timed_out = %" SCNu32, wanted) == 1)
        piecepick_depth_by_rate_timed_out(peer);
    else if (sscanf(line, "endgame %" SCNu32 " = %" SCNu32, &flag, wanted) == 2)
        piecepick_depth_by_rate_set_in_endgame(peer, flag);
    else if (sscanf(line, "follow %" SCNu64 " = %" SCNu32, &now, wanted) == 2)
        return piecepick_depth_by_rate_follow(peer, now) == peer->depth;
    else
        return 0;
    return 1;
}

int main(int argc, char **argv)
{
    const piecepick_options options = PIECEPICK_OPTIONS;
    piecepick_depth_by_rate peer;
    char line[512];
    uint32_t number = 0, events = 0, wanted, bad = 0;
    FILE *table = argc == 2 ? fopen(argv[1], "r") : NULL;
    if (table == NULL) return 2;
    piecepick_depth_by_rate_begin(&peer, &options, 0);
    bad += peer.depth != 16 || peer.deepest != 500; /* the usual options */
    while (fgets(line, sizeof line, table) != NULL) {
        number++;
        if (line[0] == '#' || line[0] == '\n') continue;
        events++;
        if (play(&peer, line, &wanted) && peer.depth == wanted) continue;
        fprintf(stderr, "line %u: the depth is %u: %s", (unsigned)number, (unsigned)peer.depth, line);
        bad++;
    }
    fclose(table);
    if (bad == 0) printf("%u depths are those of the table\n", (unsigned)events);
    return bad == 0 && events > 0 ? 0 : 1;
}
