#!/bin/sh
# Tests the built library with its header and its bindings. Where clients/out has no library, that of the folder `release` is taken.
#
#   clients/try.sh [PART ..]       all parts, where none is named:
#
#   c         The header and what the library exports are the same, and mistakes with the header don't compile. The examples and the tests as
#             C11 and as C++17, with all warnings as errors. They run under the address and undefined behaviour checks, of the C side: the
#             library is built without them
#   cpp       piecepick.hpp
#   delays    downloads with delays, in virtual time
#   python    the Python package
#   fetch     the downloader
#   rust      the Rust crate
#   lint      the checkers of lint.sh look over the sources
set -eu
here=$(cd "$(dirname "$0")" && pwd)
fail() { echo "try.sh: $1" >&2; exit 1; }
[ $# -gt 0 ] || set -- c cpp delays python fetch rust lint
for part in "$@"; do
    case $part in c | cpp | delays | python | fetch | rust | lint) ;; *) fail "there is no part $part: its first lines have all" ;; esac
done
[ -f "$here/out/libpiecepick.a" ] || "$here/take.sh"
# But for comments the header is the one that the library was built with.
bare() { gcc -w -fpreprocessed -dD -E -P "$1"; }
work=$(mktemp -d)
trap 'rm -rf "$work"' EXIT
cd "$work"
PYTHONPATH="$here" python3 -B - <<'PY'
import hashlib
import random
from bencode import metainfo
content = random.Random(1).randbytes(9 * 32768 + 12345)
file = metainfo(b"content", content, 32768)
open("content", "wb").write(content)
open("try.torrent", "wb").write(file)
# The info dictionary is the last value of the file.
open("infohash", "w").write(hashlib.sha1(file[file.index(b"4:info") + 6 : -1]).hexdigest())
PY
# warned COMPILER WORD..: all warnings are errors. COMPILER may be several words.
warned() { compiler=$1; shift; $compiler -Wall -Wextra -Werror "-I$here" "$@"; }
# checked COMPILER WORD..: with the checks of addresses and of undefined behaviour beside them.
checked() { compiled_by=$1; shift; warned "$compiled_by" -g -fsanitize=address,undefined -fno-sanitize-recover=all "$@"; }

# wrong WHAT MISTAKE RIGHT: each of these compilers that is there takes the line that is right, and doesn't take the mistake.
each="gcc -std=c11,g++ -std=c++17 -x c++,clang++ -std=c++17 -x c++,clang -std=c11"
wrong() {
    printf '#include "piecepick.h"\nint line(piecepick_picker *picker, piecepick_answer *answer) {\n#ifdef MISTAKE\n%s\n#else\n%s\n#endif\n}\n' \
        "$2" "$3" > wrong.c
    echo "$each" | tr ',' '\n' > compilers
    while read -r language; do
        command -v "${language%% *}" > /dev/null || continue
        warned "$language" -c wrong.c -o wrong.o || fail "$language doesn't take what is right of: $1"
        ! warned "$language" -DMISTAKE -c wrong.c -o wrong.o 2> said || fail "$language takes $1"
    done < compilers
    echo "doesn't compile: $1"
}

# What the C compiler says of wrong uses of the header.
mistakes() {
    # In C the constants of an enum are plain numbers, and clang 14 goes by that: it sees no other enum in them.
    every=$each each=${each%,*}
    wrong "a status that is compared with a kind" \
        'return piecepick_next(picker, 0, 0, answer) == PIECEPICK_K_REQUEST;' 'return piecepick_next(picker, 0, 0, answer) == PIECEPICK_OK;'
    wrong "a kind that is compared with a reason" 'return !picker || answer->kind == PIECEPICK_R_STALE;' \
        'return !picker || answer->reason == PIECEPICK_R_STALE;'
    each=$every
    wrong "a status that is ignored" 'piecepick_next(picker, 0, 0, answer); return 0;' 'return piecepick_next(picker, 0, 0, answer) != PIECEPICK_OK;'
    wrong "a picker that is copied" 'piecepick_picker copy = *picker; return !answer + !&copy;' 'piecepick_picker *same = picker; return !answer + !same;'
    wrong "a picker in place of a job" 'return piecepick_job_hash(picker) != PIECEPICK_OK || !answer;' \
        'return piecepick_job_hash((piecepick_job *)answer) != PIECEPICK_OK || !picker;'
    wrong "a picker in place of its pointer" 'piecepick_close(picker); return !answer;' 'piecepick_close(&picker); return !answer;'
}

c() {
    [ "$(bare "$here/piecepick.h")" = "$(bare "$here/out/piecepick.h")" ] || fail "the library was built with another header"
    "$here/exports.py"
    mistakes
    for language in "gcc -std=c11" "g++ -std=c++17 -x c++"; do
        checked "$language" -c "$here/example.c" -o example.o
        g++ -fsanitize=address,undefined example.o "$here/out/libpiecepick.a" -o example
        ./example try.torrent content
        checked "$language" -c "$here/tests.c" -o tests.o
        g++ -fsanitize=address,undefined -Wl,--wrap=malloc,--wrap=realloc tests.o "$here/out/libpiecepick.a" -lpthread -o tests
        ./tests try.torrent content "$(cat infohash)" content
        checked "$language" -c "$here/quick.c" -o quick.o
        g++ -fsanitize=address,undefined quick.o "$here/out/libpiecepick.a" -o quick
        ./quick
        checked "$language" -pthread -c "$here/threads.c" -o threads.o
        g++ -fsanitize=address,undefined threads.o "$here/out/libpiecepick.a" -lpthread -o threads
        ./threads
        echo "$language: well"
    done

    # Eight threads under one lock, by what looks for races: of the C side by the compiler's check, and of the library too by helgrind.
    echo 'int main(void) { return 0; }' > probe.c
    if gcc -fsanitize=thread probe.c -o probe 2> probe.log && setarch -R ./probe 2>> probe.log; then
        warned "gcc -std=c11" -O1 -g -pthread -fsanitize=thread "$here/threads.c" "$here/out/libpiecepick.a" -o threads
        setarch -R ./threads || fail "a race in the client with threads"
    fi
    if command -v valgrind > /dev/null; then
        warned "gcc -std=c11" -O1 -g -pthread "$here/threads.c" "$here/out/libpiecepick.a" -o threads
        valgrind --quiet --tool=helgrind --error-exitcode=1 ./threads 32 || fail "helgrind finds a race"
    fi

    # Depth by rate is of the headers alone, so the library isn't linked. The other languages read the same table in their own tests.
    for language in "gcc -std=c99 -pedantic" "gcc -std=c11 -pedantic" "g++ -std=c++17 -x c++"; do
        checked "$language" -Wconversion -Wshadow "$here/depths.c" -o depths
        ./depths "$here/depths.txt"
    done
}

# A picker and a job are moved and never copied, and an empty one throws.
cat > moves.cpp <<'CPP'
#include "piecepick.hpp"
#include <type_traits>
using namespace piecepick;
static_assert(!std::is_copy_constructible_v<Picker> && !std::is_copy_assignable_v<Picker>);
static_assert(!std::is_copy_constructible_v<Job> && !std::is_copy_assignable_v<Job>);
static_assert(std::is_nothrow_move_constructible_v<Picker> && std::is_nothrow_move_assignable_v<Picker>);
static_assert(std::is_nothrow_move_constructible_v<Job> && std::is_nothrow_move_assignable_v<Job>);
template <class Call> static bool throws(piecepick_status status, Call call)
{
    try {
        call();
    } catch (const Error &error) {
        return error.status() == status && std::string(error.what()) == piecepick_status_text(status);
    }
    return false;
}
int main()
{
    const Digest digest = hash(std::string("0"));
    Options options;
    options.keeps = PIECEPICK_KEEPS_JOURNAL;
    auto open = [&] { return Picker(16384, 1, {digest.bytes, 20}, options); };
    Picker first = open(), second = std::move(first);
    bool well = throws(PIECEPICK_E_CLOSED, [&] { first.join(0); }) && throws(PIECEPICK_E_CLOSED, [&] { (void)first.name(); });
    first = std::move(second);
    well = well && throws(PIECEPICK_E_CLOSED, [&] { (void)second.pieces(); }) && first.pieces() == 1;
    well = well && throws(PIECEPICK_E_WORKER, [&] { first.join(50); }) && throws(PIECEPICK_E_BENCODE, [&] { Picker(std::string(), options); });
    well = well && throws(PIECEPICK_E_NOT_WAITING, [&] { (void)first.job_take(0); });
    well = well && first.join(0).kind == PIECEPICK_K_JOINED && first.arrived(0, 0, 0, std::string("0")).kind == PIECEPICK_K_FULL;
    Job job = first.job_take(0), same = std::move(job);
    well = well && throws(PIECEPICK_E_NO_JOB, [&] { job.hash(); }) && throws(PIECEPICK_E_NOT_HASHED, [&] { (void)first.settle(same); });
    job = std::move(same);
    job.hash();
    std::array<std::uint8_t, 1> room{};
    std::vector<std::uint8_t> none, more(2);
    well = well && first.settle(job).kind == PIECEPICK_K_COMPLETE && first.is_complete() && first.sender(0, 0) == 0;
    job.read(room);
    well = well && room[0] == '0' && throws(PIECEPICK_E_LENGTH, [&] { job.read(none); }) && throws(PIECEPICK_E_LENGTH, [&] { job.read(more); });
    room[0] = 0;
    first.read(0, room);
    first.audit();
    well = well && room[0] == '0' && first.name().empty() && first.total() == 1 && first.epoch() > 0 && first.infohash().bytes[0] == 0;
    /* A bad copy comes second. Where nothing is kept the caller writes a block's bytes at STORED and COMPLETED, and at no other answer. */
    Picker bare(16384, 1, {digest.bytes, 20}, Options());
    std::string file;
    bare.join(0);
    bare.join(1);
    well = well && bare.have(0, 0).interesting == 1 && bare.is_interesting(0) && !bare.is_interesting(1);
    well = well && throws(PIECEPICK_E_WORKER, [&] { (void)bare.is_interesting(9999); });
    for (std::uint32_t worker = 0; worker < 2; worker++) {
        const std::string block(1, static_cast<char>('0' + worker));
        const Answer answer = bare.arrived(worker, 0, 0, block);
        if (answer.kind == PIECEPICK_K_STORED || answer.kind == PIECEPICK_K_FULL) file = block;
        well = well && answer.kind == (worker == 0 ? PIECEPICK_K_FULL : PIECEPICK_K_DROPPED);
    }
    well = well && bare.sender(0, 0) == 0 && file == "0";
    well = well && bare.askers(0, 0) == 0 && throws(PIECEPICK_E_BLOCK, [&] { (void)bare.askers(0, 9); });
    well = well && throws(PIECEPICK_E_PIECE, [&] { (void)bare.verdict(9, true); });
    well = well && bare.settle(0, hash(file)).kind == PIECEPICK_K_COMPLETE;
    /* Of three pieces one is nowhere. A second peer is asked for one block in endgame, or for none where endgame waits for all pieces. */
    const std::uint8_t digests[60] = {}, two[1] = {0xc0};
    for (std::uint32_t shown = 0; shown < 2; shown++) {
        Options ending;
        well = well && ending.rush == 32 && ending.shown == 1;
        ending.rush = 1;
        ending.shown = shown;
        Picker picker(16384, 3 * 16384, digests, ending);
        for (std::uint32_t worker = 0; worker < 2; worker++) {
            picker.join(worker);
            picker.bits(worker, two);
            picker.unchoke(worker);
        }
        for (int block = 0; block < 2; block++) well = well && picker.next(0, 0).kind == PIECEPICK_K_REQUEST;
        well = well && picker.next(1, 0).kind == (shown == 1 ? PIECEPICK_K_REQUEST : PIECEPICK_K_IDLE);
        well = well && picker.next(1, 0).kind == PIECEPICK_K_IDLE;
    }
    /* The first piece is beyond the peer's reach. */
    Picker slow(16384, 3 * 16384, digests, Options());
    slow.join(0);
    slow.bits(0, two);
    slow.unchoke(0);
    slow.set_level(0, 7);
    well = well && slow.reach(0, 4).kind == PIECEPICK_K_QUIET && slow.next(0, 0).piece == 1 && slow.next(0, 0).kind == PIECEPICK_K_IDLE;
    well = well && slow.order_from() == 8 && slow.set_in_order_from(5).kind == PIECEPICK_K_QUIET && slow.order_from() == 5 && !slow.is_in_order();
    /* A peer drops the piece that is in flight at it, and another one is asked for it. */
    Picker dropping(16384, 3 * 16384, digests, Options());
    for (std::uint32_t worker = 0; worker < 2; worker++) {
        dropping.join(worker);
        dropping.bits(worker, two);
        dropping.unchoke(worker);
    }
    well = well && dropping.next(0, 0).piece == 0 && dropping.rule(0, 0) == PIECEPICK_RULE_RANDOM && dropping.lack(0, 0).interesting == 1;
    well = well && dropping.availability(0) == 1 && dropping.outstanding(0) == 0 && dropping.next(1, 0).piece == 0;
    well = well && dropping.set_in_order(true).kind == PIECEPICK_K_QUIET && dropping.next(0, 0).piece == 1;
    well = well && std::string(piecepick_rule_text(dropping.rule(1, 0))) == "in order" && dropping.lack(0, 1).interesting == 0;
    well = well && throws(PIECEPICK_E_PIECE, [&] { dropping.lack(0, 3); }) && throws(PIECEPICK_E_BLOCK, [&] { (void)dropping.rule(0, 1); });
    /* A peer works alone: the other one isn't asked for the second block of its piece, until it is told off. */
    Picker apart(2 * 16384, 4 * 16384, {digests, 40}, Options());
    for (std::uint32_t worker = 0; worker < 2; worker++) {
        apart.join(worker);
        apart.bits(worker, two);
        apart.unchoke(worker);
    }
    well = well && apart.alone(1, true).kind == PIECEPICK_K_QUIET && apart.next(1, 0).kind == PIECEPICK_K_REQUEST && apart.next(0, 0).piece == 1;
    well = well && apart.next(0, 0).piece == 1 && apart.next(0, 0).kind == PIECEPICK_K_IDLE;
    well = well && apart.alone(1, false).kind == PIECEPICK_K_QUIET && apart.next(0, 0).begin == 16384 && apart.outstanding_at(0, 2).piece == 0;
    well = well && throws(PIECEPICK_E_WORKER, [&] { apart.alone(50, true); });
    /* A discarded block and a lost piece are lacking; a journal loses nothing. */
    Picker losing(2 * 16384, 4 * 16384, {digests, 40}, Options());
    losing.join(0);
    const std::string zeros(16384, '\0');
    for (std::uint32_t begin = 0; begin < 2; begin++) (void)losing.arrived(0, 0, begin * 16384, zeros);
    well = well && losing.discard(0, 16384).kind == PIECEPICK_K_FAILED && !losing.is_waiting(0) && losing.lose(0).kind == PIECEPICK_K_FAILED;
    well = well && losing.arrived(0, 0, 0, zeros).kind == PIECEPICK_K_STORED && losing.discard(0, 1).reason == PIECEPICK_R_NO_SUCH_BLOCK;
    well = well && throws(PIECEPICK_E_PIECE, [&] { losing.lose(2); }) && throws(PIECEPICK_E_PIECE, [&] { losing.discard(2, 0); });
    /* A request that was in flight already counts, and none of the same block at another peer. */
    Picker counting(2 * 16384, 4 * 16384, {digests, 40}, Options());
    for (std::uint32_t worker = 0; worker < 2; worker++) {
        counting.join(worker);
        counting.bits(worker, two);
        counting.unchoke(worker);
    }
    well = well && counting.requested(0, 1, 16384).kind == PIECEPICK_K_IN_FLIGHT && counting.outstanding_at(0, 0).begin == 16384;
    well = well && counting.requested(1, 1, 16384).reason == PIECEPICK_R_NOT_WAITING && counting.outstanding(1) == 0;
    well = well && counting.arrived(1, 1, 16384, zeros).kind == PIECEPICK_K_STORED && counting.next(0, 0).kind == PIECEPICK_K_CANCEL;
    well = well && throws(PIECEPICK_E_WORKER, [&] { counting.requested(50, 2, 0); }) && throws(PIECEPICK_E_PIECE, [&] { counting.requested(0, 2, 0); });
    first = open();
    return well && !first.is_complete() && throws(PIECEPICK_E_INCOMPLETE, [&] { first.read(0, room); }) ? 0 : 1;
}
CPP

cpp() {
    checked "g++ -std=c++17" -Wconversion -Wshadow "$here/depths.cpp" -o depths
    ./depths "$here/depths.txt"

    checked "g++ -std=c++17" -Wconversion -Wshadow "$here/example.cpp" "$here/out/libpiecepick.a" -o example
    ./example try.torrent content
    checked "g++ -std=c++17" moves.cpp "$here/out/libpiecepick.a" -o moves
    ./moves || fail "piecepick.hpp doesn't do what its words say"
    if command -v clang++ > /dev/null; then
        warned "clang++ -std=c++17" "$here/example.cpp" "$here/out/libpiecepick.a" -o example
        ./example try.torrent content
        warned "clang++ -std=c++17" moves.cpp "$here/out/libpiecepick.a" -o moves
        ./moves || fail "piecepick.hpp by clang++ doesn't do what its words say"
    fi
    echo "piecepick.hpp: well"
}

delays() {
    cc -O2 -Wall -Wextra -Werror -I "$here/out" "$here/delays.c" "$here/out/libpiecepick.a" -o delays
    ./delays
    for program in costs rounds; do
        cc -O2 -Wall -Wextra -Werror -I "$here/out" "$here/$program.c" "$here/out/libpiecepick.a" -o "$program"
    done
    ./rounds 1000
}

python() { python3 -B -W error -m unittest discover -s "$here/python/tests"; }

fetch() { (cd "$here" && python3 -B -m fetch.tests); }

rust() {
    if command -v cargo > /dev/null; then
        export CARGO_TARGET_DIR="$work/target" PIECEPICK_LIB_DIR="$here/out"
        cargo test --offline --quiet --manifest-path "$here/rust/Cargo.toml" || fail "the Rust crate"
        cargo run --offline --quiet --manifest-path "$here/rust/Cargo.toml" --example loop || fail "the Rust example"
        cargo run --offline --quiet --manifest-path "$here/rust/Cargo.toml" --example threads || fail "the Rust example with threads"
    else
        echo "cargo isn't here: the Rust crate was passed over"
    fi
}

lint() { "$here/lint.sh"; }

for part in "$@"; do "$part"; done
