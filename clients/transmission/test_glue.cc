// Tests PiecePick against a torrent of eight pieces in two files, with peers in memory. `build.sh --test` compiles and runs it.

#include <cstdio>
#include <cstdlib>
#include <set>
#include <string>
#include <vector>

#define LIBTRANSMISSION_PEER_MODULE
#include "libtransmission/transmission.h"

#include "libtransmission/peer-mgr-piecepick.h"
#include "libtransmission/quark.h"
#include "libtransmission/session.h"
#include "libtransmission/torrent.h"
#include "libtransmission/peer-common.h"
#include "libtransmission/variant.h"

namespace
{
auto constexpr Pieces = 8U;
auto constexpr BlocksPerPiece = 4U;
auto constexpr Blocks = Pieces * BlocksPerPiece;

int failures = 0;

void check(bool is_so, char const* what)
{
    std::printf("%s  %s\n", is_so ? "well " : "WRONG", what);
    failures += is_so ? 0 : 1;
}

// A peer that does what the test says.
class Peer final : public tr_peer
{
public:
    Peer(tr_torrent const& tor, PiecePick& pick)
        : tr_peer{ tor }
        , have{ tor.piece_count() }
        , tor_{ tor }
        , pick_{ pick }
    {
        have.set_has_all();
    }

    [[nodiscard]] Speed get_piece_speed(uint64_t /*now*/, tr_direction /*direction*/) const override
    {
        return {};
    }

    [[nodiscard]] std::string display_name() const override
    {
        return "peer";
    }

    [[nodiscard]] tr_bitfield const& has() const noexcept override
    {
        return have;
    }

    [[nodiscard]] size_t active_req_count(tr_direction /*direction*/) const noexcept override
    {
        return active_requests.count();
    }

    void request_blocks(tr_block_span_t const* /*spans*/, size_t /*n_spans*/) override
    {
    }

    void ban() override
    {
    }

    void maybe_cancel_block_request(tr_block_index_t block) override
    {
        if (active_requests.test(block))
        {
            active_requests.unset(block);
            pick_.told(*this, tr_peer_event::SentCancel(tor_.block_info(), block));
        }
    }

    // Asks for so many blocks at most, which are requested then.
    std::vector<tr_block_index_t> ask(tr_torrent& tor, size_t n_blocks)
    {
        auto blocks = std::vector<tr_block_index_t>{};
        pick_.ask_for(tor, {}, *this);
        for (auto const& span : pick_.next(n_blocks).value_or(std::vector<tr_block_span_t>{}))
        {
            for (auto block = span.begin; block < span.end; ++block)
            {
                blocks.push_back(block);
                active_requests.set(block);
            }
            pick_.told(*this, tr_peer_event::SentRequest(tor_.block_info(), span));
        }
        return blocks;
    }

    void send(tr_block_index_t block)
    {
        active_requests.unset(block);
        pick_.told(*this, tr_peer_event::GotBlock(tor_.block_info(), block));
    }

    void reject(tr_block_index_t block)
    {
        active_requests.unset(block);
        pick_.told(*this, tr_peer_event::GotRejected(tor_.block_info(), block));
    }

    tr_bitfield have;

private:
    tr_torrent const& tor_;
    PiecePick& pick_;
};

std::string metainfo(uint32_t piece_length)
{
    auto const half = std::to_string(uint64_t{ piece_length } * Pieces / 2U);
    auto const file = [&half](char const* name)
    {
        return "d6:lengthi" + half + "e4:pathl1:" + name + "ee";
    };
    auto const info = "d5:filesl" + file("a") + file("b") + "e4:name1:n12:piece lengthi" + std::to_string(piece_length) +
        "e6:pieces" + std::to_string(20U * Pieces) + ":" + std::string(20U * Pieces, 'x') + "e";
    return "d4:info" + info + "e";
}

tr_torrent* torrent(tr_session* session, uint32_t piece_length)
{
    auto const text = metainfo(piece_length);
    auto* const ctor = tr_ctorNew(session);
    tr_ctorSetMetainfo(ctor, std::data(text), std::size(text), nullptr);
    tr_ctorSetPaused(ctor, TR_FORCE, true);
    auto* const tor = tr_torrentNew(ctor, nullptr);
    tr_ctorFree(ctor);
    return tor;
}

std::set<tr_block_index_t> set_of(std::vector<tr_block_index_t> const& blocks)
{
    return { std::begin(blocks), std::end(blocks) };
}

// Sends a piece and tells the verdict, as tr_torrent does.
void send_piece(tr_torrent& tor, Peer& peer, tr_piece_index_t piece, bool is_good)
{
    for (auto [block, end] = tor.block_span_for_piece(piece); block < end; ++block)
    {
        peer.send(block);
    }
    (is_good ? tor.piece_completed_ : tor.got_bad_piece_).emit(&tor, piece);
}

void test_two_peers(tr_torrent& tor)
{
    auto pick = PiecePick{};
    auto one = Peer{ tor, pick };
    auto two = Peer{ tor, pick };
    auto const first = one.ask(tor, Blocks / 2U);
    auto const second = two.ask(tor, Blocks / 2U);
    auto both = set_of(first);
    both.merge(set_of(second));
    check(std::size(first) == Blocks / 2U && std::size(both) == Blocks, "two peers are asked for other blocks");

    auto const rejected = first.front();
    one.reject(rejected);
    check(set_of(two.ask(tor, 1U)).count(rejected) == 1U, "what one rejects the other one is asked for");

    auto third = Peer{ tor, pick };
    pick.left(one);
    auto const freed = set_of(third.ask(tor, Blocks));
    check(freed.count(first.back()) == 1U, "what was in flight at a peer that left is asked of another one");
}

void test_verdicts(tr_torrent& tor)
{
    auto pick = PiecePick{};
    auto one = Peer{ tor, pick };
    auto two = Peer{ tor, pick };
    (void)one.ask(tor, Blocks);
    send_piece(tor, one, 0U, true);
    send_piece(tor, one, 1U, false);
    auto const again = set_of(two.ask(tor, BlocksPerPiece));
    check(std::size(again) == BlocksPerPiece && *std::begin(again) == BlocksPerPiece, "a piece that failed is asked for again");
    check(*std::rbegin(again) == 2U * BlocksPerPiece - 1U, "a piece that passed isn't");
}

void test_alone(tr_torrent& tor)
{
    auto pick = PiecePick{};
    auto one = Peer{ tor, pick };
    auto two = Peer{ tor, pick };
    auto const piece = one.ask(tor, 1U).front() / BlocksPerPiece;
    check(two.ask(tor, 1U).front() / BlocksPerPiece != piece, "a new peer has a piece of its own");

    auto const rest = one.ask(tor, BlocksPerPiece - 1U);
    check(rest.front() / BlocksPerPiece == piece && rest.back() / BlocksPerPiece == piece, "and goes on with it");

    (void)one.ask(tor, Blocks / 4U);
    send_piece(tor, one, piece, false);
    check(std::empty(one.ask(tor, Blocks)), "once its piece failed it is asked for no more while more than four are in flight");
    check(!std::empty(two.ask(tor, 1U)), "and others aren't bound by that");
}

void test_choke(tr_torrent& tor)
{
    auto pick = PiecePick{};
    auto one = Peer{ tor, pick };
    auto two = Peer{ tor, pick };
    auto const first = one.ask(tor, Blocks);
    pick.told(one, tr_peer_event::GotChoke());
    one.active_requests.set_has_none();
    check(set_of(two.ask(tor, Blocks)) == set_of(first), "a choke frees all that is in flight");
}

void test_choice(tr_torrent& tor)
{
    auto pick = PiecePick{};
    auto one = Peer{ tor, pick };
    tor.set_sequential_download(true);
    auto const ordered = one.ask(tor, 5U * BlocksPerPiece);
    tor.set_sequential_download(false);
    auto const edges = set_of({ std::begin(ordered), std::begin(ordered) + 4 * BlocksPerPiece });
    check(edges.count(0U) == 1U && edges.count(3U * BlocksPerPiece) == 1U, "in order the edges of files come first");
    check(edges.count(4U * BlocksPerPiece) == 1U && edges.count(Blocks - 1U) == 1U, "which transmission prefers");
    check(ordered.back() == 2U * BlocksPerPiece - 1U, "then come the others in order");

    auto const file = tr_file_index_t{ 1U };
    tor.set_files_wanted(&file, 1U, false);
    auto two = PiecePick{};
    auto other = Peer{ tor, two };
    check(*std::rbegin(set_of(other.ask(tor, Blocks))) == Blocks / 2U - 1U, "no block is asked for of a file that isn't wanted");
    tor.set_files_wanted(&file, 1U, true);
    check(*std::begin(set_of(other.ask(tor, Blocks))) >= Blocks / 2U, "once it is wanted its blocks are");
}

void test_shows(tr_torrent& tor)
{
    auto pick = PiecePick{};
    auto one = Peer{ tor, pick };
    one.have.set_has_none();
    check(std::empty(one.ask(tor, Blocks)), "a peer that shows nothing isn't asked");
    one.have.set(3U);
    pick.told(one, tr_peer_event::GotHave(3U));
    auto const blocks = set_of(one.ask(tor, Blocks));
    check(std::size(blocks) == BlocksPerPiece && *std::begin(blocks) == 3U * BlocksPerPiece, "a peer is asked for what it shows");
}

void test_in_flight(tr_torrent& tor)
{
    auto pick = PiecePick{};
    auto one = Peer{ tor, pick };
    auto two = Peer{ tor, pick };
    one.active_requests.set_span(0U, BlocksPerPiece);
    auto const next = one.ask(tor, 1U);
    check(next.front() >= BlocksPerPiece, "a peer isn't asked again for what was in flight before the picker was");
    auto const others = set_of(two.ask(tor, Blocks));
    check(*std::begin(others) >= BlocksPerPiece, "nor is another one");
    check(std::size(others) == Blocks - BlocksPerPiece - 1U, "which is asked for all that isn't in flight");
}

void test_more_peers(tr_torrent& tor)
{
    auto const limit = tor.peer_limit();
    tor.set_peer_limit(1U);
    auto pick = PiecePick{};
    auto one = Peer{ tor, pick };
    auto two = Peer{ tor, pick };
    auto three = Peer{ tor, pick };
    auto const first = one.ask(tor, Blocks / 4U);
    auto all = set_of(first);
    all.merge(set_of(two.ask(tor, Blocks / 4U)));
    all.merge(set_of(three.ask(tor, Blocks / 4U)));
    check(std::size(all) == 3U * Blocks / 4U, "with more peers than its limit a torrent has a picker that knows what is in flight");

    pick.left(one);
    one.active_requests.set_has_none();
    check(set_of(three.ask(tor, Blocks)).count(first.back()) == 1U, "and that frees it once its peer leaves");
    tor.set_peer_limit(limit);
}
} // namespace

int main(int argc, char** argv)
{
    auto settings = tr_variant::make_map();
    for (auto const key : { TR_KEY_dht_enabled, TR_KEY_lpd_enabled, TR_KEY_pex_enabled, TR_KEY_port_forwarding_enabled })
    {
        (*settings.get_if<tr_variant::Map>())[key] = false;
    }
    auto* const session = tr_sessionInit(argc > 1 ? argv[1] : ".", false, settings);
    auto* const tor = torrent(session, BlocksPerPiece * tr_block_info::BlockSize);
    test_two_peers(*tor);
    test_verdicts(*tor);
    test_alone(*tor);
    test_choke(*tor);
    test_choice(*tor);
    test_shows(*tor);
    test_in_flight(*tor);
    test_more_peers(*tor);

    auto pick = PiecePick{};
    auto* const odd = torrent(session, BlocksPerPiece * tr_block_info::BlockSize + 1024U);
    auto const peer = Peer{ *odd, pick };
    pick.ask_for(*odd, {}, peer);
    check(!pick.next(1U), "pieces that aren't of whole blocks are left to the Wishlist");
    std::fflush(stdout);
    std::_Exit(failures == 0 ? EXIT_SUCCESS : EXIT_FAILURE); // the session has threads that nothing waits for here
}
