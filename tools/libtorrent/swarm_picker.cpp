// libtorrent-rasterbar's piece_picker behind a few functions of C, for the simulator in ../swarm (src/libtorrent.rs). A neighbour is a slot below 64.
// What libtorrent's connections and its torrent do with a picker is done there. Here are the picker itself and the options of its calls.
#include "libtorrent/bitfield.hpp"
#include "libtorrent/performance_counters.hpp"
#include "libtorrent/piece_picker.hpp"
#include "libtorrent/random.hpp"
#include <algorithm>
#include <cstdint>
#include <vector>

using namespace libtorrent;
using piece_flags = typed_bitfield<piece_index_t>;

namespace {

constexpr std::size_t slots = 64;

// The usual setting initial_picker_threshold.
constexpr int random_pieces = 4;

} // namespace

struct swarm_picker {
	swarm_picker(int pieces, int blocks)
		: picker(std::int64_t(pieces) * blocks * default_block_size, blocks * default_block_size), shown(slots, piece_flags(pieces, false)) {}

	// The picker compares pointers to peers and looks at nothing behind them: the addresses of these stand for the slots.
	torrent_peer* peer(std::uint32_t slot) { return reinterpret_cast<torrent_peer*>(&ids[slot]); }

	piece_picker picker;
	std::vector<piece_flags> shown;
	std::uint64_t ids[slots] = {};
	counters stats;
	std::vector<piece_block> found;
};

struct swarm_block {
	std::uint32_t piece, index;
};

static piece_block block_of(swarm_block block) { return {piece_index_t(int(block.piece)), int(block.index)}; }

extern "C" {

// A picker that has nothing. All pickers of a thread share one generator, which starts anew from the seed.
swarm_picker* swarm_picker_open(std::uint32_t pieces, std::uint32_t blocks, std::uint32_t seed)
{
	aux::random_engine().seed(seed);
	return new swarm_picker(int(pieces), int(blocks));
}

void swarm_picker_close(swarm_picker* p) { delete p; }

// A neighbour comes, and shows these pieces, spelled as in a `bitfield` message.
void swarm_picker_join(swarm_picker* p, std::uint32_t slot, std::uint8_t const* flags)
{
	p->shown[slot] = piece_flags(reinterpret_cast<char const*>(flags), p->picker.num_pieces());
	p->picker.inc_refcount(p->shown[slot], p->peer(slot));
}

// It goes. What was asked of it has been aborted.
void swarm_picker_leave(swarm_picker* p, std::uint32_t slot)
{
	p->picker.dec_refcount(p->shown[slot], p->peer(slot));
	p->picker.clear_peer(p->peer(slot));
	p->shown[slot].clear_all();
}

// It has one piece more.
void swarm_picker_have(swarm_picker* p, std::uint32_t slot, std::uint32_t piece)
{
	p->shown[slot].set_bit(piece_index_t(int(piece)));
	p->picker.inc_refcount(piece_index_t(int(piece)), p->peer(slot));
}

// Up to `room` of the blocks that the picker names for a neighbour, where `count` are wanted. Among them may be blocks that others are asked for.
std::uint32_t swarm_picker_pick(swarm_picker* p, std::uint32_t slot, std::uint32_t count, std::uint32_t contiguous, std::uint32_t peers
	, swarm_block* blocks, std::uint32_t room)
{
	static std::vector<piece_index_t> const suggested;
	auto const options = p->picker.num_have() < random_pieces ? piece_picker::prioritize_partials : piece_picker::rarest_first;
	p->found.clear();
	p->picker.pick_pieces(p->shown[slot], p->found, int(count), int(contiguous), p->peer(slot), options, suggested, int(peers), p->stats);
	auto const most = std::min(std::size_t(room), p->found.size());
	std::transform(p->found.begin(), p->found.begin() + std::ptrdiff_t(most), blocks, [](piece_block const& block) {
		return swarm_block{std::uint32_t(static_cast<int>(block.piece_index)), std::uint32_t(block.block_index)};
	});
	return std::uint32_t(most);
}

// The block is asked of the neighbour. False where it came already.
bool swarm_picker_ask(swarm_picker* p, std::uint32_t slot, swarm_block block) { return p->picker.mark_as_downloading(block_of(block), p->peer(slot)); }

// The block is no longer asked of the neighbour.
void swarm_picker_abort(swarm_picker* p, std::uint32_t slot, swarm_block block) { p->picker.abort_download(block_of(block), p->peer(slot)); }

// Of how many neighbours the block is asked.
std::uint32_t swarm_picker_asked(swarm_picker const* p, swarm_block block) { return std::uint32_t(p->picker.num_peers(block_of(block))); }

// Whether the block came.
bool swarm_picker_came(swarm_picker const* p, swarm_block block) { return p->picker.is_downloaded(block_of(block)); }

// Whether each piece that isn't had is begun: with strict_end_game_mode blocks are asked twice from then on.
bool swarm_picker_is_endgame(swarm_picker const* p) { return p->picker.get_download_queue_size() >= p->picker.num_want_left(); }

// A block came from the neighbour, that hadn't come before, and is written at once. True where its piece is had now: its check is passed at once.
bool swarm_picker_arrived(swarm_picker* p, std::uint32_t slot, swarm_block block)
{
	auto const b = block_of(block);
	p->picker.mark_as_writing(b, p->peer(slot));
	p->picker.mark_as_finished(b, p->peer(slot));
	if (!p->picker.is_piece_finished(b.piece_index)) return false;
	p->picker.piece_passed(b.piece_index);
	return true;
}

} // extern "C"
