// Measures libtorrent-rasterbar's piece_picker alone on the workload of crates/bench/README.md. One run, one process, one thread.
//   bench_libtorrent P [--blocks 16] [--peers 50] [--density 1] [--depth 0] [--opts strict|default] [--classes] [--repeat N] [--trace FILE]
#include "libtorrent/piece_picker.hpp"
#include "libtorrent/bitfield.hpp"
#include "libtorrent/performance_counters.hpp"
#include <chrono>
#include <ctime>
#include <cstdio>
#include <cstdlib>
#include <cstring>
#include <malloc.h>
#include <new>
#include <string>
#include <vector>
#include <x86intrin.h>

static long g_live = 0, g_peak = 0, g_allocs = 0;
void* operator new(std::size_t n)
{
	void* p = std::malloc(n); if (!p) throw std::bad_alloc();
	g_live += long(malloc_usable_size(p)); ++g_allocs; if (g_live > g_peak) g_peak = g_live; return p;
}
void operator delete(void* p) noexcept { if (p) g_live -= long(malloc_usable_size(p)); std::free(p); }
void operator delete(void* p, std::size_t) noexcept { operator delete(p); }
void* operator new[](std::size_t n) { return operator new(n); }
void operator delete[](void* p) noexcept { operator delete(p); }
void operator delete[](void* p, std::size_t) noexcept { operator delete(p); }

using namespace libtorrent;
// processor time of this thread: the machine is shared. (By class it is the time stamp counter, which runs on while the thread waits.)
struct clk { static double now() { timespec t; clock_gettime(CLOCK_THREAD_CPUTIME_ID, &t); return double(t.tv_sec) + 1e-9 * double(t.tv_nsec); } };
static double secs(double a, double b) { return b - a; }
using wall = std::chrono::steady_clock;

struct split_mix { std::uint64_t s; std::uint64_t next() {
	s += 0x9E3779B97F4A7C15ull; std::uint64_t z = s;
	z = (z ^ (z >> 30)) * 0xBF58476D1CE4E5B9ull; z = (z ^ (z >> 27)) * 0x94D049BB133111EBull; return z ^ (z >> 31); } };

struct op_class { std::uint64_t n = 0, cycles = 0, worst = 0; void add(std::uint64_t c) { ++n; cycles += c; if (c > worst) worst = c; } };
enum { PICK, DOWNLOADING, ARRIVE, PASS, NCLASS };
static char const* class_name[] = {"pick_pieces", "mark_as_downloading", "mark_as_writing+finished", "piece_passed+flushed"};

struct outstanding { piece_block b[64]; int n = 0;
	void push(piece_block x) { b[n++] = x; }
	void erase(int i) { for (int k = i; k + 1 < n; ++k) b[k] = b[k + 1]; --n; } };

int main(int argc, char** argv)
{
	if (argc < 2) { std::fprintf(stderr, "usage: bench_libtorrent P [options]\n"); return 2; }
	int const P = std::atoi(argv[1]);
	int blocks = 16, peers = 50, density = 1, depth = 0, repeat = 1; bool strict = true, classes = false; char const* trace = nullptr;
	for (int i = 2; i < argc; ++i) {
		std::string a = argv[i];
		if (a == "--blocks") blocks = std::atoi(argv[++i]); else if (a == "--peers") peers = std::atoi(argv[++i]);
		else if (a == "--density") density = std::atoi(argv[++i]); else if (a == "--depth") depth = std::atoi(argv[++i]);
		else if (a == "--opts") strict = std::string(argv[++i]) == "strict"; else if (a == "--classes") classes = true;
		else if (a == "--repeat") repeat = std::atoi(argv[++i]); else if (a == "--trace") trace = argv[++i];
		else { std::fprintf(stderr, "unknown %s\n", a.c_str()); return 2; }
	}
	int const N = peers + 1; // the last one is the seed
	std::vector<typed_bitfield<piece_index_t>> bits;
	{
		split_mix g{1};
		for (int i = 0; i < N; ++i) {
			bits.emplace_back(P, i == peers);
			if (i == peers) continue;
			for (int j = 0; j * 64 < P; ++j) {
				std::uint64_t w = g.next(); for (int d = 1; d < density; ++d) w &= g.next();
				for (int k = 0; k < 64 && j * 64 + k < P; ++k) if ((w >> k) & 1) bits[std::size_t(i)].set_bit(piece_index_t(j * 64 + k));
			}
		}
	}
	std::vector<std::uint64_t> ids(std::size_t(N), 0); // addresses that stand for the peers: the picker never looks behind them
	auto peer_of = [&](int i) { return reinterpret_cast<torrent_peer*>(&ids[std::size_t(i)]); };
	auto* pc = new counters;
	std::vector<piece_index_t> const suggested;
	std::vector<outstanding> out(static_cast<std::size_t>(N));
	std::vector<piece_block> found; found.reserve(256);
	std::vector<char> active(std::size_t(N), 1);
	std::FILE* tf = trace ? std::fopen(trace, "w") : nullptr;

	for (int r = 0; r < repeat; ++r) {
		for (auto& o : out) o.n = 0;
		std::fill(active.begin(), active.end(), 1);
		op_class cls[NCLASS];
		long const base = g_live; g_peak = g_live; long const allocs0 = g_allocs;
		auto const t0 = clk::now();
		piece_picker pp(std::int64_t(P) * blocks * default_block_size, blocks * default_block_size);
		auto const t1 = clk::now();
		long const made = g_live - base;
		for (int i = 0; i < N; ++i) {
			if (i == peers) pp.inc_refcount_all(peer_of(i)); else pp.inc_refcount(bits[std::size_t(i)], peer_of(i));
		}
		auto const t2 = clk::now();
		picker_options_t const opts = strict ? (piece_picker::rarest_first | piece_picker::prioritize_partials) : piece_picker::rarest_first;
		picker_options_t const opts_random = strict ? piece_picker::prioritize_partials : picker_options_t{};
		std::uint64_t asks = 0, picks = 0, empty = 0, busy = 0, arrivals = 0, dropped = 0; std::size_t partial_most = 0; std::uint64_t c0 = 0;
		auto arrive = [&](int i, piece_block b) {
			++arrivals; bool const others = depth > 0 && pp.num_peers(b) > 1;
			if (classes) c0 = __rdtsc();
			bool const fresh = pp.mark_as_writing(b, peer_of(i));
			if (fresh) pp.mark_as_finished(b, peer_of(i));
			if (classes) cls[ARRIVE].add(__rdtsc() - c0);
			if (!fresh) { ++dropped; return; }
			if (others) for (int q = 0; q < N; ++q) if (q != i) { // cancels
				auto& o = out[std::size_t(q)];
				for (int k = 0; k < o.n; ++k) if (o.b[k] == b) { o.erase(k); break; }
			}
			if (pp.is_piece_finished(b.piece_index)) {
				if (classes) c0 = __rdtsc();
				pp.piece_passed(b.piece_index); pp.piece_flushed(b.piece_index);
				if (classes) cls[PASS].add(__rdtsc() - c0);
			}
		};
		int left = N; bool stop = false;
		while (!stop && !pp.is_seeding() && left > 0) {
			for (int i = 0; i < N && !stop; ++i) {
				if (!active[std::size_t(i)]) continue;
				auto& o = out[std::size_t(i)];
				if (depth > 0 && o.n == depth) { piece_block b = o.b[0]; o.erase(0); arrive(i, b); if (pp.is_seeding()) { stop = true; break; } }
				++asks;
				found.clear();
				if (classes) c0 = __rdtsc();
				pp.pick_pieces(bits[std::size_t(i)], found, 1, 0, peer_of(i), pp.num_have() > 0 ? opts : opts_random, suggested, N, *pc);
				if (classes) cls[PICK].add(__rdtsc() - c0);
				// the choice among what pick_pieces gives is that of request_a_block (request_blocks.cpp), strict_end_game_mode on
				piece_block pick = piece_block::invalid; bool is_busy = false;
				for (auto const& b : found) {
					if (pp.num_peers(b) > 0) {
						bool const dont = pp.get_download_queue_size() < pp.num_want_left() || o.n > 0;
						if (dont) break;
						pick = b; is_busy = true; continue;
					}
					pick = b; is_busy = false; break;
				}
				if (pick == piece_block::invalid) {
					++empty;
					if (o.n > 0) { piece_block b = o.b[0]; o.erase(0); arrive(i, b); if (pp.is_seeding()) stop = true; }
					else if (found.empty() && depth == 0) { active[std::size_t(i)] = 0; --left; }
					continue;
				}
				++picks; if (is_busy) ++busy;
				if (tf && r == 0) std::fprintf(tf, "%d %d %d\n", i, int(pick.piece_index), pick.block_index);
				if (classes) c0 = __rdtsc();
				pp.mark_as_downloading(pick, peer_of(i));
				if (classes) cls[DOWNLOADING].add(__rdtsc() - c0);
				if (depth == 0) { arrive(i, pick); if (pp.is_seeding()) stop = true; } else o.push(pick);
				auto const partial = std::size_t(pp.get_download_queue_size()); if (partial > partial_most) partial_most = partial;
			}
		}
		auto const t3 = clk::now();
		double const run = secs(t2, t3);
		std::printf("libtorrent P=%d blocks=%d peers=%d+seed density=2^-%d depth=%d opts=%s%s: had=%d asks=%llu picks=%llu busy=%llu nothing=%llu dropped=%llu partial_most=%zu "
			"new=%.6fs joins=%.6fs run=%.4fs picks/s=%.0f ns/ask+arrival=%.1f bytes_after_new=%ld bytes_peak=%ld bytes/piece_after_new=%.1f bytes/piece_peak=%.1f allocs=%ld\n"
			, P, blocks, peers, density, depth, strict ? "strict" : "default", classes ? " (timed by class)" : "", pp.num_have()
			, (unsigned long long)asks, (unsigned long long)picks, (unsigned long long)busy, (unsigned long long)empty, (unsigned long long)dropped, partial_most
			, secs(t0, t1), secs(t1, t2), run, double(picks) / run, run * 1e9 / double(asks), made, g_peak - base, double(made) / P, double(g_peak - base) / P, g_allocs - allocs0);
		if (classes) {
			double const ghz = [] { auto a = wall::now(); auto c = __rdtsc(); while (wall::now() - a < std::chrono::milliseconds(50)) {} return double(__rdtsc() - c) / double((wall::now() - a).count()); }();
			for (int k = 0; k < NCLASS; ++k) std::printf("  %-26s n=%llu mean=%.1f ns worst=%.1f us\n", class_name[k], (unsigned long long)cls[k].n
				, cls[k].n ? double(cls[k].cycles) / double(cls[k].n) / ghz : 0.0, double(cls[k].worst) / ghz / 1e3);
		}
	}
	// single events on a fresh picker: a Have, a leave and join of half the pieces with the pick after it, a pick at a peer that shows nothing wanted
	{
		piece_picker pp(std::int64_t(P) * blocks * default_block_size, blocks * default_block_size);
		for (int i = 0; i < N; ++i) { if (i == peers) pp.inc_refcount_all(peer_of(i)); else pp.inc_refcount(bits[std::size_t(i)], peer_of(i)); }
		found.clear();
		auto a = clk::now();
		pp.pick_pieces(bits[0], found, 1, 0, peer_of(0), piece_picker::rarest_first | piece_picker::prioritize_partials, suggested, N, *pc);
		auto b = clk::now();
		std::uint64_t extra = 77; split_mix g{3}; int const H = 20000;
		auto c = clk::now();
		for (int i = 0; i < H; ++i) pp.inc_refcount(piece_index_t(int(g.next() % std::uint64_t(P))), reinterpret_cast<torrent_peer*>(&extra));
		auto d = clk::now();
		int const J = 20; double join = 0;
		for (int i = 0; i < J; ++i) {
			auto x = clk::now();
			pp.dec_refcount(bits[std::size_t(i % peers)], peer_of(i % peers)); pp.inc_refcount(bits[std::size_t(i % peers)], peer_of(i % peers));
			found.clear();
			pp.pick_pieces(bits[0], found, 1, 0, peer_of(0), piece_picker::rarest_first | piece_picker::prioritize_partials, suggested, N, *pc);
			join += secs(x, clk::now());
		}
		typed_bitfield<piece_index_t> none(P, false); found.clear();
		auto e = clk::now();
		for (int i = 0; i < 20; ++i) pp.pick_pieces(none, found, 1, 0, peer_of(0), piece_picker::rarest_first | piece_picker::prioritize_partials, suggested, N, *pc);
		auto f = clk::now();
		std::printf("  single events: first pick (sorts all) %.1f us; have (clean list) %.1f ns; leave+join+pick %.1f us; pick at a peer that shows nothing %.2f us\n"
			, secs(a, b) * 1e6, secs(c, d) * 1e9 / H, join * 1e6 / J, secs(e, f) * 1e6 / 20);
	}
	if (tf) std::fclose(tf);
	return 0;
}
