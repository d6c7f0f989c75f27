// This file may be used under GPLv2 (SPDX: GPL-2.0-only), GPLv3 (SPDX: GPL-3.0-only),
// or any future license endorsed by Mnemosyne LLC.

#pragma once

#ifdef WITH_PIECEPICK
#include <array>
#include <memory>
#include <optional>
#include <vector>

#include <piecepick.h>
#include "libtransmission/transmission.h"
#include "libtransmission/crypto-utils.h" // tr_salt_shaker
#include "libtransmission/observable.h"

class tr_peer_event;
class tr_peerMsgs;
struct tr_peer;

/** Chooses what to request by the piecepick library. A Wishlist asks it first, and chooses itself where that can't serve. */
class PiecePick
{
public:
    void ask_for(tr_torrent& tor, std::vector<tr_peerMsgs*> const& peers, tr_peer const& peer);
    // the next blocks to request from whom ask_for() named, or nothing where the library can't serve
    [[nodiscard]] std::optional<std::vector<tr_block_span_t>> next(size_t n_wanted_blocks);
    void told(tr_peer& peer, tr_peer_event const& event);
    void left(tr_peer const& peer);

private:
    // A peer that has joined. The library knows it by its place among the workers, behind which is the disk.
    struct Worker
    {
        tr_peer* peer = nullptr;
        tr_peerMsgs* msgs = nullptr; // the same one, or nothing where it is a web seed
        uint64_t heard_at = 0U; // msec: when it sent a block, or was asked with none in flight
        std::optional<uint64_t> idle_at; // the epoch in which there was nothing to ask for
        piecepick_depth_by_rate rate = {};
        uint32_t asks_at = 0U; // with so many in flight it is asked again
        bool is_bad = false; // a piece that it had a part in failed, and none has passed since
        uint32_t ramp = 32U; // the depth until the rate is known
        uint64_t msec = 500U; // requests of so long are in flight
        uint64_t least_msec = 0U; // by how long the first one took
        std::optional<tr_block_index_t> probe; // a request whose time is taken
        uint64_t probed_at = 0U;
    };
    template<typename T = piecepick_answer, typename Function, typename... Args>
    T call(Function function, Args... args)
    {
        auto answer = T{};
        serves_ = serves_ && function(picker_.get(), args..., &answer) == PIECEPICK_OK;
        return answer;
    }
    [[nodiscard]] uint32_t find(tr_peer const* peer) const;
    void open(tr_torrent& tor);
    void restore();
    void set_levels();
    void join(tr_peer& peer, bool is_alone = true);
    void show(uint32_t worker);
    void came(Worker& worker, tr_peer_event const& event);
    void verdict(tr_piece_index_t piece, bool passed);
    void look_over(uint64_t now);
    [[nodiscard]] std::vector<tr_block_span_t> ask();
    tr_torrent* tor_ = nullptr;
    std::shared_ptr<piecepick_picker> picker_;
    piecepick_options options_ = PIECEPICK_OPTIONS;
    std::vector<Worker> workers_;
    tr_salt_shaker<uint64_t, 64U> salter_;
    uint32_t asked_ = 0U;
    uint64_t looked_at_ = 0U;
    bool is_alone_ = false; // some peers have pieces of their own
    bool serves_ = false;
    std::array<libtransmission::ObserverTag, 4U> tags_;
};

// What is put into other files is nothing without the library.
#define tr_piecepick(code) code
#define tr_after_unwanted ReadState::Now // behind a block that nobody waits for: at Err the next bytes stay unread until more come
#else
#define tr_piecepick(code)
#define tr_after_unwanted ReadState::Err
#endif
