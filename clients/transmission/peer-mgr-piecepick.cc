// This file may be used under GPLv2 (SPDX: GPL-2.0-only), GPLv3 (SPDX: GPL-3.0-only),
// or any future license endorsed by Mnemosyne LLC.

#define LIBTRANSMISSION_PEER_MODULE
#include "libtransmission/peer-mgr-piecepick.h"

#include <algorithm>

#include "libtransmission/torrent.h" // before peer-msgs.h, which needs more than it includes
#include "libtransmission/peer-msgs.h"
#include "libtransmission/utils.h" // tr_time_msec

namespace
{
auto constexpr MostPeers = size_t{ 1023U }; // with the disk they are 1,024 workers
auto constexpr Deepest = uint32_t{ 800U }; // requests in flight at a peer
auto constexpr LeastDepth = uint32_t{ 4U };
auto constexpr LateMsec = uint64_t{ 10000U }; // a peer that sends no block for so long is late with all requests
auto constexpr MostMsec = uint64_t{ 1500U }; // requests of so long are in flight at most
auto constexpr RampMsec = uint64_t{ 2000U }; // so long the rate says too little
} // namespace

// Where there is no such peer, it is the number of the disk.
uint32_t PiecePick::find(tr_peer const* peer) const
{
    auto const it = std::find_if(std::begin(workers_), std::end(workers_), [peer](auto const& w) { return w.peer == peer; });
    return std::distance(std::begin(workers_), it);
}

void PiecePick::open(tr_torrent& tor)
{
    tor_ = &tor;
    auto const n_workers = std::max(tor.peer_limit() + tor.webseed_count(), 2U * std::size(workers_));
    auto known = std::vector<Worker>(std::min(n_workers, MostPeers));
    known.swap(workers_);
    auto digests = std::vector<tr_sha1_digest_t>(tor.piece_count());
    std::generate(std::begin(digests), std::end(digests), [&tor, piece = 0U]() mutable { return tor.piece_hash(piece++); });
    options_.workers = std::size(workers_) + 1U;
    options_.deepest = std::clamp(uint32_t(tor.block_count() / 16U), 128U, Deepest);
    options_.rush = LeastDepth;
    piecepick_picker* picker = nullptr;
    auto const* const data = reinterpret_cast<uint8_t const*>(std::data(digests));
    auto const size = std::size(digests) * sizeof(tr_sha1_digest_t);
    serves_ = piecepick_open_parts(&picker, tor.piece_size(), tor.total_size(), data, size, &options_) == PIECEPICK_OK &&
        tor.piece_size() % tr_block_info::BlockSize == 0U; // else blocks cross the borders of pieces
    picker_.reset(picker, [](auto* closed) { piecepick_close(&closed); });
    restore();
    set_levels();
    std::for_each(std::begin(known), std::end(known), [this](auto const& old) { join(*old.peer, old.is_bad); });
    tags_ = { tor.got_bad_piece_.observe([this](auto*, auto piece) { verdict(piece, false); }),
              tor.piece_completed_.observe([this](auto*, auto piece) { verdict(piece, true); }),
              tor.priority_changed_.observe([this](auto*, auto const*, auto, auto) { set_levels(); }),
              tor.sequential_download_changed_.observe([this](tr_torrent*, bool) { set_levels(); }) };
}

void PiecePick::restore()
{
    uint32_t const disk = std::size(workers_);
    call(piecepick_join, disk);
    for (tr_piece_index_t piece = 0U; piece < tor_->piece_count(); ++piece)
    {
        if (tor_->has_piece(piece))
        {
            call(piecepick_resume, disk, piece, 1U);
        }
        for (auto [block, end] = tor_->block_span_for_piece(piece); block < end && !tor_->has_piece(piece); ++block)
        {
            if (tor_->has_block(block))
            {
                call(piecepick_received, disk, piece, tor_->block_loc(block).piece_offset, tor_->block_size(block));
            }
        }
    }
}

void PiecePick::set_levels()
{
    auto levels = std::vector<uint8_t>(tor_->piece_count());
    for (tr_piece_index_t piece = 0U; piece < std::size(levels); ++piece)
    {
        levels[piece] = tor_->piece_is_wanted(piece) ? 4U + tor_->piece_priority(piece) : 0U;
    }
    call(piecepick_set_levels, std::data(levels), std::size(levels));
    call(piecepick_set_in_order, tor_->is_sequential_download() ? 1U : 0U);
}

void PiecePick::join(tr_peer& peer, bool is_alone)
{
    auto const worker = find(nullptr);
    if (!serves_ || worker == std::size(workers_) || find(&peer) != std::size(workers_))
    {
        return; // where no worker is free, ask_for() opens a larger picker
    }
    call(piecepick_join, worker);
    workers_[worker].peer = &peer;
    workers_[worker].msgs = dynamic_cast<tr_peerMsgs*>(&peer);
    workers_[worker].heard_at = tr_time_msec();
    piecepick_depth_by_rate_begin(&workers_[worker].rate, &options_, workers_[worker].heard_at);
    workers_[worker].rate.deepest = 4096U; // what comes in a second may be more than is in flight
    show(worker);
    call(piecepick_unchoke, worker);
    call(piecepick_depth, worker, options_.deepest);
    for (tr_block_index_t block = 0U; block < tor_->block_count() && peer.active_requests.count() != 0U; ++block)
    {
        if (auto const loc = tor_->block_loc(block); peer.active_requests.test(block))
        {
            call(piecepick_requested, worker, loc.piece, loc.piece_offset);
        }
    }
    call(piecepick_alone, worker, is_alone ? 1U : 0U);
    is_alone_ = is_alone_ || is_alone;
}

void PiecePick::show(uint32_t worker)
{
    auto flags = std::vector<uint8_t>((tor_->piece_count() + 7U) / 8U);
    for (tr_piece_index_t piece = 0U; piece < tor_->piece_count(); ++piece)
    {
        flags[piece / 8U] |= workers_[worker].peer->has_piece(piece) ? 0x80U >> piece % 8U : 0U;
    }
    call(piecepick_haves, worker, std::data(flags), std::size(flags));
}

void PiecePick::left(tr_peer const& peer)
{
    if (auto const worker = find(&peer); worker < std::size(workers_))
    {
        call(piecepick_leave, worker);
        workers_[worker] = {};
    }
}

void PiecePick::told(tr_peer& peer, tr_peer_event const& event)
{
    auto const worker = find(&peer);
    if (worker == std::size(workers_))
    {
        return tor_ == nullptr || peer.has().has_none() ? void() : join(peer);
    }
    workers_[worker].idle_at.reset();
    switch (event.type)
    {
    case tr_peer_event::Type::ClientGotHave:
        call(piecepick_have, worker, event.pieceIndex);
        break;
    case tr_peer_event::Type::ClientGotHaveAll:
    case tr_peer_event::Type::ClientGotBitfield:
        show(worker);
        break;
    case tr_peer_event::Type::ClientGotChoke:
        call(piecepick_choke, worker);
        break;
    case tr_peer_event::Type::ClientGotRej:
    case tr_peer_event::Type::ClientSentCancel:
        call(piecepick_release, worker, event.pieceIndex, event.offset);
        return;
    case tr_peer_event::Type::ClientGotBlock:
        call(piecepick_received, worker, event.pieceIndex, event.offset, event.length);
        came(workers_[worker], event);
        break;
    default:
        return;
    }
    // A peer is asked again once a quarter of what was in flight has come, while transmission itself asks twice a second.
    if (auto* const msgs = workers_[worker].msgs;
        msgs != nullptr && msgs->active_requests.count() <= workers_[worker].asks_at && !msgs->peer_info->is_banned())
    {
        msgs->pulse();
    }
}

// The probe was asked for behind most of what was in flight. Where it takes longer than all of that may, more has to be.
void PiecePick::came(Worker& worker, tr_peer_event const& event)
{
    worker.heard_at = tr_time_msec();
    piecepick_depth_by_rate_came(&worker.rate, event.length, worker.heard_at);
    if (worker.probe == tor_->piece_loc(event.pieceIndex, event.offset).block)
    {
        auto const took = worker.heard_at - worker.probed_at;
        auto const least = worker.least_msec == 0U ? std::min(75U + 2U * took, MostMsec) : worker.least_msec;
        auto const msec = worker.probed_at < worker.rate.begin + RampMsec ? 0U : std::max(took, worker.msec - worker.msec / 32U);
        worker.ramp = took <= least ? std::min(worker.ramp * 2U, options_.deepest) : worker.ramp / 2U;
        worker.msec = std::clamp(msec, least, MostMsec);
        worker.least_msec = least;
        worker.probe.reset();
    }
}

// A peer has pieces of its own until one passes, and few requests once one failed. So nobody else gets strikes for its bytes.
void PiecePick::verdict(tr_piece_index_t piece, bool passed)
{
    for (auto [block, end] = tor_->block_span_for_piece(piece); block < end; --end)
    {
        auto const sender = call<uint32_t>(piecepick_sender, piece, end - block - 1U);
        call(piecepick_alone, sender, passed ? 0U : 1U);
        if (sender < std::size(workers_))
        {
            workers_[sender].is_bad = !passed;
        }
    }
    is_alone_ = is_alone_ || !passed;
    call(piecepick_verdict, piece, passed ? 1U : 0U);
}

void PiecePick::ask_for(tr_torrent& tor, std::vector<tr_peerMsgs*> const& peers, tr_peer const& peer)
{
    if (std::size(workers_) < MostPeers && find(&peer) == std::size(workers_) && find(nullptr) == std::size(workers_))
    {
        open(tor);
        std::for_each(std::begin(peers), std::end(peers), [this](auto* other) { join(*other); });
    }
    join(const_cast<tr_peer&>(peer));
    asked_ = find(&peer);
    serves_ = serves_ && asked_ < std::size(workers_);
}

std::optional<std::vector<tr_block_span_t>> PiecePick::next(size_t n_wanted_blocks)
{
    auto const now = tr_time_msec();
    look_over(now);
    if (!serves_)
    {
        return {};
    }
    auto& worker = workers_[asked_];
    auto const n_active = call<uint32_t>(piecepick_outstanding, asked_);
    worker.heard_at = n_active == 0U ? now : worker.heard_at;
    worker.rate.begin = worker.rate.is_begun ? worker.rate.begin : now;
    auto const by_rate = piecepick_depth_by_rate_follow(&worker.rate, now) * worker.msec / 1000U;
    auto const is_ramp = now - worker.rate.begin < RampMsec;
    auto const least = worker.msgs == nullptr ? options_.deepest : is_ramp ? std::max(worker.ramp, LeastDepth) : LeastDepth;
    auto const most = std::min<uint64_t>(n_active + n_wanted_blocks, worker.is_bad ? LeastDepth : options_.deepest);
    call(piecepick_depth, asked_, uint32_t(std::min(most, std::max<uint64_t>(by_rate, least))));
    call(piecepick_unchoke, asked_);
    auto spans = ask();
    worker.asks_at = call<uint32_t>(piecepick_outstanding, asked_) * (is_ramp ? 7U : 6U) / 8U;
    if (!std::empty(spans) && (!worker.probe || now - worker.probed_at > 2U * MostMsec))
    {
        worker.probe = spans.front().begin;
        worker.probed_at = now;
    }
    return spans;
}

std::vector<tr_block_span_t> PiecePick::ask()
{
    auto spans = std::vector<tr_block_span_t>{};
    auto& worker = workers_[asked_];
    for (auto is_idle = worker.idle_at == call<uint64_t>(piecepick_epoch); !is_idle;)
    {
        auto const answer = call(piecepick_next, asked_, salter_());
        auto const block = tor_->piece_loc(answer.piece, answer.begin).block;
        if (answer.kind == PIECEPICK_K_CANCEL)
        {
            worker.peer->maybe_cancel_block_request(block);
        }
        else if (answer.kind != PIECEPICK_K_REQUEST)
        {
            is_idle = answer.kind != PIECEPICK_K_IDLE || !is_alone_;
            worker.idle_at = call<uint64_t>(piecepick_epoch);
            for (uint32_t number = 0U; !is_idle && number < std::size(workers_); ++number)
            {
                call(piecepick_alone, number, 0U); // the last pieces are shared
            }
            is_alone_ = is_alone_ && is_idle;
        }
        else if (!worker.peer->active_requests.test(block)) // else it was in flight before the picker was
        {
            spans.push_back({ block, block + 1U });
        }
    }
    return spans;
}

// Which requests are late; and which weren't sent, since a web seed sends less than was chosen.
void PiecePick::look_over(uint64_t now)
{
    auto const is_due = now - looked_at_ >= 1000U; // msec
    looked_at_ = is_due ? now : looked_at_;
    for (uint32_t number = 0U; is_due && number < std::size(workers_); ++number)
    {
        auto const is_silent = now - workers_[number].heard_at >= LateMsec;
        for (auto place = call<uint32_t>(piecepick_outstanding, number); place > 0U; --place)
        {
            auto const request = call(piecepick_outstanding_at, number, place - 1U);
            auto const block = tor_->piece_loc(request.piece, request.begin).block;
            if (auto const is_sent = workers_[number].peer->active_requests.test(block); !is_sent || is_silent)
            {
                call(is_sent ? piecepick_late : piecepick_release, number, request.piece, request.begin);
            }
        }
    }
}
