/* piecepick.hpp: piecepick.h for C++17. A call that does nothing throws an Error with its status. That is an exception and no error code since
   refusals come as answers: a status is a mistake of the caller, or want of memory. Three may come of what a peer sent: catch the Error of `bits`,
   `haves`, `have`, `lack`, `arrived`, `received`, `release` and `late`, and at PIECE, BITS_LENGTH and SPARE_BITS let that peer go.

   What piecepick.h says of its calls holds here too: one call at a time at each picker and each job, also of those that change nothing. So
   none of them is const. */
#ifndef PIECEPICK_HPP
#define PIECEPICK_HPP
#include "piecepick.h"
#include <array>
#include <cstddef>
#include <cstdint>
#include <exception>
#include <stdexcept>
#include <string>
#include <string_view>
#include <utility>
#include <vector>

namespace piecepick {

using Answer = piecepick_answer;
using Digest = piecepick_digest;
using PickRule = piecepick_pick_rule;

/* The usual options, to be changed where others are needed. */
struct Options : piecepick_options {
    Options() noexcept : piecepick_options(PIECEPICK_OPTIONS) {}
};

/* How many blocks should be in flight at a peer, by what came from it: pass Picker::depth what `follow` answers. The rule, the units and the borders
   stand in piecepick.h. It is no part of a picker, and calls no library. */
class DepthByRate {
public:
    /* A peer comes, of a picker with these options. */
    DepthByRate(const Options &options, std::uint64_t now) noexcept { piecepick_depth_by_rate_begin(&peer_, &options, now); }

    /* Bytes of blocks came. That none came changes nothing. */
    void came(std::uint64_t bytes, std::uint64_t now) noexcept { piecepick_depth_by_rate_came(&peer_, bytes, now); }
    /* A request took too long, and was reported as late. */
    void timed_out() noexcept { piecepick_depth_by_rate_timed_out(&peer_); }
    /* Report at each request whether its block is requested from another peer too, which isn't late. */
    void set_in_endgame(bool is_in_endgame) noexcept { piecepick_depth_by_rate_set_in_endgame(&peer_, std::uint32_t{is_in_endgame}); }
    /* The depth now. Ask for it once a second, or at each block. */
    std::uint32_t follow(std::uint64_t now) noexcept { return piecepick_depth_by_rate_follow(&peer_, now); }
    /* The depth after the last call. */
    [[nodiscard]] std::uint32_t depth() const noexcept { return peer_.depth; }

private:
    piecepick_depth_by_rate peer_;
};

class Error : public std::exception {
public:
    explicit Error(piecepick_status status) noexcept : status_(status) {}
    piecepick_status status() const noexcept { return status_; }
    const char *what() const noexcept override { return piecepick_status_text(status_); }

private:
    piecepick_status status_;
};

inline void check(piecepick_status status)
{
    if (status != PIECEPICK_OK) throw Error(status);
}

/* Bytes that are read, of a pointer and a length, an array, a vector or a string. They are the caller's, and never copied here. The library
   takes no NULL, also where there are none. */
class Bytes {
public:
    Bytes(const std::uint8_t *data, std::size_t size) noexcept : data_(data != nullptr ? data : &NOTHING), size_(size) {}
    Bytes(const std::vector<std::uint8_t> &bytes) noexcept : Bytes(bytes.data(), bytes.size()) {}
    Bytes(std::string_view text) noexcept : Bytes(reinterpret_cast<const std::uint8_t *>(text.data()), text.size()) {}
    Bytes(const std::string &text) noexcept : Bytes(std::string_view(text)) {}
    template <std::size_t N> Bytes(const std::uint8_t (&bytes)[N]) noexcept : Bytes(bytes, N) {}
    template <std::size_t N> Bytes(const std::array<std::uint8_t, N> &bytes) noexcept : Bytes(bytes.data(), N) {}
    const std::uint8_t *data() const noexcept { return data_; }
    std::size_t size() const noexcept { return size_; }

private:
    static constexpr std::uint8_t NOTHING = 0;
    const std::uint8_t *data_;
    std::size_t size_;
};

/* A buffer that is written. Its length must be just that of what goes into it. */
class Buffer {
public:
    Buffer(std::uint8_t *data, std::size_t size) noexcept : data_(size != 0 ? data : reinterpret_cast<std::uint8_t *>(this)), size_(size) {}
    Buffer(std::vector<std::uint8_t> &bytes) noexcept : Buffer(bytes.data(), bytes.size()) {}
    template <std::size_t N> Buffer(std::uint8_t (&bytes)[N]) noexcept : Buffer(bytes, N) {}
    template <std::size_t N> Buffer(std::array<std::uint8_t, N> &bytes) noexcept : Buffer(bytes.data(), N) {}
    Buffer(const Buffer &) = delete;
    Buffer &operator=(const Buffer &) = delete;
    std::uint8_t *data() const noexcept { return data_; }
    std::size_t size() const noexcept { return size_; }

private:
    std::uint8_t *data_;
    std::size_t size_;
};

/* The SHA-1 of a message. */
[[nodiscard]] inline Digest hash(Bytes message) noexcept
{
    Digest digest;
    piecepick_hash(message.data(), message.size(), &digest);
    return digest;
}

/* The SHA-1 of each of four messages. Those of one length are hashed side by side. */
[[nodiscard]] inline std::array<Digest, 4> hash_four(Bytes first, Bytes second, Bytes third, Bytes fourth)
{
    std::array<Digest, 4> digests;
    check(piecepick_hash_four(first.data(), first.size(), second.data(), second.size(), third.data(), third.size(), fourth.data(), fourth.size(),
                          reinterpret_cast<std::uint8_t *>(digests.data()), sizeof digests));
    return digests;
}

/* The check of a full piece. One that was moved from is empty, and its calls throw NO_JOB. */
class Job {
public:
    Job(Job &&other) noexcept : job_(std::exchange(other.job_, nullptr)) {}
    Job &operator=(Job &&other) noexcept
    {
        Job taken(std::move(other));
        std::swap(job_, taken.job_);
        return *this;
    }
    ~Job() { piecepick_job_close(&job_); }

    void hash() { check(piecepick_job_hash(get())); }
    void read(const Buffer &buffer) { check(piecepick_job_read(get(), buffer.data(), buffer.size())); }

    /* For the calls of piecepick.h. */
    piecepick_job *get() const
    {
        if (job_ == nullptr) throw Error(PIECEPICK_E_NO_JOB);
        return job_;
    }

private:
    friend class Picker;
    Job(::piecepick_picker *picker, std::uint32_t piece) { check(piecepick_job_take(picker, piece, &job_)); }
    piecepick_job *job_ = nullptr;
};

/* The picker of one download. One that was moved from is empty, and its calls throw CLOSED. */
class Picker {
public:
    explicit Picker(Bytes metainfo, const Options &options = Options())
    {
        check_interface();
        check(piecepick_open(&picker_, metainfo.data(), metainfo.size(), &options));
    }
    /* A torrent of parts: the SHA-1 of each piece, 20 bytes each, one behind the other. */
    Picker(std::uint32_t piece_length, std::uint64_t total, Bytes digests, const Options &options = Options())
    {
        check_interface();
        check(piecepick_open_parts(&picker_, piece_length, total, digests.data(), digests.size(), &options));
    }
    Picker(Picker &&other) noexcept : picker_(std::exchange(other.picker_, nullptr)) {}
    Picker &operator=(Picker &&other) noexcept
    {
        Picker taken(std::move(other));
        std::swap(picker_, taken.picker_);
        return *this;
    }
    ~Picker() { piecepick_close(&picker_); }

    /* What came on the wire of a worker's peer. */
    Answer join(std::uint32_t worker) { return answer(piecepick_join, worker); }
    Answer leave(std::uint32_t worker) { return answer(piecepick_leave, worker); }
    Answer choke(std::uint32_t worker) { return answer(piecepick_choke, worker); }
    Answer unchoke(std::uint32_t worker) { return answer(piecepick_unchoke, worker); }
    Answer have(std::uint32_t worker, std::uint32_t piece) { return answer(piecepick_have, worker, piece); }
    Answer bits(std::uint32_t worker, Bytes payload) { return answer(piecepick_bits, worker, payload.data(), payload.size()); }
    Answer haves(std::uint32_t worker, Bytes flags) { return answer(piecepick_haves, worker, flags.data(), flags.size()); }
    Answer lack(std::uint32_t worker, std::uint32_t piece) { return answer(piecepick_lack, worker, piece); }
    Answer release(std::uint32_t worker, std::uint32_t piece, std::uint32_t begin) { return answer(piecepick_release, worker, piece, begin); }
    Answer late(std::uint32_t worker, std::uint32_t piece, std::uint32_t begin) { return answer(piecepick_late, worker, piece, begin); }
    Answer requested(std::uint32_t worker, std::uint32_t piece, std::uint32_t begin) { return answer(piecepick_requested, worker, piece, begin); }
    Answer depth(std::uint32_t worker, std::uint32_t blocks) { return answer(piecepick_depth, worker, blocks); }
    Answer reach(std::uint32_t worker, std::uint32_t level) { return answer(piecepick_reach, worker, level); }
    Answer alone(std::uint32_t worker, bool yes) { return answer(piecepick_alone, worker, std::uint32_t{yes}); }
    [[nodiscard]] Answer arrived(std::uint32_t worker, std::uint32_t piece, std::uint32_t begin, Bytes bytes)
    {
        return answer(piecepick_arrived, worker, piece, begin, bytes.data(), bytes.size());
    }
    [[nodiscard]] Answer received(std::uint32_t worker, std::uint32_t piece, std::uint32_t begin, std::size_t length)
    {
        return answer(piecepick_received, worker, piece, begin, length);
    }
    [[nodiscard]] Answer next(std::uint32_t worker, std::uint64_t word) { return answer(piecepick_next, worker, word); }

    /* What is to be downloaded. */
    Answer want(Bytes flags) { return answer(piecepick_want, flags.data(), flags.size()); }
    Answer lose(std::uint32_t piece) { return answer(piecepick_lose, piece); }
    Answer discard(std::uint32_t piece, std::uint32_t begin) { return answer(piecepick_discard, piece, begin); }
    Answer set_level(std::uint32_t piece, std::uint32_t level) { return answer(piecepick_set_level, piece, level); }
    Answer set_levels(Bytes levels) { return answer(piecepick_set_levels, levels.data(), levels.size()); }
    Answer set_in_order(bool rising) { return answer(piecepick_set_in_order, std::uint32_t{rising}); }
    Answer set_in_order_from(std::uint32_t level) { return answer(piecepick_set_in_order_from, level); }

    /* Full pieces: by a digest, by a job, or here and now. */
    [[nodiscard]] Answer settle(std::uint32_t piece, const Digest &digest) { return answer(piecepick_settle, piece, &digest); }
    [[nodiscard]] Answer verdict(std::uint32_t piece, bool passed) { return answer(piecepick_verdict, piece, std::uint32_t{passed}); }
    [[nodiscard]] Answer restore(std::uint32_t worker, std::uint32_t piece, Bytes bytes, const Digest &digest)
    {
        return answer(piecepick_restore, worker, piece, bytes.data(), bytes.size(), &digest);
    }
    [[nodiscard]] Answer resume(std::uint32_t worker, std::uint32_t piece, bool passed)
    {
        return answer(piecepick_resume, worker, piece, std::uint32_t{passed});
    }
    [[nodiscard]] Job job_take(std::uint32_t piece) { return Job(get(), piece); }
    [[nodiscard]] Answer settle(Job &job) { return answer(piecepick_job_settle, job.get()); }
    [[nodiscard]] Answer settle_now(std::uint32_t piece) { return answer(piecepick_settle_now, piece); }
    void read(std::uint32_t piece, const Buffer &buffer) { check(piecepick_read(get(), piece, buffer.data(), buffer.size())); }
    void audit() { check(piecepick_audit(get())); }

    /* What the picker knows. */
    [[nodiscard]] std::uint32_t pieces() { return number(piecepick_pieces); }
    [[nodiscard]] std::uint32_t workers() { return number(piecepick_workers); }
    [[nodiscard]] bool is_complete() { return number(piecepick_is_complete) != 0; }
    [[nodiscard]] bool has_wanted() { return number(piecepick_has_wanted) != 0; }
    [[nodiscard]] bool is_in_order() { return number(piecepick_is_in_order) != 0; }
    [[nodiscard]] std::uint32_t order_from() { return number(piecepick_order_from); }
    [[nodiscard]] std::uint64_t epoch() { return number<std::uint64_t>(piecepick_epoch); }
    [[nodiscard]] bool has_piece(std::uint32_t piece) { return number(piecepick_has_piece, piece) != 0; }
    [[nodiscard]] bool is_waiting(std::uint32_t piece) { return number(piecepick_is_waiting, piece) != 0; }
    [[nodiscard]] std::uint32_t level(std::uint32_t piece) { return number(piecepick_level, piece); }
    [[nodiscard]] std::uint32_t availability(std::uint32_t piece) { return number(piecepick_availability, piece); }
    [[nodiscard]] std::uint32_t piece_length(std::uint32_t piece) { return number(piecepick_piece_length, piece); }
    [[nodiscard]] std::uint32_t blocks(std::uint32_t piece) { return number(piecepick_blocks, piece); }
    [[nodiscard]] std::uint32_t sender(std::uint32_t piece, std::uint32_t index) { return number(piecepick_sender, piece, index); }
    [[nodiscard]] PickRule rule(std::uint32_t piece, std::uint32_t index) { return static_cast<PickRule>(number(piecepick_rule, piece, index)); }
    [[nodiscard]] std::uint32_t askers(std::uint32_t piece, std::uint32_t index) { return number(piecepick_askers, piece, index); }
    [[nodiscard]] bool is_interesting(std::uint32_t worker) { return number(piecepick_is_interesting, worker) != 0; }
    [[nodiscard]] std::uint32_t outstanding(std::uint32_t worker) { return number(piecepick_outstanding, worker); }
    [[nodiscard]] Answer outstanding_at(std::uint32_t worker, std::uint32_t place) { return answer(piecepick_outstanding_at, worker, place); }

    /* What the metainfo file says. */
    [[nodiscard]] std::uint64_t total() { return number<std::uint64_t>(piecepick_total); }
    [[nodiscard]] std::string name()
    {
        std::string text(static_cast<std::size_t>(number<std::uint64_t>(piecepick_name_length)), '\0');
        check(piecepick_name(get(), reinterpret_cast<std::uint8_t *>(text.data()), text.size()));
        return text;
    }
    [[nodiscard]] Digest infohash() { return number<Digest>(piecepick_infohash); }
    [[nodiscard]] Digest piece_hash(std::uint32_t piece) { return number<Digest>(piecepick_piece_hash, piece); }
    [[nodiscard]] std::uint64_t files() { return number<std::uint64_t>(piecepick_files); }
    [[nodiscard]] std::uint64_t file_length(std::uint64_t file) { return number<std::uint64_t>(piecepick_file_length, file); }
    /* The names on the file's path, which may be any bytes. */
    [[nodiscard]] std::vector<std::string> file_path(std::uint64_t file)
    {
        std::vector<std::string> path(static_cast<std::size_t>(number<std::uint64_t>(piecepick_file_parts, file)));
        for (std::size_t part = 0; part < path.size(); part++) {
            path[part].resize(static_cast<std::size_t>(number<std::uint64_t>(piecepick_file_part_length, file, part)));
            check(piecepick_file_part(get(), file, part, reinterpret_cast<std::uint8_t *>(path[part].data()), path[part].size()));
        }
        return path;
    }

    /* For the calls of piecepick.h. */
    ::piecepick_picker *get() const
    {
        if (picker_ == nullptr) throw Error(PIECEPICK_E_CLOSED);
        return picker_;
    }

private:
    static void check_interface()
    {
        if (piecepick_abi() != PIECEPICK_ABI) throw std::runtime_error("libpiecepick has another interface than its header");
    }
    template <class Call, class... Given> Answer answer(Call call, Given... given)
    {
        Answer result;
        check(call(get(), given..., &result));
        return result;
    }
    template <class Number = std::uint32_t, class Call, class... Given> Number number(Call call, Given... given)
    {
        Number result;
        check(call(get(), given..., &result));
        return result;
    }
    ::piecepick_picker *picker_ = nullptr;
};

} // namespace piecepick
#endif
